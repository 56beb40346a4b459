/* The keys that the benchmarks name, the same in all of them. */
#ifndef KEYS_H
#define KEYS_H

#include <stdint.h>

/* A permutation of all 32-bit numbers: keys look random, and no two are equal. */
static uint32_t key_of(uint32_t i) {
    i ^= i >> 16;
    i *= 0x85EBCA6Bu;
    i ^= i >> 13;
    i *= 0xC2B2AE35u;
    return i ^ i >> 16;
}

#endif
