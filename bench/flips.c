/* How many single flipped bits a pool does not show: each bit of a pool is flipped in turn, and the library asked whether the pool is still fit. A line
   for each of two pools, with where those bits stand that leave a fit one (docs/LAYOUT.md). */
#include <stdio.h>
#include <stdlib.h>

#include "emuparasol.h"
#include "keys.h"

enum { KEYS = 1000, ZONE = 256, HEADER = 64, NODE = 32 };

static uint8_t pool[EMUPARASOL_POOL_BYTES(KEYS)];

/* Melds a record of one point, made at the position where it is melded; it must commit. */
static void meld(uint32_t *position, uint8_t kind, uint32_t key, uint64_t payload) {
    uint8_t record[EMUPARASOL_MOST_RECORD];
    const uint32_t none = 0;
    uint64_t size;
    uint32_t looks;
    emuparasol_write(*position, &kind, 1, &key, 1, &payload, 1, &none, 0, &none, 0, record, sizeof record, &size);
    if (emuparasol_meld(pool, sizeof pool, record, size, &looks) != EMUPARASOL_COMMITTED)
        exit(1);
    ++*position;
}

/* A pool that keeps so many keys: each was put, every third put again, and every tenth is deleted. */
static void fill(uint32_t keys) {
    uint32_t position = 0;
    emuparasol_create(pool, sizeof pool, KEYS, ZONE);
    for (uint32_t i = 0; i < keys; i++)
        meld(&position, EMUPARASOL_KIND_PUT, key_of(i), key_of(~i));
    for (uint32_t i = 0; i < keys; i += 3)
        meld(&position, EMUPARASOL_KIND_PUT, key_of(i), i);
    for (uint32_t i = 0; i < keys; i += 10)
        meld(&position, EMUPARASOL_KIND_DELETE, key_of(i), 0);
}

static bool fit(void) {
    uint32_t n, z, position, kept, tombstones;
    return emuparasol_status(pool, sizeof pool, &n, &z, &position, &kept, &tombstones) == EMUPARASOL_COMMITTED;
}

/* Flips each bit, and counts those that leave a fit pool by where they stand. */
static void flip_all(uint32_t keys) {
    unsigned long header = 0, key = 0, position = 0, payload = 0;
    for (uint64_t at = 0; at < sizeof pool; at++)
        for (unsigned bit = 1; bit < 256; bit <<= 1) {
            pool[at] ^= bit;
            if (fit()) {
                uint64_t within = (at - HEADER) % NODE;
                if (at < HEADER)
                    header++;
                else if (4 <= within && within < 8)
                    key++;
                else if (8 <= within && within < 16)
                    position++;
                else if (16 <= within && within < 24)
                    payload++;
                else /* height, kind and spare are fixed by the rest */
                    exit(1);
            }
            pool[at] ^= bit;
        }
    unsigned long all = 8 * (unsigned long)sizeof pool, left = header + key + position + payload;
    printf("%u of %u keys: %lu of %lu bits; %lu of a payload, %lu of a key, %lu of a position, %lu of the header\n", (unsigned)keys, (unsigned)KEYS, left,
           all, payload, key, position, header);
}

int main(void) {
    for (uint32_t keys = 100; keys <= KEYS; keys *= 10) {
        fill(keys);
        if (!fit())
            return 1;
        flip_all(keys);
    }
    return 0;
}
