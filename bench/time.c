/* Times of the library's melds and of the same melds by plain C (bench/plain.c) and plain Rust (bench/plain.rs), in one run on this machine's own
   processor: time N KEYS POINTS. Each of the three has its own copy of one pool with KEYS keys and melds the same records of POINTS puts of kept keys,
   one behind the other; with POINTS 0 it looks an absent key up instead. They take turns, thirty each; the least time counts. It is processor time, so
   that other work on the machine disturbs little. After each turn the three pools must be equal, byte for byte, and so must the answers and looks have been. */
#define _DEFAULT_SOURCE
#include <stdio.h>
#include <stdlib.h>
#include <string.h>
#include <time.h>

#include "emuparasol.h"
#include "plain.h"
#include "keys.h"

uint8_t rust_meld(uint8_t *pool, uint64_t pool_length, const uint8_t *record, uint64_t record_length, uint32_t *looks);
uint8_t rust_lookup(const uint8_t *pool, uint64_t pool_length, uint32_t key, uint64_t *payload, uint32_t *position);

enum { WAYS = 3, TURNS = 30 };

static uint8_t (*const melds[WAYS])(uint8_t *, uint64_t, const uint8_t *, uint64_t, uint32_t *) = {emuparasol_meld, plain_meld, rust_meld};
static uint8_t (*const lookups[WAYS])(const uint8_t *, uint64_t, uint32_t, uint64_t *, uint32_t *) = {emuparasol_lookup, plain_lookup, rust_lookup};

static uint8_t *pools[WAYS];
static uint64_t length;
static uint32_t n, keys, points;

static int by_value(const void *a, const void *b) {
    uint32_t x = *(const uint32_t *)a, y = *(const uint32_t *)b;
    return x < y ? -1 : x > y;
}

/* The most puts of a record of version 1, and the bytes of the longest record of that version. */
enum { FEW = 64, SHORT = 905 };

/* A record of puts of the keys from a number on. */
static uint64_t puts_from(uint8_t *record, uint32_t snapshot, uint32_t first, uint32_t count) {
    static uint32_t named[EMUPARASOL_MOST_POINTS];
    static uint64_t payloads[EMUPARASOL_MOST_POINTS];
    static uint8_t kinds[EMUPARASOL_MOST_POINTS];
    uint32_t none = 0;
    uint64_t size;
    for (uint32_t i = 0; i < count; i++)
        named[i] = key_of((first + i) % keys);
    qsort(named, count, sizeof *named, by_value);
    memset(kinds, EMUPARASOL_KIND_PUT, sizeof kinds);
    for (uint32_t i = 0; i < count; i++)
        payloads[i] = (uint64_t)named[i] << 32 | snapshot;
    if (emuparasol_write(snapshot, kinds, count, named, count, payloads, count, &none, 0, &none, 0, record, EMUPARASOL_MOST_RECORD, &size))
        exit(3);
    return size;
}

/* Processor time so far, in nanoseconds. */
static double now(void) {
    struct timespec t;
    clock_gettime(CLOCK_PROCESS_CPUTIME_ID, &t);
    return (double)t.tv_sec * 1e9 + (double)t.tv_nsec;
}

int main(int argc, char **argv) {
    static uint8_t record[EMUPARASOL_MOST_RECORD];
    uint32_t looks, position = 0;
    if (argc < 4)
        return 2;
    n = (uint32_t)strtoul(argv[1], NULL, 10);
    keys = (uint32_t)strtoul(argv[2], NULL, 10);
    points = (uint32_t)strtoul(argv[3], NULL, 10);
    if (points > keys || points > EMUPARASOL_MOST_POINTS)
        return 2;
    length = EMUPARASOL_POOL_BYTES(n);
    for (int way = 0; way < WAYS; way++)
        pools[way] = malloc(length);
    if (emuparasol_create(pools[0], length, n, 4096))
        return 3;
    for (uint32_t done = 0; done < keys; done += FEW, position++) {
        uint64_t size = puts_from(record, position, done, keys - done < FEW ? keys - done : FEW);
        if (emuparasol_meld(pools[0], length, record, size, &looks))
            return 3;
    }
    for (int way = 1; way < WAYS; way++)
        memcpy(pools[way], pools[0], length);
    /* About the same work in each turn, whatever the size. */
    uint32_t calls = 400000 / (n + 50 * points) + 1;
    /* Short records lie close together, as they always did. */
    size_t stride = points > FEW ? EMUPARASOL_MOST_RECORD : SHORT;
    uint8_t *records = malloc(calls * stride);
    uint64_t *sizes = malloc((size_t)calls * sizeof *sizes);
    double least[WAYS] = {0};
    for (int turn = 0; turn < TURNS; turn++) {
        uint64_t sums[WAYS];
        for (uint32_t i = 0; i < calls && points > 0; i++)
            sizes[i] = puts_from(records + i * stride, position + i, (uint32_t)turn * 7919 + FEW * i, points);
        for (int order = 0; order < WAYS; order++) {
            int way = (turn + order) % WAYS;
            uint64_t sum = 0, payload;
            uint32_t told;
            double began = now();
            for (uint32_t i = 0; i < calls; i++) {
                uint8_t answer = points > 0 ? melds[way](pools[way], length, records + i * stride, sizes[i], &told)
                                            : lookups[way](pools[way], length, key_of(keys + 1 + i), &payload, &told);
                sum = sum * 31 + answer + 16 * (uint64_t)told;
            }
            double took = (now() - began) / calls;
            sums[way] = sum;
            if (turn == 0 || took < least[way])
                least[way] = took;
        }
        if (points > 0)
            position += calls;
        for (int way = 1; way < WAYS; way++)
            if (sums[way] != sums[0] || memcmp(pools[way], pools[0], length) != 0) {
                printf("the answers, looks or pools differ\n");
                return 4;
            }
    }
    printf("N %5u  keys %5u  points %4u  library %9.0f ns  plain C %9.0f ns  plain Rust %9.0f ns  library/C %.2f  library/Rust %.2f\n", n, keys, points,
           least[0], least[1], least[2], least[0] / least[1], least[0] / least[2]);
    return 0;
}
