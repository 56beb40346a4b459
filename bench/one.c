/* One call on a pool with 1,000 keys for at most 1,000, so that its instructions can be counted where there are no files: bench/targets runs this with
   each word on standard input. 0: the pool is made, and no call; l: lookup of an absent key; 1: meld of 1 put; 8: of 8; 6: of 64; k: of 1,000, which is a
   record of version 2; n: that record is made, and no call. The pool and the records are those of bench/cost.c. Prints the call's answer, or with a
   capital S behind the word the bytes of stack that it took. */
#include <stdio.h>

#include "emuparasol.h"
#include "keys.h"

enum { N = 1000, PAINTED = 49152, PAINT = 0xA7 };

static uint8_t pool[EMUPARASOL_POOL_BYTES(N)];

/* A record of puts of these keys. */
static uint64_t puts_of(uint8_t *record, uint32_t snapshot, uint32_t *named, uint32_t count) {
    static uint8_t kinds[EMUPARASOL_MOST_POINTS];
    static uint64_t payloads[EMUPARASOL_MOST_POINTS];
    uint64_t size;
    uint32_t none = 0;
    for (uint32_t i = 1; i < count; i++)
        for (uint32_t j = i; j > 0 && named[j] < named[j - 1]; j--) {
            uint32_t other = named[j];
            named[j] = named[j - 1];
            named[j - 1] = other;
        }
    for (uint32_t i = 0; i < count; i++) {
        kinds[i] = EMUPARASOL_KIND_PUT;
        payloads[i] = named[i];
    }
    emuparasol_write(snapshot, kinds, count, named, count, payloads, count, &none, 0, &none, 0, record, EMUPARASOL_MOST_RECORD, &size);
    return size;
}

/* Paints the stack below its caller's, or answers how much of the paint is gone. */
static __attribute__((noinline)) unsigned long stack(bool paint) {
    volatile uint8_t *top = (volatile uint8_t *)__builtin_frame_address(0) - 64;
    unsigned long left = 0;
    for (long i = PAINTED; paint && i > 0; i--)
        top[-i] = PAINT;
    while (left < PAINTED && top[(long)left - PAINTED] == PAINT)
        left++;
    return PAINTED - left + 64;
}

int main(void) {
    static uint8_t record[EMUPARASOL_MOST_RECORD];
    static uint32_t named[EMUPARASOL_MOST_POINTS];
    char words[2] = {'0', ' '};
    uint32_t looks, position = 0, answer = 0;
    uint64_t payload;
    if (fread(words, 1, 2, stdin) == 0)
        return 2;
    emuparasol_create(pool, sizeof pool, N, 4096);
    for (uint32_t done = 0; done < N; position++) {
        uint32_t part = N - done < 64 ? N - done : 64;
        for (uint32_t i = 0; i < part; i++)
            named[i] = key_of(done + i);
        answer += emuparasol_meld(pool, sizeof pool, record, puts_of(record, position, named, part), &looks);
        done += part;
    }
    uint32_t points = words[0] == 'k' || words[0] == 'n' ? 1000 : words[0] == '6' ? 64 : words[0] == '8' ? 8 : 1;
    for (uint32_t i = 0; i < points; i++)
        /* N * i / points, divided by constants alone: not every processor here divides by itself. */
        named[i] = key_of(points == 1000 ? i : points == 64 ? N * i / 64 : points == 8 ? N * i / 8 : N * i);
    uint64_t size = puts_of(record, position, named, points);
    if (words[1] == 'S')
        stack(true);
    if (words[0] == 'l')
        answer += emuparasol_lookup(pool, sizeof pool, key_of(N + 1), &payload, &looks);
    else if (words[0] != '0' && words[0] != 'n')
        answer += emuparasol_meld(pool, sizeof pool, record, size, &looks);
    if (words[1] == 'S')
        printf("%lu\n", stack(false));
    else
        printf("%u\n", (unsigned)answer);
    return (int)answer;
}
