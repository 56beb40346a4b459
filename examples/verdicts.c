/* The program of R41 (docs/RULES.md) in C, over the library: N and Z, four bytes each, big-endian, and a log on standard input; a line for each
   record with position, answer and looks, then `end`, `10` where the log is torn or `11` at an impossible length; only `9` for bad limits, N above
   1,000 or fewer than eight bytes; nothing where standard input cannot be read to its end. */
#include <stdio.h>
#include <stdlib.h>

#include "emuparasol.h"

enum { MOST_N = 1000, HEAD = 8, CHUNK = 65536 };

static uint8_t pool[EMUPARASOL_POOL_BYTES(MOST_N)];

/* Four bytes, big-endian. */
static uint32_t word_at(const uint8_t *bytes) {
    return (uint32_t)bytes[0] << 24 | (uint32_t)bytes[1] << 16 | (uint32_t)bytes[2] << 8 | bytes[3];
}

/* All of standard input; its length is left in *length. NULL if there is no memory for it, or if reading fails. */
static uint8_t *read_all(uint64_t *length) {
    uint8_t *bytes = NULL;
    *length = 0;
    for (;;) {
        uint8_t *larger = realloc(bytes, (size_t)*length + CHUNK);
        if (larger == NULL)
            break;
        bytes = larger;
        size_t got = fread(bytes + *length, 1, CHUNK, stdin);
        if (ferror(stdin))
            break;
        if (got == 0)
            return bytes;
        *length += got;
    }
    free(bytes);
    return NULL;
}

/* Melds every record of the log into the pool, and prints a line for each and one for the ending. */
static void meld_log(uint64_t pool_length, const uint8_t *log, uint64_t log_length) {
    uint64_t place = 0, next;
    unsigned long position = 1;
    unsigned ending;
    while ((ending = emuparasol_cut(log, log_length, place, &next)) == EMUPARASOL_COMMITTED && next > place) {
        uint32_t looks;
        unsigned answer = emuparasol_meld(pool, pool_length, log + place, next - place, &looks);
        printf("%lu %u %lu\n", position, answer, (unsigned long)looks);
        place = next;
        position++;
    }
    if (ending == EMUPARASOL_COMMITTED)
        printf("end\n");
    else /* EMUPARASOL_TORN_LOG or EMUPARASOL_IMPOSSIBLE_LENGTH */
        printf("%u\n", ending);
}

int main(void) {
    uint64_t length;
    uint8_t *input = read_all(&length);
    if (input == NULL)
        return 1;
    uint32_t n = length < HEAD ? 0 : word_at(input), z = length < HEAD ? 0 : word_at(input + 4);
    uint64_t pool_length = n > MOST_N ? 0 : EMUPARASOL_POOL_BYTES(n);
    unsigned answer = emuparasol_create(pool, pool_length, n, z);
    if (answer == EMUPARASOL_COMMITTED)
        meld_log(pool_length, input + HEAD, length - HEAD);
    else
        printf("%u\n", answer);
    free(input);
    return 0;
}
