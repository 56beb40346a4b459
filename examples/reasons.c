/* The reasons of a log (docs/RULES.md, R50) in C, over the library: N and Z, four bytes each, big-endian, and a log on standard input. Each record that
   is cut out of the log is explained to the pool and then melded into it; a line for each with the nine numbers of R52: position, answer, looks, key,
   written, point, scan, lag and keys; then `end`, `10` where the log is torn or `11` at an impossible length; only `9` for bad limits, N above 65,536 or
   fewer than eight bytes; nothing where standard input cannot be read to its end. If explaining says another answer or other looks than melding, tells
   something that it may not, or changes a byte of the pool, that is said on standard error, and the status is 1. */
#include <stdio.h>
#include <stdlib.h>
#include <string.h>

#include "emuparasol.h"

enum { MOST_N = 65536, HEAD = 8, CHUNK = 65536 };

static uint8_t pool[EMUPARASOL_POOL_BYTES(MOST_N)];
static uint8_t before[EMUPARASOL_POOL_BYTES(MOST_N)];

/* What emuparasol_explain tells of a record. */
struct told {
    unsigned answer;
    uint32_t looks, key, written;
    uint64_t point, scan;
    uint32_t lag, keys;
};

/* Four bytes, big-endian. */
static uint32_t word_at(const uint8_t *bytes) {
    return (uint32_t)bytes[0] << 24 | (uint32_t)bytes[1] << 16 | (uint32_t)bytes[2] << 8 | bytes[3];
}

/* All of standard input; its length is left in *length. NULL if there is no memory for it, or if reading fails. */
static uint8_t *read_all(uint64_t *length) {
    uint8_t *bytes = NULL;
    *length = 0;
    for (;;) {
        uint8_t *larger = realloc(bytes, (size_t)*length + CHUNK);
        if (larger == NULL)
            break;
        bytes = larger;
        size_t got = fread(bytes + *length, 1, CHUNK, stdin);
        if (ferror(stdin))
            break;
        if (got == 0)
            return bytes;
        *length += got;
    }
    free(bytes);
    return NULL;
}

/* Explains a record to the pool. Every number is another before the call, so that one that is not set is seen. */
static struct told explain(uint64_t pool_length, const uint8_t *record, uint64_t length) {
    struct told told;
    memset(&told, 0xA5, sizeof told);
    told.answer = emuparasol_explain(pool, pool_length, record, length, &told.looks, &told.key, &told.written, &told.point, &told.scan, &told.lag,
                                     &told.keys);
    return told;
}

/* Is there what belongs to the answer, and nothing else? A key may be 0, any other number that is told is not. */
static bool belongs(const struct told *told) {
    bool key = told->written != 0 && (told->point != 0) != (told->scan != 0);
    bool no_key = told->key == 0 && told->written == 0 && told->point == 0 && told->scan == 0;
    return (told->answer == EMUPARASOL_CONFLICT ? key : no_key) && (told->answer == EMUPARASOL_TOO_OLD) == (told->lag != 0) &&
           (told->answer == EMUPARASOL_NO_ROOM) == (told->keys != 0);
}

/* Says what is wrong with a record's reason. */
static bool wrong(unsigned long position, const char *what) {
    fprintf(stderr, "record %lu: %s\n", position, what);
    return false;
}

/* Explains and melds the record at a position, and prints its line. Is all as it must be? */
static bool explained(uint64_t pool_length, const uint8_t *record, uint64_t length, unsigned long position) {
    memcpy(before, pool, (size_t)pool_length);
    struct told told = explain(pool_length, record, length);
    if (memcmp(before, pool, (size_t)pool_length) != 0)
        return wrong(position, "explaining has changed the pool");
    uint32_t looks;
    unsigned answer = emuparasol_meld(pool, pool_length, record, length, &looks);
    printf("%lu %u %lu %lu %lu %lu %lu %lu %lu\n", position, told.answer, (unsigned long)told.looks, (unsigned long)told.key,
           (unsigned long)told.written, (unsigned long)told.point, (unsigned long)told.scan, (unsigned long)told.lag, (unsigned long)told.keys);
    if (answer != told.answer || looks != told.looks)
        return wrong(position, "explaining says another answer or other looks than melding");
    return belongs(&told) || wrong(position, "the reason is not that of such an answer");
}

/* Explains and melds every record of the log, and prints a line for each and one for the ending. Is all as it must be? */
static bool explain_log(uint64_t pool_length, const uint8_t *log, uint64_t log_length) {
    uint64_t place = 0, next;
    unsigned long position = 1;
    unsigned ending;
    while ((ending = emuparasol_cut(log, log_length, place, &next)) == EMUPARASOL_COMMITTED && next > place) {
        if (!explained(pool_length, log + place, next - place, position))
            return false;
        place = next;
        position++;
    }
    if (ending == EMUPARASOL_COMMITTED)
        printf("end\n");
    else /* EMUPARASOL_TORN_LOG or EMUPARASOL_IMPOSSIBLE_LENGTH */
        printf("%u\n", ending);
    return true;
}

int main(void) {
    uint64_t length;
    uint8_t *input = read_all(&length);
    if (input == NULL)
        return 1;
    uint32_t n = length < HEAD ? 0 : word_at(input), z = length < HEAD ? 0 : word_at(input + 4);
    uint64_t pool_length = n > MOST_N ? 0 : EMUPARASOL_POOL_BYTES(n);
    unsigned answer = emuparasol_create(pool, pool_length, n, z);
    bool right = true;
    if (answer == EMUPARASOL_COMMITTED)
        right = explain_log(pool_length, input + HEAD, length - HEAD);
    else
        printf("%u\n", answer);
    free(input);
    return right ? 0 : 1;
}
