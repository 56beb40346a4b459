/* The page form of the program of R41 (docs/RULES.md) in C, over the library: `fed SIZES <INPUT`. INPUT is N and Z, four bytes each, big-endian, and a
   log. The log is cut into parts of the sizes that stand in the file SIZES, decimal, with white space between; a size past the log's end takes what is
   left, and what the sizes leave over is one part more. Each part is lent to emuparasol_feed (R47), and what a call has not taken of it again until
   nothing is left; an empty part is lent once. Behind the last part comes a call with an empty part that says that the log is over. A line for each
   call: what is said, which is an answer's number, `more` or `end`, then looks, taken and carried. It stops behind 8, 7, `end`, 10 (the log is over and
   torn) and 11 (an impossible length is in). Only `9` for bad limits, N above 1,000 or fewer than eight bytes; nothing where SIZES or standard input
   cannot be read to its end. */
#include <stdio.h>
#include <stdlib.h>

#include "emuparasol.h"

enum { MOST_N = 1000, HEAD = 8, CHUNK = 65536 };

static uint8_t pool[EMUPARASOL_POOL_BYTES(MOST_N)];
static uint64_t pool_length;
static uint8_t carry[EMUPARASOL_CARRY_BYTES];
static uint64_t carried = 0;

/* Four bytes, big-endian. */
static uint32_t word_at(const uint8_t *bytes) {
    return (uint32_t)bytes[0] << 24 | (uint32_t)bytes[1] << 16 | (uint32_t)bytes[2] << 8 | bytes[3];
}

/* All of a file, and a zero behind it; its length is left in *length. NULL if there is no memory for it, or if reading fails. */
static uint8_t *read_all(FILE *file, uint64_t *length) {
    uint8_t *bytes = NULL;
    *length = 0;
    for (;;) {
        uint8_t *larger = realloc(bytes, (size_t)*length + CHUNK + 1);
        if (larger == NULL)
            break;
        bytes = larger;
        size_t got = fread(bytes + *length, 1, CHUNK, file);
        if (ferror(file))
            break;
        if (got == 0) {
            bytes[*length] = 0;
            return bytes;
        }
        *length += got;
    }
    free(bytes);
    return NULL;
}

/* Lends a part in one call and prints its line; how much of it was taken is left in *taken. Does the log go on? */
static bool lend(const uint8_t *part, uint64_t length, bool over, uint64_t *taken) {
    uint8_t happened;
    uint32_t looks;
    unsigned answer = emuparasol_feed(pool, pool_length, carry, sizeof carry, &carried, part, length, over, &happened, &looks, taken);
    if (happened == EMUPARASOL_MORE)
        printf("more");
    else if (happened == EMUPARASOL_END)
        printf("end");
    else
        printf("%u", answer);
    printf(" %lu %lu %lu\n", (unsigned long)looks, (unsigned long)*taken, (unsigned long)carried);
    return happened == EMUPARASOL_DECIDED || happened == EMUPARASOL_MORE;
}

/* Lends a part until all of it is taken, an empty one once. Does the log go on? */
static bool lend_whole(const uint8_t *part, uint64_t length) {
    uint64_t taken;
    do {
        if (!lend(part, length, false, &taken))
            return false;
        part += taken;
        length -= taken;
    } while (length > 0);
    return true;
}

/* Feeds the log in parts of these sizes. */
static void feed_log(const uint8_t *log, uint64_t length, const char *sizes) {
    uint64_t taken;
    for (;;) {
        char *behind;
        uint64_t size = strtoul(sizes, &behind, 10);
        if (behind == sizes)
            break;
        if (size > length)
            size = length;
        if (!lend_whole(log, size))
            return;
        log += size;
        length -= size;
        sizes = behind;
    }
    if (length == 0 || lend_whole(log, length))
        lend(NULL, 0, true, &taken);
}

int main(int count, char **words) {
    uint64_t sizes_length, length;
    FILE *file = count == 2 ? fopen(words[1], "r") : NULL;
    uint8_t *sizes = file == NULL ? NULL : read_all(file, &sizes_length);
    uint8_t *input = sizes == NULL ? NULL : read_all(stdin, &length);
    if (input == NULL)
        return 1;
    uint32_t n = length < HEAD ? 0 : word_at(input), z = length < HEAD ? 0 : word_at(input + 4);
    pool_length = n > MOST_N ? 0 : EMUPARASOL_POOL_BYTES(n);
    unsigned answer = emuparasol_create(pool, pool_length, n, z);
    if (answer == EMUPARASOL_COMMITTED)
        feed_log(input + HEAD, length - HEAD, (const char *)sizes);
    else
        printf("%u\n", answer);
    fclose(file);
    free(sizes);
    free(input);
    return 0;
}
