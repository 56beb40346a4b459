/* Why all cards move to version 2 before anyone writes it (R54): two logs with such a record in them, as a card that knows it decides them, and as one that
   still goes by the rule of before. Such a card took lengths up to 903 and knew version 1 alone; that is all that is changed for it here. */
#include <stdio.h>
#include <string.h>

#include "emuparasol.h"

enum { KEYS = 300, ZONE = 8, LOG = 4096, MOST_BEFORE = 903 };

static uint8_t pool[EMUPARASOL_POOL_BYTES(KEYS)], flash[LOG];
static uint64_t written;

/* Appends a record: puts of so many keys from a first one on, all with this payload; so many scans of keys that nobody names; and a read if it is not 0. */
static void append(uint32_t snapshot, uint32_t read, uint32_t first, uint64_t puts, uint64_t payload, uint64_t scans) {
    uint8_t kinds[101];
    uint32_t keys[101], lows[9], highs[9];
    uint64_t payloads[101], points = 0, size;
    if (read > 0) {
        kinds[0] = EMUPARASOL_KIND_READ;
        keys[0] = read;
        payloads[0] = 0;
        points = 1;
    }
    for (uint32_t i = 0; i < puts; i++, points++) {
        kinds[points] = EMUPARASOL_KIND_PUT;
        keys[points] = first + i;
        payloads[points] = payload;
    }
    for (uint32_t i = 0; i < scans; i++)
        lows[i] = highs[i] = 5000 + i;
    emuparasol_write(snapshot, kinds, points, keys, points, payloads, points, lows, scans, highs, scans, flash + written, LOG - written, &size);
    written += size;
}

/* What stands at a place, by the rule of now or of before. */
static uint8_t cut(bool before, uint64_t place, uint64_t *next) {
    *next = place;
    if (before && written - place >= 2 && (flash[place] << 8 | flash[place + 1]) > MOST_BEFORE)
        return EMUPARASOL_IMPOSSIBLE_LENGTH;
    return emuparasol_cut(flash, written, place, next);
}

/* Melds a record. By the rule of before one of version 2 was malformed, like no bytes at all. */
static uint8_t meld(bool before, const uint8_t *record, uint64_t size) {
    uint32_t looks;
    if (before && record[2] == 2)
        return emuparasol_meld(pool, sizeof pool, NULL, 0, &looks);
    return emuparasol_meld(pool, sizeof pool, record, size, &looks);
}

/* The payload under a key, 0 if there is none. */
static unsigned long payload_of(uint32_t key) {
    uint64_t payload;
    uint32_t position;
    emuparasol_lookup(pool, sizeof pool, key, &payload, &position);
    return (unsigned long)payload;
}

/* The whole log by one of the two rules. */
static void decide(bool before) {
    uint64_t place = 0, next;
    uint8_t answer;
    uint32_t n, z, position, kept, tombstones;
    printf("  %s:\n", before ? "a card of before" : "a card that knows version 2");
    emuparasol_create(pool, sizeof pool, KEYS, ZONE);
    for (unsigned long record = 1; (answer = cut(before, place, &next)) == EMUPARASOL_COMMITTED && next > place; record++, place = next) {
        uint8_t verdict = meld(before, flash + place, next - place);
        printf("    record %lu, version %u, length %lu: %u %s\n", record, (unsigned)flash[place + 2], (unsigned long)(next - place - 2), (unsigned)verdict,
               emuparasol_answer_name(verdict));
    }
    if (answer == EMUPARASOL_COMMITTED)
        printf("    end");
    else
        printf("    %u %s, and nothing behind it is ever decided", (unsigned)answer, emuparasol_answer_name(answer));
    emuparasol_status(pool, sizeof pool, &n, &z, &position, &kept, &tombstones);
    printf("; position %lu, %lu keys; 7 is %lu, 8 is %lu\n", (unsigned long)position, (unsigned long)kept, payload_of(7), payload_of(8));
}

int main(void) {
    printf("A record of version 2 with a length up to 903:\n");
    append(0, 0, 7, 1, 100, 0);
    append(1, 0, 7, 1, 200, 9); /* nine scans */
    append(1, 7, 8, 1, 300, 0); /* it has read 7, and not seen the record before */
    append(2, 0, 8, 1, 400, 0);
    decide(false);
    decide(true);

    printf("A record of version 2 with a larger length:\n");
    written = 0;
    append(0, 0, 7, 1, 100, 0);
    append(1, 0, 8, 100, 200, 0); /* a hundred puts */
    append(2, 0, 7, 1, 300, 0);
    decide(false);
    decide(true);
    return 0;
}
