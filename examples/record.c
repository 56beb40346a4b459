/* A host tool that needs no pool: it writes two records of docs/RULES.md's log (R44, rows 4 and 3) back to back, checks and reads each, cuts the log that
   they make: whole, torn, and with a length that no record has; and joins two records into one. It links librecord_abi.a alone. */
#include <stdio.h>

#include "emuparasol.h"

static uint8_t file[64];
static uint64_t length;

/* A record with one point and at most one scan, behind what is there. */
static void append(uint32_t snapshot, uint8_t kind, uint32_t key, uint64_t payload, uint32_t low, uint32_t high, uint64_t scans) {
    uint64_t size;
    unsigned answer = emuparasol_write(snapshot, &kind, 1, &key, 1, &payload, 1, &low, scans, &high, scans, file + length, sizeof file - length, &size);
    printf("write: answer %u, %lu bytes:", answer, (unsigned long)size);
    for (uint64_t i = 0; i < size; i++)
        printf(" %02X", (unsigned)file[length + i]);
    printf("\n");
    length += size;
}

/* What is in the bytes of one record. */
static void show(const uint8_t *record, uint64_t size) {
    uint8_t kinds[EMUPARASOL_MOST_POINTS];
    uint32_t keys[EMUPARASOL_MOST_POINTS], lows[EMUPARASOL_MOST_SCANS], highs[EMUPARASOL_MOST_SCANS], snapshot;
    uint64_t payloads[EMUPARASOL_MOST_POINTS];
    uint64_t points, scans;
    printf("check: answer %u\n", (unsigned)emuparasol_check(record, size));
    unsigned answer = emuparasol_read(record, size, kinds, EMUPARASOL_MOST_POINTS, keys, EMUPARASOL_MOST_POINTS, payloads, EMUPARASOL_MOST_POINTS,
                                      lows, EMUPARASOL_MOST_SCANS, highs, EMUPARASOL_MOST_SCANS, &snapshot, &points, &scans);
    printf("read: answer %u, snapshot %lu, %lu points, %lu scans\n", answer, (unsigned long)snapshot, (unsigned long)points, (unsigned long)scans);
    for (uint64_t i = 0; i < points; i++)
        printf("point: kind %u, key %lu, payload %lu\n", (unsigned)kinds[i], (unsigned long)keys[i], (unsigned long)payloads[i]);
    for (uint64_t i = 0; i < scans; i++)
        printf("scan: %lu to %lu\n", (unsigned long)lows[i], (unsigned long)highs[i]);
}

/* The records of the first bytes of the file, one after the other, and how they end. */
static void walk(uint64_t bytes) {
    uint64_t place = 0, next;
    unsigned answer;
    while ((answer = emuparasol_cut(file, bytes, place, &next)) == EMUPARASOL_COMMITTED && next != place) {
        printf("record from %lu to %lu\n", (unsigned long)place, (unsigned long)next);
        show(file + place, next - place);
        place = next;
    }
    if (answer == EMUPARASOL_TORN_LOG)
        printf("torn at %lu: answer %u\n", (unsigned long)place, answer);
    else if (answer == EMUPARASOL_IMPOSSIBLE_LENGTH)
        printf("impossible length at %lu: answer %u\n", (unsigned long)place, answer);
    else
        printf("end at %lu\n", (unsigned long)place);
}

/* Two records as one, of which the second goes on where the first ends. */
static void join(const uint8_t *a, uint64_t a_size, const uint8_t *b, uint64_t b_size) {
    static uint8_t joined[64];
    uint64_t size;
    uint8_t answer = emuparasol_join(a, a_size, b, b_size, joined, sizeof joined, &size);
    printf("join: answer %u, %lu bytes\n", (unsigned)answer, (unsigned long)size);
    if (answer == EMUPARASOL_COMMITTED)
        show(joined, size);
    else
        printf("%s: as two they are what they were\n", emuparasol_answer_name(answer));
}

int main(void) {
    append(1, EMUPARASOL_KIND_READ, 30, 0, 0, 0, 0);
    uint64_t first = length;
    append(1, EMUPARASOL_KIND_PUT, 30, 300, 11, 19, 1);
    walk(length);
    /* The second puts what the first has read. The other way round the first would put what the second reads. */
    join(file, first, file + first, length - first);
    join(file + first, length - first, file, first);
    printf("cut off a byte before the end\n");
    walk(length - 1);
    printf("the length of the second record lost, as erased flash reads\n");
    file[14] = file[15] = 0xFF;
    walk(length);
    printf("the same, cut off right behind that length, and within it\n");
    walk(16);
    walk(15);
    return 0;
}
