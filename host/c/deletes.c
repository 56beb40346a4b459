/* Deletes of keys that are not live write nothing (R22): the eight rows of R55, and pools with room and without, by the library and by plain C
   (bench/plain.c). A line for each of the two; the first thing that is wrong is named, and the status is 1. */
#include <stdio.h>
#include <stdlib.h>
#include <string.h>

#include "../../bench/plain.h"
#include "emuparasol.h"

enum { N = 3, Z = 4, POOL = 64 + 64 * N, POSITION = 12 };

static const struct way {
    const char *name;
    uint8_t (*create)(uint8_t *, uint64_t, uint32_t, uint32_t);
    uint8_t (*status)(const uint8_t *, uint64_t, uint32_t *, uint32_t *, uint32_t *, uint32_t *, uint32_t *);
    uint8_t (*lookup)(const uint8_t *, uint64_t, uint32_t, uint64_t *, uint32_t *);
    uint8_t (*meld)(uint8_t *, uint64_t, const uint8_t *, uint64_t, uint32_t *);
    uint8_t (*explain)(const uint8_t *, uint64_t, const uint8_t *, uint64_t, uint32_t *, uint32_t *, uint32_t *, uint64_t *, uint64_t *, uint32_t *, uint32_t *);
} ways[] = {
    {"library", emuparasol_create, emuparasol_status, emuparasol_lookup, emuparasol_meld, emuparasol_explain},
    {"plain", plain_create, plain_status, plain_lookup, plain_meld, plain_explain},
};
static const struct way *way;

static uint8_t pool[POOL], record[EMUPARASOL_MOST_RECORD];

static void expect(bool holds, const char *what, unsigned long number) {
    if (!holds) {
        printf("deletes: %s: %s %lu\n", way->name, what, number);
        exit(1);
    }
}

enum { READ = EMUPARASOL_KIND_READ, PUT = EMUPARASOL_KIND_PUT, DELETE = EMUPARASOL_KIND_DELETE };

/* A record with two points or fewer, of kinds that are not 0, and a scan if its high is not 0; what melding it says; what is kept then. */
struct row {
    uint32_t snapshot;
    uint8_t kinds[2];
    uint32_t keys[2], low, high;
    uint8_t answer;
    uint32_t looks, kept, tombstones;
};

static uint64_t written(const struct row *row) {
    uint64_t payloads[2], points = 0, size;
    for (; points < 2 && row->kinds[points] != 0; points++)
        payloads[points] = row->kinds[points] == PUT ? 10 * row->keys[points] : 0;
    uint64_t scans = row->high > 0 ? 1 : 0;
    emuparasol_write(row->snapshot, row->kinds, points, row->keys, points, payloads, points, &row->low, scans, &row->high, scans, record, sizeof record, &size);
    return size;
}

static void counted(uint32_t kept, uint32_t tombstones, const char *what, unsigned long number) {
    uint32_t n, z, position, keys, deleted;
    way->status(pool, POOL, &n, &z, &position, &keys, &deleted);
    expect(keys == kept && deleted == tombstones, what, number);
}

/* Melds records into a new pool, and looks at what each leaves. */
static void rows(const struct row *row, unsigned long count, const char *what) {
    uint32_t looks;
    way->create(pool, POOL, N, Z);
    for (unsigned long v = 1; v <= count; v++, row++) {
        uint64_t size = written(row);
        expect(way->meld(pool, POOL, record, size, &looks) == row->answer && looks == row->looks, what, v);
        counted(row->kept, row->tombstones, what, v);
    }
}

/* So many deletes from a key on, none of them of a live key: only the position may move. */
static void writes_nothing(uint32_t snapshot, uint32_t first, uint32_t count) {
    static uint8_t kinds[EMUPARASOL_MOST_POINTS], before[POOL];
    static uint32_t keys[EMUPARASOL_MOST_POINTS];
    static uint64_t payloads[EMUPARASOL_MOST_POINTS];
    uint32_t looks;
    uint64_t size;
    for (uint32_t i = 0; i < count; i++) {
        kinds[i] = DELETE;
        keys[i] = first + i;
    }
    emuparasol_write(snapshot, kinds, count, keys, count, payloads, count, keys, 0, keys, 0, record, sizeof record, &size);
    memcpy(before, pool, POOL);
    expect(way->meld(pool, POOL, record, size, &looks) == EMUPARASOL_COMMITTED, "deletes of nothing are refused from key", first);
    before[POSITION + 3]++; /* no position here is above 255 */
    expect(memcmp(before, pool, POOL) == 0, "deletes of nothing have written from key", first);
}

/* The answer of a record, and the keys that have to find room, without melding it. */
static void would(const struct row *row, uint32_t room_for, const char *what) {
    uint32_t looks, key, position, lag, keys;
    uint64_t point, scan, size = written(row);
    uint8_t answer = way->explain(pool, POOL, record, size, &looks, &key, &position, &point, &scan, &lag, &keys);
    expect(answer == row->answer && keys == room_for, what, answer);
}

static void try(void) {
    static const struct row eight[] = {
        {0, {PUT, PUT}, {10, 20}, 0, 0, 0, 0, 2, 0},
        {1, {DELETE}, {15}, 0, 0, 0, 1, 2, 0},          /* never there: nothing is written */
        {1, {0}, {0}, 11, 19, 0, 1, 2, 0},              /* so who scans it is not beaten */
        {3, {DELETE, PUT}, {20, 30}, 0, 0, 0, 1, 3, 1}, /* live: a tombstone */
        {3, {DELETE}, {20}, 0, 0, 1, 4, 3, 1},          /* it names the key, and has not seen that */
        {5, {DELETE}, {25}, 0, 0, 0, 1, 3, 1},          /* in a full pool */
        {6, {DELETE}, {20}, 0, 0, 0, 1, 3, 1},          /* the tombstone stays at 4 */
        {7, {PUT}, {40}, 0, 0, 0, 1, 3, 0},             /* and is old now */
    };
    static const struct row roomy[] = {{0, {PUT, PUT}, {10, 20}, 0, 0, 0, 0, 2, 0}, {1, {DELETE}, {20}, 0, 0, 0, 1, 2, 1}};
    static const struct row full[] = {{0, {PUT, PUT}, {10, 20}, 0, 0, 0, 0, 2, 0}, {1, {PUT}, {30}, 0, 0, 0, 1, 3, 0}};
    static const struct row gone = {4, {DELETE}, {20}, 0, 0, 0, 1, 3, 1};
    uint64_t payload;
    uint32_t position, looks;
    rows(eight, 8, "R55, row");
    for (uint32_t key = 10; key <= 40; key += 10) {
        way->lookup(pool, POOL, key, &payload, &position);
        expect(payload == (key == 20 ? 0 : 10 * key) && (position == 0) == (key == 20), "R55, afterwards another payload of key", key);
    }
    rows(roomy, 2, "a pool with room, record");
    writes_nothing(2, 20, 1);
    writes_nothing(3, 5000, 1);
    writes_nothing(4, 20, 64);
    rows(full, 2, "a full pool, record");
    writes_nothing(2, 100, 64);
    writes_nothing(3, 5000, 1024);
    /* What a delete of nothing would write is not counted where there is no room for a put. */
    would(&(struct row){4, {PUT, DELETE}, {40, 50}, 0, 0, 3, 0, 0, 0}, 4, "no room for a put beside a delete of nothing:");
    uint64_t size = written(&gone);
    expect(way->meld(pool, POOL, record, size, &looks) == gone.answer, "a live key is deleted:", gone.answer);
    for (uint32_t p = 5; p < 9; p++)
        writes_nothing(p, 20, 1); /* a tombstone, also once it is old */
    writes_nothing(9, 15, 6);     /* the same beside keys that were never there: no drop in a full pool */
    /* It was written at 5: who has seen that is not beaten by those that deleted it again. */
    would(&(struct row){6, {READ}, {20}, 0, 0, 0, 0, 0, 0}, 0, "a read of what was deleted again:");
    /* A put that needs its room finds it, also beside one more delete of it. */
    would(&(struct row){10, {DELETE, PUT}, {20, 40}, 0, 0, 0, 0, 0, 0}, 0, "a put in place of an old tombstone that is deleted again:");
    printf("%s: deletes of keys that are not live write nothing\n", way->name);
}

int main(void) {
    for (way = ways; way < ways + sizeof ways / sizeof *ways; way++)
        try();
    return 0;
}
