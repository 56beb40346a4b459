/* Two records as one (R56, R57), by the library and by plain C (bench/plain.c): each refusal, keys that both name, scans that share a key, touch or make a
   chain, the edges of both versions; in just so much room, in a byte less and in more. A line for each of the two; the first thing that is wrong is named,
   and the status is 1. */
#include <stdio.h>
#include <stdlib.h>
#include <string.h>

#include "../../bench/plain.h"
#include "emuparasol.h"

enum { BEHIND = 50, ROOM = EMUPARASOL_MOST_RECORD + BEHIND, FILLED = 0xC3, SNAPSHOT = 5 };

static const struct way {
    const char *name;
    uint8_t (*join)(const uint8_t *, uint64_t, const uint8_t *, uint64_t, uint8_t *, uint64_t, uint64_t *);
} ways[] = {{"library", emuparasol_join}, {"plain", plain_join}};
static const struct way *way;

/* A record's lists, one longer than they may be, and its bytes. */
struct record {
    uint8_t kinds[EMUPARASOL_MOST_POINTS + 1], bytes[ROOM];
    uint32_t keys[EMUPARASOL_MOST_POINTS + 1], lows[EMUPARASOL_MOST_SCANS + 1], highs[EMUPARASOL_MOST_SCANS + 1];
    uint64_t payloads[EMUPARASOL_MOST_POINTS + 1], points, scans, size;
};
static struct record a, b, both;

static void fail(const char *what, const char *where, unsigned long number) {
    printf("join: %s: %s, %s %lu\n", way->name, what, where, number);
    exit(1);
}

static void written(struct record *r) {
    uint8_t answer = emuparasol_write(SNAPSHOT, r->kinds, r->points, r->keys, r->points, r->payloads, r->points, r->lows, r->scans, r->highs, r->scans,
                                      r->bytes, ROOM, &r->size);
    if (answer != EMUPARASOL_COMMITTED)
        fail("not written", "answer", answer);
}

/* A record in words: r7 reads 7, p7 puts 70 there, d7 deletes it, 3-9 scans from 3 to 9. */
static void read_words(const char *words, struct record *r) {
    r->points = r->scans = 0;
    for (char *end; *words != '\0'; words = *end == ' ' ? end + 1 : end) {
        char kind = *words;
        if (kind == 'r' || kind == 'p' || kind == 'd') {
            r->keys[r->points] = (uint32_t)strtoul(words + 1, &end, 10);
            r->kinds[r->points] = kind == 'r' ? EMUPARASOL_KIND_READ : kind == 'p' ? EMUPARASOL_KIND_PUT : EMUPARASOL_KIND_DELETE;
            r->payloads[r->points] = kind == 'p' ? (uint64_t)10 * r->keys[r->points] : 0;
            r->points++;
        } else {
            r->lows[r->scans] = (uint32_t)strtoul(words, &end, 10);
            r->highs[r->scans++] = (uint32_t)strtoul(end + 1, &end, 10);
        }
    }
    written(r);
}

/* So many reads from a key on, and so many scans of two keys each, three apart. */
static void fill(struct record *r, uint32_t first, uint32_t points, uint32_t low, uint32_t scans) {
    r->points = points;
    r->scans = scans;
    for (uint32_t i = 0; i < points; i++) {
        r->kinds[i] = EMUPARASOL_KIND_READ;
        r->keys[i] = first + i;
        r->payloads[i] = 0;
    }
    for (uint32_t i = 0; i < scans; i++) {
        r->lows[i] = low + 3 * i;
        r->highs[i] = low + 3 * i + 1;
    }
    written(r);
}

/* Joins a and b with so much room. The front of the output then has to be these bytes, and all behind them as before. */
static void joins(uint64_t room, uint8_t answer, const uint8_t *front, uint64_t length, const char *where, unsigned long number) {
    static uint8_t output[ROOM], first[ROOM], second[ROOM];
    uint64_t size = 7;
    memset(output, FILLED, sizeof output);
    memcpy(first, a.bytes, a.size);
    memcpy(second, b.bytes, b.size);
    if (way->join(first, a.size, second, b.size, output, room, &size) != answer)
        fail("another answer", where, number);
    if (size != length)
        fail("another size", where, number);
    if (length > 0 && memcmp(output, front, length) != 0)
        fail("another record", where, number);
    for (uint64_t i = length; i < sizeof output; i++)
        if (output[i] != FILLED)
            fail("a byte was written that should not be", where, number);
    if (memcmp(first, a.bytes, a.size) != 0 || memcmp(second, b.bytes, b.size) != 0)
        fail("a record was written that is only to be read", where, number);
}

/* a and b become `both`: in just so much room and in more; with a byte less they do not. */
static void become(const char *where, unsigned long number) {
    joins(both.size, EMUPARASOL_COMMITTED, both.bytes, both.size, where, number);
    joins(both.size + BEHIND, EMUPARASOL_COMMITTED, both.bytes, both.size, where, number);
    joins(both.size - 1, EMUPARASOL_OUTPUT_SHORT, NULL, 0, where, number);
    joins(0, EMUPARASOL_OUTPUT_SHORT, NULL, 0, where, number);
}

/* a and b cannot be joined, whatever the room. */
static void cannot(const char *where, unsigned long number) {
    joins(ROOM, EMUPARASOL_CANNOT_JOIN, NULL, 0, where, number);
    joins(0, EMUPARASOL_CANNOT_JOIN, NULL, 0, where, number);
}

/* Small ones in words; the third is what the two become, or NULL if they cannot be joined. */
static const struct row {
    const char *a, *b, *both;
} rows[] = {
    {"r1 p10 8-12", "r2 d20 p30 18-22", "r1 r2 p10 d20 p30 8-12 18-22"},
    {"", "", ""},
    {"r3 p7 1-2 9-9", "", "r3 p7 1-2 9-9"},
    {"", "r3 p7 1-2 9-9", "r3 p7 1-2 9-9"},
    /* keys that both name */
    {"r7", "r7", "r7"},
    {"r7", "p7", "p7"},
    {"r7", "d7", "d7"},
    {"p7", "r7", NULL},
    {"p7", "p7", NULL},
    {"p7", "d7", NULL},
    {"d7", "r7", NULL},
    {"d7", "p7", NULL},
    {"d7", "d7", NULL},
    {"r1 r3 p4 r5 r9", "d1 p3 r5 p9", "d1 p3 p4 r5 p9"},
    /* what b scans, a may not write; what a scans, b may */
    {"r3 p10", "10-10", NULL},
    {"r3 d10", "5-15", NULL},
    {"p10", "0-4 10-4294967295", NULL},
    {"p10", "0-10 12-13", NULL},
    {"p10 p20", "12-18 20-21", NULL},
    {"r3 p10", "0-9 11-4294967295", "r3 p10 0-9 11-4294967295"},
    {"0-4294967295", "d0 p7 d4294967295", "d0 p7 d4294967295 0-4294967295"},
    {"d4294967295", "4294967295-4294967295", NULL},
    /* scans: inside, overlapping, at one key, touching, apart; chains of three and of five */
    {"9-20", "12-15", "9-20"},
    {"9-15", "12-20", "9-20"},
    {"12-20", "9-15", "9-20"},
    {"9-12", "12-20", "9-20"},
    {"9-12", "13-20", "9-12 13-20"},
    {"13-20", "9-12", "9-12 13-20"},
    {"9-12", "14-20", "9-12 14-20"},
    {"9-12 15-20", "12-15", "9-20"},
    {"12-15", "9-12 15-20", "9-20"},
    {"9-12 15-20", "0-30", "0-30"},
    {"1-3 5-7 9-11 20-21", "3-5 7-9", "1-11 20-21"},
    {"1-3 5-7 10-11", "3-5 8-9", "1-7 8-9 10-11"},
};

static void small(void) {
    for (unsigned long i = 0; i < sizeof rows / sizeof *rows; i++) {
        read_words(rows[i].a, &a);
        read_words(rows[i].b, &b);
        if (rows[i].both == NULL) {
            cannot("row", i + 1);
            continue;
        }
        read_words(rows[i].both, &both);
        become("row", i + 1);
    }
}

/* So many points and scans in each, without a key in common. */
static void large(void) {
    static const struct {
        uint32_t first, second, scans_first, scans_second;
        uint8_t version; /* 0 where there would be too many */
    } sums[] = {
        {32, 32, 4, 4, 1},     {64, 0, 8, 0, 1},      {64, 1, 0, 0, 2},   {1, 64, 0, 0, 2},   {64, 64, 0, 0, 2},  {0, 0, 8, 1, 2},
        {0, 0, 8, 8, 2},       {512, 512, 32, 32, 2}, {1023, 1, 0, 0, 2}, {1024, 1, 0, 0, 0}, {1, 1024, 0, 0, 0}, {513, 512, 0, 0, 0},
        {1024, 1024, 0, 0, 0}, {0, 0, 64, 0, 2},      {0, 0, 63, 1, 2},   {0, 0, 64, 1, 0},   {0, 0, 1, 64, 0},
    };
    for (unsigned long i = 0; i < sizeof sums / sizeof *sums; i++) {
        uint32_t points = sums[i].first + sums[i].second, scans = sums[i].scans_first + sums[i].scans_second;
        fill(&a, 7, sums[i].first, 5000, sums[i].scans_first);
        fill(&b, 7 + sums[i].first, sums[i].second, 5000 + 3 * sums[i].scans_first, sums[i].scans_second);
        if (sums[i].version == 0) {
            cannot("sum", i + 1);
            continue;
        }
        fill(&both, 7, points, 5000, scans);
        if (both.bytes[2] != sums[i].version)
            fail("another version", "sum", i + 1);
        become("sum", i + 1);
    }
    /* 1,024 and 1,024 of the same keys, 64 and 64 of the same scans. */
    fill(&a, 7, 1024, 5000, 64);
    b = both = a;
    become("the same", 1024);
    /* Nine scans of version 2 that one covers. */
    fill(&a, 0, 0, 100, 9);
    read_words("101-125", &b);
    read_words("100-125", &both);
    become("covered", 9);
}

/* A record that cannot be joined with another one, as the first and as the second. */
static void neither_way(const struct record *bad, const char *where, unsigned long number) {
    a = *bad;
    read_words("r2 60-70", &b);
    cannot(where, number);
    b = *bad;
    read_words("r2 60-70", &a);
    cannot(where, number);
}

/* Another snapshot, and what is malformed. */
static void refused(void) {
    static struct record bad;
    /* Kinds at 9 and 14, keys up to 13 and 18, lows up to 30 and 38, highs up to 34 and 42. */
    static const char words[] = "r1 p7 20-30 40-50";
    static const struct {
        uint8_t place, byte;
    } flaws[] = {{1, 0}, {2, 0}, {2, 2}, {2, 3}, {7, 1}, {7, 3}, {8, 1}, {8, 3}, {9, 0}, {9, 4}, {13, 7}, {18, 1}, {30, 31}, {38, 30}, {42, 39}};
    for (unsigned long i = 3; i < 7; i++) {
        read_words(words, &bad);
        bad.bytes[i]++;
        neither_way(&bad, "another snapshot, byte", i);
    }
    read_words(words, &bad);
    uint64_t whole = bad.size;
    for (bad.size = 0; bad.size <= whole + 1; bad.size++)
        if (bad.size != whole)
            neither_way(&bad, "length", (unsigned long)bad.size);
    for (unsigned long i = 0; i < sizeof flaws / sizeof *flaws; i++) {
        read_words(words, &bad);
        bad.bytes[flaws[i].place] = flaws[i].byte;
        neither_way(&bad, "flaw", i + 1);
    }
}

int main(void) {
    for (way = ways; way < ways + sizeof ways / sizeof *ways; way++) {
        small();
        large();
        refused();
        printf("%s: two records as one, or 12 and 8 with nothing written\n", way->name);
    }
    return 0;
}
