/* One call, of the library or of the plain code, on a pool made before, so that its instructions can be counted: bench/count runs this twice, with
   the call and without.
     cost make N KEYS ZONE FILE              a pool with KEYS keys, put 64 a record
     cost tombstones N KEYS ZONE FILE COUNT  the same, then COUNT of the keys deleted, and two empty records
     cost comb N KEYS ZONE FILE [COUNT]      a pool with KEYS keys, then 72 numbers, then for each the 32 keys that differ from it in one bit;
                                             with COUNT so many of the 72 deleted then, and two empty records
     cost combs N KEYS ZONE FILE             the same with 1,088 numbers
     cost library|plain CALL N KEYS POINTS FILE [skip|stack|compare]
   CALL is look (lookup of an absent key), status, or a meld of POINTS points: kept (puts of kept keys), new (puts of other keys), read (reads of kept
   keys), old (reads of other keys, with half the position as snapshot), scans (POINTS scans between neighbouring kept keys, 8 at most, the same snapshot),
   full (puts of kept keys that were written before half the position, and a scan between neighbouring kept keys for each 16 of them, the same snapshot;
   1,024 of them make the longest record), fullest (64 reads and 8 scans of the 72 numbers, or 1,024 and 64 of the 1,088, with the position before their
   combs as snapshot), lost (reads of kept keys, with half the position), late (the same, with 0), live (deletes of keys of the latter half, which are
   live), absent (deletes of the keys that new puts), gone (deletes of the first keys, which tombstones has deleted). The others have the position as
   snapshot. With why- before it the record of such a call is explained and not melded. Three calls feed the record of kept: fed (all of it in the part, and
   nothing carried), begun (its first byte carried, the others in the part), more (all of it but its last byte in the part, so that none is decided). Three
   cut a log that is the record of kept: cut (as it is), torn (without its last byte), sick (with a length of 65,535). Two join two records of POINTS points
   each, 512 at most, and of 4 scans each for 1 point, 8 for up to 64 and 32 for more: join (puts of kept keys and scans between neighbouring kept keys, all of
   them different, so that the joined record has the points and scans of both), same (reads of kept keys and puts of the same, and the same scans, so that it
   has those of one). With skip the call is left out; with
   stack the bytes of stack it used are printed; with compare both are called, and their answers, looks, numbers and bytes have to be the same. The status
   is the call's answer, or one of those below. */
#include <stdio.h>
#include <stdlib.h>
#include <string.h>

#include "emuparasol.h"
#include "plain.h"
#include "keys.h"

enum { PAINTED = 65536, PAINT = 0xA7 };

/* The most points and scans of a record of version 1; so many points a record has that makes a pool. */
enum { FEW_POINTS = 64, FEW_SCANS = 8 };

/* Statuses that are no answer: a wrong command line or no such file, a pool that was not made, two calls that differ. */
enum { MISUSED = 20, NOT_MADE = 21, DIFFERENT = 22 };

/* Pool, and what the command line says of it. */
static uint8_t *pool;
static uint64_t length;
static uint32_t n, keys;

/* What is saved beside the pool: the position before the combs, and scans between neighbouring keys. */
struct scans {
    uint32_t lows[EMUPARASOL_MOST_SCANS], highs[EMUPARASOL_MOST_SCANS];
};
static struct {
    uint32_t before_combs;
    struct scans few, many;
} beside;

static uint32_t word_at(const uint8_t *at) { return (uint32_t)at[0] << 24 | (uint32_t)at[1] << 16 | (uint32_t)at[2] << 8 | at[3]; }

/* The numbers at which the combs stand, for each point and scan of a record one: spread evenly, so that their paths part early. No two of them differ in
   one bit: a multiple of the step between them is no power of two. */
enum { FEW_COMBS = FEW_POINTS + FEW_SCANS, MANY_COMBS = EMUPARASOL_MOST_POINTS + EMUPARASOL_MOST_SCANS };
static uint32_t comb(uint32_t combs, uint32_t i) { return i * (0xFFFFFFFFu / combs) + (combs == FEW_COMBS ? 0x00654321u : 0x00254321u); }

static int by_value(const void *a, const void *b) {
    uint32_t x = *(const uint32_t *)a, y = *(const uint32_t *)b;
    return x < y ? -1 : x > y;
}

/* A record of points of one kind and of scans; ends the program if the lists break a rule. */
static uint64_t record_of(uint8_t *out, uint32_t snapshot, uint32_t *named, uint64_t points, uint8_t kind, const uint32_t *lows, const uint32_t *highs,
                          uint64_t scans) {
    static uint8_t kinds[EMUPARASOL_MOST_POINTS];
    static uint64_t payloads[EMUPARASOL_MOST_POINTS];
    uint64_t size;
    qsort(named, points, sizeof *named, by_value);
    memset(kinds, kind, sizeof kinds);
    for (uint64_t i = 0; i < points; i++)
        payloads[i] = kind == EMUPARASOL_KIND_PUT ? named[i] : 0;
    if (emuparasol_write(snapshot, kinds, points, named, points, payloads, points, lows, scans, highs, scans, out, EMUPARASOL_MOST_RECORD, &size) !=
        EMUPARASOL_COMMITTED)
        exit(NOT_MADE);
    return size;
}

/* Melds one record of points at the pool's position, and expects it to commit. */
static void meld_points(uint32_t *named, uint64_t points, uint8_t kind) {
    uint8_t record[EMUPARASOL_MOST_RECORD];
    uint32_t looks;
    uint64_t size = record_of(record, word_at(pool + 12), named, points, kind, &n, &n, 0);
    if (emuparasol_meld(pool, length, record, size, &looks) != EMUPARASOL_COMMITTED)
        exit(NOT_MADE);
}

/* Melds points for the first so many keys, 64 a record. */
static void meld_first(uint32_t count, uint8_t kind) {
    uint32_t some[FEW_POINTS];
    for (uint32_t done = 0; done < count;) {
        uint32_t part = count - done < FEW_POINTS ? count - done : FEW_POINTS;
        for (uint32_t i = 0; i < part; i++)
            some[i] = key_of(done + i);
        meld_points(some, part, kind);
        done += part;
    }
}

/* So many scans, spread over these keys, each from behind a key to before the next. */
static void spread(struct scans *to, uint32_t count, const uint32_t *all) {
    for (uint32_t i = 0; i < count; i++) {
        uint32_t at = (uint32_t)((uint64_t)keys * (2 * i + 1) / (2 * count));
        while (all[at + 1] - all[at] < 2)
            at++;
        to->lows[i] = all[at] + 1;
        to->highs[i] = all[at + 1] - 1;
    }
}

static void find_scans(void) {
    uint32_t *all = malloc(4 * (size_t)keys);
    for (uint32_t i = 0; i < keys; i++)
        all[i] = key_of(i);
    qsort(all, keys, 4, by_value);
    spread(&beside.few, FEW_SCANS, all);
    spread(&beside.many, EMUPARASOL_MOST_SCANS, all);
    free(all);
}

static int make(const char *what, uint32_t zone, const char *file, uint32_t tombstones) {
    uint32_t some[FEW_POINTS], combs = !strcmp(what, "comb") ? FEW_COMBS : !strcmp(what, "combs") ? MANY_COMBS : 0;
    if (emuparasol_create(pool, length, n, zone) != EMUPARASOL_COMMITTED)
        return NOT_MADE;
    meld_first(keys, EMUPARASOL_KIND_PUT);
    for (uint32_t i = 0; i < combs; i++) {
        some[0] = comb(combs, i);
        meld_points(some, 1, EMUPARASOL_KIND_PUT);
    }
    beside.before_combs = word_at(pool + 12);
    find_scans();
    for (uint32_t i = 0; i < combs; i++) {
        for (uint32_t bit = 0; bit < 32; bit++)
            some[bit] = comb(combs, i) ^ (uint32_t)1 << bit;
        meld_points(some, 32, EMUPARASOL_KIND_PUT);
    }
    if (combs == 0)
        meld_first(tombstones, EMUPARASOL_KIND_DELETE);
    for (uint32_t i = 0; combs > 0 && i < tombstones; i++) {
        some[0] = comb(combs, i);
        meld_points(some, 1, EMUPARASOL_KIND_DELETE);
    }
    for (int i = 0; tombstones > 0 && i < 2; i++)
        meld_points(some, 0, EMUPARASOL_KIND_READ);
    FILE *f = fopen(file, "wb");
    if (f == NULL || fwrite(pool, 1, length, f) != length || fwrite(&beside, sizeof beside, 1, f) != 1)
        return NOT_MADE;
    fclose(f);
    printf("%s: N %u, Z %u, keys kept %u, position %u\n", what, n, zone, word_at(pool + 16), word_at(pool + 12));
    return 0;
}

/* The record of a call. */
static uint64_t prepare(const char *call, uint32_t points, uint8_t *record) {
    static uint32_t some[EMUPARASOL_MOST_POINTS], lows[EMUPARASOL_MOST_SCANS];
    uint32_t p = word_at(pool + 12);
    if (points > EMUPARASOL_MOST_POINTS)
        exit(MISUSED);
    if (!strcmp(call, "fullest")) {
        bool many = points > FEW_POINTS;
        uint32_t combs = many ? MANY_COMBS : FEW_COMBS, reads = many ? EMUPARASOL_MOST_POINTS : FEW_POINTS;
        for (uint32_t i = 0; i < reads; i++)
            some[i] = comb(combs, i);
        for (uint32_t i = reads; i < combs; i++)
            lows[i - reads] = comb(combs, i);
        return record_of(record, beside.before_combs, some, reads, EMUPARASOL_KIND_READ, lows, lows, combs - reads);
    }
    if (!strcmp(call, "scans"))
        return record_of(record, p / 2, some, 0, EMUPARASOL_KIND_READ, beside.few.lows, beside.few.highs, points);
    if (!strcmp(call, "full")) {
        for (uint32_t i = 0; i < points; i++)
            some[i] = key_of((uint32_t)((uint64_t)(keys / 2) * i / points));
        return record_of(record, p / 2, some, points, EMUPARASOL_KIND_PUT, beside.many.lows, beside.many.highs, points / 16);
    }
    bool other = !strcmp(call, "new") || !strcmp(call, "old"), half = !strcmp(call, "old") || !strcmp(call, "lost"), none = !strcmp(call, "late");
    bool live = !strcmp(call, "live"), absent = !strcmp(call, "absent"), gone = !strcmp(call, "gone");
    uint8_t kind = half || none || !strcmp(call, "read") ? EMUPARASOL_KIND_READ : live || absent || gone ? EMUPARASOL_KIND_DELETE : EMUPARASOL_KIND_PUT;
    uint32_t first = live ? keys / 2 : 0;
    for (uint32_t i = 0; i < points; i++)
        some[i] = other || absent ? key_of(keys + 1 + 977 * i) : key_of(gone ? i : first + (uint32_t)((uint64_t)(keys - first) * i / points));
    return record_of(record, none ? 0 : half ? p / 2 : p, some, points, kind, &n, &n, 0);
}

/* The call whose record is explained, or NULL where none is. */
static const char *behind_why(const char *call) {
    const char *why = "why-";
    for (; *why != '\0'; why++, call++)
        if (*call != *why)
            return NULL;
    return call;
}

/* What explain tells besides the looks. */
static struct {
    uint64_t point, scan;
    uint32_t key, position, lag, keys;
} why;

/* The second record of a call that joins, the output and what is told. */
static struct {
    uint8_t second[EMUPARASOL_MOST_RECORD], output[EMUPARASOL_MOST_RECORD];
    uint64_t second_size, size;
} joining;

/* The records of such a call: the first, of which the size is answered, and the second. */
static uint64_t prepare_two(bool same, uint32_t points, uint8_t *record) {
    static uint32_t some[EMUPARASOL_MOST_POINTS];
    struct scans pick[2];
    uint32_t p = word_at(pool + 12), scans = points > FEW_POINTS ? 32 : points > 1 ? 8 : 4;
    uint64_t sizes[2];
    if (2 * points > EMUPARASOL_MOST_POINTS || 2 * points > keys)
        exit(MISUSED);
    for (uint32_t i = 0; i < 2 * scans; i++) {
        pick[i % 2].lows[i / 2] = beside.many.lows[i];
        pick[i % 2].highs[i / 2] = beside.many.highs[i];
    }
    for (uint32_t which = 0; which < 2; which++) {
        const struct scans *own = &pick[same ? 0 : which];
        for (uint32_t i = 0; i < points; i++)
            some[i] = key_of(2 * i + (same ? 0 : which));
        sizes[which] = record_of(which == 0 ? record : joining.second, p, some, points, same && which == 0 ? EMUPARASOL_KIND_READ : EMUPARASOL_KIND_PUT,
                                 own->lows, own->highs, scans);
    }
    joining.second_size = sizes[1];
    return sizes[0];
}

/* What feed is lent besides the pool, and what it tells. */
enum call { LOOK, STATUS, MELD, EXPLAIN, CUT, TORN, SICK, JOIN, FED, BEGUN, MORE };
static struct {
    uint8_t carry[EMUPARASOL_CARRY_BYTES], happened;
    uint64_t carried, part, taken;
} fed;

static void lend(enum call call, const uint8_t *record, uint64_t size) {
    memset(&fed, 0, sizeof fed);
    fed.carry[0] = record[0];
    fed.carried = call == BEGUN ? 1 : 0;
    fed.part = call == FED ? size : size - 1;
}

/* Makes the call; instead of looks a lookup gives the position found, status the tombstones, a cut the place then, and a join the size. */
static uint8_t make_call(bool plain, enum call call, const uint8_t *record, uint64_t size, uint32_t *looks) {
    uint64_t payload, next;
    uint32_t limit, zone, position, kept;
    if (call == CUT || call == TORN || call == SICK) {
        uint8_t answer = (plain ? plain_cut : emuparasol_cut)(record, call == TORN ? size - 1 : size, 0, &next);
        *looks = (uint32_t)next;
        return answer;
    }
    if (call == JOIN) {
        uint8_t answer = (plain ? plain_join : emuparasol_join)(record, size, joining.second, joining.second_size, joining.output, sizeof joining.output,
                                                                &joining.size);
        *looks = (uint32_t)joining.size;
        return answer;
    }
    if (call == LOOK)
        return (plain ? plain_lookup : emuparasol_lookup)(pool, length, key_of(keys + 1), &payload, looks);
    if (call == STATUS)
        return (plain ? plain_status : emuparasol_status)(pool, length, &limit, &zone, &position, &kept, looks);
    if (call == MELD)
        return (plain ? plain_meld : emuparasol_meld)(pool, length, record, size, looks);
    if (call == EXPLAIN)
        return (plain ? plain_explain : emuparasol_explain)(pool, length, record, size, looks, &why.key, &why.position, &why.point, &why.scan, &why.lag,
                                                            &why.keys);
    return (plain ? plain_feed : emuparasol_feed)(pool, length, fed.carry, sizeof fed.carry, &fed.carried, record + fed.carried, fed.part, false,
                                                  &fed.happened, looks, &fed.taken);
}

/* Paints the stack below its caller's, or answers how much of the paint is gone. */
static __attribute__((noinline)) size_t stack(bool paint) {
    volatile uint8_t *top = (volatile uint8_t *)__builtin_frame_address(0) - 64;
    size_t left = 0;
    for (size_t i = PAINTED; paint && i > 0; i--)
        top[-(long)i] = PAINT;
    while (left < PAINTED && top[(long)left - PAINTED] == PAINT)
        left++;
    return PAINTED - left + 64;
}

int main(int argc, char **argv) {
    if (argc < 6)
        return MISUSED;
    const char *what = argv[1];
    bool makes = !strcmp(what, "make") || !strcmp(what, "tombstones") || !strcmp(what, "comb") || !strcmp(what, "combs"), plain = !strcmp(what, "plain");
    char **numbers = argv + (makes ? 2 : 3);
    n = (uint32_t)strtoul(numbers[0], NULL, 10);
    keys = (uint32_t)strtoul(numbers[1], NULL, 10);
    uint32_t third = (uint32_t)strtoul(numbers[2], NULL, 10);
    const char *file = numbers[3], *call = argv[2], *more = argc > 7 ? argv[7] : "";
    length = EMUPARASOL_POOL_BYTES(n);
    pool = malloc(length);
    if (makes)
        return make(what, third, file, argc > 6 ? (uint32_t)strtoul(argv[6], NULL, 10) : 0);
    FILE *f = fopen(file, "rb");
    if (f == NULL || fread(pool, 1, length, f) != length || fread(&beside, sizeof beside, 1, f) != 1)
        return MISUSED;
    fclose(f);
    static uint8_t record[EMUPARASOL_MOST_RECORD];
    const char *melded = behind_why(call);
    enum call which = !strcmp(call, "look")     ? LOOK
                      : !strcmp(call, "status") ? STATUS
                      : !strcmp(call, "cut")    ? CUT
                      : !strcmp(call, "torn")   ? TORN
                      : !strcmp(call, "sick")   ? SICK
                      : !strcmp(call, "join")   ? JOIN
                      : !strcmp(call, "same")   ? JOIN
                      : !strcmp(call, "fed")    ? FED
                      : !strcmp(call, "begun")  ? BEGUN
                      : !strcmp(call, "more")   ? MORE
                      : melded != NULL          ? EXPLAIN
                                                : MELD;
    uint64_t size = which == LOOK || which == STATUS ? 0
                    : which == JOIN                  ? prepare_two(!strcmp(call, "same"), third, record)
                                                     : prepare(which == EXPLAIN ? melded : call, third, record);
    uint32_t looks = 0;
    uint8_t answer = EMUPARASOL_COMMITTED;
    if (which == SICK)
        record[0] = record[1] = 0xFF;
    if (which >= FED)
        lend(which, record, size);
    if (!strcmp(more, "stack")) {
        stack(true);
        answer = make_call(plain, which, record, size, &looks);
        printf("%lu\n", (unsigned long)stack(false));
    } else if (*more == '\0' && argc == 7) {
        answer = make_call(plain, which, record, size, &looks);
    } else if (!strcmp(more, "compare")) {
        uint8_t *once = malloc(length);
        uint32_t other_looks = 0;
        memcpy(once, pool, length);
        answer = make_call(false, which, record, size, &looks);
        uint8_t *after = pool, told[sizeof fed], reason[sizeof why];
        static uint8_t joined[sizeof joining];
        pool = once;
        memcpy(told, &fed, sizeof fed);
        memcpy(reason, &why, sizeof why);
        memset(&why, 0, sizeof why);
        memcpy(joined, &joining, sizeof joining);
        memset(joining.output, 0, sizeof joining.output);
        if (which >= FED)
            lend(which, record, size);
        if (make_call(true, which, record, size, &other_looks) != answer || other_looks != looks || memcmp(after, once, length) != 0 ||
            memcmp(told, &fed, sizeof fed) != 0 || memcmp(reason, &why, sizeof why) != 0 || memcmp(joined, &joining, sizeof joining) != 0)
            return DIFFERENT;
        printf("answer %u, %s %u, kept %u\n", answer,
               which == STATUS                 ? "tombstones"
               : which >= CUT && which <= SICK ? "place"
               : which == JOIN                 ? "size"
                                               : "looks",
               looks, word_at(pool + 16));
    }
    return answer;
}
