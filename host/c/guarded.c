/* The library's compiled code against plain C (bench/plain.c), call by call, in memory where nothing can be touched unseen:
     guarded [SECONDS [SEED]]
   What is lent stands at the very end or the very start of a mapped area, with unmapped pages around it; what is lent to be read is lent through a
   mapping that cannot be written; what has no elements is often lent as NULL. Pools and records of both versions are made at random, whole and damaged, logs
   are cut anywhere, carries are lent as a call has left them and as none does, and all thirteen functions are called. After each call the answer, every number and
   every byte of every area must be what plain C leaves. At the first difference, and at an access that is not allowed, the seed and the call are
   printed and the status is 1. The same seed makes the same calls. */
#define _DEFAULT_SOURCE
#include <signal.h>
#include <stdio.h>
#include <stdlib.h>
#include <string.h>
#include <sys/mman.h>
#include <time.h>
#include <unistd.h>

#include "../../bench/plain.h"
#include "emuparasol.h"

enum { PAGE = 65536, FILLED = 0xA5, MOST_N = 1500, POOL_ROOM = 64 + 64 * MOST_N + 256, RECORD_ROOM = EMUPARASOL_MOST_RECORD + 300 };
enum { LIST = EMUPARASOL_MOST_POINTS + 6, PAIRS = EMUPARASOL_MOST_SCANS + 6, FEW_POINTS = 64, FEW_SCANS = 8 };

static uint64_t seed, calls, state;
static unsigned long answers[16], happenings[4], completed, points_blamed, scans_blamed, lags_told, keys_told, wide_melded[16], wide_fed, wide_read;
static unsigned long nothing_deleted, nothing_deleted_in_full, joined_records, joined_wide, joined_keys, joined_scans;
static const char *doing = "";

/* Random numbers (xorshift64*), below a limit. */
static uint32_t any(void) {
    state ^= state >> 12;
    state ^= state << 25;
    state ^= state >> 27;
    return (uint32_t)((state * 0x2545F4914F6CDD1Du) >> 32);
}
static uint32_t below(uint32_t limit) { return (uint32_t)(((uint64_t)any() * limit) >> 32); }
static bool one_in(uint32_t count) { return below(count) == 0; }

static void fail(const char *what) {
    printf("guarded: %s: %s (seed %llu, call %llu)\n", doing, what, (unsigned long long)seed, (unsigned long long)calls);
    exit(1);
}

static void caught(int number) {
    char text[200];
    int length = snprintf(text, sizeof text, "guarded: %s: touched what was not lent, signal %d (seed %llu, call %llu)\n", doing, number,
                          (unsigned long long)seed, (unsigned long long)calls);
    if (write(1, text, (size_t)length) < 0)
        _exit(2);
    _exit(1);
}

/* An area: the same bytes mapped twice, to be written and to be read alone, each between unmapped pages. */
struct area {
    uint8_t *writable, *readable;
    size_t size;      /* of the whole area */
    size_t at, bytes; /* where the lent part begins, and its bytes */
};

static uint8_t *between_unmapped(int file, size_t size, int protection) {
    uint8_t *all = mmap(NULL, size + 2 * PAGE, PROT_NONE, MAP_PRIVATE | MAP_ANONYMOUS, -1, 0);
    if (all == MAP_FAILED || mmap(all + PAGE, size, protection, MAP_SHARED | MAP_FIXED, file, 0) == MAP_FAILED) {
        perror("guarded: mmap");
        exit(2);
    }
    return all + PAGE;
}

static struct area area_of(size_t room) {
    struct area made = {0};
    FILE *file = tmpfile();
    made.size = (room + PAGE - 1) / PAGE * PAGE;
    if (file == NULL || ftruncate(fileno(file), (off_t)made.size) != 0) {
        perror("guarded: tmpfile");
        exit(2);
    }
    made.writable = between_unmapped(fileno(file), made.size, PROT_READ | PROT_WRITE);
    made.readable = between_unmapped(fileno(file), made.size, PROT_READ);
    memset(made.writable, FILLED, made.size);
    return made;
}

/* Puts so many bytes at the end or the start of the area; the part of it that is looked at afterwards is filled. */
enum { AROUND = 512 };
static void place(struct area *a, const void *from, size_t bytes) {
    if (bytes > a->size)
        fail("an area is too small");
    memset(a->writable + a->at, FILLED, a->bytes);
    a->bytes = bytes;
    a->at = one_in(4) ? 0 : a->size - bytes;
    memcpy(a->writable + a->at, from, bytes);
}
static uint8_t *lent(struct area *a) { return a->bytes == 0 && one_in(2) ? NULL : a->writable + a->at; }
static const uint8_t *shown(struct area *a) { return a->bytes == 0 && one_in(2) ? NULL : a->readable + a->at; }

/* The lent part has these bytes, and what is around it is as it was. */
static void same(struct area *a, const void *bytes, const char *what) {
    if (memcmp(a->writable + a->at, bytes, a->bytes) != 0)
        fail(what);
    size_t from = a->at < AROUND ? 0 : a->at - AROUND, to = a->at + a->bytes;
    for (size_t i = from; i < a->at; i++)
        if (a->writable[i] != FILLED)
            fail("a byte before what was lent was written");
    for (size_t i = to; i < a->size && i < to + AROUND; i++)
        if (a->writable[i] != FILLED)
            fail("a byte behind what was lent was written");
}

static struct area pool_area, record_area, second_area, output_area, carry_area, carried_area, happened_area, kinds_area, keys_area, payloads_area, lows_area, highs_area, number_areas[7];

/* A number lent to be written; what it is before must not matter. */
static void *number(int which, size_t bytes) {
    uint64_t before = (uint64_t)any() << 32 | any();
    place(&number_areas[which], &before, bytes);
    return lent(&number_areas[which]);
}
static void told(int which, const void *expected, const char *what) { same(&number_areas[which], expected, what); }

static void answered(uint8_t library, uint8_t plain) {
    if (library != plain)
        fail("the answers differ");
    answers[library & 15]++;
    calls++;
}

/* The pool of this episode, as plain C has it. */
static uint8_t pool[POOL_ROOM];
static uint64_t pool_length;
static uint32_t keys_named; /* how many different small keys the records name */

static uint32_t word_at(const uint8_t *at) { return (uint32_t)at[0] << 24 | (uint32_t)at[1] << 16 | (uint32_t)at[2] << 8 | at[3]; }
static void set_word(uint8_t *at, uint32_t x) {
    for (int i = 0; i < 4; i++)
        at[i] = (uint8_t)(x >> (24 - 8 * i));
}

static uint32_t key(void) {
    static const uint32_t edges[] = {0, 1, 0x7FFFFFFF, 0x80000000u, 0xFFFFFFFEu, 0xFFFFFFFFu};
    if (one_in(8))
        return edges[below(6)];
    return one_in(16) ? any() : below(keys_named) * (one_in(2) ? 1u : 0x01000001u);
}

static int by_value(const void *a, const void *b) {
    uint32_t x = *(const uint32_t *)a, y = *(const uint32_t *)b;
    return x < y ? -1 : x > y;
}

/* The lists of a record, most of them in order. */
static struct {
    uint32_t snapshot, keys[LIST], lows[PAIRS], highs[PAIRS];
    uint64_t payloads[LIST], points, scans;
    uint8_t kinds[LIST];
} lists;

/* How many points and scans a record is to have: few as a rule, about a limit of a version, or any number. */
static uint32_t some_points(void) {
    static const uint32_t edges[] = {FEW_POINTS - 1, FEW_POINTS, FEW_POINTS + 1, EMUPARASOL_MOST_POINTS - 1, EMUPARASOL_MOST_POINTS, EMUPARASOL_MOST_POINTS + 1};
    if (one_in(40))
        return one_in(2) ? edges[below(6)] : below(EMUPARASOL_MOST_POINTS + 2);
    return one_in(16) ? below(FEW_POINTS + 2) : below(7);
}
static uint32_t some_scans(void) {
    static const uint32_t edges[] = {FEW_SCANS, FEW_SCANS + 1, EMUPARASOL_MOST_SCANS, EMUPARASOL_MOST_SCANS + 1};
    if (one_in(40))
        return one_in(2) ? edges[below(4)] : below(EMUPARASOL_MOST_SCANS + 2);
    return one_in(3) ? below(one_in(8) ? FEW_SCANS + 1 : 3) : 0;
}

/* So many numbers that rise, from a small one on. */
static void rising(uint32_t *to, uint32_t count) {
    uint32_t at = below(40), step = one_in(3) ? 0x00100001u : 1 + below(4);
    for (uint32_t i = 0; i < count; i++, at += step)
        to[i] = at;
}

static void make_lists(void) {
    uint32_t p = word_at(pool + 12), wanted = some_points(), ends[2 * PAIRS];
    bool in_order = wanted >= FEW_POINTS, calm = in_order && !one_in(3); /* a calm record writes few keys, and commits also into a small pool */
    lists.snapshot = one_in(12) ? any() : p - below(one_in(4) ? 12 : 3) + (one_in(20) ? 1 : 0);
    rising(lists.keys, wanted);
    for (uint32_t i = 0; i < wanted && !in_order; i++)
        lists.keys[i] = wanted > 30 ? below(200) : key();
    qsort(lists.keys, wanted, 4, by_value);
    lists.points = 0;
    for (uint32_t i = 0; i < wanted; i++)
        if (i == 0 || lists.keys[i] != lists.keys[lists.points - 1])
            lists.keys[lists.points++] = lists.keys[i];
    for (uint64_t i = 0; i < lists.points; i++) {
        lists.kinds[i] = (uint8_t)(calm && !one_in(200) ? EMUPARASOL_KIND_READ : one_in(3) ? 1 + below(3) : 2 + below(2));
        lists.payloads[i] = lists.kinds[i] == 2 ? (uint64_t)any() << 32 | any() : 0;
    }
    lists.scans = some_scans();
    rising(ends, 2 * (uint32_t)lists.scans);
    for (uint64_t i = 0; i < 2 * lists.scans && lists.scans < FEW_SCANS; i++)
        ends[i] = key();
    qsort(ends, 2 * lists.scans, 4, by_value);
    for (uint64_t i = 0; i < lists.scans; i++) {
        lists.lows[i] = ends[2 * i];
        lists.highs[i] = ends[2 * i + 1];
    }
}

/* A record, well formed or nearly. */
static uint64_t make_record(uint8_t *record) {
    uint64_t size = 0;
    for (;;) {
        make_lists();
        if (plain_write(lists.snapshot, lists.kinds, lists.points, lists.keys, lists.points, lists.payloads, lists.points, lists.lows, lists.scans,
                        lists.highs, lists.scans, record, RECORD_ROOM, &size) == 0)
            break;
    }
    if (one_in(8)) {
        switch (below(6)) {
        case 0: record[below((uint32_t)size)] ^= (uint8_t)(1u << below(8)); break;
        case 5: record[2 + below(7)] ^= (uint8_t)(1u << below(8)); break; /* version, snapshot, the counts */
        case 1: record[below((uint32_t)size)] = (uint8_t)any(); break;
        case 2: size = below((uint32_t)size + 1); break;
        case 3:
            for (uint32_t more = 1 + below(9); more > 0 && size < RECORD_ROOM; more--)
                record[size++] = (uint8_t)any();
            break;
        default:
            if (size >= 9) {
                uint32_t length = (uint32_t)size - 2 + below(3) - 1;
                record[0] = (uint8_t)(length >> 8);
                record[1] = (uint8_t)length;
            }
        }
    }
    return size;
}

/* Damages a pool here and there: words exchanged, moved by one, set to something that stands elsewhere; or its length. */
static uint64_t damage(uint8_t *bytes, uint64_t length) {
    for (uint32_t times = 1 + below(2); times > 0 && length >= 64; times--) {
        uint8_t *at = bytes + 4 * below((uint32_t)(length / 4)), *other = bytes + 4 * below((uint32_t)(length / 4));
        if (one_in(3))
            at = bytes + 4 * below(8);
        switch (below(7)) {
        case 0: at[below(4)] ^= (uint8_t)(1u << below(8)); break;
        case 1: set_word(at, word_at(at) + 1); break;
        case 2: set_word(at, word_at(at) - 1); break;
        case 3: set_word(at, word_at(other)); break;
        case 4: set_word(at, below(8)); break;
        case 5: set_word(at, one_in(2) ? 0 : 0xFFFFFFFFu); break;
        default:
            if (one_in(4))
                length = one_in(2) ? below((uint32_t)length) : length + 1 + below(64);
        }
    }
    return length;
}

static void try_create(uint32_t n, uint32_t z, uint64_t length) {
    doing = "create";
    for (uint64_t i = 0; i < length; i++)
        pool[i] = (uint8_t)any();
    place(&pool_area, pool, length);
    answered(emuparasol_create(lent(&pool_area), length, n, z), plain_create(pool, length, n, z));
    same(&pool_area, pool, "the pools differ");
}

static void try_status(uint8_t *bytes, uint64_t length) {
    uint32_t plain[5], *to[5];
    doing = "status";
    place(&pool_area, bytes, length);
    for (int i = 0; i < 5; i++)
        to[i] = number(i, 4);
    uint8_t answer = emuparasol_status(shown(&pool_area), length, to[0], to[1], to[2], to[3], to[4]);
    answered(answer, plain_status(bytes, length, &plain[0], &plain[1], &plain[2], &plain[3], &plain[4]));
    for (int i = 0; i < 5; i++)
        told(i, &plain[i], "the numbers differ");
    same(&pool_area, bytes, "the pool was written");
}

static void try_lookup(uint8_t *bytes, uint64_t length) {
    uint64_t payload;
    uint32_t position, wanted = key();
    doing = "lookup";
    place(&pool_area, bytes, length);
    uint64_t *to = number(0, 8);
    uint32_t *also = number(1, 4);
    uint8_t answer = emuparasol_lookup(shown(&pool_area), length, wanted, to, also);
    answered(answer, plain_lookup(bytes, length, wanted, &payload, &position));
    told(0, &payload, "the payloads differ");
    told(1, &position, "the positions differ");
    same(&pool_area, bytes, "the pool was written");
}

/* Whether a record deletes a key that is not live in the pool. */
static bool deletes_nothing(const uint8_t *bytes, uint64_t length, const uint8_t *record, uint64_t size) {
    static uint8_t kinds[LIST];
    static uint32_t keys[LIST], lows[PAIRS], highs[PAIRS];
    static uint64_t payloads[LIST];
    uint64_t points, scans, payload;
    uint32_t snapshot, position;
    if (plain_read(record, size, kinds, LIST, keys, LIST, payloads, LIST, lows, PAIRS, highs, PAIRS, &snapshot, &points, &scans) != EMUPARASOL_COMMITTED)
        return false;
    for (uint64_t i = 0; i < points; i++)
        if (kinds[i] == EMUPARASOL_KIND_DELETE && plain_lookup(bytes, length, keys[i], &payload, &position) == EMUPARASOL_COMMITTED && position == 0)
            return true;
    return false;
}

static void try_meld(uint8_t *bytes, uint64_t length) {
    static uint8_t record[RECORD_ROOM];
    uint32_t looks;
    uint64_t size = make_record(record);
    doing = "meld";
    place(&pool_area, bytes, length);
    place(&record_area, record, size);
    uint32_t *to = number(0, 4);
    bool nothing = one_in(4) && deletes_nothing(bytes, length, record, size), full = nothing && word_at(bytes + 16) == word_at(bytes + 4);
    uint8_t answer = emuparasol_meld(lent(&pool_area), length, shown(&record_area), size, to);
    answered(answer, plain_meld(bytes, length, record, size, &looks));
    nothing_deleted += nothing && answer == EMUPARASOL_COMMITTED;
    nothing_deleted_in_full += full && answer == EMUPARASOL_COMMITTED;
    if (size > 2 && record[2] == 2)
        wide_melded[answer & 15]++;
    told(0, &looks, "the looks differ");
    same(&pool_area, bytes, "the pools differ");
    same(&record_area, record, "the record was written");
}

static void try_explain(uint8_t *bytes, uint64_t length) {
    static uint8_t record[RECORD_ROOM];
    uint32_t looks, blamed, position, lag, keys;
    uint64_t point, scan, size = make_record(record);
    doing = "explain";
    place(&pool_area, bytes, length);
    place(&record_area, record, size);
    uint32_t *to_looks = number(0, 4), *to_key = number(1, 4), *to_position = number(2, 4);
    uint64_t *to_point = number(3, 8), *to_scan = number(4, 8);
    uint32_t *to_lag = number(5, 4), *to_keys = number(6, 4);
    uint8_t answer = emuparasol_explain(shown(&pool_area), length, shown(&record_area), size, to_looks, to_key, to_position, to_point, to_scan, to_lag,
                                        to_keys);
    answered(answer, plain_explain(bytes, length, record, size, &looks, &blamed, &position, &point, &scan, &lag, &keys));
    told(0, &looks, "the looks differ");
    told(1, &blamed, "the keys in conflict differ");
    told(2, &position, "the positions differ");
    told(3, &point, "the numbers of the points differ");
    told(4, &scan, "the numbers of the scans differ");
    told(5, &lag, "the lags differ");
    told(6, &keys, "the numbers of keys differ");
    same(&pool_area, bytes, "the pool was written");
    same(&record_area, record, "the record was written");
    points_blamed += point > 0;
    scans_blamed += scan > 0;
    lags_told += lag > 0;
    keys_told += keys > 0;
}

/* The log of this episode that feed has not taken yet, and what it carries, as plain C has it. */
static uint8_t stream[2 * RECORD_ROOM], carry[EMUPARASOL_CARRY_BYTES];
static uint64_t stream_length, carried;

/* One call of feed, with so many bytes of the stream as the part. */
static uint8_t feed(uint8_t *bytes, uint64_t length, uint8_t *carrying, uint64_t room, uint64_t *count, uint64_t part, uint64_t *taken) {
    uint8_t happened;
    uint32_t looks;
    uint64_t before = *count;
    bool over = one_in(6);
    doing = "feed";
    place(&pool_area, bytes, length);
    place(&carry_area, carrying, room);
    place(&record_area, stream, part);
    place(&carried_area, count, 8);
    place(&happened_area, stream, 1);
    uint32_t *to_looks = number(0, 4);
    uint64_t *to_taken = number(1, 8);
    uint8_t answer = emuparasol_feed(lent(&pool_area), length, lent(&carry_area), room, (uint64_t *)(void *)lent(&carried_area), shown(&record_area),
                                     part, over, lent(&happened_area), to_looks, to_taken);
    answered(answer, plain_feed(bytes, length, carrying, room, count, stream, part, over, &happened, &looks, taken));
    same(&happened_area, &happened, "what happened differs");
    same(&carried_area, count, "the numbers carried differ");
    told(0, &looks, "the looks differ");
    told(1, taken, "the numbers taken differ");
    same(&pool_area, bytes, "the pools differ");
    same(&carry_area, carrying, "the carries differ");
    same(&record_area, stream, "the part was written");
    happenings[happened & 3]++;
    completed += happened == EMUPARASOL_DECIDED && before > 0;
    wide_fed += happened == EMUPARASOL_DECIDED && before > 0 && answer != EMUPARASOL_MALFORMED && carrying[2] == 2;
    return answer;
}

/* A carry of any size, with any bytes, and any number of them carried: a length that can be or cannot at its front, and a count about as large. */
static void feed_anything(uint8_t *bytes, uint64_t length, uint64_t part) {
    static uint8_t odd[RECORD_ROOM];
    static const uint64_t rooms[] = {0, 1, 2, 905, EMUPARASOL_CARRY_BYTES - 1, EMUPARASOL_CARRY_BYTES + 1, RECORD_ROOM};
    static const uint64_t lengths[] = {0, 6, 7, 8, 903, 904, EMUPARASOL_MOST_RECORD - 3, EMUPARASOL_MOST_RECORD - 2, EMUPARASOL_MOST_RECORD - 1, 65535};
    uint32_t large = one_in(2) ? 1000 : EMUPARASOL_MOST_RECORD + 100;
    uint64_t said = one_in(2) ? lengths[below(10)] : below(large), taken, room = one_in(3) ? rooms[below(7)] : EMUPARASOL_CARRY_BYTES;
    uint64_t counts[] = {0, 1, 2, 3, said, said + 1, said + 2, said + 3, below(large), ~(uint64_t)below(3), (uint64_t)any() << 32 | any()};
    uint64_t count = counts[below(11)];
    for (uint64_t i = 0; i < sizeof odd; i++)
        odd[i] = (uint8_t)(i < 64 ? any() : said * i + count);
    odd[0] = (uint8_t)(said >> 8);
    odd[1] = (uint8_t)said;
    feed(bytes, length, odd, room, &count, part, &taken);
}

static void try_feed(uint8_t *bytes, uint64_t length) {
    uint64_t taken, part;
    while (stream_length < 40 || (one_in(2) && stream_length < RECORD_ROOM / 2)) {
        stream_length += make_record(stream + stream_length);
        if (one_in(40))
            stream[stream_length++] = (uint8_t)any();
    }
    switch (below(6)) {
    case 0: part = 0; break;
    case 1: part = 1; break;
    case 2: part = below(12); break;
    default: part = below((uint32_t)stream_length + 1);
    }
    if (part > RECORD_ROOM)
        part = RECORD_ROOM;
    if (one_in(4)) {
        feed_anything(bytes, length, part);
        return;
    }
    uint8_t answer = feed(bytes, length, carry, sizeof carry, &carried, part, &taken);
    if ((answer == EMUPARASOL_TORN_LOG || answer == EMUPARASOL_IMPOSSIBLE_LENGTH) && one_in(2)) {
        carried = stream_length = 0; /* another log; else its next part, to which an impossible length is said again */
        return;
    }
    stream_length -= taken;
    memmove(stream, stream + taken, stream_length);
}

static void try_refresh(uint8_t *bytes, uint64_t length) {
    static uint8_t record[RECORD_ROOM], output[RECORD_ROOM];
    uint64_t size = make_record(record), room = one_in(4) ? below((uint32_t)size + 20) : size + below(20), offset, part;
    doing = "refresh";
    memset(output, 0x3C, sizeof output);
    place(&pool_area, bytes, length);
    place(&record_area, record, size);
    place(&output_area, output, room);
    uint8_t answer = emuparasol_refresh(shown(&pool_area), length, shown(&record_area), size, lent(&output_area), room);
    answered(answer, plain_refresh(bytes, length, record, size, output, room));
    same(&pool_area, bytes, "the pool was written");
    same(&record_area, record, "the record was written");
    same(&output_area, output, "the outputs differ");
    doing = "in_force";
    if (one_in(4))
        answer = (uint8_t)below(14);
    uint64_t *to = number(0, 8), *also = number(1, 8);
    bool found = emuparasol_in_force(answer, shown(&record_area), size, shown(&output_area), room, to, also);
    answered(found, plain_in_force(answer, record, size, output, room, &offset, &part));
    told(0, &offset, "the offsets differ");
    told(1, &part, "the lengths differ");
    same(&output_area, output, "the output was written");
}

static void try_record(void) {
    static uint8_t record[RECORD_ROOM], kinds[LIST], zero[RECORD_ROOM];
    static uint32_t keys[LIST], lows[PAIRS], highs[PAIRS];
    static uint64_t payloads[LIST];
    uint64_t size = make_record(record), points, scans, next;
    uint64_t room[5] = {LIST, LIST, LIST, PAIRS, PAIRS};
    uint32_t snapshot;
    for (int i = 0; i < 5; i++) {
        uint64_t enough = i < 3 ? lists.points : lists.scans;
        room[i] = one_in(12) && enough > 0 ? enough - 1 : enough + below(3);
        if (one_in(30))
            room[i] = i < 3 ? FEW_POINTS : FEW_SCANS;
    }
    place(&record_area, record, size);
    doing = "check";
    answered(emuparasol_check(shown(&record_area), size), plain_check(record, size));
    doing = "read";
    memset(kinds, 7, sizeof kinds);
    memset(keys, 7, sizeof keys);
    memset(payloads, 7, sizeof payloads);
    memset(lows, 7, sizeof lows);
    memset(highs, 7, sizeof highs);
    place(&kinds_area, kinds, room[0]);
    place(&keys_area, keys, 4 * room[1]);
    place(&payloads_area, payloads, 8 * room[2]);
    place(&lows_area, lows, 4 * room[3]);
    place(&highs_area, highs, 4 * room[4]);
    uint32_t *first = number(0, 4);
    uint64_t *second = number(1, 8), *third = number(2, 8);
    uint8_t answer = emuparasol_read(shown(&record_area), size, lent(&kinds_area), room[0], (uint32_t *)(void *)lent(&keys_area), room[1],
                                     (uint64_t *)(void *)lent(&payloads_area), room[2], (uint32_t *)(void *)lent(&lows_area), room[3],
                                     (uint32_t *)(void *)lent(&highs_area), room[4], first, second, third);
    answered(answer, plain_read(record, size, kinds, room[0], keys, room[1], payloads, room[2], lows, room[3], highs, room[4], &snapshot, &points, &scans));
    wide_read += answer == EMUPARASOL_COMMITTED && record[2] == 2;
    told(0, &snapshot, "the snapshots differ");
    told(1, &points, "the numbers of points differ");
    told(2, &scans, "the numbers of scans differ");
    same(&kinds_area, kinds, "the kinds differ");
    same(&keys_area, keys, "the keys differ");
    same(&payloads_area, payloads, "the payloads differ");
    same(&lows_area, lows, "the lows differ");
    same(&highs_area, highs, "the highs differ");
    same(&record_area, record, "the record was written");
    doing = "cut";
    uint64_t from = one_in(3) ? below((uint32_t)size + 3) : one_in(30) ? ~(uint64_t)below(3) : 0;
    uint64_t *to = number(0, 8);
    answered(emuparasol_cut(shown(&record_area), size, from, to), plain_cut(record, size, from, &next));
    told(0, &next, "the places differ");
    doing = "write";
    uint64_t many[5] = {lists.points, lists.points, lists.points, lists.scans, lists.scans}, written;
    if (one_in(6)) {
        switch (below(6)) {
        case 0: many[below(5)] += 1; break;
        case 1: lists.kinds[below((uint32_t)lists.points + 1)] = (uint8_t)below(5); break;
        case 2: lists.keys[below(8)] = key(); break;
        case 3: lists.payloads[below(8)] = below(2); break;
        case 4: lists.lows[below(3)] = key(); break;
        default:
            many[0] = many[1] = many[2] = one_in(2) ? below(LIST) : EMUPARASOL_MOST_POINTS + below(3);
            rising(lists.keys, LIST);
            if (one_in(2)) {
                many[3] = many[4] = EMUPARASOL_MOST_SCANS - 1 + below(4);
                rising(lists.lows, PAIRS);
                memcpy(lists.highs, lists.lows, sizeof lists.highs);
            }
        }
    }
    uint64_t output_room = one_in(6) ? below((uint32_t)size + 1) : one_in(6) ? RECORD_ROOM - below(2) : size + below(4);
    memset(zero, 0x3C, sizeof zero);
    place(&kinds_area, lists.kinds, many[0]);
    place(&keys_area, lists.keys, 4 * many[1]);
    place(&payloads_area, lists.payloads, 8 * many[2]);
    place(&lows_area, lists.lows, 4 * many[3]);
    place(&highs_area, lists.highs, 4 * many[4]);
    place(&output_area, zero, output_room);
    to = number(0, 8);
    answer = emuparasol_write(lists.snapshot, shown(&kinds_area), many[0], (const uint32_t *)(const void *)shown(&keys_area), many[1],
                              (const uint64_t *)(const void *)shown(&payloads_area), many[2], (const uint32_t *)(const void *)shown(&lows_area), many[3],
                              (const uint32_t *)(const void *)shown(&highs_area), many[4], lent(&output_area), output_room, to);
    answered(answer, plain_write(lists.snapshot, lists.kinds, many[0], lists.keys, many[1], lists.payloads, many[2], lists.lows, many[3], lists.highs,
                                 many[4], zero, output_room, &written));
    told(0, &written, "the sizes differ");
    same(&output_area, zero, "the outputs differ");
    same(&keys_area, lists.keys, "the keys were written");
}

/* How many points and scans a well-formed record has. */
static uint32_t points_in(const uint8_t *record) { return record[2] == 1 ? record[7] : (uint32_t)record[7] << 8 | record[8]; }
static uint32_t scans_in(const uint8_t *record) { return record[2] == 1 ? record[8] : (uint32_t)record[9] << 8 | record[10]; }

/* Makes the points of a well-formed record reads, most of them or all. */
static uint64_t calmed(uint8_t *record, uint64_t size) {
    uint64_t points, scans;
    uint32_t snapshot, spared = one_in(2) ? 0 : 30;
    if (plain_read(record, size, lists.kinds, LIST, lists.keys, LIST, lists.payloads, LIST, lists.lows, PAIRS, lists.highs, PAIRS, &snapshot, &points, &scans) !=
        EMUPARASOL_COMMITTED)
        return size;
    for (uint64_t i = 0; i < points; i++)
        if (spared == 0 || !one_in(spared)) {
            lists.kinds[i] = EMUPARASOL_KIND_READ;
            lists.payloads[i] = 0;
        }
    plain_write(snapshot, lists.kinds, points, lists.keys, points, lists.payloads, points, lists.lows, scans, lists.highs, scans, record, RECORD_ROOM, &size);
    return size;
}

/* Two records as one: most often with one snapshot and a first record that writes little. */
static void try_join(void) {
    static uint8_t a[RECORD_ROOM], b[RECORD_ROOM], output[RECORD_ROOM];
    uint64_t first = make_record(a), size, second;
    if (!one_in(4))
        first = calmed(a, first);
    second = make_record(b);
    if (!one_in(8) && first >= 9 && second >= 9)
        memcpy(b + 3, a + 3, 4);
    uint64_t room = one_in(4) ? below((uint32_t)(first + second) + 1) : first + second;
    if (room > RECORD_ROOM)
        room = RECORD_ROOM;
    memset(output, 0x3C, sizeof output);
    doing = "join";
    place(&record_area, a, first);
    place(&second_area, b, second);
    place(&output_area, output, room);
    uint64_t *to = number(0, 8);
    uint8_t answer = emuparasol_join(shown(&record_area), first, shown(&second_area), second, lent(&output_area), room, to);
    answered(answer, plain_join(a, first, b, second, output, room, &size));
    told(0, &size, "the sizes differ");
    same(&output_area, output, "the outputs differ");
    same(&record_area, a, "the first record was written");
    same(&second_area, b, "the second record was written");
    if (answer == EMUPARASOL_COMMITTED) {
        joined_records++;
        joined_wide += output[2] == 2;
        joined_keys += points_in(output) < points_in(a) + points_in(b);
        joined_scans += scans_in(output) < scans_in(a) + scans_in(b);
    }
}

/* NULL for everything that is lent with a number of elements. */
static void expected(uint8_t answer, uint8_t right) {
    if (answer != right)
        fail("another answer where nothing was lent");
    answered(answer, right);
}
static void try_nothing(void) {
    static uint8_t empty[EMUPARASOL_CARRY_BYTES];
    uint8_t h = 9;
    uint64_t a = 1, b = 1, c = 1;
    uint32_t p = 1, q = 1, r = 1, s = 1, t = 1;
    doing = "nothing lent";
    expected(emuparasol_create(NULL, 0, 1, 1), EMUPARASOL_BAD_LIMITS);
    expected(emuparasol_status(NULL, 0, &p, &q, &r, &s, &t), EMUPARASOL_UNFIT_POOL);
    expected(emuparasol_lookup(NULL, 0, key(), &a, &p), EMUPARASOL_UNFIT_POOL);
    expected(emuparasol_meld(NULL, 0, NULL, 0, &p), EMUPARASOL_UNFIT_POOL);
    expected(emuparasol_explain(NULL, 0, NULL, 0, &p, &q, &r, &a, &b, &s, &t), EMUPARASOL_UNFIT_POOL);
    if (p + q + r + s + t + a + b != 0)
        fail("a number that is not 0 where nothing was lent");
    a = 1;
    expected(emuparasol_feed(NULL, 0, NULL, 0, &a, NULL, 0, one_in(2), &h, &p, &b), EMUPARASOL_OUTPUT_SHORT);
    a = 0;
    expected(emuparasol_feed(NULL, 0, empty, sizeof empty, &a, NULL, 0, true, &h, &p, &b), EMUPARASOL_COMMITTED);
    if (h != EMUPARASOL_END)
        fail("no end where nothing was lent and the log is over");
    expected(emuparasol_feed(NULL, 0, empty, sizeof empty, &a, NULL, 0, false, &h, &p, &b), EMUPARASOL_COMMITTED);
    if (h != EMUPARASOL_MORE)
        fail("something else than more where nothing was lent");
    expected(emuparasol_refresh(NULL, 0, NULL, 0, NULL, 0), EMUPARASOL_UNFIT_POOL);
    expected(emuparasol_in_force((uint8_t)below(14), NULL, 0, NULL, 0, &a, &b), false);
    expected(emuparasol_check(NULL, 0), EMUPARASOL_MALFORMED);
    expected(emuparasol_read(NULL, 0, NULL, 0, NULL, 0, NULL, 0, NULL, 0, NULL, 0, &p, &a, &b), EMUPARASOL_MALFORMED);
    expected(emuparasol_write(any(), NULL, 0, NULL, 0, NULL, 0, NULL, 0, NULL, 0, NULL, 0, &c), EMUPARASOL_OUTPUT_SHORT);
    expected(emuparasol_join(NULL, 0, NULL, 0, NULL, 0, &c), EMUPARASOL_CANNOT_JOIN);
    if (c != 0)
        fail("a size where nothing was lent");
    expected(emuparasol_cut(NULL, 0, 0, &a), EMUPARASOL_COMMITTED);
    expected(emuparasol_cut(NULL, 0, 1 + (uint64_t)any(), &b), EMUPARASOL_TORN_LOG);
}

/* A pool from its creation through some records, with everything else tried along the way. */
static void episode(void) {
    static uint8_t copy[POOL_ROOM];
    uint32_t n = one_in(100) ? 1 + below(MOST_N) : 1 + below(one_in(3) ? 60 : 12), z = one_in(3) ? 1 + below(4096) : 1 + below(5);
    keys_named = 1 + below(2 * n + 2);
    if (one_in(8)) {
        uint32_t odd[] = {0, n, n + 1, 65537, any()};
        try_create(odd[below(5)], one_in(2) ? z : odd[below(5)], below(8 * 64));
    }
    if (one_in(8))
        try_nothing();
    pool_length = EMUPARASOL_POOL_BYTES(n);
    try_create(n, z, pool_length);
    carried = stream_length = 0;
    for (int round = 0; round < 60; round++) {
        switch (below(12)) {
        case 0:
            try_lookup(pool, pool_length);
            try_status(pool, pool_length);
            break;
        case 1: try_refresh(pool, pool_length); break;
        case 2: try_record(); break;
        case 5:
        case 6: try_feed(pool, pool_length); break;
        case 7: try_explain(pool, pool_length); break;
        case 8: try_join(); break;
        case 3:
        case 4: {
            memcpy(copy, pool, pool_length);
            uint64_t length = damage(copy, pool_length);
            if (one_in(2))
                try_lookup(copy, length);
            if (one_in(2))
                try_status(copy, length);
            if (one_in(2))
                try_refresh(copy, length);
            if (one_in(2))
                try_feed(copy, length);
            if (one_in(2))
                try_explain(copy, length);
            try_meld(copy, length);
            break;
        }
        default: try_meld(pool, pool_length);
        }
        if (one_in(400)) /* a later position: the pool stays fit, for its writes are older */
            set_word(pool + 12, one_in(2) ? 0xFFFFFFFFu - below(4) : any() | 0x80000000u);
    }
}

int main(int argc, char **argv) {
    double seconds = argc > 1 ? atof(argv[1]) : 10;
    time_t now = time(NULL), until = now + (time_t)seconds;
    seed = argc > 2 ? strtoull(argv[2], NULL, 10) : (uint64_t)now;
    state = seed * 0x9E3779B97F4A7C15u + 1;
    setvbuf(stdout, NULL, _IOLBF, 0);
    signal(SIGSEGV, caught);
    signal(SIGBUS, caught);
    signal(SIGILL, caught);
    signal(SIGTRAP, caught);
    pool_area = area_of(POOL_ROOM);
    record_area = area_of(RECORD_ROOM);
    second_area = area_of(RECORD_ROOM);
    output_area = area_of(RECORD_ROOM);
    carry_area = area_of(RECORD_ROOM);
    carried_area = area_of(8);
    happened_area = area_of(1);
    kinds_area = area_of(LIST);
    keys_area = area_of(4 * LIST);
    payloads_area = area_of(8 * LIST);
    lows_area = area_of(4 * PAIRS);
    highs_area = area_of(4 * PAIRS);
    for (int i = 0; i < 7; i++)
        number_areas[i] = area_of(8);
    do
        for (int i = 0; i < 100; i++)
            episode();
    while (time(NULL) < until);
    printf("guarded: %llu calls in %.0f s, seed %llu: no difference, nothing touched that was not lent\nanswers", (unsigned long long)calls,
           difftime(time(NULL), now), (unsigned long long)seed);
    for (int i = 0; i < 13; i++) {
        printf(" %d:%lu", i, answers[i]);
        if (answers[i] == 0)
            fail("\nan answer did not occur");
    }
    printf("\nfed: refused %lu, decided %lu (%lu of them begun in the carry), more %lu, end %lu\n", happenings[EMUPARASOL_REFUSED],
           happenings[EMUPARASOL_DECIDED], completed, happenings[EMUPARASOL_MORE], happenings[EMUPARASOL_END]);
    for (int i = 0; i < 4; i++)
        if (happenings[i] == 0 || completed == 0)
            fail("something that feed does did not happen");
    printf("explained: a point in conflict %lu, a scan %lu, too old %lu, no room %lu\n", points_blamed, scans_blamed, lags_told, keys_told);
    if (points_blamed == 0 || scans_blamed == 0 || lags_told == 0 || keys_told == 0)
        fail("a reason was not told");
    printf("deletes of keys that are not live: %lu records with some were counted, %lu of them into a full pool\n", nothing_deleted, nothing_deleted_in_full);
    if (nothing_deleted_in_full == 0)
        fail("no delete of nothing was committed into a full pool");
    printf("joined: %lu, with a key that both name %lu, with scans that became one %lu, of version 2 %lu\n", joined_records, joined_keys, joined_scans,
           joined_wide);
    if (joined_keys == 0 || joined_scans == 0 || joined_wide == 0)
        fail("something of joining did not happen");
    printf("version 2: committed %lu, conflict %lu, no room %lu, malformed %lu; begun in the carry %lu, read %lu\n", wide_melded[EMUPARASOL_COMMITTED],
           wide_melded[EMUPARASOL_CONFLICT], wide_melded[EMUPARASOL_NO_ROOM], wide_melded[EMUPARASOL_MALFORMED], wide_fed, wide_read);
    if (wide_melded[EMUPARASOL_COMMITTED] == 0 || wide_melded[EMUPARASOL_CONFLICT] == 0 || wide_melded[EMUPARASOL_NO_ROOM] == 0 ||
        wide_melded[EMUPARASOL_MALFORMED] == 0 || wide_fed == 0 || wide_read == 0)
        fail("something of version 2 did not happen");
    return 0;
}
