/* What a C programmer would write for a card that trusts nobody either: one recursive pass for fitness, with whole words compared where they are
   constant; the record's lists on the stack; descents without recursion; nothing done that the record does not need. */
#include "plain.h"

#include <string.h>

#include "emuparasol.h"

enum { HEAD = 64, NODE = 32, DEEPEST = 33 };
#define NONE 0xFFFFFFFFu

/* The words of a node, and those of the header, by their offsets. */
enum { HEIGHT = 0, LOW = 4, NEWEST = 8, OLDEST = 12, LEFT = 16, RIGHT = 20, KIND = 24, SPARE = 28 };
enum { MARK = 0, LIMIT = 4, ZONE = 8, POSITION = 12, KEPT = 16, ROOT = 20, FREE = 24, REST = 28 };

/* What the word KIND of a node says. */
enum { NO_LEAF = 0, LIVE = 1, TOMBSTONE = 2 };

/* Big-endian numbers, on a processor of either byte order. */
#if __BYTE_ORDER__ == __ORDER_BIG_ENDIAN__
#define TURNED(bits, x) (x)
#else
#define TURNED(bits, x) __builtin_bswap##bits(x)
#endif

static inline uint32_t get(const uint8_t *at) {
    uint32_t x;
    memcpy(&x, at, 4);
    return TURNED(32, x);
}

static inline void set(uint8_t *at, uint32_t x) {
    x = TURNED(32, x);
    memcpy(at, &x, 4);
}

static inline uint64_t get_two(const uint8_t *at) {
    uint64_t x;
    memcpy(&x, at, 8);
    return TURNED(64, x);
}

static inline uint8_t *node_at(const uint8_t *pool, uint32_t i) { return (uint8_t *)pool + HEAD + NODE * (size_t)i; }

static inline uint32_t larger(uint32_t x, uint32_t y) { return x < y ? y : x; }
static inline uint32_t smaller(uint32_t x, uint32_t y) { return x < y ? x : y; }

/* What the fitness check carries along. */
struct check {
    const uint8_t *pool;
    uint32_t nodes, position, leaves;
};

static __attribute__((noinline)) uint64_t inner_sums(struct check *c, const uint8_t *n, uint32_t height, uint32_t low);

/* Newest (high half) and oldest of the tree at node i, which has to cover a part of the 2^top numbers from low on; 0 if it is no such tree. */
static inline __attribute__((always_inline)) uint64_t sums(struct check *c, uint32_t i, uint32_t low, uint32_t top) {
    if (i >= c->nodes)
        return 0;
    const uint8_t *n = node_at(c->pool, i);
    uint32_t height = get(n + HEIGHT), own = get(n + LOW);
    if (((uint64_t)(own ^ low) >> top) != 0)
        return 0;
    if (height > 0)
        return height > top ? 0 : inner_sums(c, n, height, own);
    uint64_t both = get_two(n + NEWEST), kind = get_two(n + KIND);
    uint32_t newest = (uint32_t)(both >> 32), oldest = (uint32_t)both;
    c->leaves++;
    if (newest - 1 >= c->position)
        return 0;
    if (__builtin_expect(kind == (uint64_t)LIVE << 32, 1))
        return oldest == NONE ? both : 0;
    return kind == (uint64_t)TOMBSTONE << 32 && oldest == newest && get_two(n + LEFT) == 0 ? both : 0;
}

/* The same for an inner node; leaves take no call of their own. */
static uint64_t inner_sums(struct check *c, const uint8_t *n, uint32_t height, uint32_t low) {
    uint32_t half = (uint32_t)1 << (height - 1);
    if (get_two(n + KIND) != 0 || (low & (half | (half - 1))) != 0)
        return 0;
    uint64_t left = sums(c, get(n + LEFT), low, height - 1);
    if (left == 0)
        return 0;
    uint64_t right = sums(c, get(n + RIGHT), low | half, height - 1);
    if (right == 0)
        return 0;
    uint64_t newest = (left > right ? left : right) >> 32, both = newest << 32 | smaller((uint32_t)left, (uint32_t)right);
    return get_two(n + NEWEST) == both ? both : 0;
}

/* Whether from node i on there is a chain of exactly so many free nodes. */
static bool free_fit(const uint8_t *pool, uint32_t nodes, uint32_t i, uint32_t count) {
    for (uint32_t rank = count; rank > 0; rank--) {
        if (i >= nodes)
            return false;
        const uint8_t *n = node_at(pool, i);
        if (get(n + HEIGHT) != NONE || get(n + NEWEST) != rank || get(n + OLDEST) != 0 || (get_two(n + LEFT) | get_two(n + KIND)) != 0)
            return false;
        i = get(n + LOW);
    }
    return i == NONE;
}

static bool fits(const uint8_t *pool, uint64_t length) {
    if (length < HEAD || get(pool + MARK) != 0x454D5031u)
        return false;
    uint32_t limit = get(pool + LIMIT), zone = get(pool + ZONE), kept = get(pool + KEPT), root = get(pool + ROOT);
    if (limit - 1 >= 65536 || zone - 1 >= 4096 || length != HEAD + 64 * (uint64_t)limit || kept > limit)
        return false;
    for (int at = REST; at < HEAD; at += 4)
        if (get(pool + at) != 0)
            return false;
    struct check c = {pool, 2 * limit, get(pool + POSITION), 0};
    if (kept == 0 ? root != NONE : sums(&c, root, 0, 32) == 0)
        return false;
    return c.leaves == kept && free_fit(pool, 2 * limit, get(pool + FREE), kept == 0 ? 2 * limit : 2 * limit + 1 - 2 * kept);
}

/* Whether a node covers a key. */
static inline bool covers(const uint8_t *n, uint32_t key) { return (((uint64_t)key ^ get(n + LOW)) >> get(n + HEIGHT)) == 0; }

/* The leaf of a key, or NULL. */
static uint8_t *leaf_of(const uint8_t *pool, uint32_t key) {
    uint32_t i = get(pool + ROOT);
    if (i == NONE)
        return NULL;
    for (;;) {
        uint8_t *n = node_at(pool, i);
        if (!covers(n, key))
            return NULL;
        uint32_t height = get(n + HEIGHT);
        if (height == 0)
            return n;
        i = get(n + ((key >> (height - 1)) & 1 ? RIGHT : LEFT));
    }
}

/* The tombstones below node i; one at position NONE is not told by `oldest` alone. */
static uint32_t tombstones_below(const uint8_t *pool, uint32_t i, uint32_t position) {
    const uint8_t *n = node_at(pool, i);
    if (get(n + OLDEST) > position)
        return 0;
    if (get(n + HEIGHT) == 0)
        return get(n + KIND) == TOMBSTONE;
    return tombstones_below(pool, get(n + LEFT), position) + tombstones_below(pool, get(n + RIGHT), position);
}

uint8_t plain_status(const uint8_t *pool, uint64_t pool_length, uint32_t *n, uint32_t *z, uint32_t *position, uint32_t *kept, uint32_t *tombstones) {
    *n = *z = *position = *kept = *tombstones = 0;
    if (!fits(pool, pool_length))
        return EMUPARASOL_UNFIT_POOL;
    *n = get(pool + LIMIT);
    *z = get(pool + ZONE);
    *position = get(pool + POSITION);
    *kept = get(pool + KEPT);
    *tombstones = *kept == 0 ? 0 : tombstones_below(pool, get(pool + ROOT), *position);
    return EMUPARASOL_COMMITTED;
}

uint8_t plain_lookup(const uint8_t *pool, uint64_t pool_length, uint32_t key, uint64_t *payload, uint32_t *position) {
    *payload = 0;
    *position = 0;
    if (!fits(pool, pool_length))
        return EMUPARASOL_UNFIT_POOL;
    const uint8_t *leaf = leaf_of(pool, key);
    if (leaf != NULL && get(leaf + KIND) == LIVE) {
        *payload = get_two(leaf + LEFT);
        *position = get(leaf + NEWEST);
    }
    return EMUPARASOL_COMMITTED;
}

/* The most points and scans of a record of version 1, and the bytes before its points. One that has more has version 2 and a byte more for each count. */
enum { FEW_POINTS = 64, FEW_SCANS = 8, HEAD_OF_ONE = 9, HEAD_OF_TWO = 11 };

/* Whether a record with so many points and scans has version 2. */
static inline bool second(uint64_t points, uint64_t scans) { return points > FEW_POINTS || scans > FEW_SCANS; }

/* A record's lists. */
struct record {
    uint32_t snapshot;
    int points, scans;
    uint8_t kinds[EMUPARASOL_MOST_POINTS];
    uint32_t keys[EMUPARASOL_MOST_POINTS];
    uint64_t payloads[EMUPARASOL_MOST_POINTS];
    uint32_t lows[EMUPARASOL_MOST_SCANS], highs[EMUPARASOL_MOST_SCANS];
};

static bool parse(const uint8_t *at, uint64_t length, struct record *r) {
    if (length < HEAD_OF_ONE || length != 2 + (uint64_t)(at[0] << 8 | at[1]))
        return false;
    const uint8_t *end = at + length;
    r->snapshot = get(at + 3);
    if (at[2] == 1) {
        r->points = at[7];
        r->scans = at[8];
        if (r->points > FEW_POINTS || r->scans > FEW_SCANS)
            return false;
        at += HEAD_OF_ONE;
    } else {
        if (at[2] != 2 || length < HEAD_OF_TWO)
            return false;
        r->points = at[7] << 8 | at[8];
        r->scans = at[9] << 8 | at[10];
        if (r->points > EMUPARASOL_MOST_POINTS || r->scans > EMUPARASOL_MOST_SCANS || !second((uint64_t)r->points, (uint64_t)r->scans))
            return false;
        at += HEAD_OF_TWO;
    }
    for (int i = 0; i < r->points; i++) {
        if (end - at < 5 || at[0] < EMUPARASOL_KIND_READ || at[0] > EMUPARASOL_KIND_DELETE)
            return false;
        r->kinds[i] = at[0];
        r->keys[i] = get(at + 1);
        if (i > 0 && r->keys[i] <= r->keys[i - 1])
            return false;
        at += 5;
        r->payloads[i] = 0;
        if (r->kinds[i] == EMUPARASOL_KIND_PUT) {
            if (end - at < 8)
                return false;
            r->payloads[i] = get_two(at);
            at += 8;
        }
    }
    if (end - at != 8 * r->scans)
        return false;
    for (int i = 0; i < r->scans; i++, at += 8) {
        r->lows[i] = get(at);
        r->highs[i] = get(at + 4);
        if (r->lows[i] > r->highs[i] || (i > 0 && r->lows[i] <= r->highs[i - 1]))
            return false;
    }
    return true;
}

uint8_t plain_check(const uint8_t *record, uint64_t length) {
    struct record r;
    return parse(record, length, &r) ? EMUPARASOL_COMMITTED : EMUPARASOL_MALFORMED;
}

uint8_t plain_read(const uint8_t *record, uint64_t length, uint8_t *kinds, uint64_t kinds_length, uint32_t *keys, uint64_t keys_length,
                   uint64_t *payloads, uint64_t payloads_length, uint32_t *lows, uint64_t lows_length, uint32_t *highs, uint64_t highs_length,
                   uint32_t *snapshot, uint64_t *points, uint64_t *scans) {
    struct record r;
    *snapshot = 0;
    *points = *scans = 0;
    if (!parse(record, length, &r))
        return EMUPARASOL_MALFORMED;
    uint64_t many = (uint64_t)r.points, pairs = (uint64_t)r.scans;
    if (kinds_length < many || keys_length < many || payloads_length < many || lows_length < pairs || highs_length < pairs)
        return EMUPARASOL_OUTPUT_SHORT;
    memcpy(kinds, r.kinds, many);
    memcpy(keys, r.keys, 4 * many);
    memcpy(payloads, r.payloads, 8 * many);
    memcpy(lows, r.lows, 4 * pairs);
    memcpy(highs, r.highs, 4 * pairs);
    *snapshot = r.snapshot;
    *points = many;
    *scans = pairs;
    return EMUPARASOL_COMMITTED;
}

/* Stores what stands before the points of a record of so many bytes, points and scans, and gives the place behind it. */
static uint8_t *head_to(uint8_t *at, uint64_t length, uint32_t snapshot, uint64_t points, uint64_t scans) {
    bool wide = second(points, scans);
    *at++ = (uint8_t)((length - 2) >> 8);
    *at++ = (uint8_t)(length - 2);
    *at++ = wide ? 2 : 1;
    set(at, snapshot);
    at += 4;
    if (wide)
        *at++ = (uint8_t)(points >> 8);
    *at++ = (uint8_t)points;
    if (wide)
        *at++ = (uint8_t)(scans >> 8);
    *at++ = (uint8_t)scans;
    return at;
}

/* Stores a point, and gives the place behind it. */
static inline uint8_t *point_to(uint8_t *at, uint8_t kind, uint32_t key, uint64_t payload) {
    *at++ = kind;
    set(at, key);
    at += 4;
    if (kind == EMUPARASOL_KIND_PUT) {
        set(at, (uint32_t)(payload >> 32));
        set(at + 4, (uint32_t)payload);
        at += 8;
    }
    return at;
}

/* Stores so many scans. */
static void scans_to(uint8_t *at, const uint32_t *lows, const uint32_t *highs, uint64_t scans) {
    for (uint64_t i = 0; i < scans; i++, at += 8) {
        set(at, lows[i]);
        set(at + 4, highs[i]);
    }
}

uint8_t plain_write(uint32_t snapshot, const uint8_t *kinds, uint64_t kinds_length, const uint32_t *keys, uint64_t keys_length,
                    const uint64_t *payloads, uint64_t payloads_length, const uint32_t *lows, uint64_t lows_length, const uint32_t *highs,
                    uint64_t highs_length, uint8_t *output, uint64_t output_length, uint64_t *size) {
    *size = 0;
    if (kinds_length > EMUPARASOL_MOST_POINTS || keys_length != kinds_length || payloads_length != kinds_length || lows_length > EMUPARASOL_MOST_SCANS ||
        highs_length != lows_length)
        return EMUPARASOL_MALFORMED;
    uint64_t length = (second(kinds_length, lows_length) ? HEAD_OF_TWO : HEAD_OF_ONE) + 8 * lows_length;
    for (uint64_t i = 0; i < kinds_length; i++) {
        if (kinds[i] - 1u > 2 || (kinds[i] != 2 && payloads[i] != 0) || (i > 0 && keys[i] <= keys[i - 1]))
            return EMUPARASOL_MALFORMED;
        length += kinds[i] == 2 ? 13 : 5;
    }
    for (uint64_t i = 0; i < lows_length; i++)
        if (lows[i] > highs[i] || (i > 0 && lows[i] <= highs[i - 1]))
            return EMUPARASOL_MALFORMED;
    if (output_length < length)
        return EMUPARASOL_OUTPUT_SHORT;
    uint8_t *at = head_to(output, length, snapshot, kinds_length, lows_length);
    for (uint64_t i = 0; i < kinds_length; i++)
        at = point_to(at, kinds[i], keys[i], payloads[i]);
    scans_to(at, lows, highs, lows_length);
    *size = length;
    return EMUPARASOL_COMMITTED;
}

/* Whether b names or scans a key that a puts or deletes. */
static bool meets(const struct record *a, const struct record *b) {
    int point = 0, scan = 0;
    for (int i = 0; i < a->points; i++) {
        if (a->kinds[i] == EMUPARASOL_KIND_READ)
            continue;
        while (point < b->points && b->keys[point] < a->keys[i])
            point++;
        while (scan < b->scans && b->highs[scan] < a->keys[i])
            scan++;
        if ((point < b->points && b->keys[point] == a->keys[i]) || (scan < b->scans && b->lows[scan] <= a->keys[i]))
            return true;
    }
    return false;
}

/* The next point of two records by key, with cursors into both, which move past that key: the record that has it, and *at, its place there. Where both
   name the key it is b's if b writes it. */
static inline const struct record *next_point(const struct record *a, int *i, const struct record *b, int *j, int *at) {
    bool in_a = *i < a->points && (*j == b->points || a->keys[*i] <= b->keys[*j]);
    bool in_b = *j < b->points && (*i == a->points || b->keys[*j] <= a->keys[*i]);
    const struct record *from = in_a && !(in_b && b->kinds[*j] != EMUPARASOL_KIND_READ) ? a : b;
    *at = from == a ? *i : *j;
    *i += in_a;
    *j += in_b;
    return from;
}

/* The scans of both, by their lows; one that shares a key with the last is added to it. Gives how many there are. */
static int joined_scans(const struct record *a, const struct record *b, uint32_t *lows, uint32_t *highs) {
    int i = 0, j = 0, count = 0;
    while (i < a->scans || j < b->scans) {
        bool of_a = j == b->scans || (i < a->scans && a->lows[i] <= b->lows[j]);
        uint32_t low = of_a ? a->lows[i] : b->lows[j], high = of_a ? a->highs[i] : b->highs[j];
        i += of_a;
        j += !of_a;
        if (count > 0 && low <= highs[count - 1]) {
            highs[count - 1] = larger(highs[count - 1], high);
        } else {
            lows[count] = low;
            highs[count++] = high;
        }
    }
    return count;
}

uint8_t plain_join(const uint8_t *a, uint64_t a_length, const uint8_t *b, uint64_t b_length, uint8_t *output, uint64_t output_length, uint64_t *size) {
    struct record x, y;
    uint32_t lows[2 * EMUPARASOL_MOST_SCANS], highs[2 * EMUPARASOL_MOST_SCANS];
    int at;
    *size = 0;
    if (!parse(a, a_length, &x) || !parse(b, b_length, &y) || x.snapshot != y.snapshot || meets(&x, &y))
        return EMUPARASOL_CANNOT_JOIN;
    uint64_t scans = (uint64_t)joined_scans(&x, &y, lows, highs), points = 0, length = 8 * scans;
    for (int i = 0, j = 0; i < x.points || j < y.points; points++) {
        const struct record *from = next_point(&x, &i, &y, &j, &at);
        length += from->kinds[at] == EMUPARASOL_KIND_PUT ? 13 : 5;
    }
    if (points > EMUPARASOL_MOST_POINTS || scans > EMUPARASOL_MOST_SCANS)
        return EMUPARASOL_CANNOT_JOIN;
    length += second(points, scans) ? HEAD_OF_TWO : HEAD_OF_ONE;
    if (output_length < length)
        return EMUPARASOL_OUTPUT_SHORT;
    uint8_t *to = head_to(output, length, x.snapshot, points, scans);
    for (int i = 0, j = 0; i < x.points || j < y.points;) {
        const struct record *from = next_point(&x, &i, &y, &j, &at);
        to = point_to(to, from->kinds[at], from->keys[at], from->payloads[at]);
    }
    scans_to(to, lows, highs, scans);
    *size = length;
    return EMUPARASOL_COMMITTED;
}

/* The two bytes of a record's length, one of which may lie in the carry, and whether no record has it. */
static inline uint64_t length_of(uint8_t high, uint8_t low) { return (uint64_t)(high << 8 | low); }
static inline bool impossible(uint64_t length) { return length < EMUPARASOL_LEAST_RECORD - 2 || length > EMUPARASOL_MOST_RECORD - 2; }

uint8_t plain_cut(const uint8_t *log, uint64_t log_length, uint64_t place, uint64_t *next) {
    *next = place;
    if (place == log_length)
        return EMUPARASOL_COMMITTED;
    if (place > log_length || log_length - place < 2)
        return EMUPARASOL_TORN_LOG;
    uint64_t length = length_of(log[place], log[place + 1]);
    if (impossible(length))
        return EMUPARASOL_IMPOSSIBLE_LENGTH;
    if (log_length - place < 2 + length)
        return EMUPARASOL_TORN_LOG;
    *next = place + 2 + length;
    return EMUPARASOL_COMMITTED;
}

bool plain_in_force(uint8_t answer, const uint8_t *original, uint64_t original_length, const uint8_t *refreshed, uint64_t refreshed_length,
                    uint64_t *offset, uint64_t *length) {
    (void)original;
    *offset = *length = 0;
    if (answer == EMUPARASOL_AHEAD)
        *length = original_length;
    return answer == EMUPARASOL_COMMITTED && plain_cut(refreshed, refreshed_length, 0, length) == EMUPARASOL_COMMITTED && *length > 0;
}

/* The conflict walk: from left to right, with a cursor into the points and one into the scans. */
struct walk {
    const uint8_t *pool;
    const struct record *record;
    int point, scan;
    uint32_t looks;
    const uint8_t *found; /* the leaf in conflict */
};

static bool conflict(struct walk *w, uint32_t i) {
    const uint8_t *n = node_at(w->pool, i);
    const struct record *r = w->record;
    w->looks++;
    if (get(n + NEWEST) <= r->snapshot)
        return false;
    uint32_t low = get(n + LOW), height = get(n + HEIGHT);
    uint64_t to = low + ((uint64_t)1 << height);
    while (w->point < r->points && r->keys[w->point] < low)
        w->point++;
    while (w->scan < r->scans && r->highs[w->scan] < low)
        w->scan++;
    if (!(w->point < r->points && r->keys[w->point] < to) && !(w->scan < r->scans && r->lows[w->scan] < to))
        return false;
    if (height == 0) {
        w->found = n;
        return true;
    }
    return conflict(w, get(n + LEFT)) || conflict(w, get(n + RIGHT));
}

uint8_t plain_refresh(const uint8_t *pool, uint64_t pool_length, const uint8_t *original, uint64_t original_length, uint8_t *output,
                      uint64_t output_length) {
    struct record r;
    if (!fits(pool, pool_length))
        return EMUPARASOL_UNFIT_POOL;
    uint32_t p = get(pool + POSITION);
    if (!parse(original, original_length, &r))
        return EMUPARASOL_MALFORMED;
    if (r.snapshot > p)
        return EMUPARASOL_AHEAD;
    if (p - r.snapshot > get(pool + ZONE))
        return EMUPARASOL_TOO_OLD;
    struct walk w = {pool, &r, 0, 0, 0, NULL};
    if (get(pool + ROOT) != NONE && conflict(&w, get(pool + ROOT)))
        return EMUPARASOL_CONFLICT;
    if (output_length < original_length)
        return EMUPARASOL_OUTPUT_SHORT;
    memcpy(output, original, original_length);
    set(output + 3, p);
    return EMUPARASOL_COMMITTED;
}

/* Old tombstones in the tree at node i. */
static uint32_t count_old(const uint8_t *pool, uint32_t i, uint32_t limit) {
    const uint8_t *n = node_at(pool, i);
    if (get(n + OLDEST) > limit || get(n + KIND) == LIVE)
        return 0;
    if (get(n + KIND) == TOMBSTONE)
        return 1;
    return count_old(pool, get(n + LEFT), limit) + count_old(pool, get(n + RIGHT), limit);
}

static inline void write_node(uint8_t *n, uint32_t height, uint32_t low, uint32_t newest, uint32_t oldest, uint32_t left, uint32_t right,
                              uint32_t kind) {
    set(n + HEIGHT, height);
    set(n + LOW, low);
    set(n + NEWEST, newest);
    set(n + OLDEST, oldest);
    set(n + LEFT, left);
    set(n + RIGHT, right);
    set(n + KIND, kind);
    set(n + SPARE, 0);
}

uint8_t plain_create(uint8_t *pool, uint64_t pool_length, uint32_t n, uint32_t z) {
    if (n - 1 >= 65536 || z - 1 >= 4096 || pool_length != HEAD + 64 * (uint64_t)n)
        return EMUPARASOL_BAD_LIMITS;
    memset(pool, 0, HEAD);
    set(pool + MARK, 0x454D5031u);
    set(pool + LIMIT, n);
    set(pool + ZONE, z);
    set(pool + ROOT, NONE);
    for (uint32_t i = 0; i < 2 * n; i++)
        write_node(node_at(pool, i), NONE, i + 1 < 2 * n ? i + 1 : NONE, 2 * n - i, 0, 0, 0, 0);
    return EMUPARASOL_COMMITTED;
}

/* Newest and oldest of an inner node from its children. */
static inline void mend(const uint8_t *pool, uint8_t *n) {
    const uint8_t *left = node_at(pool, get(n + LEFT)), *right = node_at(pool, get(n + RIGHT));
    set(n + NEWEST, larger(get(left + NEWEST), get(right + NEWEST)));
    set(n + OLDEST, smaller(get(left + OLDEST), get(right + OLDEST)));
}

/* The free nodes while tombstones are dropped. */
struct freed {
    uint32_t first, rank;
};

static uint32_t free_node(uint8_t *pool, uint32_t i, uint32_t instead, struct freed *f) {
    f->rank++;
    write_node(node_at(pool, i), NONE, f->first, f->rank, 0, 0, 0, NO_LEAF);
    f->first = i;
    return instead;
}

/* Drops the old tombstones of the tree at node i; the node that stands there then, or none. */
static uint32_t drop_old(uint8_t *pool, uint32_t i, uint32_t limit, struct freed *f) {
    uint8_t *n = node_at(pool, i);
    if (get(n + OLDEST) > limit || get(n + KIND) == LIVE)
        return i;
    if (get(n + KIND) == TOMBSTONE)
        return free_node(pool, i, NONE, f);
    uint32_t left = drop_old(pool, get(n + LEFT), limit, f), right = drop_old(pool, get(n + RIGHT), limit, f);
    if (left == NONE)
        return free_node(pool, i, right, f);
    if (right == NONE)
        return free_node(pool, i, left, f);
    set(n + LEFT, left);
    set(n + RIGHT, right);
    mend(pool, n);
    return i;
}

/* Stores a leaf for the key: one descent, then newest and oldest mended on the way back. A tombstone only where the descent ends at a live leaf: a delete
   of any other key writes nothing (R22), and that is still what it was at p, for only tombstones are dropped and each key stands in a record once. */
static void put(uint8_t *pool, uint32_t key, uint32_t v, uint64_t payload, uint32_t kind) {
    uint32_t i = get(pool + ROOT), oldest = kind == TOMBSTONE ? v : NONE, depth = 0;
    uint8_t *path[DEEPEST], *link = pool + ROOT, *n;
    while (i != NONE && (n = node_at(pool, i), covers(n, key)) && get(n + HEIGHT) > 0) {
        path[depth++] = n;
        link = n + ((key >> (get(n + HEIGHT) - 1)) & 1 ? RIGHT : LEFT);
        i = get(link);
    }
    bool found = i != NONE && covers(node_at(pool, i), key);
    if (kind == TOMBSTONE && !(found && get(node_at(pool, i) + KIND) == LIVE))
        return;
    if (found) {
        write_node(node_at(pool, i), 0, key, v, oldest, (uint32_t)(payload >> 32), (uint32_t)payload, kind);
    } else {
        uint32_t first = get(pool + FREE), leaf = first;
        if (i != NONE) {
            leaf = get(node_at(pool, first) + LOW);
            set(pool + FREE, get(node_at(pool, leaf) + LOW));
            n = node_at(pool, i);
            uint32_t other = get(n + LOW), height = 32 - (uint32_t)__builtin_clz(other ^ key);
            uint32_t low = height == 32 ? 0 : key >> height << height;
            bool before = key < other;
            write_node(node_at(pool, first), height, low, larger(v, get(n + NEWEST)), smaller(oldest, get(n + OLDEST)), before ? leaf : i,
                       before ? i : leaf, NO_LEAF);
        } else {
            set(pool + FREE, get(node_at(pool, first) + LOW));
        }
        write_node(node_at(pool, leaf), 0, key, v, oldest, (uint32_t)(payload >> 32), (uint32_t)payload, kind);
        set(link, first);
        set(pool + KEPT, get(pool + KEPT) + 1);
    }
    while (depth > 0)
        mend(pool, path[--depth]);
}

/* Whether there is room for what a record writes; where old tombstones have to go for it, how many keys are counted then. A delete that is found here to
   write nothing is a read from then on: nobody looks for its key again. */
enum room { ENOUGH, AFTER_A_DROP, TOO_LITTLE };

static enum room room_for(const uint8_t *pool, struct record *r, uint32_t limit, uint32_t *counted) {
    uint32_t n = get(pool + LIMIT), kept = get(pool + KEPT), absent = 0, revived = 0;
    if (kept + (uint32_t)r->points <= n)
        return ENOUGH;
    for (int i = 0; i < r->points; i++) {
        if (r->kinds[i] == EMUPARASOL_KIND_READ)
            continue;
        const uint8_t *leaf = leaf_of(pool, r->keys[i]);
        if (leaf != NULL && get(leaf + KIND) == LIVE)
            continue; /* counted as a kept key, and no tombstone */
        if (r->kinds[i] == EMUPARASOL_KIND_DELETE)
            r->kinds[i] = EMUPARASOL_KIND_READ;
        else if (leaf == NULL)
            absent++;
        else
            revived += get(leaf + NEWEST) <= limit;
    }
    if (kept + absent <= n)
        return ENOUGH;
    *counted = kept + absent + revived - (kept > 0 ? count_old(pool, get(pool + ROOT), limit) : 0);
    return *counted <= n ? AFTER_A_DROP : TOO_LITTLE;
}

/* The last position whose tombstones a record at v drops; 0 if it drops none. */
static inline uint32_t dropped_to(uint32_t v, uint32_t zone) { return zone <= v ? v - zone : 0; }

/* Melds into a pool that is fit. */
static uint8_t meld_fit(uint8_t *pool, const uint8_t *record, uint64_t record_length, uint32_t *looks) {
    struct record r;
    *looks = 0;
    uint32_t p = get(pool + POSITION), v = p + 1, zone = get(pool + ZONE);
    if (p == NONE)
        return EMUPARASOL_POSITIONS_USED_UP;
    set(pool + POSITION, v);
    if (!parse(record, record_length, &r))
        return EMUPARASOL_MALFORMED;
    if (r.snapshot > p)
        return EMUPARASOL_AHEAD;
    if (p - r.snapshot > zone)
        return EMUPARASOL_TOO_OLD;
    struct walk w = {pool, &r, 0, 0, 0, NULL};
    bool found = get(pool + ROOT) != NONE && conflict(&w, get(pool + ROOT));
    *looks = w.looks;
    if (found)
        return EMUPARASOL_CONFLICT;
    uint32_t limit = dropped_to(v, zone), counted;
    enum room room = room_for(pool, &r, limit, &counted);
    if (room == TOO_LITTLE)
        return EMUPARASOL_NO_ROOM;
    if (room == AFTER_A_DROP) {
        struct freed f = {get(pool + FREE), get(node_at(pool, get(pool + FREE)) + NEWEST)};
        set(pool + ROOT, drop_old(pool, get(pool + ROOT), limit, &f));
        set(pool + FREE, f.first);
        set(pool + KEPT, (2 * get(pool + LIMIT) + 1 - f.rank) / 2);
    }
    for (int i = 0; i < r.points; i++)
        if (r.kinds[i] != EMUPARASOL_KIND_READ)
            put(pool, r.keys[i], v, r.payloads[i], r.kinds[i] == EMUPARASOL_KIND_PUT ? LIVE : TOMBSTONE);
    return EMUPARASOL_COMMITTED;
}

uint8_t plain_meld(uint8_t *pool, uint64_t pool_length, const uint8_t *record, uint64_t record_length, uint32_t *looks) {
    *looks = 0;
    return fits(pool, pool_length) ? meld_fit(pool, record, record_length, looks) : (uint8_t)EMUPARASOL_UNFIT_POOL;
}

uint8_t plain_explain(const uint8_t *pool, uint64_t pool_length, const uint8_t *record, uint64_t record_length, uint32_t *looks, uint32_t *key,
                      uint32_t *position, uint64_t *point, uint64_t *scan, uint32_t *lag, uint32_t *keys) {
    struct record r;
    *looks = *key = *position = *lag = *keys = 0;
    *point = *scan = 0;
    if (!fits(pool, pool_length))
        return EMUPARASOL_UNFIT_POOL;
    uint32_t p = get(pool + POSITION), zone = get(pool + ZONE), counted;
    if (p == NONE)
        return EMUPARASOL_POSITIONS_USED_UP;
    if (!parse(record, record_length, &r))
        return EMUPARASOL_MALFORMED;
    if (r.snapshot > p)
        return EMUPARASOL_AHEAD;
    if (p - r.snapshot > zone) {
        *lag = p - r.snapshot;
        return EMUPARASOL_TOO_OLD;
    }
    struct walk w = {pool, &r, 0, 0, 0, NULL};
    bool found = get(pool + ROOT) != NONE && conflict(&w, get(pool + ROOT));
    *looks = w.looks;
    if (found) {
        *key = get(w.found + LOW);
        *position = get(w.found + NEWEST);
        if (w.point < r.points && r.keys[w.point] == *key)
            *point = 1 + (uint64_t)w.point;
        else
            *scan = 1 + (uint64_t)w.scan;
        return EMUPARASOL_CONFLICT;
    }
    if (room_for(pool, &r, dropped_to(p + 1, zone), &counted) != TOO_LITTLE)
        return EMUPARASOL_COMMITTED;
    *keys = counted;
    return EMUPARASOL_NO_ROOM;
}

/* Whether a call leaves such a carry. */
static bool may_carry(const uint8_t *carry, uint64_t carry_length, uint64_t carried) {
    if (carry_length != EMUPARASOL_CARRY_BYTES)
        return false;
    if (carried < 2)
        return true;
    uint64_t length = length_of(carry[0], carry[1]);
    return impossible(length) ? carried == 2 : carried < 2 + length;
}

uint8_t plain_feed(uint8_t *pool, uint64_t pool_length, uint8_t *carry, uint64_t carry_length, uint64_t *carried, const uint8_t *part,
                   uint64_t part_length, bool over, uint8_t *happened, uint32_t *looks, uint64_t *taken) {
    uint64_t before = *carried;
    *happened = EMUPARASOL_REFUSED;
    *looks = 0;
    *taken = 0;
    if (!may_carry(carry, carry_length, before))
        return EMUPARASOL_OUTPUT_SHORT;
    bool known = before >= 2 || part_length >= 2 - before;
    uint64_t size = 0;
    if (known) {
        uint64_t length = length_of(before > 0 ? carry[0] : part[0], before > 1 ? carry[1] : part[1 - before]);
        if (impossible(length)) {
            uint64_t fresh = 2 - before;
            if (fresh > 0)
                memcpy(carry + before, part, fresh);
            *taken = fresh;
            *carried = 2;
            return EMUPARASOL_IMPOSSIBLE_LENGTH;
        }
        size = 2 + length;
    }
    if (known && part_length >= size - before) {
        uint64_t rest = size - before;
        if (!fits(pool, pool_length))
            return EMUPARASOL_UNFIT_POOL;
        if (before > 0)
            memcpy(carry + before, part, rest);
        uint8_t answer = meld_fit(pool, before > 0 ? carry : part, size, looks);
        *happened = EMUPARASOL_DECIDED;
        *taken = rest;
        *carried = 0;
        return answer;
    }
    if (!over) {
        if (part_length > 0)
            memcpy(carry + before, part, part_length);
        *happened = EMUPARASOL_MORE;
        *taken = part_length;
        *carried = before + part_length;
        return EMUPARASOL_COMMITTED;
    }
    if (before + part_length > 0)
        return EMUPARASOL_TORN_LOG;
    *happened = EMUPARASOL_END;
    return EMUPARASOL_COMMITTED;
}
