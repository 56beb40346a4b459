/* What can still go wrong around the library, each accident beside its cure: a torn append, a length that the flash has lost, a snapshot taken too late, a
   record that waits too long, a record melded twice, one melded with a wrong length, and a flipped bit. docs/FIRMWARE.md tells of each. */
#include <stdio.h>

#include "stage.h"

static const char *name(const struct card *card) { return card == &left ? "left" : "right"; }

static bool quiet;

void card_verdict(struct card *card, uint32_t position, uint8_t answer) {
    if (!quiet)
        printf("  %s, record %lu: %u %s\n", name(card), (unsigned long)position, (unsigned)answer, emuparasol_answer_name(answer));
}

static void both_catch_up(void) {
    card_catch_up(&left);
    card_catch_up(&right);
}

/* Submits a record, and says so. */
static void submit(struct card *card, const char *what, uint8_t *record, uint64_t length) {
    uint8_t answer = card_submit(card, record, length);
    printf("  %s submits %s: %u %s\n", name(card), what, (unsigned)answer, answer == EMUPARASOL_COMMITTED ? "appended" : emuparasol_answer_name(answer));
}

/* What a card finds behind the last record that it has melded. */
static void find(struct card *card) {
    uint8_t answer = card_tail(card);
    printf("  %s finds behind its last record: %u %s\n", name(card), (unsigned)answer,
           answer == EMUPARASOL_COMMITTED ? "the log's end" : emuparasol_answer_name(answer));
}

static void print_bytes(const char *what, const uint8_t *bytes, uint64_t count) {
    printf("  %s", what);
    for (uint64_t i = 0; i < count; i++) {
        const char digits[] = {' ', "0123456789ABCDEF"[bytes[i] >> 4], "0123456789ABCDEF"[bytes[i] & 15], '\0'};
        printf("%s", digits);
    }
    printf("\n");
}

/* Ten bytes of the left card's record reach the flash. Then the right card appends one of its own. */
static void torn(bool cut_off) {
    uint8_t one[STAGE_PUT], other[STAGE_PUT], first[STAGE_PUT];
    uint64_t length;
    stage_clear();
    length = stage_put(0, 7, 100, one);
    print_bytes("left writes: ", one, length);
    stage_fail_after(10);
    submit(&left, "it, and the power fails after ten bytes", one, length);
    find(&right);
    length = stage_put(0, 8, 300, other);
    print_bytes("right writes:", other, length);
    if (cut_off) {
        submit(&right, "it", other, length);
    } else {
        printf("  right appends it behind what is there\n");
        flash_lock();
        flash_append(other, length);
        flash_unlock();
    }
    both_catch_up();
    print_bytes("record 1:    ", first, flash_read(0, first, length));
    printf("  key 8 is %s, key 1310976 is %s\n", stage_payload(&left, 8) == 300 ? "there" : "LOST",
           stage_payload(&left, 1310976) == 0 ? "absent" : "THERE, and nobody wrote it");
}

/* A record that reached the flash, though the flash said no, is not appended a second time. */
static void refused_late(void) {
    uint8_t record[STAGE_PUT];
    uint64_t length = stage_put(0, 7, 100, record);
    stage_clear();
    stage_fail_after(length);
    submit(&left, "a record, and the flash says no when it has all of it", record, length);
    both_catch_up();
}

/* Two records on flash. Unless the log was restored from a copy, the length of the second one reads as if it were erased. */
static void lost_length(bool restored) {
    uint8_t one[STAGE_PUT], other[STAGE_PUT];
    stage_clear();
    stage_leave(one, stage_put(0, 7, 100, one));
    uint64_t length = stage_put(1, 8, 300, other);
    if (!restored)
        other[0] = other[1] = 0xFF;
    stage_leave(other, length);
    both_catch_up();
    find(&right);
    submit(&right, "a record", one, stage_put(1, 9, 400, one));
}

/* A tenant's transaction: it raises key 7 by one. */
struct tenant {
    struct card *card;
    uint32_t snapshot;
    unsigned long seen;
};

static void begin(struct tenant *tenant) {
    card_begin(tenant->card, &tenant->snapshot);
    tenant->seen = stage_payload(tenant->card, 7);
}

static void finish(const struct tenant *tenant) {
    uint8_t record[STAGE_PUT];
    submit(tenant->card, "one more", record, stage_put(tenant->snapshot, 7, tenant->seen + 1, record));
    both_catch_up();
}

/* Two tenants raise key 7, which is 100, at the same time. */
static void raised_twice(bool late) {
    uint8_t record[STAGE_PUT];
    struct tenant one = {&left, 0, 0}, other = {&right, 0, 0};
    stage_clear();
    quiet = true;
    card_submit(&left, record, stage_put(0, 7, 100, record));
    both_catch_up();
    begin(&one);
    begin(&other);
    finish(&one);
    if (late) /* the snapshot of now, with what was read before */
        card_begin(other.card, &other.snapshot);
    finish(&other);
    if (!late) { /* in conflict: the whole transaction again */
        begin(&other);
        finish(&other);
    }
    quiet = false;
    printf("  two tenants have raised 100: it is %lu\n", stage_payload(&left, 7));
}

/* A record of the left card waits while the right card appends so many others. If it is refreshed, then after each hundred of them. */
static void waited(uint32_t others, bool refreshed, const char *what) {
    uint8_t waiting[STAGE_PUT], record[STAGE_PUT];
    uint64_t length = stage_put(0, 7, 100, waiting);
    uint32_t hundred = 0;
    stage_clear();
    quiet = true;
    for (uint32_t i = 1; i <= others; i++) {
        card_submit(&right, record, stage_put(i - 1, 8, i, record));
        hundred++;
        if (refreshed && hundred == 100) {
            hundred = 0;
            card_catch_up(&left);
            card_refresh(&left, waiting, length);
        }
    }
    submit(&left, what, waiting, length);
    quiet = false;
}

/* The same three records for both cards, but the right one melds the first a second time. */
static void melded_twice(void) {
    uint8_t record[STAGE_PUT];
    uint32_t looks;
    uint64_t length = stage_put(0, 7, 100, record);
    stage_clear();
    stage_leave(record, length);
    both_catch_up();
    printf("  right again: %s\n", emuparasol_answer_name(emuparasol_meld(right.pool, sizeof right.pool, record, length, &looks)));
    stage_leave(record, stage_put(1, 7, 200, record));
    stage_leave(record, stage_put(2, 7, 300, record));
    both_catch_up();
}

/* The same two records for both cards, but the right one melds the first with a byte less, and goes on behind it. */
static void melded_short(void) {
    uint8_t record[STAGE_PUT];
    uint32_t looks;
    uint64_t length = stage_put(0, 7, 100, record);
    stage_clear();
    stage_leave(record, length);
    card_verdict(&right, 1, emuparasol_meld(right.pool, sizeof right.pool, record, length - 1, &looks));
    right.place = length;
    right.records = 1;
    stage_leave(record, stage_put(0, 7, 200, record));
    both_catch_up();
}

/* The firmware's own checksum over all bytes of a pool, here FNV-1a. */
static uint32_t sum(const struct card *card) {
    uint32_t sum = 2166136261u;
    for (uint64_t i = 0; i < sizeof card->pool; i++)
        sum = (sum ^ card->pool[i]) * 16777619u;
    return sum;
}

/* What tells a card that has parted: its count, which it can take alone, and its sum, which it compares with another card's at the same position. */
static void compare(void) {
    uint32_t one, other;
    card_begin(&left, &one);
    card_begin(&right, &other);
    printf("  positions %lu and %lu; in step with the log: left %s, right %s; sums %s\n", (unsigned long)one, (unsigned long)other,
           card_in_step(&left) ? "yes" : "NO", card_in_step(&right) ? "yes" : "NO", sum(&left) == sum(&right) ? "equal" : "DIFFERENT");
}

/* The cure of all of them. */
static void built_again(struct card *card) {
    quiet = true;
    card_start(card);
    card_catch_up(card);
    quiet = false;
    printf("  %s built again: pools %s\n", name(card), stage_pools());
}

/* A bit of the right card's payload of key 7 falls over: the pool is still fit, of another state. Node 0 is the leaf of the first key (docs/LAYOUT.md). */
static void flipped(void) {
    uint8_t record[STAGE_PUT];
    stage_clear();
    quiet = true;
    card_submit(&left, record, stage_put(0, 7, 100, record));
    both_catch_up();
    right.pool[64 + 23] ^= 8;
    card_submit(&left, record, stage_put(1, 8, 300, record));
    both_catch_up();
    quiet = false;
    printf("  right goes on: %u; 7 is %lu on the left, %lu on the right\n", (unsigned)card_catch_up(&right), stage_payload(&left, 7),
           stage_payload(&right, 7));
}

int main(void) {
    printf("A torn append, and another card appends behind it:\n");
    torn(false);
    printf("A torn append, cut off first:\n");
    torn(true);
    printf("An append that the flash denies:\n");
    refused_late();
    printf("A length that the flash has lost:\n");
    lost_length(false);
    printf("The same log, restored from a copy:\n");
    lost_length(true);
    printf("The snapshot taken when the record is made:\n");
    raised_twice(true);
    printf("The snapshot taken before the first read:\n");
    raised_twice(false);
    printf("A record that waits, Z = 256:\n");
    waited(256, false, "it after 256 others");
    waited(257, false, "it after 257 others");
    waited(257, true, "it after 257 others, refreshed after each hundred");
    printf("A record melded twice by the right card:\n");
    melded_twice();
    compare();
    built_again(&right);
    compare();
    printf("A record melded with a byte less by the right card:\n");
    melded_short();
    compare();
    built_again(&right);
    compare();
    printf("A bit that falls over in the right card's pool:\n");
    flipped();
    compare();
    built_again(&right);
    compare();
    return 0;
}
