/* A log whose positions are used up, and the new one that follows it: the left card writes what is live into it, and both cards begin anew. That many
   records cannot be melded here, so the position is set in the pools' own bytes (docs/LAYOUT.md). */
#include <stdio.h>
#include <string.h>

#include "stage.h"

/* The last position. */
static const uint32_t last = 4294967295u;

static bool quiet;

void card_verdict(struct card *card, uint32_t position, uint8_t answer) {
    if (card == &left && !quiet)
        printf("record %lu: %u %s\n", (unsigned long)position, (unsigned)answer, emuparasol_answer_name(answer));
}

static void both_catch_up(void) {
    uint8_t one = card_catch_up(&left), other = card_catch_up(&right);
    printf("caught up: %u and %u, pools %s\n", (unsigned)one, (unsigned)other, stage_pools());
}

static void submit(uint32_t snapshot, uint32_t key, uint64_t payload) {
    uint8_t record[STAGE_PUT];
    uint8_t answer = card_submit(&left, record, stage_put(snapshot, key, payload, record));
    printf("left submits %lu: %u %s\n", (unsigned long)key, (unsigned)answer, answer == EMUPARASOL_COMMITTED ? "appended" : emuparasol_answer_name(answer));
}

static void print_status(void) {
    uint32_t n, z, position, kept, tombstones;
    emuparasol_status(left.pool, sizeof left.pool, &n, &z, &position, &kept, &tombstones);
    printf("position %lu, %lu keys, %lu tombstones; 1 is %lu, 2 is %lu, 150 is %lu\n", (unsigned long)position, (unsigned long)kept,
           (unsigned long)tombstones, stage_payload(&left, 1), stage_payload(&left, 2), stage_payload(&left, 150));
}

/* So many puts a record of the new log has at most: with more it would have version 2, which every card would have to know. */
enum { PUTS = 64 };

/* The records of the new log as they are made: the one that is being filled, and how many are behind it. */
struct carried {
    uint8_t kinds[PUTS];
    uint32_t keys[PUTS];
    uint64_t payloads[PUTS];
    uint64_t points;
    uint32_t records;
};

/* Appends the record that is being filled, if there is anything in it. Its snapshot is the position before its own. */
static void finish(struct carried *carried) {
    uint8_t record[9 + PUTS * 13];
    uint64_t size, points = carried->points;
    if (points == 0)
        return;
    emuparasol_write(carried->records, carried->kinds, points, carried->keys, points, carried->payloads, points, carried->keys, 0, carried->keys, 0, record,
                     sizeof record, &size);
    flash_append(record, size);
    carried->records++;
    carried->points = 0;
}

static uint32_t word(const uint8_t *at) { return (uint32_t)at[0] << 24 | (uint32_t)at[1] << 16 | (uint32_t)at[2] << 8 | at[3]; }

/* Carries the live keys at and below a node over, left before right: so they rise. A tree has at most 33 levels. */
static void carry(const uint8_t *pool, uint32_t node, struct carried *carried) {
    const uint8_t *at = pool + 64 + 32 * (uint64_t)node;
    if (word(at) > 0) { /* its height: an inner node */
        carry(pool, word(at + 16), carried);
        carry(pool, word(at + 20), carried);
    } else if (word(at + 24) == 1) { /* its kind: live */
        carried->kinds[carried->points] = EMUPARASOL_KIND_PUT;
        carried->keys[carried->points] = word(at + 4);
        carried->payloads[carried->points] = (uint64_t)word(at + 16) << 32 | word(at + 20);
        carried->points++;
        if (carried->points == PUTS)
            finish(carried);
    }
}

/* The new log, by the left card. On flash it is another area, taken into use in one step when it is whole. Nothing is done if the pool is not what the
   log says: only a fit pool is a tree that ends, and a fit one may still have a flipped bit, so it is held against the other card's. */
static void begin_new_log(void) {
    struct carried carried = {.points = 0, .records = 0};
    uint32_t n, z, position, kept, tombstones;
    flash_lock();
    card_catch_up(&left);
    card_catch_up(&right);
    if (emuparasol_status(left.pool, sizeof left.pool, &n, &z, &position, &kept, &tombstones) != EMUPARASOL_COMMITTED ||
        memcmp(left.pool, right.pool, sizeof left.pool) != 0) {
        flash_unlock();
        printf("no new log: a pool is damaged\n");
        return;
    }
    flash_cut_off(0);
    if (kept > 0)
        carry(left.pool, word(left.pool + 20), &carried); /* from the root */
    finish(&carried);
    flash_unlock();
    printf("a new log of %lu records\n", (unsigned long)carried.records);
}

/* Both pools at the last position but one. */
static void nearly_used_up(void) {
    static const uint8_t position[4] = {0xFF, 0xFF, 0xFF, 0xFE};
    memcpy(left.pool + 12, position, sizeof position);
    memcpy(right.pool + 12, position, sizeof position);
    left.records = right.records = last - 1;
}

int main(void) {
    uint8_t record[STAGE_PUT];
    const uint8_t kind = EMUPARASOL_KIND_DELETE;
    const uint32_t key = 2;
    const uint64_t none = 0;
    uint64_t size;
    stage_clear();
    quiet = true;
    for (uint32_t i = 1; i <= 150; i++)
        card_submit(&left, record, stage_put(i - 1, i, 1000 + i, record));
    emuparasol_write(150, &kind, 1, &key, 1, &none, 1, &key, 0, &key, 0, record, sizeof record, &size);
    card_submit(&left, record, size);
    both_catch_up();
    quiet = false;
    nearly_used_up();
    /* The last position is taken as any other. The next record finds none, on every card. */
    submit(last - 1, 1, 2001);
    both_catch_up();
    submit(last, 1, 3001);
    both_catch_up();
    print_status();
    /* A bit of a payload falls over on one card: both pools answer 0, and are not the same. */
    left.pool[64 + 23] ^= 1;
    begin_new_log();
    left.pool[64 + 23] ^= 1;
    begin_new_log();
    card_start(&left);
    card_start(&right);
    both_catch_up();
    print_status();
    /* A record that was made on the old log is not for the new one. */
    submit(last, 1, 3001);
    submit(3, 1, 3001);
    both_catch_up();
    print_status();
    return 0;
}
