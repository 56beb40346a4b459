/* Two cards on one log: what they say, that their pools stay equal byte for byte, and what they say of a tail that is no whole record. */
#include <stdio.h>
#include <string.h>

#include "stage.h"

void card_verdict(struct card *card, uint32_t position, uint8_t answer) {
    if (card == &left)
        printf("record %lu: %u %s\n", (unsigned long)position, (unsigned)answer, emuparasol_answer_name(answer));
}

static void both_catch_up(void) {
    uint8_t one = card_catch_up(&left), other = card_catch_up(&right);
    printf("caught up: %u and %u, pools %s\n", (unsigned)one, (unsigned)other, stage_pools());
}

/* A put of one key, by a card whose tenant saw the log up to this snapshot. */
static void submit(struct card *card, uint32_t snapshot, uint32_t key, uint64_t payload) {
    uint8_t record[STAGE_PUT];
    uint8_t answer = card_submit(card, record, stage_put(snapshot, key, payload, record));
    printf("%s submits %lu = %lu: %u %s\n", card == &left ? "left" : "right", (unsigned long)key, (unsigned long)payload, (unsigned)answer,
           answer == EMUPARASOL_COMMITTED ? "appended" : emuparasol_answer_name(answer));
}

static void left_leases(void) { submit(&left, 0, 7, 100); }

static void erased_bytes(void) { stage_leave((const uint8_t[]){0xFF, 0xFF}, 2); }

/* What the left card says of these bytes behind the last record; then they are taken away again. */
static void tail(const char *what, const uint8_t *bytes, uint64_t count) {
    uint64_t length = stage_length();
    stage_leave(bytes, count);
    uint8_t caught_up = card_catch_up(&left), there = card_tail(&left);
    printf("behind the last record %s: caught up %u, tail %u %s\n", what, (unsigned)caught_up, (unsigned)there, emuparasol_answer_name(there));
    flash_lock();
    flash_cut_off(length);
    flash_unlock();
}

int main(void) {
    static uint8_t erased[EMUPARASOL_MOST_RECORD];
    uint8_t record[STAGE_PUT];
    uint32_t n, z, position, kept, tombstones;
    stage_clear();
    /* Both lease port 7 at the same time: the left card is the first to get the lock. The right one's record is there too, and every card refuses it. */
    stage_meanwhile(left_leases);
    submit(&right, 0, 7, 200);
    both_catch_up();
    /* The loser tries again with what it knew then: its refresh sees the conflict, and nothing is appended. */
    submit(&right, 0, 7, 200);
    /* With what it knows now, the loser's goes through, though made a record ago. */
    submit(&right, 1, 7, 200);
    both_catch_up();
    emuparasol_status(left.pool, sizeof left.pool, &n, &z, &position, &kept, &tombstones);
    printf("status: N %lu, Z %lu, position %lu, %lu keys, %lu tombstones\n", (unsigned long)n, (unsigned long)z, (unsigned long)position,
           (unsigned long)kept, (unsigned long)tombstones);
    printf("lookup of 7: %lu\n", stage_payload(&left, 7));
    /* A card is pulled, and comes back: its pool is built again from the log. */
    memset(&right, 0xFF, sizeof right);
    card_start(&right);
    both_catch_up();
    /* A byte of a pool is hit: the next meld notices, and the card builds it again. */
    left.pool[100] ^= 4;
    submit(&right, 3, 8, 300);
    both_catch_up();
    /* A record that is not all there yet is no error, the log is merely torn there; a length that no record has is one at once. */
    memset(erased, 0xFF, sizeof erased);
    stage_put(4, 9, 400, record);
    tail("a record's first byte", record, 1);
    tail("five bytes of a record", record, 5);
    tail("all bytes of a record but one", record, 21);
    tail("the length 13833", (const uint8_t[]){0x36, 0x09}, 2);
    tail("the length 13834", (const uint8_t[]){0x36, 0x0A}, 2);
    tail("the length 6", (const uint8_t[]){0x00, 0x06}, 2);
    tail("904 bytes of FF", erased, 904);
    tail("13835 bytes of FF", erased, sizeof erased);
    /* Nothing is appended behind such bytes, also if they come while the card waits for the lock; nor are they cut off. */
    stage_meanwhile(erased_bytes);
    submit(&right, 4, 9, 400);
    submit(&right, 4, 9, 400);
    both_catch_up();
    return 0;
}
