/* One log on pages of 256 bytes and on pages of 2,048: the same verdicts, the same pools. Records go over the ends of pages, and so does a torn one that
   is cut off while a card reads it. */
#include <stdio.h>
#include <string.h>

#include "stage.h"

static uint64_t before;

void card_verdict(struct card *card, uint32_t position, uint8_t answer) {
    printf("  record %lu, %lu bytes up to byte %lu: %u %s\n", (unsigned long)position, (unsigned long)(card->place - before), (unsigned long)card->place,
           (unsigned)answer, emuparasol_answer_name(answer));
    before = card->place;
}

/* Appends a record that puts so many keys from a first one on, with so many scans behind them. */
static void append(uint32_t snapshot, uint32_t first, uint64_t points, uint64_t scans) {
    static uint8_t kinds[EMUPARASOL_MOST_POINTS], record[EMUPARASOL_MOST_RECORD];
    static uint32_t keys[EMUPARASOL_MOST_POINTS], lows[EMUPARASOL_MOST_SCANS], highs[EMUPARASOL_MOST_SCANS];
    static uint64_t payloads[EMUPARASOL_MOST_POINTS];
    uint64_t size;
    for (uint32_t i = 0; i < points; i++) {
        kinds[i] = EMUPARASOL_KIND_PUT;
        keys[i] = first + i;
        payloads[i] = 1000 + i;
    }
    for (uint32_t i = 0; i < scans; i++)
        lows[i] = highs[i] = 5000 + i;
    emuparasol_write(snapshot, kinds, points, keys, points, payloads, points, lows, scans, highs, scans, record, sizeof record, &size);
    flash_lock();
    flash_append(record, size);
    flash_unlock();
}

/* The log from its first byte, on pages of this size. */
static void read_on_pages(struct card *card, uint64_t bytes) {
    stage_page_size(bytes);
    card_start(card);
    before = 0;
    printf("pages of %lu bytes:\n", (unsigned long)bytes);
    printf("  caught up: %u\n", (unsigned)card_catch_up(card));
}

/* What the left card is told if the log is over behind these bytes: what a card that waits for more never says. */
static void over(const char *where, const uint8_t *bytes, uint64_t count) {
    uint32_t looks;
    uint64_t taken;
    uint8_t happened, answer = emuparasol_feed(left.pool, sizeof left.pool, left.carry, sizeof left.carry, &left.carried, bytes, count, true, &happened,
                                               &looks, &taken);
    printf("the log is over %s: %s\n", where, happened == EMUPARASOL_END ? "end" : emuparasol_answer_name(answer));
}

static void right_submits(void) {
    uint8_t record[STAGE_PUT];
    before = 0;
    printf("  right cuts it off meanwhile, and appends its own: %u\n", (unsigned)card_submit(&right, record, stage_put(0, 9, 900, record)));
}

int main(void) {
    const uint8_t malformed[] = {0x00, 0x07, 0x09, 0x00, 0x00, 0x00, 0x00, 0x00, 0x00};
    stage_clear();
    append(0, 1, 64, 0);   /* on four pages of 256 bytes */
    append(1, 101, 64, 8); /* the longest of version 1 */
    append(0, 5, 1, 0);    /* in conflict with the first */
    stage_leave(malformed, sizeof malformed);
    append(9, 6, 1, 0); /* ahead */
    append(5, 201, 64, 8);
    append(6, 301, 3, 8);  /* up to the last byte of a page of 256 */
    append(7, 401, 14, 8); /* up to the last byte but one: of the next length each page has one byte */
    append(8, 501, 1, 0);
    append(9, 1, 600, 64); /* of version 2: on more than thirty pages of 256 bytes */
    append(8, 600, 1, 9);  /* of version 2 by its scans, and in conflict with the one before */
    read_on_pages(&left, 256);
    read_on_pages(&right, 2048);
    printf("pools %s\n", stage_pools());
    over("here", NULL, 0);
    over("after five bytes more", malformed, 5);
    over("after two bytes of erased flash", (const uint8_t[]){0xFF, 0xFF}, 2);

    printf("a record of 841 bytes, torn after 700:\n");
    stage_clear();
    stage_page_size(256);
    stage_fail_after(700);
    append(0, 1, 64, 0);
    stage_between_pages(right_submits);
    before = 0;
    printf("  left caught up: %u\n", (unsigned)card_catch_up(&left));
    before = 0;
    uint8_t answer = card_catch_up(&right);
    printf("  right caught up: %u, pools %s, key 9 is %lu\n", (unsigned)answer, stage_pools(), stage_payload(&left, 9));
    return 0;
}
