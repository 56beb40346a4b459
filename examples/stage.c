/* Two cards, and memory for the flash that they share. It says so if it is changed by somebody who does not hold the lock. */
#include <stdio.h>
#include <string.h>

#include "stage.h"

enum { ROOM = 65536 };

struct card left, right;

static uint8_t flash[ROOM];
static uint64_t written, fails_after = ROOM, page_size = 256;
static uint32_t cuts_made;
static bool locked;
static void (*meanwhile)(void), (*between)(void);

static void expect(bool holds, const char *what) {
    if (!holds)
        printf("WRONG: %s\n", what);
}

void flash_lock(void) {
    void (*other)(void) = meanwhile;
    meanwhile = NULL;
    if (other != NULL)
        other();
    expect(!locked, "locked twice");
    locked = true;
}

void flash_unlock(void) {
    expect(locked, "unlocked twice");
    locked = false;
}

uint64_t flash_read(uint64_t place, uint8_t *to, uint64_t room) {
    uint64_t there = place < written ? written - place : 0;
    uint64_t count = there < room ? there : room;
    memcpy(to, flash + place, count);
    return count;
}

uint64_t flash_page(uint64_t place, uint8_t to[CARD_PAGE], uint32_t *cuts) {
    uint64_t into = place & (page_size - 1); /* a page's size is a power of two */
    void (*other)(void) = between;
    if (other != NULL && place > 0 && into == 0) {
        between = NULL;
        other();
    }
    *cuts = cuts_made;
    return flash_read(place, to, page_size - into);
}

bool flash_cut_off(uint64_t place) {
    expect(locked, "cut off without the lock");
    written = place;
    cuts_made++;
    return true;
}

bool flash_append(const uint8_t *record, uint64_t length) {
    uint64_t taken = length < fails_after ? length : fails_after;
    bool whole = fails_after == ROOM;
    expect(locked, "appended without the lock");
    fails_after = ROOM;
    stage_leave(record, taken);
    return whole;
}

void stage_clear(void) {
    written = 0;
    card_start(&left);
    card_start(&right);
}

void stage_meanwhile(void (*other)(void)) { meanwhile = other; }

void stage_between_pages(void (*other)(void)) { between = other; }

void stage_page_size(uint64_t bytes) { page_size = bytes; }

void stage_fail_after(uint64_t bytes) { fails_after = bytes; }

void stage_leave(const uint8_t *bytes, uint64_t count) {
    expect(count <= ROOM - written, "the flash is full");
    memcpy(flash + written, bytes, count);
    written += count;
}

uint64_t stage_length(void) { return written; }

uint64_t stage_put(uint32_t snapshot, uint32_t key, uint64_t payload, uint8_t record[STAGE_PUT]) {
    const uint8_t kind = EMUPARASOL_KIND_PUT;
    const uint32_t none = 0;
    uint64_t size;
    emuparasol_write(snapshot, &kind, 1, &key, 1, &payload, 1, &none, 0, &none, 0, record, STAGE_PUT, &size);
    return size;
}

unsigned long stage_payload(const struct card *card, uint32_t key) {
    uint64_t payload;
    uint32_t position;
    emuparasol_lookup(card->pool, sizeof card->pool, key, &payload, &position);
    return (unsigned long)payload;
}

const char *stage_pools(void) { return memcmp(left.pool, right.pool, sizeof left.pool) == 0 ? "equal" : "DIFFERENT"; }
