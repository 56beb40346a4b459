/* A card of the example: what it keeps, what its firmware brings along, and what it does. */
#ifndef CARD_H
#define CARD_H

#include "emuparasol.h"

/* N and Z: the same on every card that shares the log. */
enum { CARD_KEYS = 1000, CARD_ZONE = 256 };
/* The largest page that the flash hands over. */
enum { CARD_PAGE = 2048 };

/* All that a card keeps. The log is on flash; this is only memory. */
struct card {
    uint8_t pool[EMUPARASOL_POOL_BYTES(CARD_KEYS)];
    uint64_t place;                        /* where the next record begins in the log */
    uint32_t records;                      /* how many were melded */
    uint8_t carry[EMUPARASOL_CARRY_BYTES]; /* the front of a record that goes on in the next page */
    uint64_t carried;                      /* how many bytes of it are there */
    uint8_t room[EMUPARASOL_MOST_RECORD];  /* for a record that is looked at or refreshed: it is long for a stack */
};

/* The firmware's own. */

/* The log's lock, one for all cards: only who holds it changes the log. It comes free when its holder dies. */
void flash_lock(void);
void flash_unlock(void);
/* Copies the log's bytes from a place on, at most so many as there is room for, as they stand at one moment, and answers how many. */
uint64_t flash_read(uint64_t place, uint8_t *to, uint64_t room);
/* The same up to the end of the page in which the place lies. *cuts is how often the log had been cut off at that moment. */
uint64_t flash_page(uint64_t place, uint8_t to[CARD_PAGE], uint32_t *cuts);
/* Under the lock: ends the log at this place, for all cards. False if the flash refuses. */
bool flash_cut_off(uint64_t place);
/* Under the lock: puts a record at the log's end. True if all of it is there; else a part from its front may be, and no other bytes. */
bool flash_append(const uint8_t *record, uint64_t length);
/* Each verdict is told once after each start of the card. */
void card_verdict(struct card *card, uint32_t position, uint8_t answer);

/* What the card does. */

void card_start(struct card *card);
uint8_t card_catch_up(struct card *card);
uint8_t card_begin(const struct card *card, uint32_t *snapshot);
uint8_t card_refresh(struct card *card, uint8_t *record, uint64_t length);
uint8_t card_submit(struct card *card, uint8_t *record, uint64_t length);
uint8_t card_tail(struct card *card);
bool card_in_step(struct card *card);

#endif
