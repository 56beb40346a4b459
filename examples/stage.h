/* What the programs around the card share: memory for the flash, and records that write one key. */
#ifndef STAGE_H
#define STAGE_H

#include "card.h"

extern struct card left, right;

/* The bytes of a record that puts one key. */
enum { STAGE_PUT = 22 };

/* An empty log, and both cards started on it. */
void stage_clear(void);
/* What another card does while the next one waits for the lock. */
void stage_meanwhile(void (*other)(void));
/* What another card does before the next page is read, which is not the log's first. */
void stage_between_pages(void (*other)(void));
/* How many bytes a page has from now on, a power of two, at most CARD_PAGE; 256 at first. */
void stage_page_size(uint64_t bytes);
/* The next append takes so many bytes and fails. */
void stage_fail_after(uint64_t bytes);
/* These bytes behind what is in the log, whoever wrote them. */
void stage_leave(const uint8_t *bytes, uint64_t count);
/* How many bytes are in the log. */
uint64_t stage_length(void);
/* A record that puts one key. Answers its length. */
uint64_t stage_put(uint32_t snapshot, uint32_t key, uint64_t payload, uint8_t record[STAGE_PUT]);
/* The payload that the card has under a key, 0 if there is none. */
unsigned long stage_payload(const struct card *card, uint32_t key);
/* Whether both cards have the same bytes in their pools, in words. */
const char *stage_pools(void);

#endif
