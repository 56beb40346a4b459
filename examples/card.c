/* A card's loop: read, meld, act on the answer; make a record, append it; and look whether all went right. */
#include <string.h>

#include "card.h"

/* After power-up, a reset or a damaged pool: an empty pool, and the log from its first byte. */
void card_start(struct card *card) {
    emuparasol_create(card->pool, sizeof card->pool, CARD_KEYS, CARD_ZONE);
    card->place = 0;
    card->records = 0;
    card->carried = 0;
}

/* The size of the record that begins at a place of the log. Answers 0 with it; the size is 0 if the log ends there. Answers 10 if the log stops within the
   record, 11 if no record can begin so: the size is 0 then. */
static uint8_t record_at(struct card *card, uint64_t place, uint64_t *size) {
    enum { SHORT = 256 };                                /* few records are longer */
    uint64_t got = flash_read(place, card->room, SHORT); /* fewer only where the log has no more */
    uint8_t answer = emuparasol_cut(card->room, got, 0, size);
    if (answer == EMUPARASOL_TORN_LOG && got == SHORT) { /* this one may be: all that a record can have, from its first byte again */
        got = flash_read(place, card->room, sizeof card->room);
        answer = emuparasol_cut(card->room, got, 0, size);
    }
    return answer;
}

/* Takes a page's bytes, which go on where the card is. A page may end anywhere: what it has of a record whose end is on the next one is carried. Answers 0
   when all is taken, 11 and 6 as card_catch_up, 7 and 8 if the pool or the carry was damaged. */
static uint8_t take(struct card *card, const uint8_t *page, uint64_t length) {
    for (;;) {
        uint64_t before = card->carried, taken;
        uint32_t looks;
        uint8_t happened, answer = emuparasol_feed(card->pool, sizeof card->pool, card->carry, sizeof card->carry, &card->carried, page, length, false,
                                                   &happened, &looks, &taken);
        if (happened == EMUPARASOL_MORE) /* the next page goes on */
            return EMUPARASOL_COMMITTED;
        if (happened == EMUPARASOL_REFUSED || answer == EMUPARASOL_POSITIONS_USED_UP)
            return answer;
        /* 0 to 5: the record has its position and its verdict, the same on every card, and is never melded again */
        card->place += before + taken;
        card->records++;
        card_verdict(card, card->records, answer);
        page += taken;
        length -= taken;
    }
}

/* Melds what the log has and the card has not seen, page by page. Answers 0 when there is no more, or a record that is not all there yet; 11 if an
   impossible length stands there: the flash is sick, and the card can go on only with another log; 6 if this log has used up its positions; 7 if the pool
   or the carry was damaged and was so again when all had been built anew. */
uint8_t card_catch_up(struct card *card) {
    uint8_t page[CARD_PAGE];
    uint32_t cuts, first_cuts = 0;
    bool again = false;
    /* What was carried when the log last ended may have been cut off since: the record is read again from its first byte. */
    card->carried = 0;
    for (;;) {
        uint64_t got = flash_page(card->place + card->carried, page, &cuts);
        if (card->carried == 0) {
            first_cuts = cuts;
        } else if (cuts != first_cuts) { /* so may what is carried now, before this page was read */
            card->carried = 0;
            continue;
        }
        if (got == 0)
            return EMUPARASOL_COMMITTED;
        uint8_t answer = take(card, page, got);
        if (answer == EMUPARASOL_UNFIT_POOL || answer == EMUPARASOL_OUTPUT_SHORT) { /* something wrote there: build it again, but not for ever */
            if (again)
                return EMUPARASOL_UNFIT_POOL;
            again = true;
            card_start(card);
        } else if (answer != EMUPARASOL_COMMITTED) {
            return answer;
        }
    }
}

/* The snapshot of a transaction that begins now: to be asked for before its first lookup. Answers 0, or 7 if the pool was damaged. */
uint8_t card_begin(const struct card *card, uint32_t *snapshot) {
    uint32_t n, z, kept, tombstones;
    return emuparasol_status(card->pool, sizeof card->pool, &n, &z, snapshot, &kept, &tombstones);
}

/* Brings a record that waits up to where the card is, in its own bytes. Answers 0 if it is. Answers 5 if it was made on a card that is further than this
   one, or 7 if the pool was damaged: it is as before, and can be tried again later. After 1, 2 or 4 it can be thrown away. */
uint8_t card_refresh(struct card *card, uint8_t *record, uint64_t length) {
    uint64_t offset, size;
    uint8_t answer = emuparasol_refresh(card->pool, sizeof card->pool, record, length, card->room, sizeof card->room);
    if (emuparasol_in_force(answer, record, length, card->room, sizeof card->room, &offset, &size))
        memcpy(record, card->room + offset, size);
    return answer;
}

/* Appends a record, with the log's lock held. The last whole record ends at the card's place or behind it. Answers 0 if the record is in the log, and else
   11, or 8 if the flash refused. */
static uint8_t append(struct card *card, const uint8_t *record, uint64_t length) {
    uint8_t answer;
    uint64_t place = card->place, size;
    while ((answer = record_at(card, place, &size)) == EMUPARASOL_COMMITTED && size > 0)
        place += size; /* what other cards have appended since; it is melded later */
    /* A torn log: what stands behind the last whole record is of an append that failed. Nobody is writing it, and no card has melded it. */
    if (answer == EMUPARASOL_TORN_LOG && !flash_cut_off(place))
        return EMUPARASOL_OUTPUT_SHORT;
    /* An impossible length: nothing is appended behind it, nor is it cut off, for other cards may have melded what stood there before. */
    if (answer == EMUPARASOL_IMPOSSIBLE_LENGTH)
        return answer;
    /* If the flash refuses, the log itself says whether the record is there after all. */
    if (flash_append(record, length) || flash_read(place, card->room, length) == length)
        return EMUPARASOL_COMMITTED;
    return EMUPARASOL_OUTPUT_SHORT;
}

/* Appends a record that was made some time ago, brought up to where the card is. Answers 0 if it is in the log; its verdict comes by card_catch_up. After
   any other answer it is not: 8 if the flash refused, 7 if the pool was damaged (card_start), 6 and 11 as from card_catch_up, 5, 1, 2 and 4 as from
   card_refresh. */
uint8_t card_submit(struct card *card, uint8_t *record, uint64_t length) {
    uint8_t answer = card_catch_up(card);
    if (answer == EMUPARASOL_COMMITTED)
        answer = card_refresh(card, record, length);
    if (answer != EMUPARASOL_COMMITTED)
        return answer;
    flash_lock();
    answer = append(card, record, length);
    flash_unlock();
    return answer;
}

/* What stands in the log where the card is, for its owner. Answers 0 if that is the log's end, or a record that is still to be melded; 10 if the log is torn
   there, by an append that goes on just now or was cut short; 11 if an impossible length stands there, and the flash is sick. */
uint8_t card_tail(struct card *card) {
    uint64_t size;
    return record_at(card, card->place, &size);
}

/* Whether the pool has as many positions as the log has records before the card's place. If not, the card has parted from the others: card_start. */
bool card_in_step(struct card *card) {
    uint32_t position, records = 0;
    uint64_t place = 0, size;
    while (place < card->place) {
        record_at(card, place, &size);
        if (size == 0)
            return false;
        place += size;
        records++;
    }
    return card_begin(card, &position) == EMUPARASOL_COMMITTED && place == card->place && position == records;
}
