/* Two leases that belong together. A shop wants a port for its counter and one for its till, and one without the other is worth nothing to it. As two records one of
   them may commit and the other not. Joined they are one record, with one position and one verdict (R56 to R58). Then what answer 12 asks of a card: where the
   second looks at what the first writes, where their snapshots differ, and where they are too large together. All cards know version 2 here. */
#include <stdio.h>

#include "stage.h"

enum { LICENCE = 7, SIGN = 9, SHOP = 100, OTHER = 200 };

static uint8_t first[EMUPARASOL_MOST_RECORD], second[EMUPARASOL_MOST_RECORD], both[EMUPARASOL_MOST_RECORD];

void card_verdict(struct card *card, uint32_t position, uint8_t answer) {
    if (card == &left)
        printf("  record %lu: %u %s\n", (unsigned long)position, (unsigned)answer, emuparasol_answer_name(answer));
}

/* A record that has read one key and puts another, a larger one. Answers its length. */
static uint64_t read_and_put(uint32_t snapshot, uint32_t read, uint32_t put, uint64_t payload, uint8_t *record) {
    const uint8_t kinds[] = {EMUPARASOL_KIND_READ, EMUPARASOL_KIND_PUT};
    const uint32_t keys[] = {read, put};
    const uint64_t payloads[] = {0, payload};
    uint64_t size;
    emuparasol_write(snapshot, kinds, 2, keys, 2, payloads, 2, NULL, 0, NULL, 0, record, EMUPARASOL_MOST_RECORD, &size);
    return size;
}

/* Joins the first and the second, and says what became of it. Answers the length of both as one, 0 if they stay two. */
static uint64_t join(uint64_t one, uint64_t other) {
    uint64_t size;
    uint8_t answer = emuparasol_join(first, one, second, other, both, sizeof both, &size);
    printf("left joins them, %lu and %lu bytes: %u", (unsigned long)one, (unsigned long)other, (unsigned)answer);
    if (answer == EMUPARASOL_COMMITTED)
        printf(", %lu bytes, version %u\n", (unsigned long)size, (unsigned)both[2]);
    else
        printf(" %s\n", emuparasol_answer_name(answer));
    return size;
}

static void submit(const char *what, uint8_t *record, uint64_t size) { printf("left submits %s: %u\n", what, (unsigned)card_submit(&left, record, size)); }

/* The right card leases a port for another tenant, and both cards catch up. */
static void right_leases(uint32_t port) {
    uint8_t put[STAGE_PUT];
    card_catch_up(&right);
    printf("right leases %lu: %u\n", (unsigned long)port, (unsigned)card_submit(&right, put, stage_put(right.records, port, OTHER, put)));
    card_catch_up(&right);
}

/* Both catch up; what stands under two ports. */
static void look(uint32_t port, uint32_t next) {
    card_catch_up(&left);
    card_catch_up(&right);
    printf("  %lu is %lu, %lu is %lu; pools %s\n", (unsigned long)port, stage_payload(&left, port), (unsigned long)next, stage_payload(&left, next), stage_pools());
}

/* A new log with the shop's licence in it. */
static void begin(uint32_t *snapshot) {
    uint8_t put[STAGE_PUT];
    stage_clear();
    card_submit(&left, put, stage_put(0, LICENCE, 1, put));
    card_catch_up(&left);
    card_begin(&left, snapshot);
}

int main(void) {
    static uint8_t kinds[EMUPARASOL_MOST_POINTS];
    static uint32_t keys[EMUPARASOL_MOST_POINTS];
    static const uint64_t payloads[EMUPARASOL_MOST_POINTS];
    uint32_t snapshot;
    uint64_t one, other, size;

    printf("As two records:\n");
    begin(&snapshot);
    one = read_and_put(snapshot, LICENCE, 5000, SHOP, first);
    other = read_and_put(snapshot, LICENCE, 5001, SHOP, second);
    right_leases(5001);
    submit("the counter", first, one);
    submit("the till", second, other);
    look(5000, 5001); /* a counter without a till: somebody has to give it back */

    printf("As one:\n");
    begin(&snapshot);
    one = read_and_put(snapshot, LICENCE, 5000, SHOP, first);
    other = read_and_put(snapshot, LICENCE, 5001, SHOP, second);
    size = join(one, other); /* the licence, which both have read, is named once */
    right_leases(5001);
    submit("both", both, size);
    look(5000, 5001); /* nothing to give back */
    card_begin(&left, &snapshot);
    one = read_and_put(snapshot, LICENCE, 5002, SHOP, first);
    other = read_and_put(snapshot, LICENCE, 5003, SHOP, second);
    size = join(one, other);
    submit("both", both, size);
    look(5002, 5003);

    printf("The second looks at what the first writes:\n");
    card_begin(&left, &snapshot);
    one = read_and_put(snapshot, SIGN, 5004, SHOP, first);
    other = read_and_put(snapshot, 5004, 5005, SHOP, second);
    join(one, other);
    /* One after the other, and the second would be beaten by the first: it has looked at 5004 before that was written. So it looks again behind it. */
    submit("the first", first, one);
    submit("the second", second, other);
    card_begin(&left, &snapshot);
    other = read_and_put(snapshot, 5004, 5005, SHOP, second);
    submit("the second, made anew", second, other);
    look(5004, 5005);

    printf("Two snapshots:\n");
    card_begin(&left, &snapshot);
    one = read_and_put(snapshot, LICENCE, 5006, SHOP, first);
    right_leases(6000);
    card_catch_up(&left);
    card_begin(&left, &snapshot);
    other = read_and_put(snapshot, LICENCE, 5007, SHOP, second);
    join(one, other);
    /* A refresh on one card gives both its position as snapshot; it changes no verdict. */
    printf("left refreshes both: %u and %u\n", (unsigned)card_refresh(&left, first, one), (unsigned)card_refresh(&left, second, other));
    size = join(one, other);
    submit("both", both, size);
    look(5006, 5007);

    printf("Too large together:\n");
    card_begin(&left, &snapshot);
    for (uint32_t i = 0; i < EMUPARASOL_MOST_POINTS; i++) {
        kinds[i] = i == 0 ? EMUPARASOL_KIND_DELETE : EMUPARASOL_KIND_READ;
        keys[i] = 5006 + 2 * i;
    }
    emuparasol_write(snapshot, kinds, EMUPARASOL_MOST_POINTS, keys, EMUPARASOL_MOST_POINTS, payloads, EMUPARASOL_MOST_POINTS, keys, 0, keys, 0, first, sizeof first,
                     &one);
    other = read_and_put(snapshot, LICENCE, 5009, SHOP, second);
    join(one, other);
    submit("the first", first, one);
    submit("the second", second, other);
    look(5006, 5009);
    return 0;
}
