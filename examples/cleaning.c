/* A cleaning script beside a scanner. The script deletes whole ranges of ports, most of which nobody has leased. Deleting what is not there writes nothing
   (R22): it beats no scanner, and the pool does not fill with tombstones. Deleting a lease does both, once. All cards go by this rule here; docs/FIRMWARE.md,
   "Moving to deletes that write nothing", says what has to be done before. */
#include <stdio.h>

#include "stage.h"

static uint8_t record[EMUPARASOL_MOST_RECORD], waiting[STAGE_PUT + 8];

void card_verdict(struct card *card, uint32_t position, uint8_t answer) {
    if (card == &left)
        printf("  record %lu: %u %s\n", (unsigned long)position, (unsigned)answer, emuparasol_answer_name(answer));
}

/* A lease of a port, made by who has looked through all ports. Answers the record's length. */
static uint64_t lease(uint32_t snapshot, uint32_t port, uint64_t tenant) {
    const uint8_t kind = EMUPARASOL_KIND_PUT;
    const uint32_t low = 5000, high = 9999;
    uint64_t size;
    emuparasol_write(snapshot, &kind, 1, &port, 1, &tenant, 1, &low, 1, &high, 1, waiting, sizeof waiting, &size);
    return size;
}

/* The script: the left card deletes so many ports from a first one on. */
static void clean(uint32_t first, uint32_t count) {
    static uint8_t kinds[EMUPARASOL_MOST_POINTS];
    static uint32_t ports[EMUPARASOL_MOST_POINTS];
    static const uint64_t payloads[EMUPARASOL_MOST_POINTS];
    uint32_t snapshot;
    uint64_t size;
    card_begin(&left, &snapshot);
    for (uint32_t i = 0; i < count; i++) {
        kinds[i] = EMUPARASOL_KIND_DELETE;
        ports[i] = first + i;
    }
    emuparasol_write(snapshot, kinds, count, ports, count, payloads, count, ports, 0, ports, 0, record, sizeof record, &size);
    printf("left deletes the ports %lu to %lu: %u\n", (unsigned long)first, (unsigned long)(first + count - 1), (unsigned)card_submit(&left, record, size));
}

/* Both cards meld what there is, and the left one says what it keeps. */
static void catch_up(void) {
    uint32_t n, z, position, kept, tombstones;
    card_catch_up(&left);
    card_catch_up(&right);
    emuparasol_status(left.pool, sizeof left.pool, &n, &z, &position, &kept, &tombstones);
    printf("  position %lu: %lu of %lu keys, %lu tombstones; pools %s\n", (unsigned long)position, (unsigned long)kept, (unsigned long)n,
           (unsigned long)tombstones, stage_pools());
}

int main(void) {
    uint8_t put[STAGE_PUT];
    uint32_t snapshot;
    stage_clear();
    printf("left leases 6000: %u\n", (unsigned)card_submit(&left, put, stage_put(0, 6000, 1, put)));
    printf("left leases 6001: %u\n", (unsigned)card_submit(&left, put, stage_put(1, 6001, 2, put)));
    catch_up();

    /* A scanner looks through all ports and takes its time. Meanwhile the script deletes twice as many ports as there is room for keys. */
    card_begin(&right, &snapshot);
    uint64_t size = lease(snapshot, 7000, 3);
    clean(5000, 1000);
    clean(6500, 1000);
    catch_up();
    /* Nothing in the range was written, not even the port that it wants. */
    printf("right leases 7000, having looked through all ports at %lu: %u\n", (unsigned long)snapshot, (unsigned)card_submit(&right, waiting, size));
    catch_up();

    /* Two of these are leased: they are written, and who looked before is beaten. */
    card_begin(&right, &snapshot);
    size = lease(snapshot, 7001, 4);
    clean(6000, 64);
    catch_up();
    printf("right leases 7001, having looked through all ports at %lu: %u\n", (unsigned long)snapshot, (unsigned)card_submit(&right, waiting, size));

    /* It looks again. The script runs once more over what it has deleted, and nothing is written. */
    card_begin(&right, &snapshot);
    size = lease(snapshot, 7001, 4);
    clean(6000, 64);
    printf("right leases 7001, having looked through all ports at %lu: %u\n", (unsigned long)snapshot, (unsigned)card_submit(&right, waiting, size));
    catch_up();
    return 0;
}
