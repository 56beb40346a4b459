/* A record of version 2 from its lists to the lists again: written, melded by two cards on pages of different sizes, refreshed, and read back from the log;
   and where the one version ends and the other begins. All cards know version 2 here; examples/moved.c shows what happens where one does not. */
#include <stdio.h>
#include <string.h>

#include "stage.h"

/* The lists of a record. They are long for a stack. */
struct lists {
    uint8_t kinds[EMUPARASOL_MOST_POINTS + 1];
    uint32_t keys[EMUPARASOL_MOST_POINTS + 1], lows[EMUPARASOL_MOST_SCANS + 1], highs[EMUPARASOL_MOST_SCANS + 1];
    uint64_t payloads[EMUPARASOL_MOST_POINTS + 1];
};

static struct lists lists, back;
static uint8_t record[EMUPARASOL_MOST_RECORD], other[STAGE_PUT];

void card_verdict(struct card *card, uint32_t position, uint8_t answer) {
    printf("  %s, record %lu, up to byte %lu: %u %s\n", card == &left ? "left" : "right", (unsigned long)position, (unsigned long)card->place, (unsigned)answer,
           emuparasol_answer_name(answer));
}

/* Fills the lists: 900 puts, 100 reads behind them, the rest deletes; scans of ten keys each. */
static void fill(void) {
    for (uint32_t i = 0; i <= EMUPARASOL_MOST_POINTS; i++) {
        lists.kinds[i] = i < 900 ? EMUPARASOL_KIND_PUT : i < 1000 ? EMUPARASOL_KIND_READ : EMUPARASOL_KIND_DELETE;
        lists.keys[i] = 10 + i;
        lists.payloads[i] = i < 900 ? 5000 + i : 0;
    }
    for (uint32_t i = 0; i <= EMUPARASOL_MOST_SCANS; i++) {
        lists.lows[i] = 100000 + 10 * i;
        lists.highs[i] = 100009 + 10 * i;
    }
}

/* Writes a record of the first so many points and scans, and says what it became. */
static uint64_t write_first(uint32_t snapshot, uint64_t points, uint64_t scans) {
    uint64_t size;
    uint8_t answer = emuparasol_write(snapshot, lists.kinds, points, lists.keys, points, lists.payloads, points, lists.lows, scans, lists.highs, scans, record,
                                      sizeof record, &size);
    printf("%lu points and %lu scans: %u", (unsigned long)points, (unsigned long)scans, (unsigned)answer);
    if (answer == EMUPARASOL_COMMITTED)
        printf(", %lu bytes, version %u\n", (unsigned long)size, (unsigned)record[2]);
    else
        printf(" %s\n", emuparasol_answer_name(answer));
    return size;
}

/* Takes the record apart into the fronts of lists with room for so many points and scans, and says whether that is what was written. */
static void read_back(uint64_t size, uint64_t points_room, uint64_t scans_room) {
    uint32_t snapshot;
    uint64_t points, scans;
    uint8_t answer = emuparasol_read(record, size, back.kinds, points_room, back.keys, points_room, back.payloads, points_room, back.lows, scans_room, back.highs,
                                     scans_room, &snapshot, &points, &scans);
    printf("read into lists of %lu points and %lu scans: %u", (unsigned long)points_room, (unsigned long)scans_room, (unsigned)answer);
    if (answer == EMUPARASOL_COMMITTED) {
        bool same = memcmp(back.kinds, lists.kinds, points) == 0 && memcmp(back.keys, lists.keys, points * sizeof *back.keys) == 0 &&
                    memcmp(back.payloads, lists.payloads, points * sizeof *back.payloads) == 0 && memcmp(back.lows, lists.lows, scans * sizeof *back.lows) == 0 &&
                    memcmp(back.highs, lists.highs, scans * sizeof *back.highs) == 0;
        printf(", snapshot %lu, %lu points, %lu scans, %s\n", (unsigned long)snapshot, (unsigned long)points, (unsigned long)scans,
               same ? "as they were written" : "NOT as they were written");
    } else {
        printf(" %s\n", emuparasol_answer_name(answer));
    }
}

static void catch_up(struct card *card, uint64_t page) {
    stage_page_size(page);
    printf("pages of %lu bytes: caught up %u\n", (unsigned long)page, (unsigned)card_catch_up(card));
}

int main(void) {
    fill();
    /* The counts decide the version. */
    write_first(0, 64, 8);
    write_first(0, 65, 8);
    write_first(0, 64, 9);
    write_first(0, 1025, 64);
    write_first(0, 1024, 65);
    uint64_t size = write_first(0, 1024, 64);

    /* The left card's record waits while the right one appends another. It is refreshed on its way into the log, and keeps its version. */
    stage_clear();
    printf("right submits a put of 7: %u\n", (unsigned)card_submit(&right, other, stage_put(0, 7, 100, other)));
    printf("left submits the record: %u\n", (unsigned)card_submit(&left, record, size));
    printf("it has version %u still, and %u as its snapshot\n", (unsigned)record[2], (unsigned)record[6]);

    /* Both cards meld it, byte by byte the same. */
    catch_up(&left, 256);
    catch_up(&right, 2048);
    printf("pools %s; 10 is %lu, 909 is %lu, 910 is %lu\n", stage_pools(), stage_payload(&left, 10), stage_payload(&left, 909), stage_payload(&left, 910));

    /* Read back from the log. A card that meets only small records may lend short lists, and is told where they do not do. */
    memset(record, 0, sizeof record);
    uint64_t got = flash_read(STAGE_PUT, record, size);
    printf("%lu bytes of the log from byte %u on: check %u\n", (unsigned long)got, (unsigned)STAGE_PUT, (unsigned)emuparasol_check(record, size));
    read_back(size, 64, 8);
    read_back(size, 1024, 64);

    /* Whoever has not seen it is in conflict with it. */
    printf("right submits a put of 500 with the snapshot 1: %u\n", (unsigned)card_submit(&right, other, stage_put(1, 500, 1, other)));
    printf("right submits a put of 500 with the snapshot 2: %u\n", (unsigned)card_submit(&right, other, stage_put(2, 500, 1, other)));
    catch_up(&left, 256);
    catch_up(&right, 2048);
    printf("pools %s; 500 is %lu\n", stage_pools(), stage_payload(&left, 500));
    return 0;
}
