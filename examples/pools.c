/* Prints the pools of docs/LAYOUT.md, byte by byte: a new one, one with two keys, and one after a drop. A line has an offset and 32 bytes. */
#include <stdio.h>
#include <stdlib.h>

#include "emuparasol.h"

enum { KEYS = 3, LINE = 32 };

static uint8_t pool[EMUPARASOL_POOL_BYTES(KEYS)];

static void print_pool(void) {
    for (uint64_t at = 0; at < sizeof pool; at += LINE) {
        printf("%5lu ", (unsigned long)at);
        for (uint64_t i = 0; i < LINE; i++)
            printf(" %02X", (unsigned)pool[at + i]);
        printf("\n");
    }
}

/* A new pool for three keys. */
static void start(uint32_t zone) {
    if (emuparasol_create(pool, sizeof pool, KEYS, zone) != EMUPARASOL_COMMITTED)
        exit(1);
}

/* Melds a record without scans, and expects this answer. */
static void meld(uint32_t snapshot, uint64_t points, const uint8_t *kinds, const uint32_t *keys, const uint64_t *payloads, uint8_t expected) {
    uint8_t record[EMUPARASOL_MOST_RECORD];
    const uint32_t none = 0;
    uint64_t size;
    uint32_t looks;
    emuparasol_write(snapshot, kinds, points, keys, points, payloads, points, &none, 0, &none, 0, record, sizeof record, &size);
    if (emuparasol_meld(pool, sizeof pool, record, size, &looks) != expected)
        exit(1);
}

int main(void) {
    const uint8_t put = EMUPARASOL_KIND_PUT, read = EMUPARASOL_KIND_READ, delete = EMUPARASOL_KIND_DELETE;
    start(4);
    print_pool();
    meld(0, 2, (uint8_t[]){put, put}, (uint32_t[]){10, 20}, (uint64_t[]){100, 200}, EMUPARASOL_COMMITTED);
    meld(0, 2, (uint8_t[]){put, read}, (uint32_t[]){10, 30}, (uint64_t[]){5, 0}, EMUPARASOL_CONFLICT);
    print_pool();
    start(1);
    meld(0, 3, (uint8_t[]){put, put, put}, (uint32_t[]){1, 2, 8}, (uint64_t[]){11, 22, 88}, EMUPARASOL_COMMITTED);
    meld(1, 2, (uint8_t[]){delete, delete}, (uint32_t[]){1, 8}, (uint64_t[]){0, 0}, EMUPARASOL_COMMITTED);
    meld(2, 1, &put, (uint32_t[]){20}, (uint64_t[]){400}, EMUPARASOL_COMMITTED);
    print_pool();
    return 0;
}
