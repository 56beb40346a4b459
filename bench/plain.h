/* Plain C on the same pools as the library: the same answers, looks and bytes, written for speed, with no proof. For comparison only. */
#ifndef PLAIN_H
#define PLAIN_H

#include <stdbool.h>
#include <stdint.h>

uint8_t plain_create(uint8_t *pool, uint64_t pool_length, uint32_t n, uint32_t z);
uint8_t plain_status(const uint8_t *pool, uint64_t pool_length, uint32_t *n, uint32_t *z, uint32_t *position, uint32_t *kept, uint32_t *tombstones);
uint8_t plain_lookup(const uint8_t *pool, uint64_t pool_length, uint32_t key, uint64_t *payload, uint32_t *position);
uint8_t plain_meld(uint8_t *pool, uint64_t pool_length, const uint8_t *record, uint64_t record_length, uint32_t *looks);
uint8_t plain_feed(uint8_t *pool, uint64_t pool_length, uint8_t *carry, uint64_t carry_length, uint64_t *carried, const uint8_t *part,
                   uint64_t part_length, bool over, uint8_t *happened, uint32_t *looks, uint64_t *taken);
uint8_t plain_explain(const uint8_t *pool, uint64_t pool_length, const uint8_t *record, uint64_t record_length, uint32_t *looks, uint32_t *key,
                      uint32_t *position, uint64_t *point, uint64_t *scan, uint32_t *lag, uint32_t *keys);
uint8_t plain_refresh(const uint8_t *pool, uint64_t pool_length, const uint8_t *original, uint64_t original_length, uint8_t *output,
                      uint64_t output_length);
bool plain_in_force(uint8_t answer, const uint8_t *original, uint64_t original_length, const uint8_t *refreshed, uint64_t refreshed_length,
                    uint64_t *offset, uint64_t *length);
uint8_t plain_check(const uint8_t *record, uint64_t length);
uint8_t plain_read(const uint8_t *record, uint64_t length, uint8_t *kinds, uint64_t kinds_length, uint32_t *keys, uint64_t keys_length,
                   uint64_t *payloads, uint64_t payloads_length, uint32_t *lows, uint64_t lows_length, uint32_t *highs, uint64_t highs_length,
                   uint32_t *snapshot, uint64_t *points, uint64_t *scans);
uint8_t plain_write(uint32_t snapshot, const uint8_t *kinds, uint64_t kinds_length, const uint32_t *keys, uint64_t keys_length,
                    const uint64_t *payloads, uint64_t payloads_length, const uint32_t *lows, uint64_t lows_length, const uint32_t *highs,
                    uint64_t highs_length, uint8_t *output, uint64_t output_length, uint64_t *size);
uint8_t plain_join(const uint8_t *a, uint64_t a_length, const uint8_t *b, uint64_t b_length, uint8_t *output, uint64_t output_length, uint64_t *size);
uint8_t plain_cut(const uint8_t *log, uint64_t log_length, uint64_t place, uint64_t *next);

#endif
