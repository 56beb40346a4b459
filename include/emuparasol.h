/* Emuparasol for C: one flash log, many cards, the same verdicts. docs/FIRMWARE.md says how a card uses these functions.

   The same for all of them:
   - A list or a buffer is lent as a pointer and the number of its elements. Bytes may stand at any address; numbers stand where their type may.
   - Lengths, places and sizes are 64-bit numbers on every processor, also on one whose size_t has 32 bits.
   - A pointer lent with a number of elements may be NULL where that number is 0: nothing is read or written through it then. A pointer to a single
     number may not. What is lent to be written (no const) may overlap nothing else that is lent to the same call.
   - Nothing else is asked: any bytes may be lent anywhere. A function reads and writes only what it is lent, keeps nothing between two calls,
     takes no memory, and ends. Each one says what every lent byte is afterwards.
   - Two calls at the same time are fine unless they share something that one of them writes. */
#ifndef EMUPARASOL_H
#define EMUPARASOL_H

#include <stdbool.h>
#include <stdint.h>

/* The version of this header and of the archive that belongs to it (CHANGELOG.md). */
#define EMUPARASOL_VERSION_MAJOR 0
#define EMUPARASOL_VERSION_MINOR 1
#define EMUPARASOL_VERSION_PATCH 0
#define EMUPARASOL_VERSION "0.1.0"

#ifdef __cplusplus
extern "C" {
#endif

/* The answers, each number with its one name. */
enum emuparasol_answer {
    EMUPARASOL_COMMITTED = 0,          /* the writes are stored; for other functions than meld: done */
    EMUPARASOL_CONFLICT = 1,           /* a key that the record names or scans was written since its snapshot */
    EMUPARASOL_TOO_OLD = 2,            /* the snapshot is more than Z positions back */
    EMUPARASOL_NO_ROOM = 3,            /* more than N keys would have to be kept */
    EMUPARASOL_MALFORMED = 4,          /* the record, or the lists to be written, break a rule */
    EMUPARASOL_AHEAD = 5,              /* the snapshot is past the pool's position */
    EMUPARASOL_POSITIONS_USED_UP = 6,  /* the pool is at position 4,294,967,295 */
    EMUPARASOL_UNFIT_POOL = 7,         /* the bytes lent as a pool are none */
    EMUPARASOL_OUTPUT_SHORT = 8,       /* less room lent than needed */
    EMUPARASOL_BAD_LIMITS = 9,         /* N or Z outside its range, or a pool of another size */
    EMUPARASOL_TORN_LOG = 10,          /* too few bytes: the log merely stops, within a record */
    EMUPARASOL_IMPOSSIBLE_LENGTH = 11, /* two bytes that are no length of a record: below 7 or above 13,833 */
    EMUPARASOL_CANNOT_JOIN = 12        /* the two records cannot be made one; each is as good as before by itself */
};

/* The name of an answer, as the rules have it (R3); "unknown answer" for any other number. Plain C, no part of the archive. */
static inline const char *emuparasol_answer_name(uint8_t answer) {
    static const char *const names[] = {
        "committed",
        "conflict",
        "too old",
        "no room",
        "malformed",
        "ahead",
        "positions used up",
        "unfit pool",
        "output short",
        "bad limits",
        "torn log",
        "impossible length",
        "cannot join"
    };
    return answer < sizeof names / sizeof *names ? names[answer] : "unknown answer";
}

/* The kinds of a point. */
enum emuparasol_kind {
    EMUPARASOL_KIND_READ = 1,
    EMUPARASOL_KIND_PUT = 2,
    EMUPARASOL_KIND_DELETE = 3 /* writes only if the key is live then: kept, and not deleted already (R22) */
};

/* What emuparasol_feed has done, each number with its one name. */
enum emuparasol_happened {
    EMUPARASOL_REFUSED = 0, /* no record was decided: the answer is 8, 11, 7 or 10 */
    EMUPARASOL_DECIDED = 1, /* one record was: the answer is its verdict, 6, 4, 5, 2, 1, 3 or 0 */
    EMUPARASOL_MORE = 2,    /* the part is taken, and the record's last byte is still to come */
    EMUPARASOL_END = 3      /* the log is over, behind a whole record or with none */
};

/* The bytes of a pool for n keys. */
#define EMUPARASOL_POOL_BYTES(n) ((uint64_t)64 + (uint64_t)64 * (uint64_t)(n))
/* The bytes of the shortest and of the longest record, and the most points and scans in one. A record with at most 64 points and at most 8 scans has
   version 1 and 905 bytes at most; one with more of either has version 2 (R53). Every card on a log has to know version 2 before the first such record is
   written: a card of before would part from the others there (docs/FIRMWARE.md, "Moving to version 2"). */
#define EMUPARASOL_LEAST_RECORD 9
#define EMUPARASOL_MOST_RECORD 13835
#define EMUPARASOL_MOST_POINTS 1024
#define EMUPARASOL_MOST_SCANS 64
/* The bytes of a carry, in which a record waits for its rest. */
#define EMUPARASOL_CARRY_BYTES EMUPARASOL_MOST_RECORD

/* Makes the lent bytes a new pool, at position 0 and without keys, for at most n keys (1 to 65,536) and zones of at most z positions (1 to 4,096).
   Answers 0: every byte of the pool is fixed by n and z. Answers 9 if n or z is outside its range or pool_length is not 64 + 64 n: the bytes are
   as before. */
uint8_t emuparasol_create(uint8_t *pool, uint64_t pool_length, uint32_t n, uint32_t z);

/* What the pool says of itself. Answers 0: *n and *z are its limits, *position is the position of the last record that was melded (the snapshot of a
   transaction that begins now), *kept is how many keys it keeps, and *tombstones how many of these are deleted. Answers 7 for an unfit pool, with all
   five 0. */
uint8_t emuparasol_status(const uint8_t *pool, uint64_t pool_length, uint32_t *n, uint32_t *z, uint32_t *position, uint32_t *kept, uint32_t *tombstones);

/* What the pool keeps under a key. Answers 0: *position is the position of the last committed write, 1 or more, and *payload what it put there; or
   both are 0, and the key is absent (never written, or deleted). Answers 7 for an unfit pool, with both 0. */
uint8_t emuparasol_lookup(const uint8_t *pool, uint64_t pool_length, uint32_t key, uint64_t *payload, uint32_t *position);

/* Decides the log's next record: the first that applies of 7, 6, 4, 5, 2, 1, 3 and 0. On 7 and 6 the pool is as before; on 4, 5, 2, 1 and 3 only its
   position moves on by one; on 0 the record's writes are stored at that position too. *looks is the number of nodes that the search for a conflict
   looked at, 0 on 7, 6, 4, 5 and 2.
   A record writes the keys of its puts, and of its deletes those that are live in the pool before it. A delete of any other key, never written or deleted
   already, writes nothing: it beats no other record, needs no room, and a tombstone that is there stays as old as it is. But the record names the key all
   the same, and is itself beaten if somebody wrote it since its snapshot. Cards from before this rule wrote such a delete: docs/FIRMWARE.md, "Moving to
   deletes that write nothing". */
uint8_t emuparasol_meld(uint8_t *pool, uint64_t pool_length, const uint8_t *record, uint64_t record_length, uint32_t *looks);

/* Takes the next part of the log, of any length, and decides one record at most, once its last byte is in. The first *carried bytes of the carry are
   the front of a record that is not all there: 0 of them before the first call, and from then on those that the call before left. "In" are these bytes
   and behind them the part. With over the log ends with this part. *carried is read and set; *happened, *looks and *taken are set. The first that
   applies:
   - carry_length is not EMUPARASOL_CARRY_BYTES, or no call leaves a carry with such bytes and such a number: REFUSED, answers 8. Pool, carry and
     *carried are as before, and *taken is 0.
   - The two bytes of a length below 7 or above 13,833 are carried: REFUSED, answers 11, to every part from then on. Pool, carry and *carried are as
     before, and *taken is 0.
   - The two bytes of such a length are in: REFUSED, answers 11. They are the carry's first two now, *carried is 2, and *taken is how many of them the
     part had, 1 or 2. The pool is as before.
   - The record's last byte is in, and the pool is unfit: REFUSED, answers 7. Pool, carry and *carried are as before, and *taken is 0.
   - The record's last byte is in: DECIDED, answers 6, 4, 5, 2, 1, 3 or 0, with the pool and *looks as emuparasol_meld leaves them. *taken is how many
     bytes the part had of the record: lend those behind them next. *carried is 0. If a byte of the record was carried, all of it is at the carry's
     front now; else it was melded where it lay, and the carry is as before.
   - The log is not over: MORE, answers 0. All of the part is taken and stands in the carry behind what was carried, and *carried counts both. The pool
     is as before.
   - The log is over, and nothing is in: END, answers 0. Pool and carry are as before, *taken and *carried are 0.
   - The log is over, and stops within its last record: REFUSED, answers 10. Pool, carry and *carried are as before, and *taken is 0.
   *looks is 0 unless a record was decided. The carry's bytes behind what is said of its front are always as before; at first they may be anything. */
uint8_t emuparasol_feed(uint8_t *pool, uint64_t pool_length, uint8_t *carry, uint64_t carry_length, uint64_t *carried, const uint8_t *part,
                        uint64_t part_length, bool over, uint8_t *happened, uint32_t *looks, uint64_t *taken);

/* Says why a record gets its answer: who beat it, how far it lags, or how many keys would have to find room. Answers what emuparasol_meld would answer
   now for this pool and this record, the first that applies of 7, 6, 4, 5, 2, 1, 3 and 0, and *looks is what it would set. Pool and record are only
   read. All seven numbers are always set; the six behind *looks are 0 but for these:
   - 1: *key is the smallest key in conflict: kept, named or scanned by the record, and written since its snapshot. *position is the position of its last
     write, 1 or more: the record at that position wrote it. Of *point and *scan exactly one is above 0: *point is the number of the record's point with
     that key, or, if it has none, *scan the number of its scan that covers the key. The first point is number 1, and so is the first scan.
   - 2: *lag is how many positions back the snapshot lies, which is more than Z.
   - 3: *keys is how many keys would have to be kept, which is more than N: those that are live, those with a tombstone that is too young to be dropped,
     and those that the record writes, each once. A key that it deletes and that is not live is not written. */
uint8_t emuparasol_explain(const uint8_t *pool, uint64_t pool_length, const uint8_t *record, uint64_t record_length, uint32_t *looks, uint32_t *key,
                           uint32_t *position, uint64_t *point, uint64_t *scan, uint32_t *lag, uint32_t *keys);

/* Brings a record that has waited up to the pool's position: the first that applies of 7, 4, 5, 2, 1, 8 and 0. On 0 the front of the output is the
   same record, in the same version, with the pool's position as its snapshot, and the rest of the output is as before; on any other answer all of it
   is. The room needed is original_length; EMUPARASOL_MOST_RECORD bytes are always enough. */
uint8_t emuparasol_refresh(const uint8_t *pool, uint64_t pool_length, const uint8_t *original, uint64_t original_length, uint8_t *output,
                           uint64_t output_length);

/* The record to append after a refresh that gave this answer: *length bytes from *offset on, in refreshed if true is answered, else in original.
   After 5 it is all of original; after 0 the record at the front of refreshed, if one stands there; else (also where emuparasol_cut would say there that
   the log ends, or 10, or 11) *length is 0 and there is none. *offset is always 0. */
bool emuparasol_in_force(uint8_t answer, const uint8_t *original, uint64_t original_length, const uint8_t *refreshed, uint64_t refreshed_length,
                         uint64_t *offset, uint64_t *length);

/* Whether the lent bytes are exactly one well-formed record: 0, or 4. */
uint8_t emuparasol_check(const uint8_t *record, uint64_t record_length);

/* Takes a record apart. Answers 0: the fronts of the lists hold the kinds, keys and payloads of its *points points (payload 0 for a read or a
   delete) and the low and high ends of its *scans scans, the rest of each list is as before, and *snapshot is its snapshot. Answers 4 for a
   malformed record, then 8 if a list is too short: the lists are as before and *snapshot, *points and *scans are 0. Lists of 1,024 points and 64
   scans are always enough. Shorter ones may be lent where only small records are met: 64 points and 8 scans for those of version 1. */
uint8_t emuparasol_read(const uint8_t *record, uint64_t record_length, uint8_t *kinds, uint64_t kinds_length, uint32_t *keys, uint64_t keys_length,
                        uint64_t *payloads, uint64_t payloads_length, uint32_t *lows, uint64_t lows_length, uint32_t *highs, uint64_t highs_length,
                        uint32_t *snapshot, uint64_t *points, uint64_t *scans);

/* Writes a record from lists: kinds, keys and payloads of equal length (payload 0 for a read or a delete), lows and highs of equal length. Answers 0:
   the record is the first *size bytes of the output and the rest is as before. At most 64 points and 8 scans give version 1, more of either version 2.
   Answers 4 if the lists break a rule, also with more than 1,024 points or 64 scans, then 8 if the output is shorter than the record: the output is as
   before and *size is 0. EMUPARASOL_MOST_RECORD bytes are always enough. */
uint8_t emuparasol_write(uint32_t snapshot, const uint8_t *kinds, uint64_t kinds_length, const uint32_t *keys, uint64_t keys_length,
                         const uint64_t *payloads, uint64_t payloads_length, const uint32_t *lows, uint64_t lows_length, const uint32_t *highs,
                         uint64_t highs_length, uint8_t *output, uint64_t output_length, uint64_t *size);

/* Makes one record of two that belong together. a is the first, meant for a position of the log, and b the second, meant for the next one; the joined
   record is meant for the position of a. It has one verdict, and stores what both write or nothing. Where it commits, a and behind it b would have
   committed too, unless b had come too late (too old, or no position left), and every key has the payload that they would have left, or none (R58).
   Answers 0: the joined record is the first *size bytes of the output and the rest is as before. It has the snapshot of both; each key that either names,
   once: as b has it if b puts or deletes it or a does not name it, and else as a has it; and the scans of both, of which those that share a key have
   become one. At most 64 points and 8 scans give version 1, more of either version 2.
   Answers 12 if they cannot be joined: a or b is malformed; their snapshots differ; b names or scans a key that a puts or deletes; or the joined record
   would have more than 1,024 points or 64 scans. They can still be appended one after the other, each with a verdict of its own (docs/FIRMWARE.md, "Two
   records as one"). Answers 8 if they can be joined and the output is shorter than the joined record. With 12 and 8 the output is as before and *size is
   0. a and b are only read. EMUPARASOL_MOST_RECORD bytes are always enough, and so are a_length + b_length. */
uint8_t emuparasol_join(const uint8_t *a, uint64_t a_length, const uint8_t *b, uint64_t b_length, uint8_t *output, uint64_t output_length, uint64_t *size);

/* What stands at a place of a log. Answers 0 with *next above place: a record, up to *next; it need not be well formed. Answers 0 with *next equal to
   place: the log ends exactly here. Answers 10 with *next equal to place: there are too few bytes, and the log merely stops; fewer than two are left, or
   fewer than the record has, or the place is past the end. Answers 11 with *next equal to place: the two bytes there are no length of a record, below 7
   or above 13,833, however many bytes follow them. */
uint8_t emuparasol_cut(const uint8_t *log, uint64_t log_length, uint64_t place, uint64_t *next);

#ifdef __cplusplus
}
#endif

#endif
