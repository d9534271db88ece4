/* The register store of a crankcase mist detector's recorder, for a host in C or C++.
 *
 * The library is libregisters.a: `make -C c install` of its repository builds it and puts it, this header and
 * registers_file.h where `pkg-config --cflags --libs registers` finds them. There are two stores with the same
 * calls: the journal store keeps effects in a journal of 24-byte records above a base table, and can be recovered from
 * the bytes that survived a restart; the map store keeps versions. The host owns all memory and lends it to each call.
 *
 * What is lent. A lent column or journal is two arguments, a pointer and a length in elements. The pointer is not
 * null and is aligned for its elements, also where the length is 0, and what a call may change overlaps nothing
 * else that is lent to it. Of numbers, heads and cells nothing is asked: every call answers for all of them,
 * damaged ones too.
 *
 * At the same time. A call keeps nothing of what it was lent, so calls on different stores may run at the same time.
 * On one store read, lookup and list may run beside each other, each list into columns of its own. Every other call
 * runs alone: no call on that store has begun and not returned, and the next one takes the head that it returned.
 * The library has no lock; the host's lock is held until the new head is in place.
 *
 * Stack. The library allocates nothing; its columns are on the stack. The KB that a call takes on a full store,
 * rounded up, the greatest of what the repository's rust/bench/run measured, with kit 5b on x86-64 and on Arm, and with
 * kit 13f on x86-64:
 *
 *                   begin  assign, add  read  commit  abort  lookup  list  checkpoint  recover
 *   journal store       9            9    19      25      1      19    59          64       13
 *   map store          13           20     6      21     22       3    37          47        -
 *
 * What comes back. A call that changes the store returns a head: use it from then on in place of the old one. A
 * refused call returns the head that it was given and changes no lent cell. The answer is the number of the
 * refusal, 0 where the call was accepted, and a value where there is one.
 *
 * Room. Room beyond the limits is not used, less room lowers the limit, and room for part of a record is no room.
 * Cells beyond the counts are kept: in the journal store an accepted begin, assign, add, abort and commit writes
 * the bytes of one record and nothing else; in the map store an accepted commit writes the rows of its versions,
 * and begin, assign, add and abort change the head alone; rows of a base or a list beyond its count keep their
 * contents.
 *
 * The medium. The library writes none. registers_file.h has the bytes of a store's file, and the repository's
 * c/host.c is a host that keeps one, to be copied: what is written and flushed when is the whole of it.
 */
#ifndef REGISTERS_H
#define REGISTERS_H

#include <stddef.h>
#include <stdint.h>

#ifdef __cplusplus
extern "C" {
#endif

/* This header's version, and the layout of the structs that pass to the library and back, which changes if a field
 * does: registers_limits().layout is the library's own. Layout 2 has the marks: a fourth column that every map call is
 * lent, and a field of each slot. The journal store's head, records and file are those of layout 1. */
#define REGISTERS_VERSION_MAJOR 2
#define REGISTERS_VERSION_MINOR 0
#define REGISTERS_VERSION_PATCH 0
#define REGISTERS_VERSION "2.0.0"
#define REGISTERS_LAYOUT 2u

/* The limits. Keys are 1 to 4,294,967,295, values 0 to 4,294,967,295; 0 is an ordinary value and differs from
 * absent. Times are 0 to 18,446,744,073,709,551,615; no commit is at 0. Transaction numbers are 1 to
 * REGISTERS_LAST_NUMBER. */
#define REGISTERS_RUNNING 8u               /* transactions that run */
#define REGISTERS_KEYS 32u                 /* distinct keys written in one transaction */
#define REGISTERS_RECORDS 2048u            /* records of a journal */
#define REGISTERS_RECORD_BYTES 24u         /* bytes of a record */
#define REGISTERS_JOURNAL_BYTES 49152u     /* bytes of a journal: 2,048 records of 24 */
#define REGISTERS_BASE_ROWS 512u           /* rows of a base */
#define REGISTERS_VERSION_ROWS 4096u       /* versions of a map store */
#define REGISTERS_LIST_ROWS 2560u          /* rows that every list of a journal store fits in: base and records */
#define REGISTERS_LAST_NUMBER 4294967294u  /* the last transaction number */
#define REGISTERS_REFUSALS 13u             /* refusals, numbered from 1 */

/* The numbers of an answer, and exactly when each is given. A call makes its tests in the order that stands beside
 * it. */
enum registers_number {
    REGISTERS_ACCEPTED = 0,             /* nothing below applies */
    REGISTERS_BAD_SHAPE = 1,            /* a count, the surviving bytes included, exceeds its limit or lent room;
                                           paired columns differ in length; floor or next is 0; an occupied slot has
                                           more than 32 keys; in recovery also base keys not strictly rising from 1 */
    REGISTERS_UNKNOWN_TRANSACTION = 2,  /* the transaction is not running */
    REGISTERS_BAD_KEY = 3,              /* key 0 */
    REGISTERS_TOO_OLD = 4,              /* a time below low */
    REGISTERS_FUTURE = 5,               /* a time above last */
    REGISTERS_TOO_MANY = 6,             /* 8 or more transactions run already */
    REGISTERS_NO_NUMBERS = 7,           /* the next number is 4,294,967,295 or more */
    REGISTERS_KEYS_FULL = 8,            /* a key new to a transaction that has 32 or more, in the map store 32 rows of
                                           its slot used */
    REGISTERS_HELD = 9,                 /* a checkpoint above a running snapshot */
    REGISTERS_NOT_LATER = 10,           /* a commit time at most last */
    REGISTERS_CONFLICT = 11,            /* a commit later than the snapshot wrote a key that this one has written,
                                           and not both of them used nothing but add on it */
    REGISTERS_NO_ROOM = 12,             /* too few free records, version rows, list rows or base rows */
    REGISTERS_BAD_RECORD = 13           /* a record that no accepted call would write there; its place is told */
};

/* What a number means, in words for a log or a panel. */
static inline const char *registers_text(uint32_t number)
{
    switch (number) {
    case REGISTERS_ACCEPTED: return "accepted";
    case REGISTERS_BAD_SHAPE: return "a count is impossible, or columns do not match";
    case REGISTERS_UNKNOWN_TRANSACTION: return "the transaction is not running";
    case REGISTERS_BAD_KEY: return "key 0";
    case REGISTERS_TOO_OLD: return "the time lies before the latest checkpoint";
    case REGISTERS_FUTURE: return "the time lies after the last commit";
    case REGISTERS_TOO_MANY: return "eight transactions run already";
    case REGISTERS_NO_NUMBERS: return "no transaction numbers are left";
    case REGISTERS_KEYS_FULL: return "the transaction has written 32 keys";
    case REGISTERS_HELD: return "a running transaction still reads from before that time";
    case REGISTERS_NOT_LATER: return "the commit time is not later than the last one";
    case REGISTERS_CONFLICT: return "somebody else changed one of these registers meanwhile";
    case REGISTERS_NO_ROOM: return "no room in the journal, the versions, the base or the list";
    case REGISTERS_BAD_RECORD: return "a record of the journal could not have been written by this store";
    default: return "no number of this store";
    }
}

/* What a call answers. */
typedef struct registers_answer {
    uint32_t number;  /* an enum registers_number */
    uint32_t present; /* 1 if a value stands beside the number, else 0 */
    uint64_t value;   /* begin's transaction number; what read and lookup give, where present 0 is absent; list's
                         count of rows; the place, from 0, of the record that refusal 13 names; 0 if present is 0 */
} registers_answer;

/* The journal store's head. Times below low are too old; no transaction gets a number below floor; base_rows rows
 * of the base and used records of the journal are in use. On a medium its recommended bytes are those of a store's
 * file, bytes 4 to 19: low in 8, floor in 4, base_rows in 4, the lowest byte first. Used is not kept there: recovery
 * ignores it. */
typedef struct registers_journal_head {
    uint64_t low;
    uint32_t floor;
    size_t base_rows;
    size_t used;
} registers_journal_head;

/* What a call that changes the journal store returns. */
typedef struct registers_journal_result {
    registers_journal_head head;
    registers_answer answer;
} registers_journal_result;

/* A running transaction of the map store: count rows are in use, each a key and what the transaction's updates of it
 * come to. Where the row's mark is 0 the transaction assigns the value; where it is any other number, of which a call
 * writes 1, it used nothing but add on the key, and the value is the total. A free slot is all zero. */
typedef struct registers_slot {
    uint32_t number;
    uint64_t snapshot;
    size_t count;
    uint32_t keys[REGISTERS_KEYS];
    uint32_t values[REGISTERS_KEYS];
    uint8_t marks[REGISTERS_KEYS];
} registers_slot;

/* The slots; those occupied are the one bits of a single number. */
typedef struct registers_slots {
    uint8_t occupied;
    registers_slot slots[REGISTERS_RUNNING];
} registers_slots;

/* The map store's head: low, the last commit time, the next transaction number, the versions in use, the running
 * transactions. */
typedef struct registers_map_head {
    uint64_t low;
    uint64_t last;
    uint32_t next;
    size_t used;
    registers_slots slots;
} registers_map_head;

/* What a call that changes the map store returns. */
typedef struct registers_map_result {
    registers_map_head head;
    registers_answer answer;
} registers_map_result;

/* ==== What the library itself has, to be compared with this header; c/test-header.c of the repository compares all
 * of it. */

/* The library's layout and limits; refusals counts the refusals. */
typedef struct registers_limit_figures {
    uint32_t layout;
    uint32_t running;
    uint32_t keys;
    uint32_t base_rows;
    uint32_t version_rows;
    uint32_t journal_bytes;
    uint32_t record_bytes;
    uint32_t refusals;
} registers_limit_figures;

registers_limit_figures registers_limits(void);

/* The library's number of each refusal. */
typedef struct registers_number_figures {
    uint32_t bad_shape;
    uint32_t unknown_transaction;
    uint32_t bad_key;
    uint32_t too_old;
    uint32_t future;
    uint32_t too_many;
    uint32_t no_numbers;
    uint32_t keys_full;
    uint32_t held;
    uint32_t not_later;
    uint32_t conflict;
    uint32_t no_room;
    uint32_t bad_record;
} registers_number_figures;

registers_number_figures registers_numbers(void);

/* Heads whose fields hold their place, counted from 1 in the order of declaration, those of inner structs and cells
 * of arrays counted on; a mark, which is one byte, modulo 256. They tell where the library has each field, and are
 * heads of no store. */
registers_journal_head registers_journal_sample(void);
registers_map_head registers_map_sample(void);

/* ==== The record of the journal store: 24 bytes, the lowest byte of a number first.
 *
 *   0         kind
 *   1 to 3    zero
 *   4 to 7    transaction
 *   8 to 11   key           assign, add
 *   12 to 15  value         assign, add
 *   16 to 23  time          begin (its snapshot), commit
 *
 * Fields that a kind does not use are zero. Each accepted begin, assign, add, commit and abort adds exactly one
 * record behind those in use. */
enum registers_kind {
    REGISTERS_KIND_BEGIN = 1,
    REGISTERS_KIND_ASSIGN = 2,
    REGISTERS_KIND_ADD = 3,
    REGISTERS_KIND_COMMIT = 4,
    REGISTERS_KIND_ABORT = 5
};

#define REGISTERS_AT_KIND 0u
#define REGISTERS_AT_TRANSACTION 4u
#define REGISTERS_AT_KEY 8u
#define REGISTERS_AT_VALUE 12u
#define REGISTERS_AT_TIME 16u

/* The number that stands in count bytes, at most 8, the lowest first. */
static inline uint64_t registers_number_in(const uint8_t *bytes, size_t count)
{
    uint64_t number = 0;
    while (count > 0)
        number = number << 8 | bytes[--count];
    return number;
}

/* Last, for a head that a call has returned and its journal: the latest commit's time, at least low. A begin there
 * sees all that is committed, and a commit must be later. */
static inline uint64_t registers_journal_last(registers_journal_head head, const uint8_t *journal)
{
    uint64_t last = head.low;
    for (size_t place = 0; place < head.used; place++) {
        const uint8_t *record = journal + place * REGISTERS_RECORD_BYTES;
        uint64_t time = registers_number_in(record + REGISTERS_AT_TIME, 8);
        if (record[REGISTERS_AT_KIND] == REGISTERS_KIND_COMMIT && time > last)
            last = time;
    }
    return last;
}

/* ==== The journal store. Each call is lent the head by value, the base as two columns of equal length, keys and
 * values, and the journal's bytes. Last is the greatest of low and all commit times in the journal. */

/* The head of an empty store: low 0, floor 1, all counts 0. */
registers_journal_head registers_journal_empty(void);

/* Begins a transaction that reads as of t, a time from low to last, and answers its number. Refusals 1, 4, 5, 6, 7,
 * 12. It needs 2 free records and one for each transaction already running. */
registers_journal_result registers_journal_begin(registers_journal_head head, const uint32_t *keys,
                                                 size_t keys_length, const uint32_t *values, size_t values_length,
                                                 uint8_t *journal, size_t journal_length, uint64_t t);

/* Transaction n gives key k the value v, once it commits. Refusals 1, 2, 3, 8, 12. It needs 1 free record and one
 * for each running transaction, its own included. */
registers_journal_result registers_journal_assign(registers_journal_head head, const uint32_t *keys,
                                                  size_t keys_length, const uint32_t *values, size_t values_length,
                                                  uint8_t *journal, size_t journal_length, uint32_t n, uint32_t k,
                                                  uint32_t v);

/* Transaction n adds d to key k, modulo 4,294,967,296, once it commits; absent counts as 0. Refusals and room as
 * for assign. */
registers_journal_result registers_journal_add(registers_journal_head head, const uint32_t *keys, size_t keys_length,
                                               const uint32_t *values, size_t values_length, uint8_t *journal,
                                               size_t journal_length, uint32_t n, uint32_t k, uint32_t d);

/* Ends transaction n; its updates have no effect. Refusals 1, 2, 12; 12 only for a head not reached by calls with
 * the same lent room. */
registers_journal_result registers_journal_abort(registers_journal_head head, const uint32_t *keys,
                                                 size_t keys_length, const uint32_t *values, size_t values_length,
                                                 uint8_t *journal, size_t journal_length, uint32_t n);

/* Commits transaction n at t, a time later than last. Where it used nothing but add on a key, its total goes on top of
 * the newest committed value, so two transactions may raise one counter at the same time. Refusals 1, 2, 10, 11, 12;
 * 12 as for abort. A transaction that is refused goes on running. */
registers_journal_result registers_journal_commit(registers_journal_head head, const uint32_t *keys,
                                                  size_t keys_length, const uint32_t *values, size_t values_length,
                                                  uint8_t *journal, size_t journal_length, uint32_t n, uint64_t t);

/* The value of key k in transaction n: at its snapshot, then its own updates in order. What others have added since
 * the snapshot is not in it; after the commit it is. Refusals 1, 2, 3. */
registers_answer registers_journal_read(registers_journal_head head, const uint32_t *keys, size_t keys_length,
                                        const uint32_t *values, size_t values_length, const uint8_t *journal,
                                        size_t journal_length, uint32_t n, uint32_t k);

/* The committed value of key k at t; a commit at t is visible. Refusals 1, 3, 4, 5. */
registers_answer registers_journal_lookup(registers_journal_head head, const uint32_t *keys, size_t keys_length,
                                          const uint32_t *values, size_t values_length, const uint8_t *journal,
                                          size_t journal_length, uint32_t k, uint64_t t);

/* Every key from 1 up that is not absent at t, once, rising, into listed, with its value beside it in contents, two
 * columns of equal length; answers the count of rows. Refusals 1, 4, 5, 12. A list has no limit but its lent rows. */
registers_answer registers_journal_list(registers_journal_head head, const uint32_t *keys, size_t keys_length,
                                        const uint32_t *values, size_t values_length, const uint8_t *journal,
                                        size_t journal_length, uint64_t t, uint32_t *listed, size_t listed_length,
                                        uint32_t *contents, size_t contents_length);

/* The base becomes the list at t and low becomes t; the journal keeps, in order, the records of transactions that
 * run or committed after t, and the bytes of the records freed are zero. Refusals 1, 4, 5, 9, 12. Making this write
 * whole on the medium is the host's duty. */
registers_journal_result registers_journal_checkpoint(registers_journal_head head, uint32_t *keys, size_t keys_length,
                                                      uint32_t *values, size_t values_length, uint8_t *journal,
                                                      size_t journal_length, uint64_t t);

/* Takes the first survived bytes of the journal for what a restart left; the head's used count is ignored, and so
 * is a tail of fewer than 24 bytes. Transactions without a commit are dropped, the rest moves up in order, and the
 * bytes from there to the end of what survived are zero. Refusals 1, 13; 13 gives the place of the first record
 * that fails.
 *
 * Survived is the count of bytes that were written, never the size of a file that was made larger in advance: zero
 * bytes behind the records are no records, and 24 of them get 13.
 *
 * After 13 all records before the place are sound: recovering again with survived 24 times the place keeps what
 * they committed, and loses what stands behind. Whether that is better than to stop is for the host to decide. */
registers_journal_result registers_journal_recover(registers_journal_head head, const uint32_t *keys,
                                                   size_t keys_length, const uint32_t *values, size_t values_length,
                                                   uint8_t *journal, size_t journal_length, size_t survived);

/* ==== The map store. Each call is lent the head by value and the versions as four columns of equal length: keys,
 * commit times, values and marks. A version's mark tells what its transaction did to the key: 0 that an assign was
 * among it, 1 that it was nothing but add; any other number than 0 counts as 1. Nothing of the store survives a
 * restart by itself. */

/* The head of an empty store: low and last 0, next 1, no versions, all slots free. */
registers_map_head registers_map_empty(void);

/* Begins a transaction that reads as of t, a time from low to last, and answers its number. Refusals 1, 4, 5, 6, 7. */
registers_map_result registers_map_begin(registers_map_head head, const uint32_t *keys, size_t keys_length,
                                         const uint64_t *times, size_t times_length, const uint32_t *values,
                                         size_t values_length, const uint8_t *marks, size_t marks_length, uint64_t t);

/* Transaction n gives key k the value v, once it commits. Refusals 1, 2, 3, 8. */
registers_map_result registers_map_assign(registers_map_head head, const uint32_t *keys, size_t keys_length,
                                          const uint64_t *times, size_t times_length, const uint32_t *values,
                                          size_t values_length, const uint8_t *marks, size_t marks_length, uint32_t n,
                                          uint32_t k, uint32_t v);

/* Transaction n adds d to key k, modulo 4,294,967,296, once it commits; absent counts as 0. Refusals 1, 2, 3, 8. */
registers_map_result registers_map_add(registers_map_head head, const uint32_t *keys, size_t keys_length,
                                       const uint64_t *times, size_t times_length, const uint32_t *values,
                                       size_t values_length, const uint8_t *marks, size_t marks_length, uint32_t n,
                                       uint32_t k, uint32_t d);

/* Ends transaction n; its updates have no effect. Refusals 1, 2. */
registers_map_result registers_map_abort(registers_map_head head, const uint32_t *keys, size_t keys_length,
                                         const uint64_t *times, size_t times_length, const uint32_t *values,
                                         size_t values_length, const uint8_t *marks, size_t marks_length, uint32_t n);

/* Commits transaction n at t, a time later than last: one version for each key written, in order of first update,
 * behind the used ones. Where it used nothing but add on a key, its total goes on top of the newest committed value,
 * so two transactions may raise one counter at the same time. Refusals 1, 2, 10, 11, 12; 12 for too few version rows.
 * A transaction that is refused goes on running. */
registers_map_result registers_map_commit(registers_map_head head, uint32_t *keys, size_t keys_length, uint64_t *times,
                                          size_t times_length, uint32_t *values, size_t values_length, uint8_t *marks,
                                          size_t marks_length, uint32_t n, uint64_t t);

/* The value of key k in transaction n: at its snapshot, then its own updates in order. What others have added since
 * the snapshot is not in it; after the commit it is. Refusals 1, 2, 3. */
registers_answer registers_map_read(registers_map_head head, const uint32_t *keys, size_t keys_length,
                                    const uint64_t *times, size_t times_length, const uint32_t *values,
                                    size_t values_length, const uint8_t *marks, size_t marks_length, uint32_t n,
                                    uint32_t k);

/* The committed value of key k at t; a commit at t is visible. Refusals 1, 3, 4, 5. */
registers_answer registers_map_lookup(registers_map_head head, const uint32_t *keys, size_t keys_length,
                                      const uint64_t *times, size_t times_length, const uint32_t *values,
                                      size_t values_length, const uint8_t *marks, size_t marks_length, uint32_t k,
                                      uint64_t t);

/* The list at t, as for the journal store. Refusals 1, 4, 5, 12. */
registers_answer registers_map_list(registers_map_head head, const uint32_t *keys, size_t keys_length,
                                    const uint64_t *times, size_t times_length, const uint32_t *values,
                                    size_t values_length, const uint8_t *marks, size_t marks_length, uint64_t t,
                                    uint32_t *listed, size_t listed_length, uint32_t *contents,
                                    size_t contents_length);

/* Low becomes t. Kept, in order and with their marks: versions after t and, for each key, its newest at or before t;
 * freed rows are zero and used again. Refusals 1, 4, 5, 9. */
registers_map_result registers_map_checkpoint(registers_map_head head, uint32_t *keys, size_t keys_length,
                                              uint64_t *times, size_t times_length, uint32_t *values,
                                              size_t values_length, uint8_t *marks, size_t marks_length, uint64_t t);

#ifdef __cplusplus
}
#endif

/* ==== The layout of REGISTERS_LAYOUT. A compiler that lays a struct out otherwise finds an array of negative size. */
#define REGISTERS_PLACE(type, field, place) (offsetof(type, field) == (place))

typedef char registers_answer_agrees[sizeof(registers_answer) == 16 && REGISTERS_PLACE(registers_answer, number, 0) &&
                                             REGISTERS_PLACE(registers_answer, present, 4) &&
                                             REGISTERS_PLACE(registers_answer, value, 8)
                                         ? 1
                                         : -1];

typedef char registers_journal_head_agrees[sizeof(registers_journal_head) == 32 &&
                                                   REGISTERS_PLACE(registers_journal_head, low, 0) &&
                                                   REGISTERS_PLACE(registers_journal_head, floor, 8) &&
                                                   REGISTERS_PLACE(registers_journal_head, base_rows, 16) &&
                                                   REGISTERS_PLACE(registers_journal_head, used, 24)
                                               ? 1
                                               : -1];

typedef char registers_journal_result_agrees[sizeof(registers_journal_result) == 48 &&
                                                     REGISTERS_PLACE(registers_journal_result, head, 0) &&
                                                     REGISTERS_PLACE(registers_journal_result, answer, 32)
                                                 ? 1
                                                 : -1];

typedef char registers_slot_agrees[sizeof(registers_slot) == 312 && REGISTERS_PLACE(registers_slot, number, 0) &&
                                           REGISTERS_PLACE(registers_slot, snapshot, 8) &&
                                           REGISTERS_PLACE(registers_slot, count, 16) &&
                                           REGISTERS_PLACE(registers_slot, keys, 24) &&
                                           REGISTERS_PLACE(registers_slot, values, 152) &&
                                           REGISTERS_PLACE(registers_slot, marks, 280)
                                       ? 1
                                       : -1];

typedef char registers_slots_agrees[sizeof(registers_slots) == 2504 && REGISTERS_PLACE(registers_slots, occupied, 0) &&
                                            REGISTERS_PLACE(registers_slots, slots, 8)
                                        ? 1
                                        : -1];

typedef char registers_map_head_agrees[sizeof(registers_map_head) == 2536 &&
                                               REGISTERS_PLACE(registers_map_head, low, 0) &&
                                               REGISTERS_PLACE(registers_map_head, last, 8) &&
                                               REGISTERS_PLACE(registers_map_head, next, 16) &&
                                               REGISTERS_PLACE(registers_map_head, used, 24) &&
                                               REGISTERS_PLACE(registers_map_head, slots, 32)
                                           ? 1
                                           : -1];

typedef char registers_map_result_agrees[sizeof(registers_map_result) == 2552 &&
                                                 REGISTERS_PLACE(registers_map_result, head, 0) &&
                                                 REGISTERS_PLACE(registers_map_result, answer, 2536)
                                             ? 1
                                             : -1];

#undef REGISTERS_PLACE

#endif
