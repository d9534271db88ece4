/* Holds every limit, number, field and byte that registers.h states to the library's own, and the header's sentences
 * that a call can show. Compiles as C99 and later, and as C++17. */
#include "registers.h"
#include <stdio.h>
#include <stdlib.h>
#include <string.h>

static unsigned long compared;

static void same(const char *what, uint64_t stated, uint64_t had)
{
    compared++;
    if (stated == had)
        return;
    printf("header: %s is %llu here, and %llu in the library\n", what, (unsigned long long)stated,
           (unsigned long long)had);
    exit(1);
}

static void limits(void)
{
    registers_limit_figures had = registers_limits();
    same("REGISTERS_LAYOUT", REGISTERS_LAYOUT, had.layout);
    same("REGISTERS_RUNNING", REGISTERS_RUNNING, had.running);
    same("REGISTERS_KEYS", REGISTERS_KEYS, had.keys);
    same("REGISTERS_BASE_ROWS", REGISTERS_BASE_ROWS, had.base_rows);
    same("REGISTERS_VERSION_ROWS", REGISTERS_VERSION_ROWS, had.version_rows);
    same("REGISTERS_JOURNAL_BYTES", REGISTERS_JOURNAL_BYTES, had.journal_bytes);
    same("REGISTERS_RECORD_BYTES", REGISTERS_RECORD_BYTES, had.record_bytes);
    same("REGISTERS_REFUSALS", REGISTERS_REFUSALS, had.refusals);
    same("REGISTERS_RECORDS", REGISTERS_RECORDS, had.journal_bytes / had.record_bytes);
    same("REGISTERS_LIST_ROWS", REGISTERS_LIST_ROWS, had.base_rows + had.journal_bytes / had.record_bytes);
}

static void numbers(void)
{
    registers_number_figures had = registers_numbers();
    same("REGISTERS_BAD_SHAPE", REGISTERS_BAD_SHAPE, had.bad_shape);
    same("REGISTERS_UNKNOWN_TRANSACTION", REGISTERS_UNKNOWN_TRANSACTION, had.unknown_transaction);
    same("REGISTERS_BAD_KEY", REGISTERS_BAD_KEY, had.bad_key);
    same("REGISTERS_TOO_OLD", REGISTERS_TOO_OLD, had.too_old);
    same("REGISTERS_FUTURE", REGISTERS_FUTURE, had.future);
    same("REGISTERS_TOO_MANY", REGISTERS_TOO_MANY, had.too_many);
    same("REGISTERS_NO_NUMBERS", REGISTERS_NO_NUMBERS, had.no_numbers);
    same("REGISTERS_KEYS_FULL", REGISTERS_KEYS_FULL, had.keys_full);
    same("REGISTERS_HELD", REGISTERS_HELD, had.held);
    same("REGISTERS_NOT_LATER", REGISTERS_NOT_LATER, had.not_later);
    same("REGISTERS_CONFLICT", REGISTERS_CONFLICT, had.conflict);
    same("REGISTERS_NO_ROOM", REGISTERS_NO_ROOM, had.no_room);
    same("REGISTERS_BAD_RECORD", REGISTERS_BAD_RECORD, had.bad_record);
}

/* Each number has a text of its own, and every other number that of none. */
static void texts(void)
{
    static const char *volatile text[REGISTERS_REFUSALS + 2];
    for (uint32_t i = 0; i <= REGISTERS_REFUSALS + 1; i++)
        text[i] = registers_text(i);
    for (uint32_t i = 0; i <= REGISTERS_REFUSALS + 1; i++)
        for (uint32_t j = 0; j <= REGISTERS_REFUSALS + 1; j++)
            same("a text", strcmp(text[i], text[j]) == 0, i == j);
    same("the text of no number", strcmp(registers_text(UINT32_MAX), text[REGISTERS_REFUSALS + 1]), 0);
}

static void version(void)
{
    char text[32];
    sprintf(text, "%d.%d.%d", REGISTERS_VERSION_MAJOR, REGISTERS_VERSION_MINOR, REGISTERS_VERSION_PATCH);
    same("the version", strcmp(text, REGISTERS_VERSION), 0);
}

/* The samples hold in each field its place. */
static void journal_layout(void)
{
    registers_journal_head had = registers_journal_sample();
    same("the place of low", 1, had.low);
    same("the place of floor", 2, had.floor);
    same("the place of base_rows", 3, had.base_rows);
    same("the place of used", 4, had.used);
}

static void map_layout(void)
{
    registers_map_head had = registers_map_sample();
    uint64_t place = 0;
    same("the map's place of low", ++place, had.low);
    same("the place of last", ++place, had.last);
    same("the place of next", ++place, had.next);
    same("the map's place of used", ++place, had.used);
    same("the place of occupied", ++place, had.slots.occupied);
    for (size_t i = 0; i < REGISTERS_RUNNING; i++) {
        const registers_slot *slot = &had.slots.slots[i];
        same("the place of a slot's number", ++place, slot->number);
        same("the place of its snapshot", ++place, slot->snapshot);
        same("the place of its count", ++place, slot->count);
        for (size_t row = 0; row < REGISTERS_KEYS; row++)
            same("the place of a key", ++place, slot->keys[row]);
        for (size_t row = 0; row < REGISTERS_KEYS; row++)
            same("the place of a value", ++place, slot->values[row]);
        for (size_t row = 0; row < REGISTERS_KEYS; row++)
            same("the place of a mark", ++place % 256, slot->marks[row]);
    }
}

/* A small store. */
static registers_journal_head head;
static uint32_t keys[4], values[4];
static uint8_t journal[16 * REGISTERS_RECORD_BYTES];

#define STORE head, keys, 4, values, 4, journal, sizeof journal

static registers_answer taken(registers_journal_result result)
{
    head = result.head;
    return result.answer;
}

static void answered(registers_answer answer, uint32_t number, uint32_t present, uint64_t value)
{
    same("an answer's number", number, answer.number);
    same("whether a value stands beside it", present, answer.present);
    same("the value", value, answer.value);
}

/* The record at a place, all 24 bytes. */
static void record(size_t place, uint8_t kind, uint32_t transaction, uint32_t key, uint32_t value, uint64_t time)
{
    const uint8_t *bytes = journal + place * REGISTERS_RECORD_BYTES;
    same("the place of a record's kind", kind, bytes[REGISTERS_AT_KIND]);
    same("the zero bytes", 0, registers_number_in(bytes + 1, 3));
    same("the place of its transaction", transaction, registers_number_in(bytes + REGISTERS_AT_TRANSACTION, 4));
    same("the place of its key", key, registers_number_in(bytes + REGISTERS_AT_KEY, 4));
    same("the place of its value", value, registers_number_in(bytes + REGISTERS_AT_VALUE, 4));
    same("the place of its time", time, registers_number_in(bytes + REGISTERS_AT_TIME, 8));
}

static void records(void)
{
    const uint32_t n = 0x01020304, k = 0x11121314, v = 0x21222324, d = 0x31323334;
    const uint64_t t = UINT64_C(0x4142434445464748);
    head = registers_journal_empty();
    head.floor = n;
    answered(taken(registers_journal_begin(STORE, 0)), REGISTERS_ACCEPTED, 1, n);
    answered(taken(registers_journal_assign(STORE, n, k, v)), REGISTERS_ACCEPTED, 0, 0);
    answered(taken(registers_journal_add(STORE, n, k, d)), REGISTERS_ACCEPTED, 0, 0);
    answered(taken(registers_journal_commit(STORE, n, t)), REGISTERS_ACCEPTED, 0, 0);
    answered(taken(registers_journal_begin(STORE, t)), REGISTERS_ACCEPTED, 1, n + 1);
    answered(taken(registers_journal_abort(STORE, n + 1)), REGISTERS_ACCEPTED, 0, 0);
    same("the count of records", 6, head.used);
    record(0, REGISTERS_KIND_BEGIN, n, 0, 0, 0);
    record(1, REGISTERS_KIND_ASSIGN, n, k, v, 0);
    record(2, REGISTERS_KIND_ADD, n, k, d, 0);
    record(3, REGISTERS_KIND_COMMIT, n, 0, 0, t);
    record(4, REGISTERS_KIND_BEGIN, n + 1, 0, 0, t);
    record(5, REGISTERS_KIND_ABORT, n + 1, 0, 0, 0);
    same("last", registers_journal_last(head, journal), t);
    answered(registers_journal_lookup(STORE, k, t), REGISTERS_ACCEPTED, 1, v + d);
    answered(registers_journal_lookup(STORE, k, 0), REGISTERS_ACCEPTED, 0, 0);
}

/* Of the store of records(): zero bytes behind its records are refused, and what stands before them can be had. */
static void zero_bytes(void)
{
    size_t survived = head.used * REGISTERS_RECORD_BYTES + 48;
    memset(journal + head.used * REGISTERS_RECORD_BYTES, 0, 48);
    answered(taken(registers_journal_recover(STORE, survived)), REGISTERS_BAD_RECORD, 1, 6);
    answered(taken(registers_journal_recover(STORE, 6 * REGISTERS_RECORD_BYTES)), REGISTERS_ACCEPTED, 0, 0);
    same("the count of records", 4, head.used);
}

static void last_number(void)
{
    head = registers_journal_empty();
    head.floor = REGISTERS_LAST_NUMBER;
    answered(taken(registers_journal_begin(STORE, 0)), REGISTERS_ACCEPTED, 1, REGISTERS_LAST_NUMBER);
    answered(taken(registers_journal_begin(STORE, 0)), REGISTERS_NO_NUMBERS, 0, 0);
}

/* A small map store. */
static registers_map_head map;
static uint32_t version_keys[4], version_values[4];
static uint64_t version_times[4];
static uint8_t version_marks[4];

#define MAP map, version_keys, 4, version_times, 4, version_values, 4, version_marks, 4

static registers_answer map_taken(registers_map_result result)
{
    map = result.head;
    return result.answer;
}

static void version_row(size_t row, uint32_t key, uint64_t time, uint32_t value, uint8_t mark)
{
    same("a version's key", key, version_keys[row]);
    same("its time", time, version_times[row]);
    same("its value", value, version_values[row]);
    same("its mark", mark, version_marks[row]);
}

/* Transactions 1 and 2 add to a key and 3 assigns it, at the same time: the totals of both adders stand, the assign is
 * refused, and the marks tell which is which. */
static void adders(void)
{
    const uint32_t k = 773;
    map = registers_map_empty();
    for (uint32_t n = 1; n <= 3; n++)
        answered(map_taken(registers_map_begin(MAP, 0)), REGISTERS_ACCEPTED, 1, n);
    answered(map_taken(registers_map_add(MAP, 1, k, 5)), REGISTERS_ACCEPTED, 0, 0);
    answered(map_taken(registers_map_add(MAP, 2, k, 7)), REGISTERS_ACCEPTED, 0, 0);
    answered(map_taken(registers_map_assign(MAP, 3, k, 9)), REGISTERS_ACCEPTED, 0, 0);
    same("the mark of a row that adds", 1, map.slots.slots[1].marks[0]);
    same("the mark of a row that assigns", 0, map.slots.slots[2].marks[0]);
    answered(map_taken(registers_map_commit(MAP, 1, 1)), REGISTERS_ACCEPTED, 0, 0);
    answered(registers_map_read(MAP, 2, k), REGISTERS_ACCEPTED, 1, 7);
    answered(map_taken(registers_map_commit(MAP, 2, 2)), REGISTERS_ACCEPTED, 0, 0);
    answered(registers_map_lookup(MAP, k, 2), REGISTERS_ACCEPTED, 1, 12);
    answered(map_taken(registers_map_commit(MAP, 3, 3)), REGISTERS_CONFLICT, 0, 0);
    answered(map_taken(registers_map_abort(MAP, 3)), REGISTERS_ACCEPTED, 0, 0);
    version_row(0, k, 1, 5, 1);
    version_row(1, k, 2, 12, 1);
}

/* Of the store of adders(): a checkpoint keeps a version's mark and zeroes the rows that it frees; four columns are of
 * one length. */
static void four_columns(void)
{
    uint32_t listed[4], contents[4];
    answered(map_taken(registers_map_checkpoint(MAP, 2)), REGISTERS_ACCEPTED, 0, 0);
    version_row(0, 773, 2, 12, 1);
    version_row(1, 0, 0, 0, 0);
    answered(registers_map_list(MAP, 2, listed, 4, contents, 4), REGISTERS_ACCEPTED, 1, 1);
    same("the listed key", 773, listed[0]);
    same("its value", 12, contents[0]);
    answered(registers_map_lookup(map, version_keys, 4, version_times, 4, version_values, 4, version_marks, 3, 773, 2),
             REGISTERS_BAD_SHAPE, 0, 0);
}

int main(void)
{
    limits();
    numbers();
    texts();
    version();
    journal_layout();
    map_layout();
    records();
    zero_bytes();
    last_number();
    adders();
    four_columns();
    printf("header: %lu figures are the library's\n", compared);
    return 0;
}
