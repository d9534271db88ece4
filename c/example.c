/* A host in C. Two registers are written and committed; then the power fails while a second transaction is being
 * written, and the store is recovered from the bytes that survived. It says what happens, and ends with status 1
 * and a line that says why where an answer is not the one that must come. */
#include "registers.h"
#include <stdio.h>
#include <stdlib.h>
#include <string.h>

enum { ROWS = 16, THRESHOLD = 769, COUNTER = 770 };

/* What the host owns and lends: the head, the two base columns, the journal's bytes. */
static registers_journal_head head;
static uint32_t keys[ROWS], values[ROWS];
static uint8_t journal[64 * REGISTERS_RECORD_BYTES];

#define STORE head, keys, ROWS, values, ROWS, journal, sizeof journal

/* Holds a number to the one that must come. */
static void must(const char *what, uint64_t given, uint64_t wanted)
{
    if (given == wanted)
        return;
    printf("surprise: %s is %llu and must be %llu\n", what, (unsigned long long)given, (unsigned long long)wanted);
    exit(1);
}

/* An accepted call: its head is the one to use from then on. Gives the value that it answers. */
static uint64_t accepted(const char *call, registers_journal_result result)
{
    must(call, result.answer.number, REGISTERS_ACCEPTED);
    head = result.head;
    return result.answer.value;
}

/* Lists the registers at time 1: the two that were committed, and no other. */
static void list(void)
{
    const uint32_t wanted[2][2] = {{THRESHOLD, 250}, {COUNTER, 3}};
    uint32_t listed[ROWS], contents[ROWS];
    registers_answer answer = registers_journal_list(STORE, 1, listed, ROWS, contents, ROWS);
    must("list's number", answer.number, REGISTERS_ACCEPTED);
    must("list's count of rows", answer.value, 2);
    for (size_t row = 0; row < answer.value; row++) {
        must("a listed key", listed[row], wanted[row][0]);
        must("its value", contents[row], wanted[row][1]);
        printf("  at time 1 register %u holds %u\n", listed[row], contents[row]);
    }
}

/* One transaction: a threshold is assigned, a counter raised, both take effect at time 1. */
static void write_two(void)
{
    uint32_t n = (uint32_t)accepted("begin's number", registers_journal_begin(STORE, 0));
    accepted("assign's number", registers_journal_assign(STORE, n, THRESHOLD, 250));
    accepted("add's number", registers_journal_add(STORE, n, COUNTER, 3));
    accepted("commit's number", registers_journal_commit(STORE, n, 1));
    printf("transaction %u is committed at time 1\n", n);
}

/* A second transaction whose last record is cut in the middle, 11 bytes short. Gives how many bytes survive. */
static size_t lose_power(void)
{
    uint32_t n = (uint32_t)accepted("begin's number", registers_journal_begin(STORE, 1));
    accepted("assign's number", registers_journal_assign(STORE, n, THRESHOLD, 900));
    accepted("add's number", registers_journal_add(STORE, n, COUNTER, 1));
    size_t written = head.used * REGISTERS_RECORD_BYTES, survived = written - 11;
    memset(journal + survived, 0xff, sizeof journal - survived);
    printf("the power fails in transaction %u: %zu of %zu bytes survive\n", n, survived, written);
    return survived;
}

/* After the restart: the head as it stands on the medium, the base and the bytes that survived. No checkpoint was
 * taken, so the head is that of the empty store; recovery ignores its used count. */
static void restart(size_t survived)
{
    head = registers_journal_empty();
    accepted("recover's number", registers_journal_recover(STORE, survived));
    must("the count of records", head.used, 4);
    registers_answer lost = registers_journal_read(STORE, 2, THRESHOLD);
    must("a read in the lost transaction", lost.number, REGISTERS_UNKNOWN_TRANSACTION);
    printf("the store is recovered with %zu records; the next transaction is number %u\n", head.used, head.floor);
}

int main(void)
{
    head = registers_journal_empty();
    write_two();
    list();
    restart(lose_power());
    list();
    must("the next begin", accepted("begin's number", registers_journal_begin(STORE, 1)), 3);
    return 0;
}
