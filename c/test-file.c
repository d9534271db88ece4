/* Writes and reads the file of a store: every byte of a small one, all counts of rows, every cut and every wrong byte.
 * Compiles as C99 and later, and as C++17. */
#include "registers_file.h"
#include <stdio.h>
#include <stdlib.h>
#include <string.h>

static void must(int fine, const char *what)
{
    if (fine)
        return;
    printf("file: %s\n", what);
    exit(1);
}

static uint32_t keys[REGISTERS_BASE_ROWS + 1], values[REGISTERS_BASE_ROWS + 1];
static uint32_t read_keys[REGISTERS_BASE_ROWS], read_values[REGISTERS_BASE_ROWS];
static uint8_t bytes[REGISTERS_FILE_BYTES];
static registers_file file;

static size_t written(registers_journal_head head)
{
    return registers_file_write(head, keys, values, bytes, sizeof bytes);
}

static int is_store(size_t length)
{
    return registers_file_read(bytes, length, &file, read_keys, read_values, REGISTERS_BASE_ROWS);
}

/* A front of two rows, byte by byte, with the sum worked out apart from this program. */
static void small(void)
{
    static const uint8_t wanted[] = {'r',  'e',  'g',  1,    8,    7,    6,    5,    4,    3,    2,
                                     1,    0x44, 0x33, 0x22, 0x11, 2,    0,    0,    0,    5,    0,
                                     0,    0,    10,   0,    0,    0,    0xff, 0xff, 0xff, 0xff, 0xef,
                                     0xcd, 0xab, 0x89, 0xaf, 0x0d, 0x2c, 0x3e, 0x03, 0x35, 0xda, 0x84};
    registers_journal_head head = {UINT64_C(0x0102030405060708), 0x11223344, 2, 77};
    keys[0] = 5, values[0] = 10, keys[1] = 0xffffffff, values[1] = 0x89abcdef;
    must(written(head) == sizeof wanted && memcmp(bytes, wanted, sizeof wanted) == 0, "another front is written");
    must(is_store(sizeof wanted + 29), "a whole store is refused");
    must(file.head.low == head.low && file.head.floor == head.floor && file.head.base_rows == 2 && file.head.used == 0,
         "another head is read");
    must(file.journal == sizeof wanted && file.survived == 29, "another journal is read");
    must(memcmp(read_keys, keys, 8) == 0 && memcmp(read_values, values, 8) == 0, "other rows are read");
}

/* The two files that crates/store_file/specs/Examples.antt proves to be whole stores. */
static void proved(void)
{
    static const uint8_t none[] = {'r', 'e', 'g', 1, 0, 0, 0,   0,   0,   0,  0,  0,  1,  0,
                                   0,   0,   0,   0, 0, 0, 169, 128, 229, 61, 47, 41, 60, 162};
    static const uint8_t two[] = {'r', 'e', 'g', 1, 3, 0, 0, 0, 0, 0, 0, 0, 4, 0, 0,   0,  2,  0,   0,   0,   5,   0,
                                  0,   0,   12,  0, 0, 0, 9, 0, 0, 0, 7, 0, 0, 0, 140, 57, 40, 234, 251, 246, 243, 87};
    registers_journal_head head = {3, 4, 2, 0};
    must(written(registers_journal_empty()) == sizeof none && memcmp(bytes, none, sizeof none) == 0,
         "another empty store is written");
    keys[0] = 5, values[0] = 12, keys[1] = 9, values[1] = 7;
    must(written(head) == sizeof two && memcmp(bytes, two, sizeof two) == 0, "another store of two rows is written");
}

/* Of the file of small(): no part of the front is a store, nor is it with any byte changed in any way. */
static void damaged(void)
{
    size_t front = file.journal;
    registers_file before = file;
    for (size_t length = 0; length < front; length++)
        must(!is_store(length), "a cut front is taken for a whole one");
    for (size_t at = 0; at < front; at++)
        for (int by = 1; by < 256; by++) {
            bytes[at] ^= (uint8_t)by;
            must(!is_store(sizeof bytes), "a damaged front is taken for a whole one");
            bytes[at] ^= (uint8_t)by;
        }
    must(memcmp(&before, &file, sizeof file) == 0, "a refused file changes what is read");
    must(!registers_file_read(bytes, front, &file, read_keys, read_values, 1), "rows are read beyond their room");
    must(is_store(front) && file.survived == 0, "a front alone is refused");
}

/* Every count of rows that a base can have is written and read, and none above. */
static void all_counts(void)
{
    registers_journal_head head = {1, 1, 0, 0};
    for (size_t row = 0; row <= REGISTERS_BASE_ROWS; row++)
        keys[row] = (uint32_t)row + 1, values[row] = (uint32_t)(row * 2654435761u);
    for (head.base_rows = 0; head.base_rows <= REGISTERS_BASE_ROWS; head.base_rows++) {
        size_t front = 28 + 8 * head.base_rows;
        must(written(head) == front, "a front has another length");
        must(registers_file_write(head, keys, values, bytes, front - 1) == 0, "a front is written beyond its room");
        must(is_store(front) && file.head.base_rows == head.base_rows, "a base is read otherwise");
        must(memcmp(read_keys, keys, 4 * head.base_rows) == 0, "keys are read otherwise");
        must(memcmp(read_values, values, 4 * head.base_rows) == 0, "values are read otherwise");
    }
    must(written(head) == 0, "a base of 513 rows is written");
    must(REGISTERS_FILE_FRONT_BYTES == 28 + 8 * 512, "the longest front has another length");
    registers_file_put(bytes + 16, 4, head.base_rows);
    registers_file_put(bytes + 20 + 8 * 513, 8, registers_file_sum(bytes, 20 + 8 * 513));
    must(!is_store(sizeof bytes), "a base of 513 rows is read");
}

int main(void)
{
    proved();
    small();
    damaged();
    all_counts();
    printf("file: written and read as it is laid out\n");
    return 0;
}
