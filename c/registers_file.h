/* A journal store's file: its head, its base and its journal, in layout 1 of the repository's docs/FILE.md.
 *
 *   0 to 3     `reg` and the layout's number, 1
 *   4 to 11    low
 *   12 to 15   floor
 *   16 to 19   R, the rows of the base
 *   then       R rows of 8 bytes: key (4), value (4)
 *   then       the check sum of all bytes before it (8)
 *   then       the journal's bytes, to the end of the file
 *
 * Numbers have the lowest byte first; there is no padding. What stands before the journal is the front: it is written
 * whole to a second file that then takes the place of the first, so the sum tells a whole front from a torn one. The
 * journal grows at the end of the file, and recovery judges its records. */
#ifndef REGISTERS_FILE_H
#define REGISTERS_FILE_H

#include "registers.h"

/* The layout, where its rows start, the bytes of the longest front, and those of the longest file. */
#define REGISTERS_FILE_LAYOUT 1u
#define REGISTERS_FILE_ROWS_AT 20u
#define REGISTERS_FILE_FRONT_BYTES (REGISTERS_FILE_ROWS_AT + 8u * REGISTERS_BASE_ROWS + 8u)
#define REGISTERS_FILE_BYTES (REGISTERS_FILE_FRONT_BYTES + REGISTERS_JOURNAL_BYTES)

/* What a whole store's file holds beside its base rows. */
typedef struct registers_file {
    registers_journal_head head; /* used is 0: recovery finds it */
    size_t journal;              /* where the journal starts, counted from the file's first byte */
    size_t survived;             /* the journal's bytes in the file, for recover */
} registers_file;

/* Writes a number into count bytes, the lowest first. */
static inline void registers_file_put(uint8_t *bytes, size_t count, uint64_t number)
{
    for (size_t i = 0; i < count; i++)
        bytes[i] = (uint8_t)(number >> 8 * i);
}

/* The check sum of the first count bytes. */
static inline uint64_t registers_file_sum(const uint8_t *bytes, size_t count)
{
    uint64_t sum = UINT64_C(14695981039346656037);
    for (size_t i = 0; i < count; i++)
        sum = sum * UINT64_C(1099511628211) + bytes[i];
    return sum;
}

/* Writes the front of a store's file, from the head and the rows of its base in use, and gives the count of its bytes;
 * the journal's bytes in use are to follow. Gives 0 and writes nothing where the head has more rows than a base, or
 * the front more bytes than length. */
static inline size_t registers_file_write(registers_journal_head head, const uint32_t *keys, const uint32_t *values,
                                          uint8_t *bytes, size_t length)
{
    size_t sum = REGISTERS_FILE_ROWS_AT + 8 * head.base_rows;
    if (head.base_rows > REGISTERS_BASE_ROWS || length < sum + 8)
        return 0;
    bytes[0] = 'r';
    bytes[1] = 'e';
    bytes[2] = 'g';
    bytes[3] = REGISTERS_FILE_LAYOUT;
    registers_file_put(bytes + 4, 8, head.low);
    registers_file_put(bytes + 12, 4, head.floor);
    registers_file_put(bytes + 16, 4, head.base_rows);
    for (size_t row = 0; row < head.base_rows; row++) {
        registers_file_put(bytes + REGISTERS_FILE_ROWS_AT + 8 * row, 4, keys[row]);
        registers_file_put(bytes + REGISTERS_FILE_ROWS_AT + 8 * row + 4, 4, values[row]);
    }
    registers_file_put(bytes + sum, 8, registers_file_sum(bytes, sum));
    return sum + 8;
}

/* Whether the first length bytes are a whole store's file: gives 1, what it holds, and its base rows in columns of
 * room rows each; else 0, with nothing changed. Columns of REGISTERS_BASE_ROWS rows take every base. Whether head,
 * base and journal are sound, is for recover to say. */
static inline int registers_file_read(const uint8_t *bytes, size_t length, registers_file *file, uint32_t *keys,
                                      uint32_t *values, size_t room)
{
    size_t rows, sum;
    if (length < REGISTERS_FILE_ROWS_AT + 8 || bytes[0] != 'r' || bytes[1] != 'e' || bytes[2] != 'g' ||
        bytes[3] != REGISTERS_FILE_LAYOUT)
        return 0;
    rows = (size_t)registers_number_in(bytes + 16, 4);
    if (rows > REGISTERS_BASE_ROWS || rows > room)
        return 0;
    sum = REGISTERS_FILE_ROWS_AT + 8 * rows;
    if (length < sum + 8 || registers_number_in(bytes + sum, 8) != registers_file_sum(bytes, sum))
        return 0;
    for (size_t row = 0; row < rows; row++) {
        keys[row] = (uint32_t)registers_number_in(bytes + REGISTERS_FILE_ROWS_AT + 8 * row, 4);
        values[row] = (uint32_t)registers_number_in(bytes + REGISTERS_FILE_ROWS_AT + 8 * row + 4, 4);
    }
    file->head.low = registers_number_in(bytes + 4, 8);
    file->head.floor = (uint32_t)registers_number_in(bytes + 12, 4);
    file->head.base_rows = rows;
    file->head.used = 0;
    file->journal = sum + 8;
    file->survived = length - file->journal;
    return 1;
}

#endif
