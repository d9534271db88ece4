/* A host that keeps its journal store in a folder, written to be copied: no commit that it has answered is lost by a
 * kill or a power loss at any moment.
 *
 *   host FOLDER             recovers what the folder holds, or starts an empty store there
 *   host FOLDER salvage     the same; where a record is damaged, what stands before it is kept and the rest is lost
 *
 * It says `ready LAST`, the time of the last commit, and answers each line of its standard input with one line:
 *
 *   begin T        commit N T     read N K       list T
 *   assign N K V   abort N        lookup K T     checkpoint T
 *   add N K D
 *
 * `ok`, with a value where there is one; `refused NUMBER TEXT`; or `error` where a line is none of these. Where reading
 * or writing fails it says why on standard error, and ends with status 1.
 *
 * The folder has one file, `store`, in the layout of registers_file.h. A file system is taken for granted whose rename
 * is one step, and which, when the power fails, leaves of a file that grows a front part of what was written. */
#define _DEFAULT_SOURCE 1
#include "registers_file.h"
#include <ctype.h>
#include <errno.h>
#include <fcntl.h>
#include <inttypes.h>
#include <stdio.h>
#include <stdlib.h>
#include <string.h>
#include <sys/file.h>
#include <unistd.h>

/* What is lent to the library. */
static registers_journal_head head;
static uint32_t keys[REGISTERS_BASE_ROWS], values[REGISTERS_BASE_ROWS];
static uint8_t journal[REGISTERS_JOURNAL_BYTES];

#define STORE head, keys, REGISTERS_BASE_ROWS, values, REGISTERS_BASE_ROWS, journal, sizeof journal

/* The medium: the folder, the file `store` in it, open at its end, and how many of the journal's bytes it has. */
static int folder, store = -1;
static size_t stored;

/* After a write or a flush that failed nobody knows what the medium holds, and to try again may report success for
 * bytes that are gone. So the host ends without an answer, and its next start finds out. */
static void stop(const char *what, const char *why)
{
    fprintf(stderr, "host: %s: %s\n", what, why);
    exit(EXIT_FAILURE);
}

static void need(int fine, const char *what)
{
    if (!fine)
        stop(what, strerror(errno));
}

static void write_all(int file, const uint8_t *bytes, size_t count)
{
    while (count > 0) {
        ssize_t written = write(file, bytes, count);
        if (written < 0 && errno == EINTR)
            continue;
        if (written <= 0)
            stop("writing the store", written < 0 ? strerror(errno) : "nothing was taken");
        bytes += written;
        count -= (size_t)written;
    }
}

static size_t read_all(int file, uint8_t *bytes, size_t room)
{
    size_t count = 0;
    for (;;) {
        ssize_t got = read(file, bytes + count, room - count);
        if (got < 0 && errno == EINTR)
            continue;
        need(got >= 0, "reading the store");
        if (got == 0)
            return count;
        count += (size_t)got;
    }
}

/* Adds the records since the last writing to the file and flushes them: all together, since a transaction counts from
 * its commit on, and nothing that stands before it need be on the medium earlier. In one write: of two that are not
 * flushed yet a power loss may keep the second alone. */
static void append(void)
{
    size_t used = head.used * REGISTERS_RECORD_BYTES;
    write_all(store, journal + stored, used - stored);
    need(fdatasync(store) == 0, "flushing the store");
    stored = used;
}

/* Writes head, base and journal to a second file, which then takes the place of the first. The second file is flushed
 * before the rename: else a power loss could leave its name without its bytes. The folder is flushed before anything
 * else is done: else a power loss could bring back the first file, without what was appended to the second. */
static void replace(void)
{
    static uint8_t front[REGISTERS_FILE_FRONT_BYTES];
    size_t count = registers_file_write(head, keys, values, front, sizeof front);
    if (count == 0)
        stop("store.new", registers_text(REGISTERS_BAD_SHAPE));
    int file = openat(folder, "store.new", O_WRONLY | O_CREAT | O_TRUNC | O_CLOEXEC, 0666);
    need(file >= 0, "creating store.new");
    stored = head.used * REGISTERS_RECORD_BYTES;
    write_all(file, front, count);
    write_all(file, journal, stored);
    need(fsync(file) == 0, "flushing store.new");
    need(renameat(folder, "store.new", folder, "store") == 0, "renaming store.new");
    need(fsync(folder) == 0, "flushing the folder");
    need(store < 0 || close(store) == 0, "closing the old store");
    store = file;
}

/* Reads the file into head, base and journal, and gives how many of the journal's bytes survived. Without a file it is
 * the first start. There is room for one byte more than a file can have, so that a longer one is told. */
static size_t load(void)
{
    static uint8_t bytes[REGISTERS_FILE_BYTES + 1];
    registers_file found;
    int file = openat(folder, "store", O_RDONLY | O_CLOEXEC);
    head = registers_journal_empty();
    if (file < 0 && errno == ENOENT)
        return 0;
    need(file >= 0, "opening the store");
    size_t count = read_all(file, bytes, sizeof bytes);
    need(close(file) == 0, "closing the store");
    if (!registers_file_read(bytes, count, &found, keys, values, REGISTERS_BASE_ROWS))
        stop("the store", "this is no whole store's file");
    if (found.survived > sizeof journal)
        stop("the store", registers_text(REGISTERS_BAD_SHAPE));
    memcpy(journal, bytes + found.journal, found.survived);
    head = found.head;
    return found.survived;
}

/* Recovers what the folder holds. Recovery drops records and moves the others up, so that the file's journal is another
 * one, and raises floor above the numbers that it dropped: all is written anew before a record is appended. */
static void start(int salvage)
{
    size_t survived = load();
    registers_journal_result result = registers_journal_recover(STORE, survived);
    if (result.answer.number == REGISTERS_BAD_RECORD) {
        fprintf(stderr, "host: record %" PRIu64 " is damaged\n", result.answer.value);
        if (salvage)
            result = registers_journal_recover(STORE, (size_t)result.answer.value * REGISTERS_RECORD_BYTES);
    }
    if (result.answer.number != REGISTERS_ACCEPTED)
        stop("the store", registers_text(result.answer.number));
    head = result.head;
    replace();
}

/* What a call answered; absent stands for a value that is not there. */
static void reply(registers_answer answer, const char *absent)
{
    if (answer.number != REGISTERS_ACCEPTED)
        printf("refused %" PRIu32 " %s\n", answer.number, registers_text(answer.number));
    else if (answer.present)
        printf("ok %" PRIu64 "\n", answer.value);
    else
        printf("ok%s\n", absent);
}

/* Takes what a call returned. The answer comes last: whoever has it may rely on the commit or the checkpoint. The other
 * calls keep nothing: their records go to the medium with the next commit. */
static void take(registers_journal_result result, void (*keep)(void))
{
    head = result.head;
    if (keep != NULL && result.answer.number == REGISTERS_ACCEPTED)
        keep();
    reply(result.answer, "");
}

static void list(uint64_t t)
{
    static uint32_t rows[REGISTERS_LIST_ROWS], contents[REGISTERS_LIST_ROWS];
    registers_answer answer =
        registers_journal_list(STORE, t, rows, REGISTERS_LIST_ROWS, contents, REGISTERS_LIST_ROWS);
    if (answer.number != REGISTERS_ACCEPTED) {
        reply(answer, "");
        return;
    }
    printf("ok %" PRIu64, answer.value);
    for (size_t row = 0; row < answer.value; row++)
        printf(" %" PRIu32 "=%" PRIu32, rows[row], contents[row]);
    printf("\n");
}

/* Whether the line is this command with just the numbers that it takes, a letter a number: t is a time, of 64 bits, the
 * others have 32. A line that was cut short is none: its last number may be. */
static int is(const char *line, const char *command, const char *takes, uint64_t *given)
{
    size_t length = strlen(command);
    if (strncmp(line, command, length) != 0)
        return 0;
    for (line += length; *takes != 0; takes++, given++) {
        char *rest;
        errno = 0;
        if (*line != ' ' || !isdigit((unsigned char)line[1]))
            return 0;
        *given = strtoull(line + 1, &rest, 10);
        if (errno != 0 || (*takes != 't' && *given > UINT32_MAX))
            return 0;
        line = rest;
    }
    return strcmp(line, "\n") == 0;
}

/* The next line, with its end, whatever bytes it has. Of one that is too long the room gets its start alone, without an
 * end: it is no command, and neither is what is left of it. */
static int next_line(char *line, size_t room)
{
    size_t count = 0;
    int byte;
    do {
        byte = getchar();
        if (byte != EOF && count + 1 < room)
            line[count++] = (char)byte;
    } while (byte != EOF && byte != '\n');
    line[count] = 0;
    return count > 0 && !ferror(stdin);
}

static void obey(const char *line)
{
    uint64_t a[3];
    if (is(line, "begin", "t", a))
        take(registers_journal_begin(STORE, a[0]), NULL);
    else if (is(line, "assign", "nkv", a))
        take(registers_journal_assign(STORE, (uint32_t)a[0], (uint32_t)a[1], (uint32_t)a[2]), NULL);
    else if (is(line, "add", "nkd", a))
        take(registers_journal_add(STORE, (uint32_t)a[0], (uint32_t)a[1], (uint32_t)a[2]), NULL);
    else if (is(line, "commit", "nt", a))
        take(registers_journal_commit(STORE, (uint32_t)a[0], a[1]), append);
    else if (is(line, "abort", "n", a))
        take(registers_journal_abort(STORE, (uint32_t)a[0]), NULL);
    else if (is(line, "read", "nk", a))
        reply(registers_journal_read(STORE, (uint32_t)a[0], (uint32_t)a[1]), " absent");
    else if (is(line, "lookup", "kt", a))
        reply(registers_journal_lookup(STORE, (uint32_t)a[0], a[1]), " absent");
    else if (is(line, "list", "t", a))
        list(a[0]);
    else if (is(line, "checkpoint", "t", a))
        take(registers_journal_checkpoint(STORE, a[0]), replace);
    else
        printf("error\n");
}

int main(int count, char **words)
{
    char line[128];
    int salvage = count == 3 && strcmp(words[2], "salvage") == 0;
    if (count != 2 && !salvage)
        stop("usage", "host FOLDER [salvage]");
    folder = open(words[1], O_RDONLY | O_DIRECTORY | O_CLOEXEC);
    if (folder < 0 || flock(folder, LOCK_EX | LOCK_NB) != 0)
        stop(words[1], errno == EWOULDBLOCK ? "another host has it" : strerror(errno));
    start(salvage);
    printf("ready %" PRIu64 "\n", registers_journal_last(head, journal));
    while (fflush(stdout) == 0 && next_line(line, sizeof line))
        obey(line);
    if (ferror(stdin) || ferror(stdout))
        stop("the commands", "reading or answering failed");
    return EXIT_SUCCESS;
}
