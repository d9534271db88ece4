/* Cuts the power of host.c at every point, in memory, and starts it from each thing that the medium can then hold.
 *
 *   test-power FOLDER [LIVES [COMMITS [SEED]]]
 *
 * The host is compiled into this program, its calls on files recorded one by one: what it makes, writes, flushes and
 * renames. At every point of the record the medium holds what was flushed, and of what was not:
 *
 *   - of a file, all writes since its flush, none of them, all but one, or all with the last one torn at any byte,
 *     where the file then ends; so a file that was never flushed may be empty;
 *   - of the folder, any of the names made or renamed since its flush.
 *
 * From each the host must start, and list every commit that was answered before that point, with its values, and no
 * other; the one under way may be there or not, whole. One of these media, drawn at random, is the next life's first.
 *
 * Compiled with -DWITHOUT_FLUSH, -DRENAME_FIRST or -DWITHOUT_FOLDER_FLUSH the host is a wrong one, and must fail. */
#define _DEFAULT_SOURCE 1
#include "test-model.h"
#include <fcntl.h>
#include <setjmp.h>
#include <sys/mman.h>
#include <time.h>

enum { STORE_NAME, SECOND_NAME, NAMES, NONE = -1 };
enum { EVENTS = 1 << 14, DATA = 1 << 22, FILES = 1 << 8, BYTES = 1 << 16, PENDING = 1 << 10 };

/* ==== The record, shared by the host and the test, which speak in turns. */
enum what { MADE, EMPTIED, WROTE, FLUSHED, FOLDER_FLUSHED, RENAMED, ASKED, ANSWERED };
static const char *const said[] = {"a file made",      "a file emptied", "a write",     "a flush",
                                   "a folder's flush", "a rename",       "a line sent", "an answer"};
struct event {
    enum what what;
    int name, file;
    size_t at, count, data;
    size_t sure, maybe; /* of a line or an answer: the last state that must be there, and one that may, or 0 */
};
static struct record {
    size_t events, filled;
    int files, named[NAMES];
    struct event event[EVENTS];
    uint8_t data[DATA];
} *record;

static struct event *noted(enum what what, int file)
{
    must(record->events < EVENTS, "too many events for the test");
    struct event *event = &record->event[record->events++];
    memset(event, 0, sizeof *event);
    event->what = what;
    event->file = file;
    return event;
}

/* ==== The host's calls. Nothing is flushed in truth: what a flush would keep is known from the record. */
static int file_of[64], put_off = NONE;

static int name_of(const char *name)
{
    must(strcmp(name, "store") == 0 || strcmp(name, "store.new") == 0, "the host has another file");
    return strcmp(name, "store") == 0 ? STORE_NAME : SECOND_NAME;
}

static int recorded_openat(int folder, const char *path, int flags, ...)
{
    int name = name_of(path), file = openat(folder, path, flags, 0666);
    if (file < 0 || (flags & O_ACCMODE) == O_RDONLY)
        return file;
    must(file < 64 && (flags & O_CREAT) != 0 && record->files < FILES, "a file is opened as the test does not know");
    if (record->named[name] == NONE) {
        record->named[name] = record->files++;
        noted(MADE, record->named[name])->name = name;
    } else if ((flags & O_TRUNC) != 0)
        noted(EMPTIED, record->named[name]);
    file_of[file] = record->named[name];
    return file;
}

static ssize_t recorded_write(int file, const void *bytes, size_t count)
{
    off_t at = lseek(file, 0, SEEK_CUR);
    must(file < 64 && at >= 0 && record->filled + count <= DATA, "a write that the test does not know");
    struct event *event = noted(WROTE, file_of[file]);
    event->at = (size_t)at;
    event->count = count;
    event->data = record->filled;
    memcpy(record->data + record->filled, bytes, count);
    record->filled += count;
    return write(file, bytes, count);
}

static int recorded_fdatasync(int file)
{
#ifndef WITHOUT_FLUSH
    noted(FLUSHED, file_of[file]);
#endif
    return file < 64 ? 0 : -1;
}

static int recorded_fsync(int file)
{
    struct stat kind;
    must(fstat(file, &kind) == 0, "a flush that the test does not know");
    if (S_ISDIR(kind.st_mode)) {
#ifndef WITHOUT_FOLDER_FLUSH
        noted(FOLDER_FLUSHED, NONE);
#endif
        return 0;
    }
#ifdef RENAME_FIRST
    put_off = file_of[file];
#else
    noted(FLUSHED, file_of[file]);
#endif
    return 0;
}

static int recorded_renameat(int folder, const char *from, int into, const char *to)
{
    must(name_of(from) == SECOND_NAME && name_of(to) == STORE_NAME, "a rename that the test does not know");
    noted(RENAMED, record->named[SECOND_NAME]);
    record->named[STORE_NAME] = record->named[SECOND_NAME];
    record->named[SECOND_NAME] = NONE;
    if (put_off != NONE)
        noted(FLUSHED, put_off);
    put_off = NONE;
    return renameat(folder, from, into, to);
}

/* The host's end: of a start inside this program the test is told, and a host of its own ends. */
static jmp_buf ended;
static int is_inside;

static void recorded_exit(int status)
{
    if (is_inside)
        longjmp(ended, 1);
    exit(status);
}

#define openat recorded_openat
#define write recorded_write
#define fdatasync recorded_fdatasync
#define fsync recorded_fsync
#define renameat recorded_renameat
#define exit recorded_exit
#define main host_main
#include "host.c"
#undef openat
#undef write
#undef fdatasync
#undef fsync
#undef renameat
#undef exit
#undef main

static char *place; /* the folder of the host */

static void run(void)
{
    char *words[] = {(char *)"host", place, NULL};
    exit(host_main(2, words));
}

/* ==== What a medium may hold. */
struct content {
    int there;
    size_t count;
    uint8_t bytes[BYTES];
};
struct medium {
    struct content of[NAMES];
};

/* What is flushed, and what happened since: places in the record. */
static struct content flushed[FILES];
static size_t pending[FILES][PENDING], pending_count[FILES];
static int flushed_name[NAMES];
static size_t folder_pending[PENDING], folder_pending_count;

static void changed(struct content *content, const struct event *event, size_t count)
{
    content->there = 1;
    if (event->what == EMPTIED) {
        content->count = 0;
        return;
    }
    must(event->at + count <= BYTES, "a file is too long for the test");
    if (event->at > content->count)
        memset(content->bytes + content->count, 0, event->at - content->count);
    memcpy(content->bytes + event->at, record->data + event->data, count);
    if (event->at + count > content->count)
        content->count = event->at + count;
}

/* Which of a file's pending changes the medium has: the first kept ones but the one left out, and of the last of these
 * no more than torn bytes, where the file then ends. */
struct choice {
    size_t kept, left_out, torn;
};
static const size_t ALL = SIZE_MAX;

static void made(struct content *content, int file, struct choice choice)
{
    content->there = 1;
    content->count = flushed[file].count;
    memcpy(content->bytes, flushed[file].bytes, flushed[file].count);
    for (size_t i = 0; i < pending_count[file] && i < choice.kept; i++) {
        const struct event *event = &record->event[pending[file][i]];
        int last = i + 1 == pending_count[file];
        if (i == choice.left_out)
            continue;
        changed(content, event, last && choice.torn < event->count ? choice.torn : event->count);
    }
}

static void flush_file(int file)
{
    struct choice all = {ALL, ALL, ALL};
    static struct content content;
    made(&content, file, all);
    flushed[file] = content;
    pending_count[file] = 0;
}

static void name_changed(int *named, const struct event *event)
{
    if (event->what == MADE) {
        named[event->name] = event->file;
        return;
    }
    named[STORE_NAME] = event->file;
    if (named[SECOND_NAME] == event->file)
        named[SECOND_NAME] = NONE;
}

/* One more event has happened. */
static void happened(size_t at)
{
    const struct event *event = &record->event[at];
    if (event->what == EMPTIED || event->what == WROTE) {
        must(pending_count[event->file] < PENDING, "too much is pending for the test");
        pending[event->file][pending_count[event->file]++] = at;
    } else if (event->what == FLUSHED)
        flush_file(event->file);
    else if (event->what == MADE || event->what == RENAMED) {
        must(folder_pending_count < PENDING, "too much is pending for the test");
        folder_pending[folder_pending_count++] = at;
    } else if (event->what == FOLDER_FLUSHED) {
        for (size_t i = 0; i < folder_pending_count; i++)
            name_changed(flushed_name, &record->event[folder_pending[i]]);
        folder_pending_count = 0;
    }
}

/* ==== A start from a medium. */
static unsigned long life, starts, points;
static size_t sure, maybe, point;
static uint64_t seen[1 << 20];
static struct medium drawn;
static size_t drawn_sure, drawn_maybe, drawn_of;

static void put(int in, const char *name, const struct content *content)
{
    if (!content->there) {
        must(unlinkat(in, name, 0) == 0 || errno == ENOENT, "a file could not be removed");
        return;
    }
    int file = openat(in, name, O_WRONLY | O_CREAT | O_TRUNC, 0666);
    must(file >= 0 && write(file, content->bytes, content->count) == (ssize_t)content->count && close(file) == 0,
         "a file could not be written");
}

static void put_medium(const struct medium *medium)
{
    put(folder, "store", &medium->of[STORE_NAME]);
    put(folder, "store.new", &medium->of[SECOND_NAME]);
}

/* Whether this medium, with this to be found on it, was seen before. */
static int is_seen(const struct medium *medium)
{
    uint64_t sum = sure * 31 + maybe;
    for (int name = 0; name < NAMES; name++) {
        const struct content *content = &medium->of[name];
        size_t count = content->there ? content->count : 0;
        sum = (sum * 1099511628211u + registers_file_sum(content->bytes, count)) * 31 + count * 2 +
              (size_t)content->there;
    }
    size_t at = sum % (sizeof seen / sizeof *seen);
    for (sum |= 1; seen[at] != 0; at = (at + 1) % (sizeof seen / sizeof *seen))
        if (seen[at] == sum)
            return 1;
    must(starts < sizeof seen / sizeof *seen / 2, "too many media for the test");
    seen[at] = sum;
    return 0;
}

static void lost(const char *instead)
{
    const struct event *event = point > 0 ? &record->event[point - 1] : NULL;
    fail("life %lu, point %zu, after %s: commit %zu must be there%s, and there is %s", life, point,
         event != NULL ? said[event->what] : "the start", sure, maybe != 0 ? " or the next" : "", instead);
}

/* The state that a host with this last commit has: one that must be there, or that may. */
static size_t found(uint64_t last)
{
    size_t state = maybe != 0 && last == state_of(maybe)->time ? maybe : sure;
    if (last != state_of(state)->time)
        lost("another last commit");
    return state;
}

/* Starts the host from the medium in its folder, inside this program, and compares its list with the state that it has,
 * which it gives. */
static size_t start_inside(void)
{
    static uint32_t rows[REGISTERS_LIST_ROWS], contents[REGISTERS_LIST_ROWS];
    is_inside = 1;
    if (setjmp(ended) != 0)
        lost("no whole store");
    start(0);
    is_inside = 0;
    uint64_t last = registers_journal_last(head, journal);
    size_t number = found(last);
    const struct state *state = state_of(number);
    registers_answer answer =
        registers_journal_list(STORE, last, rows, REGISTERS_LIST_ROWS, contents, REGISTERS_LIST_ROWS);
    size_t row = 0;
    for (unsigned i = 0; i < REGISTERS; i++)
        if (state->present >> i & 1) {
            if (row >= answer.value || rows[row] != FIRST_KEY + i || contents[row] != state->value[i])
                lost("another list");
            row++;
        }
    if (answer.number != REGISTERS_ACCEPTED || answer.value != row)
        lost("another list");
    must(close(store) == 0, "the store could not be closed");
    store = -1;
    return number;
}

/* Starts the host from a medium, and from what that start leaves. What it does there is struck from the record. */
static void start_from(const struct medium *medium)
{
    size_t events = record->events, filled = record->filled;
    int files = record->files, named[NAMES];
    if (is_seen(medium))
        return;
    memcpy(named, record->named, sizeof named);
    starts++;
    put_medium(medium);
    for (int name = 0; name < NAMES; name++)
        record->named[name] = medium->of[name].there ? FILES - 1 : NONE;
    if (start_inside() != start_inside())
        lost("another state at the second start");
    record->events = events, record->filled = filled, record->files = files;
    memcpy(record->named, named, sizeof named);
    if (random_below(++drawn_of) == 0) {
        drawn = *medium;
        drawn_sure = sure, drawn_maybe = maybe;
    }
}

/* ==== All media of a point. */
static void choose_content(struct medium *medium, const int *named, int name, struct choice choice)
{
    medium->of[name].there = 0;
    if (named[name] != NONE)
        made(&medium->of[name], named[name], choice);
}

/* Every choice for the file of one name, the file of the other name as it is. */
static void vary(struct medium *medium, const int *named, int name)
{
    int file = named[name];
    if (file == NONE || pending_count[file] == 0)
        return;
    const struct event *last = &record->event[pending[file][pending_count[file] - 1]];
    struct choice choice = {0, ALL, ALL};
    choose_content(medium, named, name, choice);
    start_from(medium);
    choice.kept = ALL;
    for (choice.left_out = 0; choice.left_out < pending_count[file]; choice.left_out++) {
        choose_content(medium, named, name, choice);
        start_from(medium);
    }
    choice.left_out = ALL;
    for (choice.torn = 0; last->what == WROTE && choice.torn < last->count; choice.torn++) {
        choose_content(medium, named, name, choice);
        start_from(medium);
    }
    choice.torn = ALL;
    choose_content(medium, named, name, choice);
}

static void vary_files(const int *named)
{
    static struct medium medium;
    struct choice all = {ALL, ALL, ALL}, none = {0, ALL, ALL};
    for (int name = 0; name < NAMES; name++)
        choose_content(&medium, named, name, none);
    start_from(&medium);
    for (int name = 0; name < NAMES; name++)
        choose_content(&medium, named, name, all);
    start_from(&medium);
    for (int name = 0; name < NAMES; name++)
        vary(&medium, named, name);
}

/* Any of the folder's pending changes, and for each all that its files may hold. */
static void cut_here(void)
{
    must(folder_pending_count < 8, "too much is pending in the folder for the test");
    points++;
    for (unsigned subset = 0; subset < 1u << folder_pending_count; subset++) {
        int named[NAMES] = {flushed_name[0], flushed_name[1]};
        for (size_t i = 0; i < folder_pending_count; i++)
            if (subset >> i & 1)
                name_changed(named, &record->event[folder_pending[i]]);
        vary_files(named);
    }
}

/* ==== A life. */
static void note_turn(enum what what, size_t must_be, size_t may_be)
{
    struct event *event = noted(what, NONE);
    event->sure = must_be;
    event->maybe = may_be;
}

/* The medium that the host of this life starts from is all flushed. */
static void lay_out(const struct medium *medium)
{
    memset(record, 0, offsetof(struct record, data));
    memset(pending_count, 0, sizeof pending_count);
    folder_pending_count = 0;
    for (int name = 0; name < NAMES; name++) {
        record->named[name] = flushed_name[name] = medium->of[name].there ? record->files : NONE;
        if (medium->of[name].there)
            flushed[record->files++] = medium->of[name];
    }
    for (int file = record->files; file < FILES; file++)
        flushed[file].count = 0;
    put_medium(medium);
}

/* The host lives for some commits, and its record is made. */
static void live(unsigned long commits)
{
    char answer[LINE];
    struct request request;
    uint64_t last = 0;
    struct host host = host_started(run);
    must(heard(&host, answer) && sscanf(answer, "ready %" SCNu64, &last) == 1, "the host does not start");
    size_t state = found(last);
    state_count = state + 1;
    note_turn(ANSWERED, state, 0);
    forget_open();
    while (state_count <= state + commits) {
        choose(&request);
        size_t next = state_count, line = record->events;
        note_turn(ASKED, next - 1, request.asked == COMMIT ? next : 0);
        if (!asked(&host, request.line, answer))
            fail("the host did not answer \"%s\"", request.line);
        if (!settled(&request, answer))
            record->event[line].maybe = 0;
        note_turn(ANSWERED, state_count - 1, 0);
    }
    must(host_ended(&host) == 0, "the host did not end well");
}

/* The power is cut before the first event and after each. */
static void cut_everywhere(void)
{
    cut_here();
    for (point = 1; point <= record->events; point++) {
        const struct event *event = &record->event[point - 1];
        happened(point - 1);
        if (event->what == ASKED || event->what == ANSWERED)
            sure = event->sure, maybe = event->maybe;
        cut_here();
    }
    point = 0;
}

int main(int count, char **words)
{
    unsigned long lives = count > 2 ? strtoul(words[2], NULL, 10) : 10;
    unsigned long commits = count > 3 ? strtoul(words[3], NULL, 10) : 50;
    uint64_t seed = count > 4 ? strtoull(words[4], NULL, 10) : (uint64_t)time(NULL);
    must(count > 1, "usage: test-power FOLDER [LIVES [COMMITS [SEED]]]");
    place = words[1];
    folder = open(place, O_RDONLY | O_DIRECTORY);
    must(folder >= 0, "no folder");
    printf("power: seed %" PRIu64 "\n", seed);
    random_state = seed * 2 + 1;
    record = mmap(NULL, sizeof *record, PROT_READ | PROT_WRITE, MAP_SHARED | MAP_ANONYMOUS, -1, 0);
    must(record != MAP_FAILED && signal(SIGPIPE, SIG_IGN) != SIG_ERR, "no memory or no signals");
    for (life = 1; life <= lives; life++) {
        static struct medium first;
        first = drawn;
        sure = drawn_sure, maybe = drawn_maybe;
        lay_out(&first);
        live(commits);
        memset(seen, 0, sizeof seen);
        drawn_of = 0;
        cut_everywhere();
    }
    printf("power: %lu lives, %lu commits, cut at %lu points, %lu starts from what they left, none lost\n", lives,
           lives * commits, points, starts);
    return 0;
}
