/* Random transactions for a host like host.c, and what its store must hold after each commit: what test-kill.c and
 * test-power.c share. The model knows no rule of the store but what assign and add do; whether a commit conflicts is
 * the host's word. */
#ifndef TEST_MODEL_H
#define TEST_MODEL_H

#include <inttypes.h>
#include <signal.h>
#include <stdarg.h>
#include <stdio.h>
#include <stdlib.h>
#include <string.h>
#include <sys/stat.h>
#include <sys/wait.h>
#include <unistd.h>

enum { REGISTERS = 12, OPEN = 3, UPDATES = 8, STATES = 1 << 12, FIRST_KEY = 1000, LINE = 512 };

/* All registers after a commit. */
struct state {
    uint64_t time;
    unsigned present; /* a bit for each register */
    uint32_t value[REGISTERS];
};

struct update {
    int adds;
    unsigned which;
    uint32_t by;
};

/* A transaction that runs; its number is 0 where none does. */
struct transaction {
    uint32_t number;
    uint64_t snapshot;
    unsigned count;
    struct update updates[UPDATES];
};

/* The states after the latest commits, each in its place by its number, 0 for the empty one; the transactions that run.
 * Held is the latest time at which a checkpoint was asked for: lists before it may be refused. */
static struct state states[STATES];
static size_t state_count = 1;
static struct transaction open_ones[OPEN];
static uint64_t held;

/* What is asked of the host next. */
enum asked { BEGIN, UPDATE, COMMIT, ABORT, CHECKPOINT };
struct request {
    enum asked asked;
    struct transaction *of;
    struct update update;
    struct state then; /* of a commit: what the store holds if it is accepted */
    char line[LINE];
};

static uint64_t random_state;

static uint64_t random_below(uint64_t bound)
{
    random_state ^= random_state << 13;
    random_state ^= random_state >> 7;
    random_state ^= random_state << 17;
    return (random_state >> 11) % bound;
}

__attribute__((noreturn, format(printf, 1, 2))) static void fail(const char *format, ...)
{
    va_list words;
    va_start(words, format);
    fflush(stdout);
    fprintf(stderr, "FAILED: ");
    vfprintf(stderr, format, words);
    fprintf(stderr, "\n");
    va_end(words);
    exit(1);
}

static void must(int fine, const char *what)
{
    if (!fine)
        fail("%s", what);
}

/* ==== The host, on two pipes. */
struct host {
    pid_t pid;
    FILE *to, *from;
};

static struct host host_started(void (*run)(void))
{
    int to[2], from[2];
    struct host host;
    must(pipe(to) == 0 && pipe(from) == 0, "no pipe");
    fflush(stdout);
    host.pid = fork();
    must(host.pid >= 0, "no process");
    if (host.pid == 0) {
        must(dup2(to[0], 0) == 0 && dup2(from[1], 1) == 1, "no pipe");
        close(to[0]), close(to[1]), close(from[0]), close(from[1]);
        run();
        exit(127);
    }
    close(to[0]), close(from[1]);
    host.to = fdopen(to[1], "w");
    host.from = fdopen(from[0], "r");
    must(host.to != NULL && host.from != NULL, "no stream");
    return host;
}

/* Waits for the host's end, after the last line to it, and gives its status. */
static int host_ended(struct host *host)
{
    int status;
    fclose(host->to), fclose(host->from);
    must(waitpid(host->pid, &status, 0) == host->pid, "no end of the host");
    return status;
}

/* The host's next line, without its end; 0 where there is no whole one any more. */
static int heard(struct host *host, char *line)
{
    if (fgets(line, LINE, host->from) == NULL)
        return 0;
    char *end = strchr(line, '\n');
    if (end != NULL)
        *end = 0;
    return end != NULL;
}

/* Sends a line; 0 where no answer comes. */
static int asked(struct host *host, const char *line, char *answer)
{
    fprintf(host->to, "%s\n", line);
    fflush(host->to);
    return heard(host, answer);
}

/* ==== What the store must hold. */
static struct state *state_of(size_t number) { return &states[number % STATES]; }

static struct state *newest(void) { return state_of(state_count - 1); }

static void applied(struct state *state, const struct update *update)
{
    uint32_t old = state->present >> update->which & 1 ? state->value[update->which] : 0;
    state->value[update->which] = update->adds ? old + update->by : update->by;
    state->present |= 1u << update->which;
}

/* ==== Requests. */
static void choose_update(struct request *request)
{
    struct update update = {(int)random_below(2), (unsigned)random_below(REGISTERS), (uint32_t)random_below(1u << 31)};
    request->asked = UPDATE;
    request->update = update;
    sprintf(request->line, "%s %" PRIu32 " %u %" PRIu32, update.adds ? "add" : "assign", request->of->number,
            FIRST_KEY + update.which, update.by);
}

static void choose_commit(struct request *request)
{
    request->asked = COMMIT;
    request->then = *newest();
    request->then.time += 1 + random_below(3);
    for (unsigned i = 0; i < request->of->count; i++)
        applied(&request->then, &request->of->updates[i]);
    sprintf(request->line, "commit %" PRIu32 " %" PRIu64, request->of->number, request->then.time);
}

/* At the latest time that no running transaction holds. */
static void choose_checkpoint(struct request *request)
{
    uint64_t time = newest()->time;
    for (int i = 0; i < OPEN; i++)
        if (open_ones[i].number != 0 && open_ones[i].snapshot < time)
            time = open_ones[i].snapshot;
    request->asked = CHECKPOINT;
    held = time;
    sprintf(request->line, "checkpoint %" PRIu64, time);
}

static void choose(struct request *request)
{
    request->of = &open_ones[random_below(OPEN)];
    if (random_below(60) == 0)
        choose_checkpoint(request);
    else if (request->of->number == 0) {
        request->asked = BEGIN;
        sprintf(request->line, "begin %" PRIu64, newest()->time);
    } else if (request->of->count < UPDATES && random_below(3) != 0)
        choose_update(request);
    else if (random_below(8) == 0) {
        request->asked = ABORT;
        sprintf(request->line, "abort %" PRIu32, request->of->number);
    } else
        choose_commit(request);
}

/* Takes in what the host answered; gives whether a commit was accepted. After a conflict an abort comes at last. */
static int settled(const struct request *request, const char *answer)
{
    struct transaction *of = request->of;
    int ok = strncmp(answer, "ok", 2) == 0;
    if (request->asked == COMMIT && strncmp(answer, "refused 11 ", 11) == 0) {
        of->count = UPDATES;
        return 0;
    }
    if (!ok)
        fail("\"%s\" was answered \"%s\"", request->line, answer);
    if (request->asked == BEGIN) {
        of->number = (uint32_t)strtoul(answer + 3, NULL, 10);
        of->snapshot = newest()->time;
        of->count = 0;
    } else if (request->asked == UPDATE)
        of->updates[of->count++] = request->update;
    else if (request->asked == COMMIT || request->asked == ABORT)
        of->number = 0;
    if (request->asked != COMMIT)
        return 0;
    *state_of(state_count++) = request->then;
    return 1;
}

/* After a restart no transaction runs. */
static void forget_open(void)
{
    for (int i = 0; i < OPEN; i++)
        open_ones[i].number = 0;
}

#endif
