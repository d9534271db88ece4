/* Kills a host at random moments, starts it again on the same folder, and holds what it lists to what it has answered.
 *
 *   test-kill HOST FOLDER [KILLS [SEED]]
 *
 * Every commit that was answered must be there with its values, and nothing else; the commit that was asked for when
 * the host was killed may be there or not, whole. Ends with status 1 at the first loss. */
#define _DEFAULT_SOURCE
#include "test-model.h"
#include <sys/time.h>
#include <time.h>

enum { SECOND = 1000000 };
static const char *program, *folder;
static volatile pid_t victim;

/* What was asked for last and not answered, if it was a commit; and how often what was under way. */
static struct request pending;
static int is_pending;
static unsigned long answered, kept, kills_in[CHECKPOINT + 1], kills_in_start, kills_in_check;

static void run(void)
{
    execl(program, program, folder, (char *)NULL);
    perror(program);
}

static void kill_victim(int signal)
{
    (void)signal;
    kill(victim, SIGKILL);
}

static void kill_after(uint64_t microseconds)
{
    struct itimerval when = {{0, 0}, {(time_t)(microseconds / SECOND), (suseconds_t)(microseconds % SECOND)}};
    must(setitimer(ITIMER_REAL, &when, NULL) == 0, "no timer");
}

/* The host is ready: its last commit is the last that was answered, or the one under way, which counts from now on. */
static void resolve(const char *line)
{
    uint64_t last;
    if (sscanf(line, "ready %" SCNu64, &last) != 1)
        fail("the host said \"%s\" at its start", line);
    if (is_pending && last == pending.then.time) {
        *state_of(state_count++) = pending.then;
        kept++;
    } else if (last != newest()->time)
        fail("the last commit was at %" PRIu64 ", and the host has one at %" PRIu64, newest()->time, last);
    is_pending = 0;
    forget_open();
}

/* What the host answers when it lists a state. */
static void listed(const struct state *state, char *line)
{
    unsigned count = 0;
    for (unsigned i = 0; i < REGISTERS; i++)
        count += state->present >> i & 1;
    int length = snprintf(line, LINE, "ok %u", count);
    for (unsigned i = 0; i < REGISTERS; i++)
        if (state->present >> i & 1)
            length += snprintf(line + length, (size_t)(LINE - length), " %u=%" PRIu32, FIRST_KEY + i, state->value[i]);
}

/* Compares the list at the time of a commit; 0 where the host was killed meanwhile. */
static int compare(struct host *host, const struct state *state)
{
    char line[LINE], answer[LINE], wanted[LINE];
    sprintf(line, "list %" PRIu64, state->time);
    if (!asked(host, line, answer))
        return 0;
    listed(state, wanted);
    if (strcmp(answer, wanted) != 0 && !(state->time < held && strncmp(answer, "refused 4 ", 10) == 0))
        fail("at %" PRIu64 " \"%s\" must be there, and \"%s\" is", state->time, wanted, answer);
    return 1;
}

/* Compares the newest state and some older ones. */
static int compare_all(struct host *host)
{
    size_t back = 0;
    for (int i = 0; i < 5; i++) {
        if (!compare(host, state_of(state_count - 1 - back)))
            return 0;
        back = random_below(state_count < 40 ? state_count : 40);
    }
    return 1;
}

static uint64_t microseconds_now(void)
{
    struct timespec now;
    must(clock_gettime(CLOCK_MONOTONIC, &now) == 0, "no clock");
    return (uint64_t)now.tv_sec * SECOND + (uint64_t)now.tv_nsec / 1000;
}

/* One life of the host, from its start to its death: at a moment of its start, or of its time behind that. That is
 * longer where the start took long, since a medium whose flush is slow answers few commits in a short one. */
static void live(struct host *host)
{
    int early = random_below(3) == 0;
    uint64_t began = microseconds_now();
    kill_after(early ? 1 + random_below(5000) : 60 * SECOND);
    char answer[LINE];
    struct request request;
    if (!heard(host, answer)) {
        kills_in_start++;
        return;
    }
    resolve(answer);
    if (!early)
        kill_after(1 + random_below(60000 + 4 * (microseconds_now() - began)));
    if (!compare_all(host)) {
        kills_in_check++;
        return;
    }
    for (;;) {
        choose(&request);
        if (!asked(host, request.line, answer))
            break;
        answered += (unsigned long)settled(&request, answer);
    }
    kills_in[request.asked]++;
    is_pending = request.asked == COMMIT;
    pending = request;
}

static void one_kill(void)
{
    struct host host = host_started(run);
    victim = host.pid;
    live(&host);
    kill_after(0);
    int status = host_ended(&host);
    if (!WIFSIGNALED(status) || WTERMSIG(status) != SIGKILL)
        fail("the host ended by itself, with status %d", status);
}

int main(int count, char **words)
{
    unsigned long kills = count > 3 ? strtoul(words[3], NULL, 10) : 300;
    uint64_t seed = count > 4 ? strtoull(words[4], NULL, 10) : (uint64_t)time(NULL);
    struct sigaction action = {.sa_handler = kill_victim, .sa_flags = SA_RESTART};
    char answer[LINE];
    must(count > 2, "usage: test-kill HOST FOLDER [KILLS [SEED]]");
    program = words[1], folder = words[2];
    printf("kill: seed %" PRIu64 "\n", seed);
    random_state = seed * 2 + 1;
    must(sigaction(SIGALRM, &action, NULL) == 0 && signal(SIGPIPE, SIG_IGN) != SIG_ERR, "no signals");
    for (unsigned long i = 0; i < kills; i++)
        one_kill();
    must(answered > 0, "no commit was answered, so that nothing was tried");
    struct host host = host_started(run);
    must(heard(&host, answer), "the host does not start");
    resolve(answer);
    must(compare_all(&host), "the host does not answer");
    must(host_ended(&host) == 0, "the host did not end well");
    printf("kill: %lu kills, %lu in a start, %lu in a commit, %lu in a checkpoint, %lu elsewhere\n", kills,
           kills_in_start, kills_in[COMMIT], kills_in[CHECKPOINT],
           kills_in[BEGIN] + kills_in[UPDATE] + kills_in[ABORT] + kills_in_check);
    printf("kill: %lu commits answered, %lu more kept that were under way, none lost\n", answered, kept);
    return 0;
}
