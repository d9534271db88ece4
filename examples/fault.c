/* Loaded into the listing programs by examples/check: their calls of read and write do what the variable FAULT says. No header is needed, so that the
   toolchain's compiler is enough. Calls of other programs go through as they are. */
extern char *program_invocation_short_name;
char *getenv(const char *name);
int strcmp(const char *a, const char *b);
int *__errno_location(void);
long syscall(long number, ...);

enum { READ = 0, WRITE = 1, GETPID = 39, KILL = 62 };   /* x86-64 Linux */
enum { EINTR = 4, EIO = 5, ENOSPC = 28 };

static long reads, writes;

static int listing(void)
{
    return !strcmp(program_invocation_short_name, "list") || !strcmp(program_invocation_short_name, "list_store");
}

static int is(const char *fault)
{
    const char *asked = getenv("FAULT");
    return asked && listing() && !strcmp(asked, fault);
}

static long failed(int error)
{
    *__errno_location() = error;
    return -1;
}

static unsigned long least(unsigned long a, unsigned long b)
{
    return a < b ? a : b;
}

long read(int file, void *bytes, unsigned long count)
{
    reads++;
    if (is("read-fails")) return failed(EIO);
    if (is("second-read-fails") && reads > 1) return failed(EIO);
    if (is("second-read-fails")) count = least(count, 72);
    if (is("reads-interrupted") && reads % 2) return failed(EINTR);
    if (is("reads-interrupted")) count = least(count, 100);
    if (is("reads-always-interrupted")) return failed(EINTR);
    if (is("reads-short")) count = least(count, 1);
    if (is("killed")) syscall(KILL, syscall(GETPID), 9);
    return syscall(READ, file, bytes, count);
}

long write(int file, const void *bytes, unsigned long count)
{
    writes++;
    if (is("second-write-fails") && file == 1 && writes > 1) return failed(ENOSPC);
    if (is("second-write-fails") && file == 1) count = least(count, 10);
    if (is("writes-interrupted") && writes % 2) return failed(EINTR);
    if (is("writes-take-nothing") && file == 1) return 0;
    if (is("writes-short") || is("writes-interrupted")) count = least(count, 7);
    return syscall(WRITE, file, bytes, count);
}
