/* Makes host.c a wrong one, whose commits are answered before their records are written: these are kept back until the
 * next write or checkpoint. test-kill must find that out. */
#define _DEFAULT_SOURCE 1
#include <string.h>
#include <unistd.h>

static unsigned char kept_back[1 << 16];
static size_t kept_count;
static int kept_file;

static int late_fsync(int file)
{
    size_t count = kept_count;
    kept_count = 0;
    return write(kept_file, kept_back, count) == (ssize_t)count ? fsync(file) : -1;
}

static ssize_t late_write(int file, const void *bytes, size_t count)
{
    if (kept_count > 0 && write(kept_file, kept_back, kept_count) != (ssize_t)kept_count)
        return -1;
    memcpy(kept_back, bytes, count);
    kept_count = count;
    kept_file = file;
    return (ssize_t)count;
}

#define fsync late_fsync
#define write late_write
