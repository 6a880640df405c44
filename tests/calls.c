/*
 * Loaded before a program (LD_PRELOAD), logs its calls on files and makes one of them fail.
 *
 * CALLS names the log. Each record is a letter, two 64-bit numbers and the bytes: `w` a write at a
 * place (place, length, bytes), `s` a sync, `c` a cut (length), `r` bytes for standard output (0,
 * length, bytes). A call that fails has the letter in upper case, and the bytes that were written
 * all the same. FAIL=N lets the Nth call of `w`, `s` and `c` fail, counted from 1; a write that
 * fails stores its first STORES bytes. What comes after it is let through. READ=N lets the Nth
 * read at a place fail. KEEP lets no file be removed.
 */
#define _GNU_SOURCE
#include <errno.h>
#include <fcntl.h>
#include <stdint.h>
#include <stdlib.h>
#include <sys/syscall.h>
#include <sys/uio.h>
#include <unistd.h>

static int file = -1;
static uint64_t fails, stores, calls, bad_read, reads;

static uint64_t number(const char *name)
{
    const char *text = getenv(name);
    return text ? strtoull(text, NULL, 10) : 0;
}

__attribute__((constructor)) static void begin(void)
{
    const char *path = getenv("CALLS");
    int low = path ? open(path, O_WRONLY | O_CREAT | O_APPEND, 0600) : -1;
    fails = number("FAIL");
    stores = number("STORES");
    bad_read = number("READ");
    if (low < 0)
        return;
    file = fcntl(low, F_DUPFD_CLOEXEC, 100);
    close(low);
}

static void note(char letter, uint64_t at, const void *bytes, uint64_t length, uint64_t kept)
{
    struct {
        uint64_t at, length;
    } numbers = {at, length};
    struct iovec parts[] = {{&letter, 1}, {&numbers, sizeof numbers}, {(void *)bytes, kept}};
    if (file >= 0 && syscall(SYS_writev, file, parts, 3) < 0)
        abort();
}

static int is_failing(void)
{
    calls += 1;
    return calls == fails;
}

static int fail(void)
{
    errno = EIO;
    return -1;
}

ssize_t pwrite(int to, const void *bytes, size_t length, off_t at)
{
    if (is_failing()) {
        uint64_t kept = stores < length ? stores : length;
        note('W', at, bytes, kept, kept);
        if (kept > 0)
            syscall(SYS_pwrite64, to, bytes, kept, at);
        return fail();
    }
    note('w', at, bytes, length, length);
    return syscall(SYS_pwrite64, to, bytes, length, at);
}

ssize_t pwrite64(int to, const void *bytes, size_t length, off_t at)
{
    return pwrite(to, bytes, length, at);
}

ssize_t pread(int from, void *bytes, size_t length, off_t at)
{
    reads += 1;
    return reads == bad_read ? fail() : syscall(SYS_pread64, from, bytes, length, at);
}

ssize_t pread64(int from, void *bytes, size_t length, off_t at)
{
    return pread(from, bytes, length, at);
}

static int sync_by(long call, int of)
{
    if (is_failing()) {
        note('S', 0, NULL, 0, 0);
        return fail();
    }
    note('s', 0, NULL, 0, 0);
    return syscall(call, of);
}

int fdatasync(int of)
{
    return sync_by(SYS_fdatasync, of);
}

int fsync(int of)
{
    return sync_by(SYS_fsync, of);
}

int ftruncate(int of, off_t length)
{
    if (is_failing()) {
        note('C', 0, NULL, length, 0);
        return fail();
    }
    note('c', 0, NULL, length, 0);
    return syscall(SYS_ftruncate, of, length);
}

int ftruncate64(int of, off_t length)
{
    return ftruncate(of, length);
}

ssize_t write(int to, const void *bytes, size_t length)
{
    if (to == 1)
        note('r', 0, bytes, length, length);
    return syscall(SYS_write, to, bytes, length);
}

int unlink(const char *path)
{
    if (getenv("KEEP")) {
        errno = EPERM;
        return -1;
    }
    return syscall(SYS_unlink, path);
}
