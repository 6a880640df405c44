/*
 * Loaded before a program (LD_PRELOAD), counts its allocations and makes one of them fail.
 *
 * ALLOCATIONS names a file of three 64-bit numbers, which is kept up to date: how many allocations
 * were asked for, the most bytes that one of them asked for, and how many were refused. REFUSE=N
 * refuses the Nth, counted from 1.
 */
#define _GNU_SOURCE
#include <errno.h>
#include <fcntl.h>
#include <stddef.h>
#include <stdint.h>
#include <stdlib.h>
#include <sys/mman.h>
#include <unistd.h>

extern void *__libc_malloc(size_t);
extern void *__libc_calloc(size_t, size_t);
extern void *__libc_realloc(void *, size_t);
extern void *__libc_memalign(size_t, size_t);

struct counts {
    uint64_t calls, largest, refused;
};

static struct counts unreported;
static struct counts *counts = &unreported;
static uint64_t refuse;

__attribute__((constructor)) static void begin(void)
{
    const char *number = getenv("REFUSE");
    const char *path = getenv("ALLOCATIONS");
    int file = path ? open(path, O_RDWR | O_CREAT | O_TRUNC, 0600) : -1;
    refuse = number ? strtoull(number, NULL, 10) : 0;
    if (file < 0)
        return;
    if (ftruncate(file, sizeof *counts) == 0) {
        void *shared = mmap(NULL, sizeof *counts, PROT_READ | PROT_WRITE, MAP_SHARED, file, 0);
        if (shared != MAP_FAILED)
            counts = shared;
    }
    close(file);
    counts->calls = counts->largest = counts->refused = 0;
}

static int is_refused(size_t size)
{
    /* Threads allocate at once. */
    uint64_t call = __atomic_add_fetch(&counts->calls, 1, __ATOMIC_SEQ_CST);
    if (size > counts->largest)
        counts->largest = size;
    if (call != refuse)
        return 0;
    counts->refused += 1;
    errno = ENOMEM;
    return 1;
}

void *malloc(size_t size)
{
    return is_refused(size) ? NULL : __libc_malloc(size);
}

void *calloc(size_t count, size_t size)
{
    return is_refused(count * size) ? NULL : __libc_calloc(count, size);
}

void *realloc(void *block, size_t size)
{
    return is_refused(size) ? NULL : __libc_realloc(block, size);
}

void *aligned_alloc(size_t align, size_t size)
{
    return is_refused(size) ? NULL : __libc_memalign(align, size);
}

int posix_memalign(void **block, size_t align, size_t size)
{
    if (is_refused(size))
        return ENOMEM;
    *block = __libc_memalign(align, size);
    return *block ? 0 : ENOMEM;
}
