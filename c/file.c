/* Making and opening files, and device calls. */
#define _POSIX_C_SOURCE 200809L
#define _FILE_OFFSET_BITS 64
#include "file.h"

#include <errno.h>
#include <fcntl.h>
#include <limits.h>
#include <string.h>
#include <sys/file.h>
#include <sys/mman.h>
#include <sys/stat.h>
#include <time.h>
#include <unistd.h>

enum {
    PIECE = 65536, /* the most bytes of one write */
    PAUSE_MS = 10  /* between two tries of a lock */
};
static const off_t MOST_BYTES = (off_t)1 << 40;

/* ---- device calls */

static bool write_all(int file, const uint8_t *bytes, size_t len, uint64_t at)
{
    while (len > 0) {
        ssize_t written = pwrite(file, bytes, len < PIECE ? len : PIECE, (off_t)at);
        if (written < 0 && errno == EINTR)
            continue;
        if (written == 0)
            errno = EIO;
        if (written <= 0)
            return false;
        bytes += written;
        len -= (size_t)written;
        at += (uint64_t)written;
    }
    return true;
}

bool cmfile_make(int file, const cmcore_call *call)
{
    int status;
    if (call->kind == CMCORE_WRITE)
        return write_all(file, call->bytes, call->len, call->at);
    do
        status = call->kind == CMCORE_CUT ? ftruncate(file, (off_t)call->at) : fdatasync(file);
    while (status < 0 && errno == EINTR);
    return status == 0;
}

int32_t cmfile_next(cmcore_handle *from, bool made, uint64_t *stored, cmcore_call *call)
{
    int32_t status = cmcore_step(from, made, stored);
    return status == CMCORE_OK ? cmcore_next_call(from, call) : status;
}

/* Makes all calls of a handle of kind `calls`. */
static bool make_all(int file, cmcore_handle *calls)
{
    uint64_t unused = 0;
    cmcore_call call;
    int32_t status = cmcore_next_call(calls, &call);
    while (status == CMCORE_OK && call.kind != CMCORE_NO_CALL) {
        if (!cmfile_make(file, &call))
            return false;
        status = cmfile_next(calls, true, &unused, &call);
    }
    return status == CMCORE_OK;
}

/* ---- making a file */

/* Why a file isn't opened. */
static int32_t refused_open(void)
{
    switch (errno) {
    case ENOENT:
    case ENOTDIR: return CMCACHE_NO_FILE;
    case EACCES:
    case EPERM:
    case EROFS: return CMCACHE_NOT_ALLOWED;
    case EISDIR: return CMCACHE_NOT_REGULAR;
    default: return CMCACHE_DEVICE;
    }
}

void cmfile_close(int file)
{
    int cause = errno;
    if (file >= 0)
        close(file);
    errno = cause;
}

/* Syncs the folder that a new file is in, so that its name is durable. */
static bool sync_folder(const char *path)
{
    char folder[PATH_MAX + 2];
    const char *slash = strrchr(path, '/');
    size_t len = slash ? (size_t)(slash - path) + 1 : 0;
    memcpy(folder, path, len); /* the system took the path, so it has fewer than PATH_MAX bytes */
    memcpy(folder + len, ".", 2);
    int file = open(folder, O_RDONLY | O_DIRECTORY | O_CLOEXEC);
    bool synced = file >= 0 && fsync(file) == 0;
    cmfile_close(file);
    return synced;
}

static bool is_empty(int file)
{
    struct stat info;
    return fstat(file, &info) == 0 && info.st_size == 0;
}

/* Makes a cache in an empty file that is locked, so that nobody opens it as a cache before it is
 * certain that it stays. */
static bool make_cache(int file, const char *path, cmcore_handle *calls)
{
    return fsync(file) == 0 && sync_folder(path) && make_all(file, calls);
}

/* Somebody else may have locked the new file first, and made a cache in it. */
static int32_t create(const char *path, cmcore_handle *calls)
{
    int file = open(path, O_RDWR | O_CREAT | O_EXCL | O_CLOEXEC, 0666);
    if (file < 0)
        return errno == EEXIST ? CMCACHE_EXISTS : refused_open();
    bool locked = flock(file, LOCK_EX) == 0;
    if (locked && !is_empty(file)) {
        cmfile_close(file);
        return CMCACHE_EXISTS;
    }
    bool made = locked && make_cache(file, path, calls);
    int cause = errno;
    if (!made)
        unlink(path);
    errno = cause;
    cmfile_close(file);
    return made ? CMCORE_OK : CMCACHE_DEVICE;
}

int32_t cmcache_format(const char *path, uint32_t top, uint32_t roots, uint32_t slots)
{
    cmcore_handle calls = {0};
    int32_t status = cmcore_format(top, roots, slots, &calls);
    if (status == CMCORE_OK)
        status = create(path, &calls);
    cmcore_release(&calls);
    return status;
}

/* If it fails, the file stays, since others may wait for its lock; it is emptied again. */
int32_t cmfile_format_if_empty(int file, const char *path, uint32_t top, uint32_t roots,
                               uint32_t slots)
{
    cmcore_handle calls = {0};
    if (!is_empty(file))
        return CMCORE_OK;
    int32_t status = cmcore_format(top, roots, slots, &calls);
    if (status == CMCORE_OK && !make_cache(file, path, &calls)) {
        int cause = errno;
        status = CMCACHE_DEVICE;
        if (ftruncate(file, 0) == 0)
            errno = cause;
    }
    cmcore_release(&calls);
    return status;
}

/* ---- opening a file */

/* Locks a file. If another one has it, the lock is tried again and again for a while. */
static int32_t lock(int file, int kind, uint32_t wait_ms)
{
    struct timespec pause = {.tv_nsec = PAUSE_MS * 1000000L};
    for (uint64_t waited = 0; flock(file, kind | LOCK_NB) < 0; waited += PAUSE_MS) {
        if (errno != EWOULDBLOCK && errno != EINTR)
            return CMCACHE_DEVICE;
        if (waited >= wait_ms)
            return CMCACHE_BUSY;
        nanosleep(&pause, NULL);
    }
    return CMCORE_OK;
}

int32_t cmfile_open(const char *path, cmfile_use use, uint32_t wait_ms, int *file)
{
    struct stat info;
    int how = use == CMFILE_READ ? O_RDONLY : use == CMFILE_MAKE ? O_RDWR | O_CREAT : O_RDWR;
    *file = open(path, how | O_NONBLOCK | O_NOCTTY | O_CLOEXEC, 0666);
    if (*file < 0)
        return refused_open();
    if (fstat(*file, &info) < 0)
        return CMCACHE_DEVICE;
    if (!S_ISREG(info.st_mode))
        return CMCACHE_NOT_REGULAR;
    return lock(*file, use == CMFILE_READ ? LOCK_SH : LOCK_EX, wait_ms);
}

int32_t cmfile_map(int file, const uint8_t **bytes, size_t *len)
{
    struct stat info;
    *bytes = NULL;
    *len = 0;
    if (fstat(file, &info) < 0)
        return CMCACHE_DEVICE;
    if (info.st_size > MOST_BYTES)
        return CMCORE_TOO_LONG;
    if (info.st_size == 0) /* can't be mapped */
        return CMCORE_OK;
    void *at = mmap(NULL, (size_t)info.st_size, PROT_READ, MAP_SHARED, file, 0);
    if (at == MAP_FAILED)
        return errno == ENOMEM ? CMCORE_NO_MEMORY : CMCACHE_DEVICE;
    *bytes = at;
    *len = (size_t)info.st_size;
    return CMCORE_OK;
}

void cmfile_unmap(const uint8_t *bytes, size_t len)
{
    if (bytes != NULL)
        munmap((void *)(uintptr_t)bytes, len);
}

/* cmcore_open, cmcore_upgrade */
typedef int32_t reader(const uint8_t *bytes, size_t len, cmcore_handle *to,
                       cmcore_damage *damage);

/* Has the core read the file's bytes. */
static int32_t read_file(int file, reader *read_bytes, cmcore_handle *to, cmcore_damage *damage)
{
    const uint8_t *bytes;
    size_t len;
    int32_t status = cmfile_map(file, &bytes, &len);
    if (status == CMCORE_OK)
        status = read_bytes(bytes, len, to, damage);
    cmfile_unmap(bytes, len);
    return status;
}

/* What is read is durable first, since a cache in which something is stored goes on from there. */
static int32_t read_durable(int file, reader *read_bytes, cmcore_handle *to, cmcore_damage *damage)
{
    return fdatasync(file) < 0 ? CMCACHE_DEVICE : read_file(file, read_bytes, to, damage);
}

static int32_t upgrade(int file, cmcore_damage *damage)
{
    cmcore_handle calls = {0};
    int32_t status = read_durable(file, cmcore_upgrade, &calls, damage);
    if (status == CMCORE_OK && !make_all(file, &calls))
        status = CMCACHE_DEVICE;
    cmcore_release(&calls);
    return status;
}

int32_t cmfile_read_cache(int file, cmcore_handle *cache, cmcore_damage *damage)
{
    return read_file(file, cmcore_open, cache, damage);
}

int32_t cmfile_open_cache(int file, cmcore_handle *cache, cmcore_damage *damage)
{
    int32_t status = read_durable(file, cmcore_open, cache, damage);
    if (status != CMCORE_OLDER)
        return status;
    status = upgrade(file, damage);
    return status == CMCORE_OK ? read_durable(file, cmcore_open, cache, damage) : status;
}
