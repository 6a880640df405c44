/* cmcache.h over the proved core: the lock, and the thread that stores.
 *
 * A cache has one mutex, which guards the core's handle, and one thread, the flusher. A command is
 * accepted under the mutex; then its thread waits until its number is stored. The flusher asks the
 * core for the next device call under the mutex, makes it without the mutex, and says under the
 * mutex whether it was made. What is accepted meanwhile goes into the next group. */
#define _POSIX_C_SOURCE 200809L
#include "file.h"

#include <errno.h>
#include <pthread.h>
#include <signal.h>
#include <stdlib.h>

/* A group has at most so many commands, so that each of their threads is woken by itself. */
enum { LANES = 64 };

struct cmcache {
    int file;
    bool read_only; /* it has no flusher, and takes no command */
    pthread_t flusher;
    pthread_mutex_t mutex;
    pthread_cond_t work;         /* the flusher waits here */
    pthread_cond_t lanes[LANES]; /* the thread of command n waits at n % LANES */
    /* Guarded by the mutex: */
    cmcore_handle core;
    uint64_t stored;   /* the last number that is stored */
    uint64_t accepted; /* the last number that a command has */
    bool closing;
    bool failed; /* the flusher has ended, since a call wasn't made: */
    int cause;   /* why, as errno says it */
};

/* ---- the flusher */

/* Wakes the threads that wait for the numbers after `from`, up to `to`. */
static void wake(cmcache *cache, uint64_t from, uint64_t to)
{
    for (uint64_t more = 1; more <= to - from && more <= LANES; more++)
        pthread_cond_broadcast(&cache->lanes[(from + more) % LANES]);
}

/* With the mutex locked: says whether the last call was made, and notes the next one, or waits a
 * while if there is none. True at the end: a call wasn't made, or all is stored and the cache is to
 * be closed. */
static bool step(cmcache *cache, bool made, int cause, cmcore_call *call)
{
    uint64_t before = cache->stored;
    if (cmfile_next(&cache->core, made, &cache->stored, call) != CMCORE_OK) {
        cache->failed = true;
        cache->cause = made ? ENOMEM : cause; /* nothing but memory lets a step fail by itself */
        return true;
    }
    if (call->kind != CMCORE_NO_CALL || cache->stored > before)
        return false;
    if (cache->closing)
        return true;
    pthread_cond_wait(&cache->work, &cache->mutex);
    return false;
}

/* The bytes of a call stay where they are until the next step, while others have the mutex. */
static void *flush(void *given)
{
    cmcache *cache = given;
    bool made = true, ends = false;
    int cause = 0;
    while (!ends) {
        cmcore_call call = {0};
        pthread_mutex_lock(&cache->mutex);
        uint64_t before = cache->stored;
        ends = step(cache, made, cause, &call);
        uint64_t after = cache->failed ? before + LANES : cache->stored;
        pthread_mutex_unlock(&cache->mutex);
        wake(cache, before, after); /* those that wake take the mutex at once */
        if (call.kind != CMCORE_NO_CALL) {
            made = cmfile_make(cache->file, &call);
            cause = errno;
        }
    }
    return NULL;
}

/* All signals are blocked in the flusher, so that the program's handlers run in its own threads. */
static int32_t start(cmcache *cache)
{
    cmcore_stats stats = {0};
    sigset_t all, before;
    int32_t status = cmcore_get_stats(&cache->core, &stats);
    if (status != CMCORE_OK)
        return status;
    cache->stored = stats.stored;
    cache->accepted = stats.stored;
    if (cache->read_only)
        return CMCORE_OK;
    sigfillset(&all);
    pthread_sigmask(SIG_SETMASK, &all, &before);
    int fault = pthread_create(&cache->flusher, NULL, flush, cache);
    pthread_sigmask(SIG_SETMASK, &before, NULL);
    return fault ? CMCORE_NO_MEMORY : CMCORE_OK;
}

/* ---- opening and closing */

/* On Linux a mutex and a condition without attributes can always be made. */
static cmcache *new_cache(void)
{
    cmcache *cache = calloc(1, sizeof *cache);
    if (cache == NULL)
        return NULL;
    cache->file = -1;
    pthread_mutex_init(&cache->mutex, NULL);
    pthread_cond_init(&cache->work, NULL);
    for (int lane = 0; lane < LANES; lane++)
        pthread_cond_init(&cache->lanes[lane], NULL);
    return cache;
}

/* Gives back all of a cache whose flusher doesn't run; errno stays. */
static void discard(cmcache *cache)
{
    cmfile_close(cache->file);
    cmcore_release(&cache->core);
    for (int lane = 0; lane < LANES; lane++)
        pthread_cond_destroy(&cache->lanes[lane]);
    pthread_cond_destroy(&cache->work);
    pthread_mutex_destroy(&cache->mutex);
    free(cache);
}

/* Opens what is locked as the options say. */
static int32_t open_locked(cmcache *cache, const char *path, const cmcache_options *options,
                           cmcore_damage *damage)
{
    int32_t status = CMCORE_OK;
    if (options->read_only)
        return cmfile_read_cache(cache->file, &cache->core, damage);
    if (options->create)
        status = cmfile_format_if_empty(cache->file, path, options->top, options->roots,
                                        options->slots);
    if (status == CMCORE_OK)
        status = cmfile_open_cache(cache->file, &cache->core, damage);
    return status;
}

int32_t cmcache_open_with(const char *path, const cmcache_options *options, cmcache **cache,
                          cmcore_damage *damage)
{
    cmcore_damage found = {0};
    cmfile_use use = options->create ? CMFILE_MAKE : CMFILE_WRITE;
    cmcache *made = new_cache();
    if (made == NULL)
        return CMCORE_NO_MEMORY;
    made->read_only = options->read_only;
    if (options->read_only)
        use = CMFILE_READ;
    int32_t status = cmfile_open(path, use, options->wait_ms, &made->file);
    if (status == CMCORE_OK)
        status = open_locked(made, path, options, &found);
    if (status == CMCORE_OK)
        status = start(made);
    if (status == CMCORE_OK)
        *cache = made;
    else
        discard(made);
    if (status == CMCORE_DAMAGED && damage != NULL)
        *damage = found;
    return status;
}

int32_t cmcache_open(const char *path, cmcache **cache, cmcore_damage *damage)
{
    const cmcache_options options = CMCACHE_DEFAULTS;
    return cmcache_open_with(path, &options, cache, damage);
}

/* Ends the flusher, once all is stored. */
static void stop(cmcache *cache)
{
    pthread_mutex_lock(&cache->mutex);
    cache->closing = true;
    pthread_cond_signal(&cache->work);
    pthread_mutex_unlock(&cache->mutex);
    pthread_join(cache->flusher, NULL);
}

int32_t cmcache_close(cmcache *cache)
{
    if (cache == NULL)
        return CMCORE_OK;
    if (!cache->read_only)
        stop(cache);
    bool failed = cache->failed;
    if (failed)
        errno = cache->cause;
    discard(cache);
    return failed ? CMCACHE_DEVICE : CMCORE_OK;
}

/* ---- commands */

static const uint8_t *bytes_of(const char *text)
{
    return (const uint8_t *)text;
}

/* With the mutex locked: waits until a command that was accepted is stored, or can't be. */
static int32_t wait_for(cmcache *cache, uint64_t number)
{
    while (cache->stored < number && !cache->failed)
        pthread_cond_wait(&cache->lanes[number % LANES], &cache->mutex);
    return cache->stored < number ? CMCORE_UNSURE : CMCORE_OK;
}

/* With the mutex locked: the end of a command that the core accepted or refused. Whoever waits for
 * it returns once it is stored. */
static int32_t finish(cmcache *cache, int32_t status, uint64_t given, uint64_t *number, bool waits)
{
    if (status == CMCORE_OK) {
        cache->accepted = given;
        pthread_cond_signal(&cache->work);
        if (waits)
            status = wait_for(cache, given);
        *number = given;
    }
    pthread_mutex_unlock(&cache->mutex);
    return status;
}

typedef int32_t acceptor(cmcore_handle *cache, const uint8_t *text, size_t len,
                         uint64_t *number);

static int32_t run(cmcache *cache, acceptor *accept, const char *text, size_t len,
                   uint64_t *number, bool waits)
{
    uint64_t given = 0;
    if (cache->read_only)
        return CMCACHE_READ_ONLY;
    pthread_mutex_lock(&cache->mutex);
    int32_t status = accept(&cache->core, bytes_of(text), len, &given);
    return finish(cache, status, given, number, waits);
}

static int32_t define(cmcache *cache, const char *loader, size_t loader_len,
                      cmcache_prepared *prepared, uint64_t *number, bool waits)
{
    uint64_t given = 0;
    if (cache->read_only)
        return CMCACHE_READ_ONLY;
    pthread_mutex_lock(&cache->mutex);
    int32_t status = cmcore_define(&cache->core, bytes_of(loader), loader_len, &prepared->handle,
                                   &given);
    return finish(cache, status, given, number, waits);
}

int32_t cmcache_add_loader(cmcache *cache, const char *loader, size_t loader_len,
                           uint64_t *number)
{
    return run(cache, cmcore_add_loader, loader, loader_len, number, true);
}

int32_t cmcache_define(cmcache *cache, const char *loader, size_t loader_len,
                       cmcache_prepared *prepared, uint64_t *number)
{
    return define(cache, loader, loader_len, prepared, number, true);
}

int32_t cmcache_unload(cmcache *cache, const char *loader, size_t loader_len, uint64_t *number)
{
    return run(cache, cmcore_unload, loader, loader_len, number, true);
}

int32_t cmcache_unload_all(cmcache *cache, const char *loaders, size_t loaders_len,
                           uint64_t *number)
{
    return run(cache, cmcore_unload_all, loaders, loaders_len, number, true);
}

int32_t cmcache_tighten(cmcache *cache, const char *loader, size_t loader_len, uint64_t *number)
{
    return run(cache, cmcore_tighten, loader, loader_len, number, true);
}

/* ---- commands that aren't waited for */

int32_t cmcache_submit_add_loader(cmcache *cache, const char *loader, size_t loader_len,
                                  uint64_t *number)
{
    return run(cache, cmcore_add_loader, loader, loader_len, number, false);
}

int32_t cmcache_submit_define(cmcache *cache, const char *loader, size_t loader_len,
                              cmcache_prepared *prepared, uint64_t *number)
{
    return define(cache, loader, loader_len, prepared, number, false);
}

int32_t cmcache_submit_unload(cmcache *cache, const char *loader, size_t loader_len,
                              uint64_t *number)
{
    return run(cache, cmcore_unload, loader, loader_len, number, false);
}

int32_t cmcache_submit_unload_all(cmcache *cache, const char *loaders, size_t loaders_len,
                                  uint64_t *number)
{
    return run(cache, cmcore_unload_all, loaders, loaders_len, number, false);
}

int32_t cmcache_submit_tighten(cmcache *cache, const char *loader, size_t loader_len,
                               uint64_t *number)
{
    return run(cache, cmcore_tighten, loader, loader_len, number, false);
}

int32_t cmcache_wait(cmcache *cache, uint64_t number)
{
    pthread_mutex_lock(&cache->mutex);
    int32_t status = number > cache->accepted ? CMCORE_NONE : wait_for(cache, number);
    pthread_mutex_unlock(&cache->mutex);
    return status;
}

int32_t cmcache_stored(cmcache *cache, uint64_t *number)
{
    pthread_mutex_lock(&cache->mutex);
    *number = cache->stored;
    int32_t status = cache->failed ? CMCORE_BROKEN : CMCORE_OK;
    pthread_mutex_unlock(&cache->mutex);
    return status;
}

/* ---- look-ups */

int32_t cmcache_find(cmcache *cache, const char *loader, size_t loader_len, const char *name,
                     size_t name_len, cmcache_record *record)
{
    pthread_mutex_lock(&cache->mutex);
    int32_t status = cmcore_find(&cache->core, bytes_of(loader), loader_len, bytes_of(name),
                                 name_len, &record->handle);
    pthread_mutex_unlock(&cache->mutex);
    return status;
}

int32_t cmcache_stats(cmcache *cache, cmcore_stats *stats)
{
    pthread_mutex_lock(&cache->mutex);
    int32_t status = cmcore_get_stats(&cache->core, stats);
    pthread_mutex_unlock(&cache->mutex);
    return status;
}

int32_t cmcache_contains(cmcache *cache, const char *loader, size_t loader_len, const char *name,
                         size_t name_len)
{
    cmcache_record record = CMCACHE_EMPTY;
    int32_t status = cmcache_find(cache, loader, loader_len, name, name_len, &record);
    cmcache_release_record(&record);
    return status;
}

int32_t cmcache_same(cmcache *cache, const char *loader, size_t loader_len,
                     cmcache_prepared *prepared)
{
    pthread_mutex_lock(&cache->mutex);
    int32_t status = cmcore_same(&cache->core, bytes_of(loader), loader_len, &prepared->handle);
    pthread_mutex_unlock(&cache->mutex);
    return status;
}

/* ---- listing */

/* Calls `each` with each name, and empties the handle that leads to them. */
static int32_t tell_names(cmcore_handle *names, cmcache_each *each, void *context)
{
    const uint8_t *name = NULL;
    size_t len = 0;
    int32_t status = CMCORE_OK;
    for (size_t at = 0; status == CMCORE_OK; at++) {
        if (cmcore_name(names, at, &name, &len) != CMCORE_OK)
            break;
        status = each(context, (const char *)name, len);
    }
    cmcore_release(names);
    return status;
}

int32_t cmcache_loaders(cmcache *cache, cmcache_each *each, void *context)
{
    cmcore_handle names = {0};
    pthread_mutex_lock(&cache->mutex);
    int32_t status = cmcore_loader_names(&cache->core, &names);
    pthread_mutex_unlock(&cache->mutex);
    return status == CMCORE_OK ? tell_names(&names, each, context) : status;
}

int32_t cmcache_classes(cmcache *cache, const char *loader, size_t loader_len, cmcache_each *each,
                        void *context)
{
    cmcore_handle names = {0};
    pthread_mutex_lock(&cache->mutex);
    int32_t status = cmcore_class_names(&cache->core, bytes_of(loader), loader_len, &names);
    pthread_mutex_unlock(&cache->mutex);
    return status == CMCORE_OK ? tell_names(&names, each, context) : status;
}
