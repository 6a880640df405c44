/* Views of a file: cmcache.h's calls that read a file which they map, over the proved core. */
#define _POSIX_C_SOURCE 200809L
#define _FILE_OFFSET_BITS 64
#include "file.h"

#include <errno.h>
#include <stdatomic.h>
#include <stdlib.h>
#include <sys/mman.h>

/* No file has more live loaders and classes. */
enum { MOST = 32768 };

/* All but `judged` stays as it was opened. */
struct cmcache_view {
    int file;
    const uint8_t *bytes; /* the whole file, mapped */
    size_t len;
    cmcore_view_row *rows;
    cmcore_view_loader *loaders;
    cmcore_view_counts counts;
    atomic_uchar *judged; /* of each row: its record was judged, and keeps the rules */
};

/* ---- opening and closing */

void cmcache_view_close(cmcache_view *view)
{
    if (view == NULL)
        return;
    free(view->judged);
    free(view->loaders);
    free(view->rows);
    cmfile_unmap(view->bytes, view->len);
    cmfile_close(view->file);
    free(view);
}

/* The same memory, cut to what is used; or as it was, if that fails. */
static void *cut(void *memory, size_t size)
{
    void *less = realloc(memory, size > 0 ? size : 1);
    return less != NULL ? less : memory;
}

/* Has the core fill the rows and loaders of a file that is mapped. */
static int32_t fill(cmcache_view *view, cmcore_damage *damage)
{
    view->rows = malloc(MOST * sizeof *view->rows);
    view->loaders = malloc(MOST * sizeof *view->loaders);
    if (view->rows == NULL || view->loaders == NULL)
        return CMCORE_NO_MEMORY;
    int32_t status = cmcore_view_open(view->bytes, view->len, view->rows, MOST, view->loaders, MOST,
                                      &view->counts, damage);
    if (status != CMCORE_OK)
        return status;
    view->rows = cut(view->rows, view->counts.rows * sizeof *view->rows);
    view->loaders = cut(view->loaders, view->counts.loaders * sizeof *view->loaders);
    view->judged = calloc(view->counts.rows + 1, sizeof *view->judged);
    return view->judged != NULL ? CMCORE_OK : CMCORE_NO_MEMORY;
}

int32_t cmcache_open_read_only(const char *path, cmcache_view **view, cmcore_damage *damage)
{
    cmcore_damage unused;
    cmcache_view *made = calloc(1, sizeof *made);
    if (made == NULL)
        return CMCORE_NO_MEMORY;
    int32_t status = cmfile_open(path, CMFILE_READ, 0, &made->file);
    if (status == CMCORE_OK)
        status = cmfile_map(made->file, &made->bytes, &made->len);
    if (status == CMCORE_OK)
        status = fill(made, damage != NULL ? damage : &unused);
    int cause = errno;
    if (status == CMCORE_OK)
        *view = made;
    else
        cmcache_view_close(made);
    errno = cause;
    return status;
}

/* ---- look-ups */

static const uint8_t *bytes_of(const char *text)
{
    return (const uint8_t *)text;
}

/* Whether a row's record keeps the rules. It is judged once: threads that ask at the same time may
 * judge it twice, and come to the same. */
static int32_t judge(const cmcache_view *view, size_t at)
{
    if (atomic_load_explicit(&view->judged[at], memory_order_relaxed))
        return CMCORE_OK;
    int32_t status = cmcore_view_judge(view->bytes, view->len, &view->rows[at]);
    if (status == CMCORE_OK)
        atomic_store_explicit(&view->judged[at], 1, memory_order_relaxed);
    return status;
}

int32_t cmcache_view_find(const cmcache_view *view, const char *loader, size_t loader_len,
                          const char *name, size_t name_len, cmcache_words *words)
{
    size_t at = 0;
    int32_t status = cmcore_view_find(view->bytes, view->len, view->rows, view->counts.rows,
                                      view->loaders, view->counts.loaders, bytes_of(loader),
                                      loader_len, bytes_of(name), name_len, &at);
    if (status == CMCORE_OK)
        status = judge(view, at);
    if (status == CMCORE_OK) {
        /* Records begin at multiples of 1,024 bytes plus 8 times a number of words. */
        words->words = (const uint64_t *)(const void *)(view->bytes + view->rows[at].at);
        words->count = view->rows[at].words;
    }
    return status;
}

/* ---- listing */

int32_t cmcache_view_loaders(const cmcache_view *view, cmcache_each *each, void *context)
{
    for (size_t at = 0; at < view->counts.loaders; at++) {
        const cmcore_view_loader *loader = &view->loaders[at];
        int32_t status = each(context, (const char *)loader->name, loader->len);
        if (status != 0)
            return status;
    }
    return CMCORE_OK;
}

int32_t cmcache_view_classes(const cmcache_view *view, const char *loader, size_t loader_len,
                             cmcache_each *each, void *context)
{
    uint64_t number = 0;
    size_t at = 0, len = 0;
    const uint8_t *name = NULL;
    int32_t status = cmcore_view_loader_number(view->loaders, view->counts.loaders,
                                               bytes_of(loader), loader_len, &number);
    if (status != CMCORE_OK)
        return CMCORE_NO_LOADER;
    while (cmcore_view_next(view->rows, view->counts.rows, number, at, &at) == CMCORE_OK) {
        cmcore_view_name(view->bytes, view->len, &view->rows[at], &name, &len);
        status = each(context, (const char *)name, len);
        if (status != 0)
            return status;
        at++;
    }
    return CMCORE_OK;
}

int32_t cmcache_view_stats(const cmcache_view *view, cmcore_view_counts *counts)
{
    *counts = view->counts;
    return CMCORE_OK;
}
