/* Looks a class up that was imported from the jars as they are now:
 *
 *     fresh FILE LOADER CLASS PATH..
 *
 * It prints LOADER@TAG and what the cache has of the class, or that the cache doesn't have these
 * jars: `cm_import FILE LOADER PATH.. --tag` imports them. docs/FRESH.md says what a tag is. */
#include <stdio.h>
#include <string.h>

#include "cmcache.h"

static int fail(const char *what, int32_t status)
{
    if (status == CMCACHE_DEVICE)
        perror(what);
    else
        fprintf(stderr, "%s: %s\n", what, cmcache_status_text(status));
    return 1;
}

/* What the cache has of a class. */
static int look_up(cmcache *cache, const char *loader, const char *class)
{
    cmcache_record record = CMCACHE_EMPTY;
    const uint64_t *words;
    size_t count;
    int32_t status =
        cmcache_find(cache, loader, strlen(loader), class, strlen(class), &record);
    if (status == CMCORE_OK)
        status = cmcache_record_words(&record, &words, &count);
    if (status == CMCORE_OK)
        printf("%s %s words %zu\n", loader, class, count);
    else if (status == CMCORE_NONE)
        printf("%s %s none\n", loader, class); /* it is read from its jar */
    cmcache_release_record(&record);
    return status == CMCORE_OK || status == CMCORE_NONE ? 0 : fail(class, status);
}

int main(int count, char **words)
{
    cmcache *cache;
    char tag[17], loader[128];
    if (count < 5 || strlen(words[2]) > sizeof loader - sizeof tag - 1) {
        fprintf(stderr, "usage: fresh FILE LOADER CLASS PATH..\n");
        return 2;
    }
    int32_t status = cmcache_tag((const char *const *)words + 4, (size_t)count - 4, tag);
    if (status != CMCORE_OK)
        return fail("cmcache_tag", status);
    snprintf(loader, sizeof loader, "%s@%s", words[2], tag);
    status = cmcache_open(words[1], &cache, NULL);
    if (status != CMCORE_OK)
        return fail(words[1], status);
    int result = look_up(cache, loader, words[3]);
    status = cmcache_close(cache);
    return status == CMCORE_OK ? result : fail("cmcache_close", status);
}
