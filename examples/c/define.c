/* Makes a cache in a new file, defines class files there in the loader `app`, and looks one up:
 *
 *     define FILE NAME CLASS_FILE..
 *
 * NAME is that of the class to be looked up, as java/lang/Object. docs/C.md says how to build
 * it. */
#include <stdio.h>
#include <stdlib.h>
#include <string.h>

#include "cmcache.h"

static const char *const loader = "app";

/* Ends the program unless the call was done. */
static void check(const char *call, int32_t status)
{
    if (status == CMCORE_OK)
        return;
    fprintf(stderr, "%s: %s\n", call, cmcache_status_text(status));
    exit(1);
}

static void define(cmcache *cache, const char *path)
{
    static uint8_t bytes[1 << 24];
    FILE *file = fopen(path, "rb");
    if (file == NULL) {
        perror(path);
        exit(1);
    }
    size_t len = fread(bytes, 1, sizeof bytes, file);
    fclose(file);
    cmcache_prepared prepared = CMCACHE_EMPTY;
    uint64_t number;
    check(path, cmcache_prepare(bytes, len, &prepared, NULL));
    check(path, cmcache_define(cache, loader, strlen(loader), &prepared, &number));
    cmcache_release_prepared(&prepared);
    printf("%s is stored: command %llu\n", path, (unsigned long long)number);
}

static void find(cmcache *cache, const char *name)
{
    cmcache_record record = CMCACHE_EMPTY;
    const uint64_t *words;
    size_t count;
    uint16_t flags;
    check(name, cmcache_find(cache, loader, strlen(loader), name, strlen(name), &record));
    check(name, cmcache_record_words(&record, &words, &count));
    check(name, cmcache_record_flags(&record, &flags));
    printf("%s flags %04x words %zu\n", name, flags, count);
    for (size_t at = 0; at < count; at++)
        printf("%016llx\n", (unsigned long long)words[at]);
    cmcache_release_record(&record);
}

int main(int count, char **words)
{
    cmcache *cache;
    uint64_t number;
    if (count < 3) {
        fprintf(stderr, "usage: define FILE NAME CLASS_FILE..\n");
        return 2;
    }
    check(words[1], cmcache_format(words[1], 8, 64, 4096));
    check(words[1], cmcache_open(words[1], &cache, NULL));
    check(loader, cmcache_add_loader(cache, loader, strlen(loader), &number));
    for (int at = 3; at < count; at++)
        define(cache, words[at]);
    find(cache, words[2]);
    check("close", cmcache_close(cache));
    return 0;
}
