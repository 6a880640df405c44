/* Submits commands, and says what is known to be stored:
 *
 *     submit FILE COUNT
 *
 * It adds the loaders l1 to l<COUNT> to the cache in the file, without a wait, and waits for every
 * hundredth. Each number that it learns as stored, by cmcache_wait or cmcache_stored, is a line of
 * its output at once. */
#define _POSIX_C_SOURCE 200809L
#include <pthread.h>
#include <stdio.h>
#include <stdlib.h>
#include <string.h>
#include <time.h>
#include <unistd.h>

#include "cmcache.h"

static cmcache *cache;
static uint64_t count;

static void check(const char *call, int32_t status)
{
    if (status == CMCORE_OK)
        return;
    fprintf(stderr, "%s: %s\n", call, cmcache_status_text(status));
    exit(1);
}

static void tell(uint64_t number)
{
    char line[32];
    int len = snprintf(line, sizeof line, "%llu\n", (unsigned long long)number);
    if (write(1, line, (size_t)len) != len)
        exit(3);
}

/* Tells what is stored until it is all. */
static void *watch(void *unused)
{
    const struct timespec pause = {0, 200000};
    uint64_t told = 0, stored = 0;
    while (told < count) {
        check("stored", cmcache_stored(cache, &stored));
        if (stored > told)
            tell(told = stored);
        nanosleep(&pause, NULL);
    }
    return unused;
}

int main(int argc, char **words)
{
    pthread_t watcher;
    if (argc != 3)
        return 2;
    count = strtoull(words[2], NULL, 10);
    check("open", cmcache_open(words[1], &cache, NULL));
    if (pthread_create(&watcher, NULL, watch, NULL))
        return 3;
    for (uint64_t at = 1; at <= count; at++) {
        char name[32];
        uint64_t number = 0;
        int len = snprintf(name, sizeof name, "l%llu", (unsigned long long)at);
        check("submit", cmcache_submit_add_loader(cache, name, (size_t)len, &number));
        if (number != at)
            return 1;
        if (at % 100 == 0) {
            check("wait", cmcache_wait(cache, number));
            tell(number);
        }
    }
    pthread_join(watcher, NULL);
    check("close", cmcache_close(cache));
    return 0;
}
