/* Measures calls of c/cmcache.h:
 *
 *     c_calls define FILE THREADS SLOTS < CLASSES     makes FILE; each thread stores its share
 *     c_calls find FILE THREADS ROUNDS < CLASSES      each thread looks up its share, ROUNDS times
 *     c_calls open FILE ROUNDS                        opens and closes the cache
 *
 * CLASSES are class files, each preceded by its length in four bytes, big-endian. Thread t has the
 * loader `t<t>`, and every THREADS-th class. `define` prepares all classes before it measures; a
 * call returns once its class is stored. It prints what was done and the nanoseconds of all of it
 * together. */
#define _POSIX_C_SOURCE 200809L
#include <pthread.h>
#include <stdio.h>
#include <stdlib.h>
#include <string.h>
#include <time.h>

#include "../tests/c/class_file.h"
#include "cmcache.h"

enum { MOST_THREADS = 64, TOP = 12, ROOTS = 256 };

enum { MOST_CLASSES = 1 << 16, MOST_BYTES = 1 << 24 };

static struct {
    cmcache_prepared prepared;
    char *name;
    size_t name_len;
} classes[MOST_CLASSES];
static size_t class_count, thread_count, rounds = 1;
static cmcache *cache;
static const char *file;
static pthread_barrier_t ready;

static void need(const char *what, int32_t status)
{
    if (status == CMCORE_OK)
        return;
    fprintf(stderr, "c_calls: %s: %s\n", what, cmcache_status_text(status));
    exit(3);
}

static uint64_t now(void)
{
    struct timespec t;
    clock_gettime(CLOCK_MONOTONIC, &t);
    return (uint64_t)t.tv_sec * 1000000000u + (uint64_t)t.tv_nsec;
}

static void read_classes(void)
{
    static uint8_t bytes[MOST_BYTES];
    uint8_t head[4];
    while (fread(head, 1, 4, stdin) == 4 && class_count < MOST_CLASSES) {
        size_t len = two_bytes(head) << 16 | two_bytes(head + 2), name_len;
        if (len > sizeof bytes || fread(bytes, 1, len, stdin) != len)
            need("the classes", CMCORE_BAD_CLASS);
        if (cmcache_prepare(bytes, len, &classes[class_count].prepared, NULL) != CMCORE_OK)
            continue;
        const char *name = class_name(bytes, &name_len);
        classes[class_count].name = memcpy(malloc(name_len), name, name_len);
        classes[class_count++].name_len = name_len;
    }
}

static void *define_share(void *given)
{
    size_t thread = (size_t)given;
    char loader[16];
    uint64_t number;
    size_t len = (size_t)snprintf(loader, sizeof loader, "t%zu", thread);
    need("a loader", cmcache_add_loader(cache, loader, len, &number));
    pthread_barrier_wait(&ready);
    pthread_barrier_wait(&ready);
    for (size_t at = thread; at < class_count; at += thread_count)
        need("a class", cmcache_define(cache, loader, len, &classes[at].prepared, &number));
    return NULL;
}

static void *find_share(void *given)
{
    size_t thread = (size_t)given;
    char loader[16];
    size_t len = (size_t)snprintf(loader, sizeof loader, "t%zu", thread);
    pthread_barrier_wait(&ready);
    pthread_barrier_wait(&ready);
    for (size_t round = 0; round < rounds; round++)
        for (size_t at = thread; at < class_count; at += thread_count) {
            cmcache_record record = {0};
            need("a class", cmcache_find(cache, loader, len, classes[at].name,
                                         classes[at].name_len, &record));
            cmcache_release_record(&record);
        }
    return NULL;
}

/* The nanoseconds from the moment when all threads are ready to their end. */
static uint64_t time_of(void *(*share)(void *))
{
    pthread_t threads[MOST_THREADS];
    pthread_barrier_init(&ready, NULL, (unsigned)thread_count + 1);
    for (size_t at = 0; at < thread_count; at++)
        if (pthread_create(&threads[at], NULL, share, (void *)at))
            need("a thread", CMCORE_NO_MEMORY);
    pthread_barrier_wait(&ready);
    uint64_t start = now();
    pthread_barrier_wait(&ready);
    for (size_t at = 0; at < thread_count; at++)
        pthread_join(threads[at], NULL);
    return now() - start;
}

static void measure_open(void)
{
    uint64_t start = now();
    for (size_t round = 0; round < rounds; round++) {
        need(file, cmcache_open(file, &cache, NULL));
        need("close", cmcache_close(cache));
    }
    printf("open rounds %zu ns %llu\n", rounds, (unsigned long long)(now() - start));
}

static void measure_calls(const char *what, void *(*share)(void *))
{
    uint64_t took;
    need(file, cmcache_open(file, &cache, NULL));
    took = time_of(share);
    need("close", cmcache_close(cache));
    printf("%s threads %zu calls %zu ns %llu\n", what, thread_count, class_count * rounds,
           (unsigned long long)took);
}

int main(int count, char **words)
{
    bool opens = count == 4 && !strcmp(words[1], "open");
    if (!opens && count != 5) {
        fprintf(stderr, "c_calls define FILE THREADS SLOTS < CLASSES\n"
                        "c_calls find FILE THREADS ROUNDS < CLASSES\n"
                        "c_calls open FILE ROUNDS\n");
        return 2;
    }
    file = words[2];
    thread_count = strtoul(words[3], NULL, 10);
    if (opens) {
        rounds = thread_count;
        measure_open();
        return 0;
    }
    if (thread_count < 1 || thread_count > MOST_THREADS)
        return 2;
    read_classes();
    if (!strcmp(words[1], "define")) {
        need(file, cmcache_format(file, TOP, ROOTS, (uint32_t)strtoul(words[4], NULL, 10)));
        measure_calls("define", define_share);
    } else {
        rounds = strtoul(words[4], NULL, 10);
        measure_calls("find", find_share);
    }
    return 0;
}
