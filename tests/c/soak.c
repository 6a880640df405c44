/* Threads that define, find and unload in one file for a while, over c/cmcache.h:
 *
 *     soak soak FILE [--live] --threads N --seconds N < CLASSES
 *
 * It takes the arguments of `cm_bench_files soak`, and prints what that prints: tests/soak.py and
 * tests/soak_kill.py read it. CLASSES are class files, each preceded by its length in four bytes,
 * big-endian. Thread T has the loaders t<2 T> and t<2 T + 1>. With --live each call is printed
 * before it is made, and again as it returns. */
#define _POSIX_C_SOURCE 200809L
#include <pthread.h>
#include <stdio.h>
#include <stdlib.h>
#include <string.h>
#include <time.h>
#include <unistd.h>

#include "class_file.h"
#include "cmcache.h"

enum { MOST_CLASSES = 64, MOST_THREADS = 64, MOST_BYTES = 1 << 20 };

static struct {
    uint8_t *bytes;
    size_t len;
    const char *name;
    size_t name_len;
} classes[MOST_CLASSES];
static size_t class_count;
static cmcache *cache;
static bool is_live;
static double end;

struct thread {
    unsigned at;
    uint64_t random, stored;
    cmcache_record record; /* what was found last; it outlives its loader */
    char *text;
    size_t text_len;
    FILE *steps;
};

static void need(bool holds, const char *what)
{
    if (holds)
        return;
    fprintf(stderr, "soak: %s\n", what);
    exit(3);
}

static double now(void)
{
    struct timespec time;
    clock_gettime(CLOCK_MONOTONIC, &time);
    return (double)time.tv_sec + (double)time.tv_nsec * 1e-9;
}

static void read_classes(void)
{
    uint8_t head[4];
    while (class_count < MOST_CLASSES && fread(head, 1, 4, stdin) == 4) {
        size_t len = two_bytes(head) << 16 | two_bytes(head + 2);
        uint8_t *bytes = len <= MOST_BYTES ? malloc(len) : NULL;
        need(bytes != NULL && fread(bytes, 1, len, stdin) == len, "a class can't be read");
        classes[class_count].bytes = bytes;
        classes[class_count].len = len;
        classes[class_count].name = class_name(bytes, &classes[class_count].name_len);
        class_count++;
    }
}

static size_t below(struct thread *thread, size_t count)
{
    thread->random = thread->random * 6364136223846793005u + 1442695040888963407u;
    return (size_t)(thread->random >> 33) % count;
}

static int32_t define(const char *loader, size_t class, uint64_t *number)
{
    cmcache_prepared prepared = {0};
    int32_t status = cmcache_prepare(classes[class].bytes, classes[class].len, &prepared, NULL);
    if (status == CMCORE_OK)
        status = cmcache_define(cache, loader, strlen(loader), &prepared, number);
    cmcache_release_prepared(&prepared);
    return status;
}

/* A record's length, which it also has in its first word, read long after it was found. */
static size_t release(cmcache_record *record)
{
    const uint64_t *words;
    size_t count = 0;
    if (cmcache_record_words(record, &words, &count) == CMCORE_OK)
        need(words[0] == count, "a record isn't as it was");
    cmcache_release_record(record);
    return count;
}

static void find(struct thread *thread, const char *loader, size_t class, char *answer)
{
    const uint64_t *words;
    size_t count = 0;
    release(&thread->record);
    int32_t status = cmcache_find(cache, loader, strlen(loader), classes[class].name,
                                  classes[class].name_len, &thread->record);
    if (status == CMCORE_OK)
        status = cmcache_record_words(&thread->record, &words, &count);
    if (status == CMCORE_OK)
        sprintf(answer, "words %zu", count);
    else if (status == CMCORE_NONE)
        strcpy(answer, "none");
    else
        sprintf(answer, "refused %d", status);
}

static void tell_change(struct thread *thread, int32_t status, uint64_t number, char *answer)
{
    if (status == CMCORE_OK) {
        thread->stored++;
        sprintf(answer, "ok %llu", (unsigned long long)number);
    } else {
        sprintf(answer, "refused %d", status);
    }
}

/* A line is written at once, so that lines of several threads don't mix. */
static void print(struct thread *thread, const char *asked, const char *answer)
{
    char line[128];
    int len = sprintf(line, answer ? "%u %s: %s\n" : "%u %s\n", thread->at, asked, answer);
    need(write(1, line, (size_t)len) == len, "the output failed");
}

static void make_call(struct thread *thread)
{
    char loader[24], asked[64], answer[32];
    size_t class = below(thread, class_count), chance = below(thread, 16);
    const char *verb = chance == 0 ? "unload" : chance < 3 ? "loader" : chance < 11 ? "define"
                                                                                  : "find";
    uint64_t number = 0;
    sprintf(loader, "t%zu", 2 * thread->at + below(thread, 2));
    sprintf(asked, chance < 3 ? "%s %s" : "%s %s %zu", verb, loader, class);
    if (is_live)
        print(thread, asked, NULL);
    int32_t status = CMCORE_OK;
    if (chance == 0)
        status = cmcache_unload(cache, loader, strlen(loader), &number);
    else if (chance < 3)
        status = cmcache_add_loader(cache, loader, strlen(loader), &number);
    else if (chance < 11)
        status = define(loader, class, &number);
    else
        find(thread, loader, class, answer);
    if (chance < 11)
        tell_change(thread, status, number, answer);
    if (is_live)
        print(thread, asked, answer);
    else
        fprintf(thread->steps, "%s: %s\n", asked, answer);
}

static void *make_calls(void *given)
{
    struct thread *thread = given;
    while (now() < end)
        make_call(thread);
    return NULL;
}

/* Prints the steps of each thread, and gives back what it has: its last record is released after
 * the cache was closed. */
static uint64_t finish(struct thread *thread)
{
    fclose(thread->steps);
    if (!is_live)
        printf("thread\n%s", thread->text);
    free(thread->text);
    release(&thread->record);
    return thread->stored;
}

static void run(const char *path, unsigned count)
{
    static struct thread threads[MOST_THREADS];
    pthread_t started[MOST_THREADS];
    cmcore_stats stats;
    uint64_t stored = 0;
    need(cmcache_open(path, &cache, NULL) == CMCORE_OK, "the file isn't opened");
    for (unsigned at = 0; at < count; at++) {
        threads[at].at = at;
        threads[at].random = at;
        threads[at].steps = open_memstream(&threads[at].text, &threads[at].text_len);
        need(!pthread_create(&started[at], NULL, make_calls, &threads[at]), "no thread");
    }
    for (unsigned at = 0; at < count; at++)
        pthread_join(started[at], NULL);
    need(cmcache_stats(cache, &stats) == CMCORE_OK, "there are no stats");
    need(cmcache_close(cache) == CMCORE_OK, "the cache isn't closed");
    for (unsigned at = 0; at < count; at++)
        stored += finish(&threads[at]);
    printf("handed %llu committed %llu of_passes %llu missing 0\n",
           (unsigned long long)stats.accepted, (unsigned long long)stats.stored,
           (unsigned long long)stored);
}

int main(int count, char **words)
{
    unsigned threads = 0, seconds = 0;
    for (int at = 3; at < count; at++) {
        if (!strcmp(words[at], "--live"))
            is_live = true;
        else if (at + 1 < count && !strcmp(words[at], "--threads"))
            threads = (unsigned)strtoul(words[++at], NULL, 10);
        else if (at + 1 < count && !strcmp(words[at], "--seconds"))
            seconds = (unsigned)strtoul(words[++at], NULL, 10);
    }
    need(threads >= 1 && threads <= MOST_THREADS && seconds >= 1, "the arguments");
    read_classes();
    need(class_count > 0, "there are no classes");
    end = now() + seconds;
    run(words[2], threads);
    for (size_t at = 0; at < class_count; at++)
        free(classes[at].bytes);
    return 0;
}
