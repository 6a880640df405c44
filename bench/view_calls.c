/* Measures views of a file (c/cmcache.h):
 *
 *     view_calls open FILE ROUNDS            opens and closes a view
 *     view_calls third FILE THREADS          opens a view, and looks up every third class once
 *     view_calls again FILE THREADS ROUNDS   looks up all classes, ROUNDS times, after each was
 *                                            looked up once
 *
 * Each thread has its share of the classes. It prints what was done and the nanoseconds of all of
 * it together, as bench/c_calls.c does. */
#define _POSIX_C_SOURCE 200809L
#include <pthread.h>
#include <stdio.h>
#include <stdlib.h>
#include <string.h>
#include <time.h>

#include "cmcache.h"

enum { MOST_THREADS = 64, MOST_CLASSES = 1 << 16 };

typedef struct {
    const char *text;
    size_t len;
} name;

static cmcache_view *view;
static name loader_of[MOST_CLASSES], class_of[MOST_CLASSES], last_loader;
static size_t class_count, thread_count, rounds = 1, step = 1;
static pthread_barrier_t ready;

static void need(const char *what, int32_t status)
{
    if (status == CMCORE_OK)
        return;
    fprintf(stderr, "view_calls: %s: %s\n", what, cmcache_status_text(status));
    exit(3);
}

static uint64_t now(void)
{
    struct timespec t;
    clock_gettime(CLOCK_MONOTONIC, &t);
    return (uint64_t)t.tv_sec * 1000000000u + (uint64_t)t.tv_nsec;
}

/* What is listed is a copy: its view is closed before another one is measured. */
static int32_t add_class(void *context, const char *text, size_t len)
{
    (void)context;
    if (class_count == MOST_CLASSES)
        return 1;
    loader_of[class_count] = last_loader;
    class_of[class_count++] = (name){memcpy(malloc(len), text, len), len};
    return 0;
}

static int32_t add_loader(void *context, const char *text, size_t len)
{
    last_loader = (name){memcpy(malloc(len), text, len), len};
    return cmcache_view_classes(view, text, len, add_class, context);
}

static void list(const char *file)
{
    need(file, cmcache_open_read_only(file, &view, NULL));
    need("the classes", cmcache_view_loaders(view, add_loader, NULL));
    cmcache_view_close(view);
}

static void look_up(size_t at)
{
    cmcache_words words;
    need("a class", cmcache_view_find(view, loader_of[at].text, loader_of[at].len,
                                      class_of[at].text, class_of[at].len, &words));
}

static void *share(void *given)
{
    pthread_barrier_wait(&ready);
    pthread_barrier_wait(&ready);
    for (size_t round = 0; round < rounds; round++)
        for (size_t at = (size_t)given * step; at < class_count; at += thread_count * step)
            look_up(at);
    return NULL;
}

/* Begins and ends the threads' work between the barriers, and opens the view within it if it is to
 * be measured, too. */
static uint64_t time_of(const char *file, bool opens)
{
    pthread_t threads[MOST_THREADS];
    pthread_barrier_init(&ready, NULL, (unsigned)thread_count + 1);
    for (size_t at = 0; at < thread_count; at++)
        if (pthread_create(&threads[at], NULL, share, (void *)at))
            need("a thread", CMCORE_NO_MEMORY);
    pthread_barrier_wait(&ready);
    uint64_t start = now();
    if (opens)
        need(file, cmcache_open_read_only(file, &view, NULL));
    pthread_barrier_wait(&ready);
    for (size_t at = 0; at < thread_count; at++)
        pthread_join(threads[at], NULL);
    return now() - start;
}

static void tell(const char *what, size_t calls, uint64_t took)
{
    printf("%s threads %zu calls %zu ns %llu\n", what, thread_count, calls,
           (unsigned long long)took);
}

static void measure_open(const char *file)
{
    uint64_t start = now();
    for (size_t round = 0; round < rounds; round++) {
        need(file, cmcache_open_read_only(file, &view, NULL));
        cmcache_view_close(view);
    }
    tell("view-open", rounds, now() - start);
}

static void measure_third(const char *file)
{
    step = 3;
    list(file);
    tell("view-third", (class_count + 2) / 3, time_of(file, true));
}

static void measure_again(const char *file)
{
    list(file);
    need(file, cmcache_open_read_only(file, &view, NULL));
    for (size_t at = 0; at < class_count; at++)
        look_up(at);
    tell("view-find", class_count * rounds, time_of(file, false));
}

int main(int count, char **words)
{
    if (count < 4)
        return 2;
    bool opens = !strcmp(words[1], "open");
    rounds = strtoul(words[opens ? 3 : count - 1], NULL, 10);
    thread_count = opens ? 1 : strtoul(words[3], NULL, 10);
    if (thread_count < 1 || thread_count > MOST_THREADS)
        return 2;
    if (opens) {
        measure_open(words[2]);
    } else if (!strcmp(words[1], "third")) {
        rounds = 1;
        measure_third(words[2]);
    } else {
        measure_again(words[2]);
    }
    return 0;
}
