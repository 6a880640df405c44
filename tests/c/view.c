/* A file through a view of it:
 *
 *     view                     each line of its input is FILE, or FILE LOADER CLASS.. with one tab
 *                              between two words: it says what a view of the file holds, and for
 *                              each line what looking up each of these classes says
 *     view hold FILE           opens a view, writes a line, and closes it at the end of its input
 *     view many FILE THREADS ROUNDS
 *                              that many threads look up all classes, that many times each, and
 *                              compare each record with the first one; the last line is `same`
 *
 * For a file: `opened CLASSES LOADERS NUMBER`, or `not opened STATUS WHAT SLOT`; `loader NAME`, and
 * after it `class NAME` for each of its classes; `found LOADER CLASS STATUS WORDS` for each of both
 * and each that is asked for, the words in hexadecimal digits with a comma after each; `end`. Names
 * are in hexadecimal digits too. */
#define _POSIX_C_SOURCE 200809L
#include <pthread.h>
#include <stdio.h>
#include <stdlib.h>
#include <string.h>
#include <unistd.h>

#include "cmcache.h"

/* Names that were listed. */
typedef struct {
    char *text;
    size_t len;
} name;

typedef struct {
    name *names;
    size_t count;
} names;

static int32_t keep(void *context, const char *text, size_t len)
{
    names *list = context;
    list->names = realloc(list->names, (list->count + 1) * sizeof *list->names);
    name kept = {malloc(len + 1), len};
    memcpy(kept.text, text, len);
    list->names[list->count++] = kept;
    return 0;
}

static void drop(names *list)
{
    for (size_t at = 0; at < list->count; at++)
        free(list->names[at].text);
    free(list->names);
}

static void tell_name(const char *text, size_t len)
{
    putchar(' ');
    for (size_t at = 0; at < len; at++)
        printf("%02x", (unsigned char)text[at]);
}

static void tell_found(const cmcache_view *view, name loader, name class)
{
    cmcache_words words = {NULL, 0};
    int32_t status =
        cmcache_view_find(view, loader.text, loader.len, class.text, class.len, &words);
    printf("found");
    tell_name(loader.text, loader.len);
    tell_name(class.text, class.len);
    printf(" %d ", status);
    for (size_t at = 0; at < words.count; at++)
        printf("%llx,", (unsigned long long)words.words[at]);
    putchar('\n');
}

static void tell_loader(const cmcache_view *view, name loader)
{
    names classes = {NULL, 0};
    printf("loader");
    tell_name(loader.text, loader.len);
    putchar('\n');
    int32_t status = cmcache_view_classes(view, loader.text, loader.len, keep, &classes);
    if (status != CMCORE_OK)
        printf("not listed %d\n", status);
    for (size_t at = 0; at < classes.count; at++) {
        printf("class");
        tell_name(classes.names[at].text, classes.names[at].len);
        putchar('\n');
    }
    for (size_t at = 0; at < classes.count; at++)
        tell_found(view, loader, classes.names[at]);
    drop(&classes);
}

static void tell_view(const cmcache_view *view, name loader, char *rest)
{
    names loaders = {NULL, 0};
    cmcore_view_counts counts;
    cmcache_view_stats(view, &counts);
    printf("opened %zu %zu %llu\n", counts.rows, counts.loaders, (unsigned long long)counts.number);
    cmcache_view_loaders(view, keep, &loaders);
    for (size_t at = 0; at < loaders.count; at++)
        tell_loader(view, loaders.names[at]);
    for (char *class = strtok(rest, "\t"); class != NULL; class = strtok(NULL, "\t"))
        tell_found(view, loader, (name){class, strlen(class)});
    drop(&loaders);
}

/* A line of the input. */
static void answer(char *line)
{
    cmcache_view *view = NULL;
    cmcore_damage damage = {0, 0};
    char *path = strtok(line, "\t\n"), *loader = strtok(NULL, "\t\n"), *rest = strtok(NULL, "\n");
    int32_t status = cmcache_open_read_only(path, &view, &damage);
    if (status == CMCORE_OK)
        tell_view(view, (name){loader, loader ? strlen(loader) : 0}, rest ? rest : "");
    else
        printf("not opened %d %u %u\n", status, damage.what, damage.slot);
    puts("end");
    fflush(stdout);
    cmcache_view_close(view);
}

static void answer_all(void)
{
    char *line = NULL;
    size_t room = 0;
    while (getline(&line, &room, stdin) > 0)
        answer(line);
    free(line);
}

static cmcache_view *opened(const char *path)
{
    cmcache_view *view = NULL;
    int32_t status = cmcache_open_read_only(path, &view, NULL);
    if (status == CMCORE_OK)
        return view;
    printf("not opened %d\n", status);
    exit(1);
}

/* ---- threads */

static const cmcache_view *shared;
static names loaders, *classes; /* the classes of each loader */
static cmcache_words **first;
static int rounds;

static bool is_same(size_t loader, size_t class)
{
    cmcache_words words = {NULL, 0};
    const name *one = &loaders.names[loader], *other = &classes[loader].names[class];
    int32_t status =
        cmcache_view_find(shared, one->text, one->len, other->text, other->len, &words);
    const cmcache_words *wanted = &first[loader][class];
    return status == CMCORE_OK && words.words == wanted->words && words.count == wanted->count
           && cmcache_view_find(shared, one->text, one->len, "no/such", 7, &words) == CMCORE_NONE;
}

/* Each thread begins at another place. */
static void *look_up(void *given)
{
    size_t begin = (size_t)(uintptr_t)given;
    for (int round = 0; round < rounds; round++)
        for (size_t loader = 0; loader < loaders.count; loader++)
            for (size_t at = 0; at < classes[loader].count; at++)
                if (!is_same(loader, (at + 7 * begin) % classes[loader].count))
                    return given;
    return NULL;
}

/* What one thread of another view of the file finds first. */
static void remember(const cmcache_view *view)
{
    cmcache_view_loaders(view, keep, &loaders);
    classes = calloc(loaders.count, sizeof *classes);
    first = calloc(loaders.count, sizeof *first);
    for (size_t at = 0; at < loaders.count; at++) {
        const name *loader = &loaders.names[at];
        cmcache_view_classes(view, loader->text, loader->len, keep, &classes[at]);
        first[at] = calloc(classes[at].count + 1, sizeof **first);
    }
}

static void find_first(const cmcache_view *view)
{
    for (size_t loader = 0; loader < loaders.count; loader++)
        for (size_t at = 0; at < classes[loader].count; at++)
            cmcache_view_find(view, loaders.names[loader].text, loaders.names[loader].len,
                              classes[loader].names[at].text, classes[loader].names[at].len,
                              &first[loader][at]);
}

/* The place of a row in one mapping is that in another one. */
static void move_to(const cmcache_view *from, const cmcache_view *to)
{
    cmcache_words here = {NULL, 0}, there = {NULL, 0};
    for (size_t loader = 0; loader < loaders.count; loader++)
        for (size_t at = 0; at < classes[loader].count; at++) {
            const name *one = &loaders.names[loader], *other = &classes[loader].names[at];
            if (here.words == NULL) {
                cmcache_view_find(from, one->text, one->len, other->text, other->len, &here);
                cmcache_view_find(to, one->text, one->len, other->text, other->len, &there);
            }
            first[loader][at].words = there.words + (first[loader][at].words - here.words);
        }
}

static bool is_same_to_all(int threads)
{
    pthread_t *all = calloc((size_t)threads, sizeof *all);
    bool same = true;
    for (int thread = 0; thread < threads; thread++)
        pthread_create(&all[thread], NULL, look_up, (void *)(uintptr_t)(thread + 1));
    for (int thread = 0; thread < threads; thread++) {
        void *failed;
        pthread_join(all[thread], &failed);
        same = same && failed == NULL;
    }
    free(all);
    return same;
}

static int many(const char *path, int threads)
{
    cmcache_view *view = opened(path), *other = opened(path);
    remember(other);
    find_first(other);
    move_to(other, view);
    shared = view;
    bool same = is_same_to_all(threads);
    cmcache_view_close(other);
    cmcache_view_close(view);
    for (size_t at = 0; at < loaders.count; at++) {
        drop(&classes[at]);
        free(first[at]);
    }
    drop(&loaders);
    free(classes);
    free(first);
    puts(same ? "same" : "another record");
    return same ? 0 : 1;
}

static int hold(const char *path)
{
    cmcache_view *view = opened(path);
    puts("opened");
    fflush(stdout);
    while (getchar() != EOF)
        ;
    cmcache_view_close(view);
    return 0;
}

int main(int count, char **words)
{
    if (count == 3 && strcmp(words[1], "hold") == 0)
        return hold(words[2]);
    if (count == 5 && strcmp(words[1], "many") == 0) {
        rounds = atoi(words[4]);
        return many(words[2], atoi(words[3]));
    }
    answer_all();
    return 0;
}
