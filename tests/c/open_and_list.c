/* Ways to open a file, what it lists, and what compares: the calls of c/cmcache.h that
 * tests/c/every_call.c doesn't make.
 *
 *     open_and_list FOLDER    makes the files there; the last line is 'N passed, M failed' */
#define _GNU_SOURCE
#include <fcntl.h>
#include <pthread.h>
#include <stdatomic.h>
#include <stdio.h>
#include <stdlib.h>
#include <string.h>
#include <sys/stat.h>
#include <unistd.h>

#include "cmcache.h"

#define TEXT(text) (text), sizeof(text) - 1
#define EXPECT(wanted, call) expect(__LINE__, #call, (wanted), (call))
#define CHECK(holds) expect(__LINE__, #holds, 1, (holds) ? 1 : 0)

/* Class A of docs/RECORD.md. */
static const uint8_t class_a[] = {
    0xca, 0xfe, 0xba, 0xbe, 0x00, 0x00, 0x00, 0x34, 0x00, 0x05, 0x07, 0x00, 0x02, 0x01,
    0x00, 0x01, 'A',  0x07, 0x00, 0x04, 0x01, 0x00, 0x10, 'j',  'a',  'v',  'a',  '/',
    'l',  'a',  'n',  'g',  '/',  'O',  'b',  'j',  'e',  'c',  't',  0x00, 0x21, 0x00,
    0x01, 0x00, 0x03, 0x00, 0x00, 0x00, 0x00, 0x00, 0x00, 0x00, 0x00};
enum { LETTER = 16, FLAGS = 40 }; /* where its name and its access flags are */

static atomic_int passed, failed;
static char folder[200];

static void expect(int line, const char *what, int32_t wanted, int32_t got)
{
    if (wanted == got) {
        passed++;
        return;
    }
    failed++;
    printf("FAILED: line %d: %s is %d, wanted %d\n", line, what, got, wanted);
}

static const char *path_of(const char *name)
{
    static char paths[4][256];
    static int next;
    next = (next + 1) % 4;
    snprintf(paths[next], sizeof paths[next], "%s/%s", folder, name);
    return paths[next];
}

static void prepare(char letter, uint8_t flags, cmcache_prepared *prepared)
{
    uint8_t bytes[sizeof class_a];
    memcpy(bytes, class_a, sizeof bytes);
    bytes[LETTER] = (uint8_t)letter;
    bytes[FLAGS] = flags;
    EXPECT(CMCORE_OK, cmcache_prepare(bytes, sizeof bytes, prepared, NULL));
}

static void define(cmcache *cache, const char *loader, char letter)
{
    cmcache_prepared prepared = CMCACHE_EMPTY;
    uint64_t number;
    prepare(letter, 0x21, &prepared);
    EXPECT(CMCORE_OK, cmcache_define(cache, loader, strlen(loader), &prepared, &number));
    cmcache_release_prepared(&prepared);
}

/* ---- listing */

/* Names with a space after each. */
typedef struct {
    char text[100];
    int stop; /* the listing is ended after so many names */
} told;

static int32_t tell(void *context, const char *name, size_t len)
{
    told *all = context;
    strncat(all->text, name, len);
    strcat(all->text, " ");
    return --all->stop == 0 ? 77 : 0;
}

#define TELLS(wanted, status, call) \
    do { \
        told all = {"", 0}; \
        EXPECT(status, call); \
        CHECK(!strcmp(all.text, wanted)); \
    } while (0)

static void lists_names(void)
{
    cmcache *cache = NULL;
    uint64_t number;
    EXPECT(CMCORE_OK, cmcache_format(path_of("listed"), 8, 64, 4096));
    EXPECT(CMCORE_OK, cmcache_open(path_of("listed"), &cache, NULL));
    TELLS("", CMCORE_OK, cmcache_loaders(cache, tell, &all));
    TELLS("", CMCORE_NO_LOADER, cmcache_classes(cache, TEXT("app"), tell, &all));
    EXPECT(CMCORE_OK, cmcache_add_loader(cache, TEXT("b"), &number));
    EXPECT(CMCORE_OK, cmcache_add_loader(cache, TEXT("ab"), &number));
    EXPECT(CMCORE_OK, cmcache_add_loader(cache, TEXT("a"), &number));
    define(cache, "b", 'C');
    define(cache, "a", 'Z');
    define(cache, "b", 'A');
    define(cache, "b", 'B');
    TELLS("a ab b ", CMCORE_OK, cmcache_loaders(cache, tell, &all));
    TELLS("A B C ", CMCORE_OK, cmcache_classes(cache, TEXT("b"), tell, &all));
    TELLS("Z ", CMCORE_OK, cmcache_classes(cache, TEXT("a"), tell, &all));
    TELLS("", CMCORE_OK, cmcache_classes(cache, TEXT("ab"), tell, &all));
    told two = {"", 2};
    EXPECT(77, cmcache_classes(cache, TEXT("b"), tell, &two));
    CHECK(!strcmp(two.text, "A B "));
    EXPECT(CMCORE_OK, cmcache_contains(cache, TEXT("b"), TEXT("A")));
    EXPECT(CMCORE_NONE, cmcache_contains(cache, TEXT("a"), TEXT("A")));
    EXPECT(CMCORE_NONE, cmcache_contains(cache, TEXT("x"), TEXT("A")));
    EXPECT(CMCORE_OK, cmcache_unload(cache, TEXT("ab"), &number));
    TELLS("a b ", CMCORE_OK, cmcache_loaders(cache, tell, &all));
    EXPECT(CMCORE_OK, cmcache_close(cache));
}

/* Names are listed without the lock, so a listing may look up and define. */
static cmcache *shared;

static int32_t use_cache(void *context, const char *name, size_t len)
{
    (void)context;
    uint64_t number;
    char more[8] = "x";
    strncat(more, name, len);
    EXPECT(CMCORE_OK, cmcache_add_loader(shared, more, strlen(more), &number));
    return cmcache_contains(shared, name, len, TEXT("A"));
}

static void calls_back(void)
{
    EXPECT(CMCORE_OK, cmcache_open(path_of("listed"), &shared, NULL));
    EXPECT(CMCORE_NONE, cmcache_loaders(shared, use_cache, NULL));
    TELLS("a b xa ", CMCORE_OK, cmcache_loaders(shared, tell, &all));
    EXPECT(CMCORE_OK, cmcache_close(shared));
}

static void compares_classes(void)
{
    cmcache *cache = NULL;
    cmcache_prepared same = CMCACHE_EMPTY, other = CMCACHE_EMPTY, none = CMCACHE_EMPTY;
    EXPECT(CMCORE_OK, cmcache_open(path_of("listed"), &cache, NULL));
    prepare('A', 0x21, &same);
    prepare('A', 0x20, &other);
    EXPECT(CMCORE_OK, cmcache_same(cache, TEXT("b"), &same));
    EXPECT(CMCORE_OTHER, cmcache_same(cache, TEXT("b"), &other));
    EXPECT(CMCORE_NONE, cmcache_same(cache, TEXT("a"), &same));
    EXPECT(CMCORE_NONE, cmcache_same(cache, TEXT("no"), &same));
    EXPECT(CMCORE_EMPTY, cmcache_same(cache, TEXT("b"), &none));
    EXPECT(CMCORE_OK, cmcache_same(cache, TEXT("b"), &same));
    cmcache_release_prepared(&same);
    cmcache_release_prepared(&other);
    EXPECT(CMCORE_OK, cmcache_close(cache));
}

/* ---- options */

static void makes_what_is_missing(void)
{
    cmcache *cache = NULL;
    cmcache_options options = CMCACHE_DEFAULTS;
    uint64_t number = 0;
    struct stat info = {0};
    EXPECT(CMCACHE_NO_FILE, cmcache_open_with(path_of("new"), &options, &cache, NULL));
    options.create = true;
    options.top = 13;
    EXPECT(CMCORE_BAD_SIZES, cmcache_open_with(path_of("bad"), &options, &cache, NULL));
    options.top = 3;
    EXPECT(CMCORE_OK, cmcache_open_with(path_of("new"), &options, &cache, NULL));
    EXPECT(CMCORE_OK, cmcache_add_loader(cache, TEXT("app"), &number));
    EXPECT(CMCORE_OK, cmcache_close(cache));
    CHECK(stat(path_of("new"), &info) == 0 && info.st_size == 528384);
    options.top = 8; /* what is there stays as it is */
    EXPECT(CMCORE_OK, cmcache_open_with(path_of("new"), &options, &cache, NULL));
    cmcore_stats stats = {0};
    EXPECT(CMCORE_OK, cmcache_stats(cache, &stats));
    CHECK(stats.top == 3 && stats.stored == 1 && stats.live == 1);
    EXPECT(CMCORE_OK, cmcache_close(cache));
    close(open(path_of("empty"), O_CREAT | O_RDWR, 0600));
    EXPECT(CMCORE_OK, cmcache_open_with(path_of("empty"), &options, &cache, NULL));
    EXPECT(CMCORE_OK, cmcache_close(cache));
    EXPECT(CMCACHE_NO_FILE, cmcache_open_with(path_of("none/none"), &options, &cache, NULL));
    CHECK(truncate(path_of("empty"), 1) == 0);
    EXPECT(CMCORE_NOT_A_CACHE, cmcache_open_with(path_of("empty"), &options, &cache, NULL));
}

static void only_reads(void)
{
    cmcache *one = NULL, *two = NULL, *writer = NULL;
    cmcache_options options = CMCACHE_DEFAULTS;
    cmcache_record record = CMCACHE_EMPTY;
    cmcache_prepared prepared = CMCACHE_EMPTY;
    uint64_t number = 5;
    options.read_only = true;
    EXPECT(CMCORE_OK, cmcache_open_with(path_of("listed"), &options, &one, NULL));
    EXPECT(CMCORE_OK, cmcache_open_with(path_of("listed"), &options, &two, NULL));
    EXPECT(CMCACHE_BUSY, cmcache_open(path_of("listed"), &writer, NULL));
    EXPECT(CMCORE_OK, cmcache_find(one, TEXT("b"), TEXT("A"), &record));
    cmcache_release_record(&record);
    EXPECT(CMCACHE_READ_ONLY, cmcache_add_loader(one, TEXT("more"), &number));
    EXPECT(CMCACHE_READ_ONLY, cmcache_submit_unload(one, TEXT("b"), &number));
    prepare('Q', 0x21, &prepared);
    EXPECT(CMCACHE_READ_ONLY, cmcache_define(one, TEXT("b"), &prepared, &number));
    cmcache_release_prepared(&prepared);
    CHECK(number == 5);
    EXPECT(CMCORE_OK, cmcache_stored(one, &number));
    EXPECT(CMCORE_OK, cmcache_wait(one, number));
    EXPECT(CMCORE_NONE, cmcache_wait(one, number + 1));
    TELLS("a b xa ", CMCORE_OK, cmcache_loaders(two, tell, &all));
    EXPECT(CMCORE_OK, cmcache_close(one));
    EXPECT(CMCACHE_BUSY, cmcache_open(path_of("listed"), &writer, NULL));
    EXPECT(CMCORE_OK, cmcache_close(two));
    EXPECT(CMCORE_OK, cmcache_open(path_of("listed"), &writer, NULL));
    EXPECT(CMCACHE_BUSY, cmcache_open_with(path_of("listed"), &options, &one, NULL));
    EXPECT(CMCORE_OK, cmcache_close(writer));
}

static void *close_later(void *given)
{
    usleep(100000);
    EXPECT(CMCORE_OK, cmcache_close(given));
    return NULL;
}

static void waits_for_the_lock(void)
{
    cmcache *first = NULL, *second = NULL;
    cmcache_options options = CMCACHE_DEFAULTS;
    pthread_t closer;
    EXPECT(CMCORE_OK, cmcache_open(path_of("listed"), &first, NULL));
    options.wait_ms = 30;
    EXPECT(CMCACHE_BUSY, cmcache_open_with(path_of("listed"), &options, &second, NULL));
    CHECK(pthread_create(&closer, NULL, close_later, first) == 0);
    options.wait_ms = 60000;
    EXPECT(CMCORE_OK, cmcache_open_with(path_of("listed"), &options, &second, NULL));
    pthread_join(closer, NULL);
    EXPECT(CMCORE_OK, cmcache_close(second));
}

static void gives_sizes(void)
{
    uint32_t top = 1, roots = 2, slots = 3;
    EXPECT(CMCORE_OK, cmcache_sizes_for(0, 0, &top, &roots, &slots));
    CHECK(top == 8 && roots == 256 && slots == 4096);
    EXPECT(CMCORE_OK, cmcache_sizes_for(1025, 1 << 20, &top, &roots, &slots));
    CHECK(top == 8 && roots == 256 && slots == 8192);
    EXPECT(CMCORE_OK, cmcache_sizes_for(20000, 67880684, &top, &roots, &slots));
    CHECK(top == 11 && roots == 256 && slots == 65536);
    EXPECT(CMCORE_OK, cmcache_format(path_of("sized"), top, roots, slots));
    EXPECT(CMCORE_BAD_SIZES, cmcache_sizes_for(32768, 1, &top, &roots, &slots));
    EXPECT(CMCORE_BAD_SIZES, cmcache_sizes_for(1, (uint64_t)1 << 30, &top, &roots, &slots));
    CHECK(top == 11 && roots == 256 && slots == 65536);
}

/* ---- texts */

static void names_damage_and_faults(void)
{
    const char *texts[64];
    size_t count = 0;
    for (uint32_t what = 0; what <= 9; what++)
        texts[count++] = cmcache_damage_text(&(cmcore_damage){what, 0});
    for (uint32_t rule = 1; rule <= 24; rule++)
        texts[count++] = cmcache_bad_class_text(&(cmcore_bad_class){CMCORE_RULE, rule, 1, 0});
    for (uint32_t kind = 1; kind <= 5; kind++)
        if (kind != CMCORE_RULE)
            texts[count++] = cmcache_bad_class_text(&(cmcore_bad_class){kind, 0, 0, 0});
    for (size_t at = 0; at < count; at++)
        for (size_t earlier = 0; earlier < at; earlier++)
            CHECK(strcmp(texts[at], texts[earlier]) != 0);
    CHECK(!strcmp(cmcache_bad_class_text(&(cmcore_bad_class){CMCORE_RULE, 25, 1, 0}),
                  cmcache_bad_class_text(&(cmcore_bad_class){9, 0, 0, 0})));
}

int main(int count, char **words)
{
    if (count != 2)
        return 2;
    snprintf(folder, sizeof folder, "%s", words[1]);
    lists_names();
    calls_back();
    compares_classes();
    makes_what_is_missing();
    only_reads();
    waits_for_the_lock();
    gives_sizes();
    names_damage_and_faults();
    printf("%d passed, %d failed\n", passed, failed);
    return failed != 0;
}
