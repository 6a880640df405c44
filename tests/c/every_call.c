/* Every call of c/cmcache.h: what it does, and each refusal that can be had without a fault of the
 * system.
 *
 *     every_call FOLDER        makes the files in the folder; the last line is 'N passed, M failed'
 *     every_call open FILE     opens and closes a cache; its status is that of these calls
 *
 * Expected values are those of docs/PROGRAM.md, REGION.md, RECORD.md and RULES.md. */
#define _GNU_SOURCE
#include <errno.h>
#include <fcntl.h>
#include <pthread.h>
#include <signal.h>
#include <spawn.h>
#include <stdio.h>
#include <stdlib.h>
#include <string.h>
#include <sys/resource.h>
#include <sys/stat.h>
#include <sys/wait.h>
#include <unistd.h>

#include "cmcache.h"

#define TEXT(text) (text), sizeof(text) - 1
/* In one argument: the status that a call has, and its line if it has another. */
#define EXPECT(wanted, call) expect(__LINE__, #call, (wanted), (call))
#define CHECK(holds) expect(__LINE__, #holds, 1, (holds) ? 1 : 0)

/* Class A of docs/RECORD.md, and its record. */
static const uint8_t class_a[] = {
    0xca, 0xfe, 0xba, 0xbe, 0x00, 0x00, 0x00, 0x34, 0x00, 0x05, 0x07, 0x00, 0x02, 0x01,
    0x00, 0x01, 'A',  0x07, 0x00, 0x04, 0x01, 0x00, 0x10, 'j',  'a',  'v',  'a',  '/',
    'l',  'a',  'n',  'g',  '/',  'O',  'b',  'j',  'e',  'c',  't',  0x00, 0x21, 0x00,
    0x01, 0x00, 0x03, 0x00, 0x00, 0x00, 0x00, 0x00, 0x00, 0x00, 0x00};
static const uint64_t record_a[] = {
    0x10, 0x0000000300010021, 5, 8, 0xd, 0xd, 0xd, 0xd, 0, 0x0000000200000007, 0x0000000d00010001,
    0x0000000400000007, 0x0000000e00100001, 0x41, 0x6e616c2f6176616a, 0x7463656a624f2f67};

/* A class M with a field `x` and a method `run`, whose code is one instruction, a return. */
static const uint8_t class_m[] = {
    0xca, 0xfe, 0xba, 0xbe, 0, 0, 0, 0x34, 0, 12, 7, 0, 2, 1, 0, 1, 'M', 7, 0, 4, 1, 0, 16, 'j',
    'a', 'v', 'a', '/', 'l', 'a', 'n', 'g', '/', 'O', 'b', 'j', 'e', 'c', 't', 1, 0, 1, 'x', 1, 0,
    1, 'I', 1, 0, 3, 'r', 'u', 'n', 1, 0, 3, '(', ')', 'V', 1, 0, 4, 'C', 'o', 'd', 'e',
    /* a Long */ 5, 0, 0, 0, 1, 0, 0, 0, 2,
    /* flags, this, super, interfaces */ 0, 0x21, 0, 1, 0, 3, 0, 0,
    /* fields */ 0, 1, 0, 2, 0, 5, 0, 6, 0, 0,
    /* methods */ 0, 1, 0, 1, 0, 7, 0, 8, 0, 1,
    /* Code: stack, locals, code, handlers, attributes */
    0, 9, 0, 0, 0, 13, 0, 3, 0, 4, 0, 0, 0, 1, 0xb1, 0, 0, 0, 0,
    /* attributes */ 0, 0};

static int passed, failed;
static char folder[200], self[200];

static void expect(int line, const char *what, int32_t wanted, int32_t got)
{
    if (wanted == got) {
        passed++;
        return;
    }
    failed++;
    printf("FAILED: line %d: %s is %d, wanted %d\n", line, what, got, wanted);
}

/* A path in the folder. */
static const char *path_of(const char *name)
{
    static char paths[4][256];
    static int next;
    next = (next + 1) % 4;
    snprintf(paths[next], sizeof paths[next], "%s/%s", folder, name);
    return paths[next];
}

static cmcache *new_cache(const char *name, uint32_t top, uint32_t roots, uint32_t slots)
{
    cmcache *cache = NULL;
    EXPECT(CMCORE_OK, cmcache_format(path_of(name), top, roots, slots));
    EXPECT(CMCORE_OK, cmcache_open(path_of(name), &cache, NULL));
    return cache;
}

/* A file with these bytes in place of those that an empty cache has there. */
static const char *changed(const char *name, off_t at, const void *bytes, size_t len)
{
    const char *path = path_of(name);
    EXPECT(CMCORE_OK, cmcache_format(path, 8, 64, 4096));
    int file = open(path, O_RDWR);
    CHECK(pwrite(file, bytes, len, at) == (ssize_t)len);
    close(file);
    return path;
}

/* Class A under a name of one letter, with an attribute of so many zeros, whose name is constant 5,
 * after those of class A, which end at byte 39. */
static uint8_t *padded_class(char letter, size_t zeros, size_t *len)
{
    enum { POOL_END = 39, COUNT = 2, HEAD = 8 };
    size_t at = sizeof class_a - COUNT;
    *len = sizeof class_a + 4 - COUNT + HEAD + zeros;
    uint8_t *bytes = calloc(1, *len);
    memcpy(bytes, class_a, POOL_END);
    bytes[9] = 6;
    bytes[16] = (uint8_t)letter;
    memcpy(bytes + POOL_END, "\1\0\1X", 4);
    memcpy(bytes + POOL_END + 4, class_a + POOL_END, at - POOL_END);
    uint8_t attribute[HEAD] = {0, 1, 0, 5, (uint8_t)(zeros >> 24), (uint8_t)(zeros >> 16),
                               (uint8_t)(zeros >> 8), (uint8_t)zeros};
    memcpy(bytes + at + 4, attribute, HEAD);
    return bytes;
}

static int32_t define(cmcache *cache, const char *loader, char letter, size_t zeros,
                      uint64_t *number)
{
    cmcache_prepared prepared = {0};
    size_t len;
    uint8_t *bytes = padded_class(letter, zeros, &len);
    EXPECT(CMCORE_OK, cmcache_prepare(bytes, len, &prepared, NULL));
    free(bytes);
    int32_t status = cmcache_define(cache, loader, strlen(loader), &prepared, number);
    cmcache_release_prepared(&prepared);
    return status;
}

static bool is_record_a(cmcache_record *record)
{
    const uint64_t *words = NULL;
    size_t count = 0;
    return cmcache_record_words(record, &words, &count) == CMCORE_OK && count == 16
           && !memcmp(words, record_a, sizeof record_a);
}

/* ---- files */

static void makes_files(void)
{
    EXPECT(CMCORE_OK, cmcache_format(path_of("made"), 8, 64, 4096));
    EXPECT(CMCACHE_EXISTS, cmcache_format(path_of("made"), 8, 64, 4096));
    struct stat info = {0};
    CHECK(stat(path_of("made"), &info) == 0 && info.st_size == 528384);
    static const uint32_t wrong[][3] = {{2, 64, 4096},  {13, 64, 4096}, {8, 0, 4096},
                                        {8, 257, 4096}, {8, 64, 255},   {8, 64, 65537}};
    for (size_t at = 0; at < sizeof wrong / sizeof *wrong; at++) {
        EXPECT(CMCORE_BAD_SIZES,
               cmcache_format(path_of("none"), wrong[at][0], wrong[at][1], wrong[at][2]));
        CHECK(access(path_of("none"), F_OK) < 0);
    }
    static const uint32_t least[] = {3, 1, 256}, most[] = {12, 256, 65536};
    EXPECT(CMCORE_OK, cmcache_format(path_of("least"), least[0], least[1], least[2]));
    EXPECT(CMCORE_OK, cmcache_format(path_of("most"), most[0], most[1], most[2]));
    EXPECT(CMCACHE_NO_FILE, cmcache_format(path_of("none/none"), 8, 64, 4096));
    EXPECT(ENOENT, errno);
}

static void refuses_files(void)
{
    cmcache *cache = NULL;
    cmcore_damage damage = {7, 7};
    EXPECT(CMCACHE_NO_FILE, cmcache_open(path_of("none"), &cache, &damage));
    EXPECT(ENOENT, errno);
    EXPECT(CMCACHE_NOT_REGULAR, cmcache_open(folder, &cache, &damage));
    EXPECT(CMCACHE_NOT_REGULAR, cmcache_open("/dev/null", &cache, &damage));
    CHECK(mkfifo(path_of("pipe"), 0600) == 0);
    EXPECT(CMCACHE_NOT_REGULAR, cmcache_open(path_of("pipe"), &cache, &damage));
    close(open(path_of("empty"), O_CREAT | O_RDWR, 0600));
    EXPECT(CMCORE_NOT_A_CACHE, cmcache_open(path_of("empty"), &cache, &damage));
    CHECK(truncate(path_of("empty"), 8192) == 0);
    EXPECT(CMCORE_NOT_A_CACHE, cmcache_open(path_of("empty"), &cache, &damage));
    if (truncate(path_of("empty"), ((off_t)1 << 40) + 1) == 0)
        EXPECT(CMCORE_TOO_LONG, cmcache_open(path_of("empty"), &cache, &damage));
    CHECK(truncate(path_of("empty"), 0) == 0);
    CHECK(cache == NULL && damage.what == 7 && damage.slot == 7);
    EXPECT(CMCORE_DAMAGED, cmcache_open(changed("superblock", 8, "\2", 1), &cache, &damage));
    CHECK(damage.what == 1 && damage.slot == 0);
    EXPECT(CMCORE_DAMAGED, cmcache_open(changed("head", 4096 + 2, "\3", 1), &cache, &damage));
    CHECK(damage.what == 4 && damage.slot == 0);
    EXPECT(CMCORE_DAMAGED, cmcache_open(changed("group", 4096 + 64, "\xa5", 1), &cache, &damage));
    CHECK(damage.what == 4 && damage.slot == 1);
    EXPECT(CMCORE_DAMAGED, cmcache_open(path_of("group"), &cache, NULL));
    CHECK(cache == NULL);
}

/* Tags as Python's hashlib has them, of the text that docs/FRESH.md describes. */
static void tags_files(void)
{
    char tag[17] = "as before";
    const char *paths[] = {path_of("A.class"), path_of("empty")};
    const char *missing = path_of("none"), *pipe_path = path_of("pipe");
    int file = open(paths[0], O_CREAT | O_RDWR, 0600);
    CHECK(write(file, class_a, sizeof class_a) == (ssize_t)sizeof class_a);
    close(file);
    EXPECT(CMCACHE_DEVICE, cmcache_tag(&missing, 1, tag));
    EXPECT(ENOENT, errno);
    EXPECT(CMCACHE_NOT_REGULAR, cmcache_tag(&pipe_path, 1, tag));
    if (truncate(paths[1], ((off_t)1 << 40) + 1) == 0)
        EXPECT(CMCORE_TOO_LONG, cmcache_tag(paths, 2, tag));
    CHECK(truncate(paths[1], 0) == 0 && !strcmp(tag, "as before"));
    EXPECT(CMCORE_OK, cmcache_tag(NULL, 0, tag));
    CHECK(!strcmp(tag, "0000000000000000"));
    EXPECT(CMCORE_OK, cmcache_tag(paths, 1, tag));
    CHECK(!strcmp(tag, "64e61e384fccb8d7"));
    EXPECT(CMCORE_OK, cmcache_tag(paths, 2, tag));
    CHECK(!strcmp(tag, "3bac6b0ca5315bd0"));
}

/* What another process gets that opens the file. */
static int32_t opened_elsewhere(const char *path)
{
    extern char **environ;
    const char *const words[] = {self, "open", path, NULL};
    pid_t child;
    int status;
    if (posix_spawn(&child, self, NULL, NULL, (char *const *)words, environ) != 0
        || waitpid(child, &status, 0) != child || !WIFEXITED(status))
        return -1;
    return WEXITSTATUS(status);
}

static void locks_files(void)
{
    cmcache *first = new_cache("first", 8, 64, 4096), *second = NULL, *third = NULL;
    EXPECT(CMCACHE_BUSY, cmcache_open(path_of("first"), &second, NULL));
    EXPECT(CMCACHE_BUSY, opened_elsewhere(path_of("first")));
    CHECK(second == NULL);
    second = new_cache("second", 8, 64, 4096);
    uint64_t number = 0, other = 0;
    EXPECT(CMCORE_OK, cmcache_add_loader(first, TEXT("one"), &number));
    EXPECT(CMCORE_OK, cmcache_add_loader(second, TEXT("one"), &other));
    CHECK(number == 1 && other == 1);
    EXPECT(CMCORE_OK, cmcache_close(first));
    EXPECT(CMCORE_OK, opened_elsewhere(path_of("first")));
    EXPECT(CMCORE_OK, cmcache_open(path_of("first"), &third, NULL));
    EXPECT(CMCORE_LOADER_EXISTS, cmcache_add_loader(third, TEXT("one"), &number));
    EXPECT(CMCORE_OK, cmcache_close(second));
    EXPECT(CMCORE_OK, cmcache_close(third));
    EXPECT(CMCORE_OK, cmcache_close(NULL));
}

/* ---- classes */

static void prepares_classes(void)
{
    cmcache_prepared prepared = {0};
    cmcore_bad_class bad = {0};
    uint8_t bytes[sizeof class_a + 1] = {0};
    memcpy(bytes, class_a, sizeof class_a);
    EXPECT(CMCORE_BAD_CLASS, cmcache_prepare(NULL, 0, &prepared, &bad));
    CHECK(bad.kind == CMCORE_TRUNCATED);
    EXPECT(CMCORE_BAD_CLASS, cmcache_prepare(class_a, sizeof class_a - 1, &prepared, &bad));
    CHECK(bad.kind == CMCORE_TRUNCATED);
    EXPECT(CMCORE_BAD_CLASS, cmcache_prepare(bytes, sizeof bytes, &prepared, &bad));
    CHECK(bad.kind == CMCORE_TRAILING && bad.at == sizeof class_a);
    bytes[7] = 0x35;
    EXPECT(CMCORE_BAD_CLASS, cmcache_prepare(bytes, sizeof class_a, &prepared, &bad));
    CHECK(bad.kind == CMCORE_OTHER_VERSION && bad.at == 0x350000);
    bytes[5] = 3;
    EXPECT(CMCORE_BAD_CLASS, cmcache_prepare(bytes, 8, &prepared, &bad));
    CHECK(bad.kind == CMCORE_OTHER_VERSION && bad.at == 0x350003);
    EXPECT(CMCORE_BAD_CLASS, cmcache_prepare(bytes, 7, &prepared, &bad));
    CHECK(bad.kind == CMCORE_MALFORMED && bad.at == 5);
    bytes[3] = 0;
    EXPECT(CMCORE_BAD_CLASS, cmcache_prepare(bytes, sizeof class_a, &prepared, &bad));
    CHECK(bad.kind == CMCORE_MALFORMED && bad.at == 3);
    memcpy(bytes, class_a, 8);
    bytes[12] = 3; /* the Class of `this` names another Class */
    EXPECT(CMCORE_BAD_CLASS, cmcache_prepare(bytes, sizeof class_a, &prepared, &bad));
    CHECK(bad.kind == CMCORE_RULE && bad.rule == 2 && bad.spot == CMCORE_SPOT_POOL && bad.at == 1);
    EXPECT(CMCORE_BAD_CLASS, cmcache_prepare(bytes, sizeof class_a, &prepared, NULL));
    CHECK(!prepared.handle.full);
    size_t len;
    uint8_t *long_class = padded_class('A', 8 * 524288, &len);
    EXPECT(CMCORE_RECORD_TOO_LONG, cmcache_prepare(long_class, len, &prepared, &bad));
    free(long_class);
    EXPECT(CMCORE_OK, cmcache_prepare(class_a, sizeof class_a, &prepared, &bad));
    CHECK(prepared.handle.full);
    cmcache_release_prepared(&prepared);
    CHECK(!prepared.handle.full);
    cmcache_release_prepared(&prepared);
}

/* Whether these bytes of a record are a text. */
static bool is_text(const uint64_t *words, cmcore_place place, const char *text)
{
    return place.len == strlen(text) && !memcmp((const uint8_t *)words + place.at, text, place.len);
}

/* The parts of class M. */
static void reads_the_class(cmcache_record *record, const uint64_t *words)
{
    cmcore_place name;
    cmcore_constant constant;
    uint16_t number = 0, after = 0, constants = 0;
    EXPECT(CMCORE_OK, cmcache_record_name(record, &name));
    CHECK(is_text(words, name, "M"));
    EXPECT(CMCORE_OK, cmcache_record_super_name(record, &name));
    CHECK(is_text(words, name, "java/lang/Object"));
    EXPECT(CMCORE_OK, cmcache_record_interface_count(record, &number));
    CHECK(number == 0);
    EXPECT(CMCORE_NONE, cmcache_record_interface(record, 0, &name));
    CHECK(is_text(words, name, "java/lang/Object"));
    EXPECT(CMCORE_OK, cmcache_record_pool_count(record, &number));
    CHECK(number == 12);
    while (!cmcache_record_next_constant(record, after, &after, &constant))
        constants++;
    CHECK(constants == 10 && after == 10 && constant.value == 0x100000002);
}

static void reads_members(cmcache_record *record, const uint64_t *words)
{
    cmcore_member_part member;
    cmcore_attribute attribute;
    cmcore_nested nested;
    uint16_t number = 0;
    EXPECT(CMCORE_OK, cmcache_record_field_count(record, &number));
    CHECK(number == 1);
    EXPECT(CMCORE_OK, cmcache_record_field_at(record, 0, &member));
    CHECK(member.flags == 2 && member.attributes == 0 && is_text(words, member.name, "x")
          && is_text(words, member.descriptor, "I"));
    EXPECT(CMCORE_NONE, cmcache_record_field_at(record, 1, &member));
    EXPECT(CMCORE_OK, cmcache_record_method_count(record, &number));
    CHECK(number == 1);
    EXPECT(CMCORE_OK, cmcache_record_method_at(record, 0, &member));
    CHECK(member.flags == 1 && member.attributes == 1 && is_text(words, member.name, "run")
          && is_text(words, member.descriptor, "()V"));
    EXPECT(CMCORE_NONE, cmcache_record_method_at(record, 1, &member));
    EXPECT(CMCORE_OK, cmcache_record_attribute_count(record, CMCORE_OF_METHOD, 0, &number));
    CHECK(number == 1);
    EXPECT(CMCORE_OK, cmcache_record_attribute_count(record, CMCORE_OF_CLASS, 0, &number));
    CHECK(number == 0);
    EXPECT(CMCORE_OK, cmcache_record_attribute(record, CMCORE_OF_METHOD, 0, 0, &attribute));
    CHECK(is_text(words, attribute.name, "Code") && attribute.content.len == 13);
    CHECK(((const uint8_t *)words)[attribute.content.at + 8] == 0xb1);
    EXPECT(CMCORE_NONE, cmcache_record_attribute(record, CMCORE_OF_METHOD, 0, 1, &attribute));
    EXPECT(CMCORE_NONE, cmcache_record_attribute(record, CMCORE_OF_METHOD, 1, 0, &attribute));
    EXPECT(CMCORE_NONE, cmcache_record_attribute(record, CMCORE_OF_FIELD, 0, 0, &attribute));
    EXPECT(CMCORE_NONE, cmcache_record_attribute(record, 3, 0, 0, &attribute));
    EXPECT(CMCORE_OK, cmcache_record_attribute_named(record, CMCORE_OF_METHOD, 0, TEXT("Code"),
                                                     &attribute));
    EXPECT(CMCORE_NONE, cmcache_record_attribute_named(record, CMCORE_OF_METHOD, 0, TEXT("Core"),
                                                       &attribute));
    EXPECT(CMCORE_OK, cmcache_record_nested(record, &attribute.content, &nested));
    CHECK(nested.count == 0 && nested.from == 13);
    EXPECT(CMCORE_NONE, cmcache_record_nested_attribute(record, &attribute.content, nested.from,
                                                        &attribute));
}

static void reads_the_class_file(cmcache_record *record)
{
    uint8_t out[sizeof class_m + 1];
    size_t len = 0;
    memset(out, 0x5a, sizeof out);
    EXPECT(CMCORE_NO_ROOM, cmcache_record_class_file(record, out, sizeof class_m - 1, &len));
    CHECK(len == sizeof class_m && out[0] == 0x5a);
    EXPECT(CMCORE_OK, cmcache_record_class_file(record, out, sizeof out, &len));
    CHECK(len == sizeof class_m && !memcmp(out, class_m, len) && out[len] == 0x5a);
    EXPECT(CMCORE_NONE, cmcore_words_class_file(record_a, 15, out, sizeof out, &len));
}

static void reads_records(void)
{
    cmcache *cache = new_cache("records", 8, 64, 4096);
    cmcache_prepared prepared = {0};
    cmcache_record record = {0};
    cmcore_constant constant;
    cmcore_member field, method;
    cmcore_code code;
    const uint64_t *words = NULL;
    size_t count = 0;
    uint16_t flags = 0;
    uint64_t number;
    EXPECT(CMCORE_OK, cmcache_add_loader(cache, TEXT("app"), &number));
    EXPECT(CMCORE_OK, cmcache_prepare(class_m, sizeof class_m, &prepared, NULL));
    EXPECT(CMCORE_OK, cmcache_define(cache, TEXT("app"), &prepared, &number));
    cmcache_release_prepared(&prepared);
    EXPECT(CMCORE_EMPTY, cmcache_record_words(&record, &words, &count));
    EXPECT(CMCORE_EMPTY, cmcache_record_flags(&record, &flags));
    EXPECT(CMCORE_OK, cmcache_find(cache, TEXT("app"), TEXT("M"), &record));
    EXPECT(CMCORE_OK, cmcache_record_words(&record, &words, &count));
    const uint8_t *bytes = (const uint8_t *)words;
    CHECK(words[0] == count);
    EXPECT(CMCORE_OK, cmcache_record_flags(&record, &flags));
    CHECK(flags == 0x21);
    EXPECT(CMCORE_NONE, cmcache_record_constant(&record, 0, &constant));
    EXPECT(CMCORE_NONE, cmcache_record_constant(&record, 11, &constant));
    EXPECT(CMCORE_NONE, cmcache_record_constant(&record, 12, &constant));
    EXPECT(CMCORE_OK, cmcache_record_constant(&record, 10, &constant));
    CHECK(constant.tag == 5 && constant.value == 0x100000002);
    EXPECT(CMCORE_OK, cmcache_record_constant(&record, 1, &constant));
    CHECK(constant.tag == 7 && constant.one == 2);
    EXPECT(CMCORE_OK, cmcache_record_constant(&record, 7, &constant));
    CHECK(constant.tag == 1 && constant.len == 3 && !memcmp(bytes + constant.at, "run", 3));
    EXPECT(CMCORE_OK, cmcache_record_field(&record, TEXT("x"), TEXT("I"), &field));
    CHECK(!field.is_method && field.index == 0 && field.flags == 2 && field.attributes == 0);
    EXPECT(CMCORE_NONE, cmcache_record_field(&record, TEXT("x"), TEXT("J"), &field));
    EXPECT(CMCORE_NONE, cmcache_record_field(&record, TEXT("run"), TEXT("()V"), &field));
    EXPECT(CMCORE_OK, cmcache_record_method(&record, TEXT("run"), TEXT("()V"), &method));
    CHECK(method.is_method && method.index == 0 && method.flags == 1 && method.attributes == 1);
    EXPECT(CMCORE_NONE, cmcache_record_method(&record, TEXT("x"), TEXT("I"), &method));
    EXPECT(CMCORE_OK, cmcache_record_code(&record, &method, &code));
    CHECK(code.max_stack == 3 && code.max_locals == 4 && code.handlers == 0 && code.code_len == 1);
    CHECK(bytes[code.code_at] == 0xb1 && code.handlers_at == code.code_at + 3);
    EXPECT(CMCORE_NONE, cmcache_record_code(&record, &field, &code));
    reads_the_class(&record, words);
    reads_members(&record, words);
    reads_the_class_file(&record);
    cmcache_release_record(&record);
    EXPECT(CMCORE_EMPTY, cmcache_record_class_file(&record, NULL, 0, &count));
    EXPECT(CMCORE_OK, cmcache_close(cache));
}

/* ---- commands */

static void takes_commands(void)
{
    cmcache *cache = new_cache("commands", 8, 64, 4096);
    cmcache_prepared prepared = {0}, none = {0};
    cmcache_record record = {0}, other = {0}, none_found = CMCACHE_EMPTY;
    cmcore_stats stats = {0};
    uint64_t number = 0;
    EXPECT(CMCORE_OK, cmcache_prepare(class_a, sizeof class_a, &prepared, NULL));
    EXPECT(CMCORE_NO_LOADER, cmcache_define(cache, TEXT("app"), &prepared, &number));
    EXPECT(CMCORE_EMPTY, cmcache_define(cache, TEXT("app"), &none, &number));
    EXPECT(CMCORE_NONE, cmcache_find(cache, TEXT("app"), TEXT("A"), &record));
    CHECK(number == 0);
    EXPECT(CMCORE_OK, cmcache_add_loader(cache, TEXT("app"), &number));
    CHECK(number == 1);
    EXPECT(CMCORE_LOADER_EXISTS, cmcache_add_loader(cache, TEXT("app"), &number));
    EXPECT(CMCORE_OK, cmcache_define(cache, TEXT("app"), &prepared, &number));
    CHECK(number == 2);
    EXPECT(CMCORE_CLASS_EXISTS, cmcache_define(cache, TEXT("app"), &prepared, &number));
    EXPECT(CMCORE_OK, cmcache_add_loader(cache, TEXT("ext"), &number));
    EXPECT(CMCORE_OK, cmcache_define(cache, TEXT("ext"), &prepared, &number));
    CHECK(number == 4);
    EXPECT(CMCORE_NONE, cmcache_find(cache, TEXT("app"), TEXT("B"), &record));
    EXPECT(CMCORE_NONE, cmcache_find(cache, TEXT("a b"), TEXT("A"), &record));
    EXPECT(CMCORE_NONE, cmcache_find(cache, NULL, 0, NULL, 0, &record));
    CHECK(!record.handle.full);
    EXPECT(CMCORE_OK, cmcache_find(cache, TEXT("app"), TEXT("A"), &record));
    EXPECT(CMCORE_OK, cmcache_find(cache, TEXT("ext"), TEXT("A"), &other));
    CHECK(is_record_a(&record) && is_record_a(&other));
    EXPECT(CMCORE_OK, cmcache_stats(cache, &stats));
    CHECK(stats.accepted == 4 && stats.stored == 4);
    CHECK(stats.top == 8 && stats.roots == 64 && stats.slots == 4096);
    CHECK(stats.live == 4 && stats.live_slots == 4);
    EXPECT(CMCORE_NO_LOADER, cmcache_unload(cache, TEXT("lib"), &number));
    EXPECT(CMCORE_OK, cmcache_unload(cache, TEXT("app"), &number));
    CHECK(number == 5 && is_record_a(&record));
    EXPECT(CMCORE_NONE, cmcache_find(cache, TEXT("app"), TEXT("A"), &none_found));
    /* The chunk of `ext` is the second; the first is free now. */
    EXPECT(CMCORE_OK, cmcache_tighten(cache, TEXT("ext"), &number));
    CHECK(number == 6);
    EXPECT(CMCORE_NO_MOVE, cmcache_tighten(cache, TEXT("ext"), &number));
    EXPECT(CMCORE_NO_LOADER, cmcache_tighten(cache, TEXT("app"), &number));
    CHECK(number == 6);
    EXPECT(CMCORE_OK, cmcache_close(cache));
    CHECK(is_record_a(&record) && is_record_a(&other));
    cmcache_release_record(&record);
    cmcache_release_record(&other);
    cmcache_release_record(&other);
    cmcache_release_prepared(&prepared);
    EXPECT(CMCORE_OK, cmcache_open(path_of("commands"), &cache, NULL));
    EXPECT(CMCORE_OK, cmcache_find(cache, TEXT("ext"), TEXT("A"), &record));
    CHECK(is_record_a(&record));
    cmcache_release_record(&record);
    EXPECT(CMCORE_OK, cmcache_close(cache));
}

/* Commands that aren't waited for are found at once, and stored in order. */
static void submits_commands(void)
{
    cmcache *cache = new_cache("submitted", 8, 64, 4096);
    cmcache_prepared prepared = CMCACHE_EMPTY;
    cmcache_record record = CMCACHE_EMPTY;
    cmcore_stats stats = {0};
    uint64_t number = 0, stored = 9;
    EXPECT(CMCORE_OK, cmcache_stored(cache, &stored));
    CHECK(stored == 0);
    EXPECT(CMCORE_OK, cmcache_wait(cache, 0));
    EXPECT(CMCORE_NONE, cmcache_wait(cache, 1));
    EXPECT(CMCORE_OK, cmcache_prepare(class_a, sizeof class_a, &prepared, NULL));
    EXPECT(CMCORE_NO_LOADER, cmcache_submit_define(cache, TEXT("app"), &prepared, &number));
    EXPECT(CMCORE_BAD_NAME, cmcache_submit_add_loader(cache, TEXT("a b"), &number));
    CHECK(number == 0);
    EXPECT(CMCORE_OK, cmcache_submit_add_loader(cache, TEXT("app"), &number));
    EXPECT(CMCORE_LOADER_EXISTS, cmcache_submit_add_loader(cache, TEXT("app"), &number));
    EXPECT(CMCORE_OK, cmcache_submit_define(cache, TEXT("app"), &prepared, &number));
    CHECK(number == 2);
    EXPECT(CMCORE_OK, cmcache_find(cache, TEXT("app"), TEXT("A"), &record));
    CHECK(is_record_a(&record));
    cmcache_release_record(&record);
    EXPECT(CMCORE_OK, cmcache_submit_add_loader(cache, TEXT("ext"), &number));
    EXPECT(CMCORE_OK, cmcache_submit_define(cache, TEXT("ext"), &prepared, &number));
    cmcache_release_prepared(&prepared);
    EXPECT(CMCORE_OK, cmcache_submit_unload(cache, TEXT("app"), &number));
    CHECK(number == 5);
    EXPECT(CMCORE_OK, cmcache_wait(cache, 5));
    EXPECT(CMCORE_OK, cmcache_stored(cache, &stored));
    CHECK(stored == 5);
    EXPECT(CMCORE_NONE, cmcache_wait(cache, 6));
    EXPECT(CMCORE_OK, cmcache_submit_tighten(cache, TEXT("ext"), &number));
    EXPECT(CMCORE_OK, cmcache_submit_unload_all(cache, TEXT("ext"), &number));
    CHECK(number == 7);
    EXPECT(CMCORE_OK, cmcache_close(cache));
    EXPECT(CMCORE_OK, cmcache_open(path_of("submitted"), &cache, NULL));
    EXPECT(CMCORE_OK, cmcache_stats(cache, &stats));
    CHECK(stats.stored == 7);
    EXPECT(CMCORE_NONE, cmcache_find(cache, TEXT("ext"), TEXT("A"), &record));
    EXPECT(CMCORE_OK, cmcache_close(cache));
}

static void checks_names(void)
{
    cmcache *cache = new_cache("names", 8, 64, 4096);
    char name[97];
    uint64_t number = 0;
    memset(name, 'm', sizeof name);
    EXPECT(CMCORE_BAD_NAME, cmcache_add_loader(cache, NULL, 0, &number));
    EXPECT(CMCORE_BAD_NAME, cmcache_add_loader(cache, name, 97, &number));
    EXPECT(CMCORE_BAD_NAME, cmcache_add_loader(cache, TEXT("a b"), &number));
    EXPECT(CMCORE_BAD_NAME, cmcache_add_loader(cache, TEXT("\x7f"), &number));
    EXPECT(CMCORE_BAD_NAME, cmcache_unload(cache, NULL, 0, &number));
    EXPECT(CMCORE_BAD_NAME, cmcache_tighten(cache, NULL, 0, &number));
    EXPECT(CMCORE_BAD_NAME, define(cache, "", 'A', 0, &number));
    EXPECT(CMCORE_BAD_NAME, cmcache_unload_all(cache, NULL, 0, &number));
    EXPECT(CMCORE_OK, cmcache_add_loader(cache, name, 96, &number));
    CHECK(number == 1);
    EXPECT(CMCORE_OK, cmcache_close(cache));
}

static void unloads_several(void)
{
    cmcache *cache = new_cache("several", 8, 64, 4096);
    uint64_t number = 0;
    for (char name = 'a'; name <= 'h'; name++)
        EXPECT(CMCORE_OK, cmcache_add_loader(cache, &name, 1, &number));
    EXPECT(CMCORE_BAD_LIST, cmcache_unload_all(cache, TEXT("a b c d e f g h"), &number));
    EXPECT(CMCORE_BAD_LIST, cmcache_unload_all(cache, TEXT("a b a"), &number));
    EXPECT(CMCORE_BAD_NAME, cmcache_unload_all(cache, TEXT("a  b"), &number));
    EXPECT(CMCORE_NO_LOADER, cmcache_unload_all(cache, TEXT("a x"), &number));
    CHECK(number == 8);
    EXPECT(CMCORE_OK, cmcache_unload_all(cache, TEXT("a b c d e f g"), &number));
    CHECK(number == 9);
    EXPECT(CMCORE_NO_LOADER, cmcache_unload(cache, TEXT("g"), &number));
    EXPECT(CMCORE_OK, cmcache_unload_all(cache, TEXT("h"), &number));
    EXPECT(CMCORE_OK, cmcache_close(cache));
}

static void runs_out_of_room(void)
{
    uint64_t number = 0;
    cmcache *cache = new_cache("region", 3, 1, 256);
    EXPECT(CMCORE_OK, cmcache_add_loader(cache, TEXT("app"), &number));
    EXPECT(CMCORE_RECORD_TOO_LONG, define(cache, "app", 'A', 9000, &number));
    EXPECT(CMCORE_OK, define(cache, "app", 'A', 8000, &number)); /* the whole root */
    EXPECT(CMCORE_REGION_FULL, define(cache, "app", 'B', 8000, &number));
    EXPECT(CMCORE_OK, cmcache_close(cache));
    cache = new_cache("journal", 3, 1, 256);
    for (int at = 0; at < 128; at++) {
        char name[16];
        EXPECT(CMCORE_OK, cmcache_add_loader(cache, name, (size_t)sprintf(name, "l%d", at),
                                             &number));
    }
    CHECK(number == 128);
    EXPECT(CMCORE_JOURNAL_FULL, cmcache_add_loader(cache, TEXT("more"), &number));
    EXPECT(CMCORE_JOURNAL_FULL, define(cache, "l0", 'A', 0, &number));
    EXPECT(CMCORE_OK, cmcache_close(cache));
    /* A file whose last number is 2^63. */
    const char *spent = changed("spent", 4096 + 16, "\0\0\0\0\0\0\0\x80", 8);
    EXPECT(CMCORE_OK, cmcache_open(spent, &cache, NULL));
    EXPECT(CMCORE_NUMBERS_SPENT, cmcache_add_loader(cache, TEXT("app"), &number));
    EXPECT(CMCORE_OK, cmcache_close(cache));
}

/* ---- a device that fails */

static void limit_files(rlim_t bytes)
{
    struct rlimit limit;
    CHECK(getrlimit(RLIMIT_FSIZE, &limit) == 0);
    limit.rlim_cur = bytes < limit.rlim_max ? bytes : limit.rlim_max;
    CHECK(setrlimit(RLIMIT_FSIZE, &limit) == 0);
}

/* A class needs a root, for which a limit leaves no room. The signal for that is blocked where the
 * cache is written, whatever the program does with it. */
static void meets_a_limit(void)
{
    cmcache *cache = new_cache("limited", 8, 64, 4096);
    cmcache_record record = {0};
    cmcore_stats stats = {0};
    uint64_t number = 0;
    limit_files(528384);
    EXPECT(CMCORE_OK, cmcache_add_loader(cache, TEXT("app"), &number));
    EXPECT(CMCORE_UNSURE, define(cache, "app", 'A', 0, &number));
    CHECK(number == 2);
    EXPECT(CMCORE_BROKEN, define(cache, "app", 'B', 0, &number));
    EXPECT(CMCORE_BROKEN, cmcache_add_loader(cache, TEXT("ext"), &number));
    EXPECT(CMCORE_BROKEN, cmcache_unload(cache, TEXT("app"), &number));
    EXPECT(CMCORE_BROKEN, cmcache_unload_all(cache, TEXT("app"), &number));
    EXPECT(CMCORE_BROKEN, cmcache_tighten(cache, TEXT("app"), &number));
    CHECK(number == 2);
    EXPECT(CMCORE_OK, cmcache_find(cache, TEXT("app"), TEXT("A"), &record));
    cmcache_release_record(&record);
    EXPECT(CMCORE_OK, cmcache_stats(cache, &stats));
    CHECK(stats.accepted == 2 && stats.stored == 1);
    EXPECT(CMCORE_OK, cmcache_wait(cache, 1));
    EXPECT(CMCORE_UNSURE, cmcache_wait(cache, 2));
    EXPECT(CMCORE_NONE, cmcache_wait(cache, 3));
    EXPECT(CMCORE_BROKEN, cmcache_stored(cache, &number));
    CHECK(number == 1);
    EXPECT(CMCORE_BROKEN, cmcache_submit_add_loader(cache, TEXT("ext"), &number));
    errno = 0;
    EXPECT(CMCACHE_DEVICE, cmcache_close(cache));
    EXPECT(EFBIG, errno);
    signal(SIGXFSZ, SIG_IGN);
    limit_files(4096);
    EXPECT(CMCACHE_DEVICE, cmcache_format(path_of("none"), 8, 64, 4096));
    EXPECT(EFBIG, errno);
    CHECK(access(path_of("none"), F_OK) < 0);
    signal(SIGXFSZ, SIG_DFL);
    limit_files(RLIM_INFINITY);
    EXPECT(CMCORE_OK, cmcache_open(path_of("limited"), &cache, NULL));
    EXPECT(CMCORE_OK, define(cache, "app", 'B', 0, &number));
    EXPECT(CMCORE_OK, cmcache_close(cache));
}

/* ---- threads */

enum { THREADS = 16, CLASSES = 20 };

static cmcache *shared;
static bool is_wrong[THREADS];

static void *define_and_find(void *given)
{
    size_t thread = (size_t)given;
    char loader[32];
    size_t len = (size_t)sprintf(loader, "t%zu", thread);
    uint64_t number = 0, last = 0;
    cmcore_stats stats;
    bool right = cmcache_add_loader(shared, loader, len, &number) == CMCORE_OK;
    for (char letter = 'A'; letter < 'A' + CLASSES; letter++) {
        cmcache_prepared prepared = {0};
        cmcache_record record = {0};
        uint8_t bytes[sizeof class_a];
        memcpy(bytes, class_a, sizeof bytes);
        bytes[16] = (uint8_t)letter;
        last = number;
        right &= cmcache_prepare(bytes, sizeof bytes, &prepared, NULL) == CMCORE_OK;
        right &= cmcache_define(shared, loader, len, &prepared, &number) == CMCORE_OK;
        right &= cmcache_find(shared, loader, len, &letter, 1, &record) == CMCORE_OK;
        right &= cmcache_stats(shared, &stats) == CMCORE_OK;
        right &= last < number && number <= stats.stored && stats.stored <= stats.accepted;
        cmcache_release_record(&record);
        cmcache_release_prepared(&prepared);
    }
    is_wrong[thread] = !right;
    return NULL;
}

static void serves_threads(void)
{
    pthread_t threads[THREADS];
    cmcore_stats stats = {0};
    shared = new_cache("threads", 8, 64, 4096);
    for (size_t at = 0; at < THREADS; at++)
        CHECK(pthread_create(&threads[at], NULL, define_and_find, (void *)at) == 0);
    for (size_t at = 0; at < THREADS; at++) {
        pthread_join(threads[at], NULL);
        CHECK(!is_wrong[at]);
    }
    EXPECT(CMCORE_OK, cmcache_stats(shared, &stats));
    CHECK(stats.stored == THREADS * (CLASSES + 1));
    EXPECT(CMCORE_OK, cmcache_close(shared));
}

/* ---- threads, while the device fails */

struct share {
    char loader[16];
    size_t len;
    int acknowledged;
    int32_t last;
};

static void *define_until_refused(void *given)
{
    struct share *share = given;
    uint64_t number;
    share->last = cmcache_add_loader(shared, share->loader, share->len, &number);
    for (char letter = 'A'; letter <= 'Z' && share->last == CMCORE_OK; letter++) {
        cmcache_prepared prepared = {0};
        size_t len;
        uint8_t *bytes = padded_class(letter, 8000, &len);
        share->last = cmcache_prepare(bytes, len, &prepared, NULL);
        free(bytes);
        if (share->last == CMCORE_OK)
            share->last = cmcache_define(shared, share->loader, share->len, &prepared, &number);
        share->acknowledged += share->last == CMCORE_OK;
        cmcache_release_prepared(&prepared);
    }
    return NULL;
}

/* There is room for two roots, and so for 64 of these classes. */
static void fails_for_threads(void)
{
    static struct share shares[THREADS];
    pthread_t threads[THREADS];
    int acknowledged = 0;
    shared = new_cache("failing", 8, 64, 4096);
    limit_files(528384 + 2 * 262144);
    for (int at = 0; at < THREADS; at++) {
        shares[at].len = (size_t)sprintf(shares[at].loader, "t%d", at);
        CHECK(pthread_create(&threads[at], NULL, define_until_refused, &shares[at]) == 0);
    }
    for (int at = 0; at < THREADS; at++) {
        pthread_join(threads[at], NULL);
        /* On a busy machine, one may be through with its letters before the device fails. */
        CHECK(shares[at].last == CMCORE_UNSURE || shares[at].last == CMCORE_BROKEN ||
              (shares[at].last == CMCORE_OK && shares[at].acknowledged == 'Z' - 'A' + 1));
        acknowledged += shares[at].acknowledged;
    }
    CHECK(acknowledged > 0 && acknowledged <= 64);
    EXPECT(CMCACHE_DEVICE, cmcache_close(shared));
    limit_files(RLIM_INFINITY);
    shared = NULL;
    EXPECT(CMCORE_OK, cmcache_open(path_of("failing"), &shared, NULL));
    for (int at = 0; shared != NULL && at < THREADS; at++)
        for (int class = 0; class < shares[at].acknowledged; class++) {
            cmcache_record record = {0};
            char letter = (char)('A' + class);
            EXPECT(CMCORE_OK, cmcache_find(shared, shares[at].loader, shares[at].len, &letter, 1,
                                           &record));
            cmcache_release_record(&record);
        }
    EXPECT(CMCORE_OK, cmcache_close(shared));
}

/* ---- */

static void names_statuses(void)
{
    static const int32_t all[] = {0,  1,  2,  3,  4,  5,  6,  7,  8,  9,  10, 11, 12, 13,
                                  14, 16, 20, 21, 22, 23, 24, 25, 26, 27, 28, 40, 41, 42,
                                  43, 44, 45, 46};
    for (size_t at = 0; at < sizeof all / sizeof *all; at++) {
        CHECK(strcmp(cmcache_status_text(all[at]), cmcache_status_text(-1)) != 0);
        for (size_t earlier = 0; earlier < at; earlier++)
            if (!strcmp(cmcache_status_text(all[at]), cmcache_status_text(all[earlier])))
                expect(__LINE__, "two statuses with one text", 0, all[at]);
    }
}

int main(int count, char **words)
{
    if (count == 3 && !strcmp(words[1], "open")) {
        cmcache *cache = NULL;
        int32_t status = cmcache_open(words[2], &cache, NULL);
        return status != CMCORE_OK ? status : cmcache_close(cache);
    }
    if (count != 2)
        return 2;
    snprintf(self, sizeof self, "%s", words[0]);
    snprintf(folder, sizeof folder, "%s", words[1]);
    makes_files();
    refuses_files();
    tags_files();
    locks_files();
    prepares_classes();
    reads_records();
    takes_commands();
    submits_commands();
    checks_names();
    unloads_several();
    runs_out_of_room();
    meets_a_limit();
    serves_threads();
    fails_for_threads();
    names_statuses();
    CHECK(!strcmp(cmcache_version(), CMCACHE_VERSION));
    printf("%d passed, %d failed\n", passed, failed);
    return failed != 0;
}
