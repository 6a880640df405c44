/* `cmcache format` and `cmcache apply FILE` as docs/PROGRAM.md describes them, over c/cmcache.h, so
 * that the scripts that test the program test the C interface too:
 *
 *     script format FILE [--top N] [--roots N] [--slots N]
 *     script apply FILE
 *     script WORD..               anything else is run by the program that CMCACHE names
 *
 * It reads all lines before it runs the first. */
#define _POSIX_C_SOURCE 200809L
#include <errno.h>
#include <stdarg.h>
#include <stdio.h>
#include <stdlib.h>
#include <string.h>
#include <unistd.h>

#include "class_file.h"
#include "cmcache.h"

enum { LINE_LIMIT = 16777216, INPUT_LIMIT = 1 << 26, MOST_WORDS = 64, NAME_LIMIT = 65535 };

struct text {
    const char *at;
    size_t len;
};

static cmcache *cache;
static char input[INPUT_LIMIT];
static bool was_refused;

static void print(const char *form, ...)
{
    static char line[4 * NAME_LIMIT];
    va_list rest;
    va_start(rest, form);
    int len = vsnprintf(line, sizeof line, form, rest);
    va_end(rest);
    if (write(1, line, (size_t)len) != len)
        exit(3);
}

/* ---- words of a line */

/* How many words a line has; 0 if one of them is empty. */
static size_t split(struct text line, struct text *words)
{
    size_t count = 0;
    for (size_t from = 0; from <= line.len && count < MOST_WORDS;) {
        const char *space = memchr(line.at + from, ' ', line.len - from);
        size_t to = space ? (size_t)(space - line.at) : line.len;
        if (to == from)
            return 0;
        words[count++] = (struct text){line.at + from, to - from};
        from = to + 1;
    }
    return count;
}

static int digit_of(char digit)
{
    if (digit >= '0' && digit <= '9')
        return digit - '0';
    if ((digit >= 'A' && digit <= 'F') || (digit >= 'a' && digit <= 'f'))
        return (digit | 0x20) - 'a' + 10;
    return -1;
}

static int byte_of(const char *digits)
{
    int high = digit_of(digits[0]), low = high < 0 ? -1 : digit_of(digits[1]);
    return low < 0 ? -1 : 16 * high + low;
}

static bool is_plain(int byte)
{
    return byte >= 0x21 && byte <= 0x7E && byte != '%';
}

/* The bytes that hexadecimal digits spell, in place of them; false if they spell none. */
static bool from_hex(struct text word, struct text *bytes)
{
    char *to = input + (word.at - input);
    if (word.len % 2)
        return false;
    for (size_t at = 0; at < word.len; at += 2) {
        int byte = byte_of(word.at + at);
        if (byte < 0)
            return false;
        to[at / 2] = (char)byte;
    }
    *bytes = (struct text){to, word.len / 2};
    return true;
}

/* The class name that a word spells, in place of it. */
static bool unescape(struct text word, struct text *name)
{
    char *to = input + (word.at - input);
    size_t len = 0;
    for (size_t at = 0; at < word.len; at++) {
        int byte = (uint8_t)word.at[at];
        if (byte == '%') {
            byte = word.len - at > 2 ? byte_of(word.at + at + 1) : -1;
            if (byte < 0 || is_plain(byte))
                return false;
            at += 2;
        } else if (!is_plain(byte)) {
            return false;
        }
        to[len++] = (char)byte;
    }
    *name = (struct text){to, len};
    return true;
}

/* A name as scripts spell it. */
static const char *escaped(const char *name, size_t len, char *to)
{
    char *at = to;
    for (size_t i = 0; i < len; i++) {
        uint8_t byte = (uint8_t)name[i];
        at += is_plain(byte) ? sprintf(at, "%c", byte) : sprintf(at, "%%%02X", byte);
    }
    *at = 0;
    return to;
}

static const char *name_text(const char *name, size_t len)
{
    static char text[2][3 * NAME_LIMIT + 1];
    static int next;
    next = !next;
    return escaped(name, len, text[next]);
}

/* ---- replies */

static void refuse(int32_t status, const char *text)
{
    was_refused = true;
    print("refused %d %s\n", status, text);
}

static void refuse_class(const cmcore_bad_class *bad)
{
    static const char *const spots[] = {"", "pool", "this", "super", "interface", "field", "method",
                                        "attribute"};
    char text[64];
    unsigned long long at = bad->at;
    if (bad->kind == CMCORE_TRUNCATED)
        strcpy(text, "truncated");
    else if (bad->kind == CMCORE_RULE && (bad->spot == CMCORE_SPOT_THIS
                                          || bad->spot == CMCORE_SPOT_SUPER))
        sprintf(text, "V%u %s", bad->rule, spots[bad->spot]);
    else if (bad->kind == CMCORE_RULE)
        sprintf(text, "V%u %s %llu", bad->rule, spots[bad->spot], at);
    else
        sprintf(text, "%s %llu", bad->kind == CMCORE_TRAILING ? "trailing" : "malformed", at);
    refuse(CMCORE_BAD_CLASS, text);
}

static const char *refusal_text(int32_t status)
{
    static const char *const texts[] = {
        [CMCORE_BAD_NAME] = "name", [CMCORE_LOADER_EXISTS] = "loader exists",
        [CMCORE_NO_LOADER] = "no loader", [CMCORE_CLASS_EXISTS] = "class exists",
        [CMCORE_RECORD_TOO_LONG] = "record too long", [CMCORE_REGION_FULL] = "region full",
        [CMCORE_JOURNAL_FULL] = "journal full", [CMCORE_NO_MOVE] = "no move",
        [CMCORE_NO_MEMORY] = "memory", [CMCORE_NUMBERS_SPENT] = "numbers spent",
        [CMCORE_BAD_LIST] = "list",
    };
    bool has_text = status >= 0 && (size_t)status < sizeof texts / sizeof *texts;
    return has_text && texts[status] ? texts[status] : cmcache_status_text(status);
}

/* The reply to a command; false if the run ends with it. */
static bool reply(int32_t status, uint64_t number, const char *name)
{
    unsigned long long given = number;
    if (status == CMCORE_OK)
        print(name ? "ok %llu %s\n" : "ok %llu\n", given, name);
    else if (status == CMCORE_UNSURE)
        print("unsure %llu\n", given);
    else
        refuse(status, refusal_text(status));
    return status != CMCORE_UNSURE;
}

static bool define(struct text loader, struct text class)
{
    cmcache_prepared prepared = {0};
    cmcore_bad_class bad;
    uint64_t number = 0;
    const uint8_t *bytes = (const uint8_t *)class.at;
    int32_t status = cmcache_prepare(bytes, class.len, &prepared, &bad);
    if (status == CMCORE_BAD_CLASS) {
        refuse_class(&bad);
        return true;
    }
    if (status == CMCORE_OK)
        status = cmcache_define(cache, loader.at, loader.len, &prepared, &number);
    cmcache_release_prepared(&prepared);
    size_t len = 0;
    const char *name = status == CMCORE_OK ? class_name(bytes, &len) : NULL;
    return reply(status, number, name ? name_text(name, len) : NULL);
}

/* The name that a Class of a record's pool leads to. */
static const char *class_text(cmcache_record *record, uint16_t index)
{
    cmcore_constant class, text;
    const uint64_t *words;
    size_t count;
    if (index == 0)
        return "-";
    if (cmcache_record_constant(record, index, &class) != CMCORE_OK
        || cmcache_record_constant(record, class.one, &text) != CMCORE_OK
        || cmcache_record_words(record, &words, &count) != CMCORE_OK)
        return "?";
    return name_text((const char *)words + text.at, text.len);
}

static void find(struct text loader, struct text name)
{
    cmcache_record record = {0};
    const uint64_t *words;
    size_t count;
    uint16_t flags;
    int32_t status = cmcache_find(cache, loader.at, loader.len, name.at, name.len, &record);
    /* In scripts no look-up lacks memory: it is repeated. */
    if (status == CMCORE_NO_MEMORY)
        status = cmcache_find(cache, loader.at, loader.len, name.at, name.len, &record);
    if (status == CMCORE_NONE) {
        print("none\n");
        return;
    }
    if (status != CMCORE_OK) {
        refuse(status, refusal_text(status));
        return;
    }
    cmcache_record_words(&record, &words, &count);
    cmcache_record_flags(&record, &flags);
    print("class %s flags %04x super %s words %zu\n", name_text(name.at, name.len), flags,
          class_text(&record, (uint16_t)(words[1] >> 32)), count);
    cmcache_release_record(&record);
}

typedef int32_t command(cmcache *, const char *, size_t, uint64_t *);

static bool run_command(command *call, struct text text)
{
    uint64_t number = 0;
    int32_t status = call(cache, text.at, text.len, &number);
    return reply(status, number, NULL);
}

static bool is_word(struct text word, const char *wanted)
{
    return word.len == strlen(wanted) && !memcmp(word.at, wanted, word.len);
}

/* Runs a line; false if the run ends with it. */
static bool run_line(struct text line)
{
    static const struct {
        const char *verb;
        command *call;
    } commands[] = {{"loader", cmcache_add_loader}, {"unload", cmcache_unload},
                    {"tighten", cmcache_tighten}};
    struct text words[MOST_WORDS], last;
    size_t count = line.len <= LINE_LIMIT ? split(line, words) : 0;
    for (size_t at = 0; at < 3 && count == 2; at++)
        if (is_word(words[0], commands[at].verb))
            return run_command(commands[at].call, words[1]);
    if (count >= 2 && is_word(words[0], "unloadall"))
        return run_command(cmcache_unload_all, (struct text){words[1].at, line.len - 10});
    if (count == 3 && is_word(words[0], "define") && from_hex(words[2], &last))
        return define(words[1], last);
    if (count == 3 && is_word(words[0], "find") && unescape(words[2], &last))
        find(words[1], last);
    else
        refuse(15, "line");
    return true;
}

/* ---- the program */

static int fail(const char *path, int32_t status, const cmcore_damage *damage)
{
    int cause = errno;
    bool is_refused = status == CMCACHE_DEVICE || status == CMCACHE_BUSY;
    if (status == CMCORE_DAMAGED)
        print("damaged %u %u\n", damage->what, damage->slot);
    else if (status == CMCORE_NO_MEMORY)
        print("memory\n");
    else if (status == CMCACHE_EXISTS)
        print("exists\n");
    else
        print(is_refused ? "device\n" : "not a cache\n");
    if (status == CMCACHE_DEVICE)
        fprintf(stderr, "cmcache: %s: %s (os error %d)\n", path, strerror(cause), cause);
    else if (status == CMCACHE_BUSY)
        fprintf(stderr, "cmcache: %s: in use by another process\n", path);
    return is_refused || status == CMCORE_NO_MEMORY ? 3 : 1;
}

static int format(int count, char **words)
{
    uint32_t sizes[3] = {8, 64, 4096};
    static const char *const names[] = {"--top", "--roots", "--slots"};
    for (int at = 3; at + 1 < count; at += 2)
        for (int name = 0; name < 3; name++)
            if (!strcmp(words[at], names[name]))
                sizes[name] = (uint32_t)strtoul(words[at + 1], NULL, 10);
    int32_t status = cmcache_format(words[2], sizes[0], sizes[1], sizes[2]);
    if (status == CMCORE_OK) {
        print("ok\n");
        return 0;
    }
    int end = fail(words[2], status, NULL);
    if (status != CMCACHE_EXISTS && access(words[2], F_OK) == 0)
        fprintf(stderr, "cmcache: %s holds no cache, and can't be removed\n", words[2]);
    return end;
}

static size_t read_input(void)
{
    size_t len = 0;
    ssize_t got;
    while ((got = read(0, input + len, INPUT_LIMIT - len)) > 0)
        len += (size_t)got;
    return len;
}

static int apply(const char *path)
{
    cmcore_damage damage;
    size_t len = read_input(), from = 0;
    int32_t status = cmcache_open(path, &cache, &damage);
    if (status != CMCORE_OK)
        return fail(path, status, &damage);
    bool runs = true;
    while (runs && from < len) {
        const char *end = memchr(input + from, '\n', len - from);
        size_t to = end ? (size_t)(end - input) : len;
        runs = run_line((struct text){input + from, to - from});
        from = to + 1;
    }
    status = cmcache_close(cache);
    if (status != CMCORE_OK)
        fprintf(stderr, "cmcache: %s: %s (os error %d)\n", path, strerror(errno), errno);
    return status != CMCORE_OK ? 3 : was_refused;
}

int main(int count, char **words)
{
    if (count > 2 && !strcmp(words[1], "format"))
        return format(count, words);
    if (count > 2 && !strcmp(words[1], "apply") && strcmp(words[2], "--memory") != 0)
        return apply(words[2]);
    const char *program = getenv("CMCACHE");
    if (program != NULL)
        execv(program, words);
    fprintf(stderr, "script: CMCACHE names no program\n");
    return 2;
}
