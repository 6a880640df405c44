/* The proved part of cmcache, as C sees it: no thread, no lock, no file.
 *
 * It never touches a device. It says which device call is to be made next, and the caller makes it
 * and says whether it was made. A command's number is known to be stored only once the caller said
 * that the last call of its group was made.
 *
 * cmcache.h is the interface to use: it opens the file, locks, and stores what is accepted.
 *
 * A handle begins as {0}, which is empty, and is filled by one call. Only these functions read or
 * write what is in it; it may be moved as long as no call runs. One call at a time uses a handle;
 * different handles may be used at the same time, and a handle may go from thread to thread if a
 * lock orders that. An export that gets an empty handle, or one of another kind, answers
 * CMCORE_EMPTY and does nothing. If a handle that is to be filled is full, it is released first.
 */
#ifndef CMCORE_H
#define CMCORE_H

#include <stdbool.h>
#include <stddef.h>
#include <stdint.h>

/* What a call answers. 1 to 16 refuse a command, as docs/PROGRAM.md numbers them. */
enum {
    CMCORE_OK = 0,
    CMCORE_BAD_NAME = 1,
    CMCORE_LOADER_EXISTS = 2,
    CMCORE_NO_LOADER = 3,
    CMCORE_CLASS_EXISTS = 4,
    CMCORE_RECORD_TOO_LONG = 5,
    CMCORE_REGION_FULL = 6,
    CMCORE_JOURNAL_FULL = 7,
    CMCORE_NO_MOVE = 8,
    CMCORE_NO_MEMORY = 9,
    CMCORE_BROKEN = 10,       /* the device failed earlier */
    CMCORE_CLOSED = 11,
    CMCORE_NUMBERS_SPENT = 12,
    CMCORE_UNSURE = 13,       /* cmcache.h alone */
    CMCORE_BAD_CLASS = 14,
    CMCORE_BAD_LIST = 16,
    CMCORE_BAD_SIZES = 20,
    CMCORE_NOT_A_CACHE = 21,
    CMCORE_DAMAGED = 22,
    CMCORE_OLDER = 23,        /* a file of version 1: cmcore_upgrade comes first */
    CMCORE_NONE = 24,         /* there is no such class, constant, member or code */
    CMCORE_EMPTY = 25,
    CMCORE_TOO_LONG = 26,     /* there are more than 2^40 bytes */
    CMCORE_NO_ROOM = 27,      /* there is more than the caller has room for */
    CMCORE_OTHER = 28         /* another class has this name */
};

typedef struct {
    bool full;
    void *at;
} cmcore_handle;

/* A device call that is to be made. */
enum { CMCORE_NO_CALL = 0, CMCORE_WRITE = 1, CMCORE_CUT = 2, CMCORE_SYNC = 3 };

typedef struct {
    uint32_t kind;
    uint64_t at;          /* of a write: where it begins; of a cut: the length */
    const uint8_t *bytes; /* of a write: valid until the next cmcore_step with this handle */
    size_t len;
} cmcore_call;

/* Why bytes are no class that keeps the rules. */
enum {
    CMCORE_TRUNCATED = 1,
    CMCORE_TRAILING = 2,
    CMCORE_MALFORMED = 3,
    CMCORE_RULE = 4,
    CMCORE_OTHER_VERSION = 5 /* it begins as a class file of another version than 52.0 */
};
enum {
    CMCORE_SPOT_POOL = 1,
    CMCORE_SPOT_THIS = 2,
    CMCORE_SPOT_SUPER = 3,
    CMCORE_SPOT_INTERFACE = 4,
    CMCORE_SPOT_FIELD = 5,
    CMCORE_SPOT_METHOD = 6,
    CMCORE_SPOT_ATTRIBUTE = 7
};

typedef struct {
    uint32_t kind;
    uint32_t rule;  /* of CMCORE_RULE: 1 to 24, as docs/RULES.md numbers them */
    uint32_t spot;  /* of CMCORE_RULE */
    uint64_t at;    /* trailing, malformed: a byte; a rule: the index at the spot; */
                    /* another version: 65,536 * its major number + its minor one */
} cmcore_bad_class;

/* The first damage of a file: what (1 to 9, as docs/REGION.md numbers them), and in which slot. */
typedef struct {
    uint32_t what;
    uint32_t slot;
} cmcore_damage;

/* ---- calls to be made for a whole file: a handle of kind `calls` */

/* The calls that make an empty file of these sizes. OK, BAD_SIZES, NO_MEMORY. */
int32_t cmcore_format(uint32_t top, uint32_t roots, uint32_t slots, cmcore_handle *calls);

/* The calls that make a file of version 1 one of version 2, given the file's bytes. A crash between
 * any of them leaves a file with the same loaders and classes. OK, NOT_A_CACHE, DAMAGED, TOO_LONG,
 * NO_MEMORY. */
int32_t cmcore_upgrade(const uint8_t *bytes, size_t len, cmcore_handle *calls,
                       cmcore_damage *damage);

/* ---- a cache */

/* Opens the cache that a file's bytes hold. The bytes are read during the call alone. All of them
 * must be durable before the first cmcore_step: sync the file first. OK, NOT_A_CACHE, DAMAGED,
 * TOO_LONG, OLDER, NO_MEMORY. */
int32_t cmcore_open(const uint8_t *bytes, size_t len, cmcore_handle *cache, cmcore_damage *damage);

/* Each gives a command the next number, or refuses it and changes nothing. Nothing is stored yet.
 * After cmcore_define the prepared class is as it was. */
int32_t cmcore_add_loader(cmcore_handle *cache, const uint8_t *loader, size_t loader_len,
                          uint64_t *number);
int32_t cmcore_define(cmcore_handle *cache, const uint8_t *loader, size_t loader_len,
                      cmcore_handle *prepared, uint64_t *number);
int32_t cmcore_unload(cmcore_handle *cache, const uint8_t *loader, size_t loader_len,
                      uint64_t *number);
int32_t cmcore_tighten(cmcore_handle *cache, const uint8_t *loader, size_t loader_len,
                       uint64_t *number);
/* The names stand in one text, with one space between them. */
int32_t cmcore_unload_all(cmcore_handle *cache, const uint8_t *loaders, size_t loaders_len,
                          uint64_t *number);

/* The record of a class as accepted, whether or not it is stored: a share of it, which stays valid
 * when the class is unloaded and the cache is released. OK, NONE, NO_MEMORY. */
int32_t cmcore_find(cmcore_handle *cache, const uint8_t *loader, size_t loader_len,
                    const uint8_t *name, size_t name_len, cmcore_handle *record);

/* Whether the class of the prepared class's name that the loader has is the same: its record has
 * the same words. OK; OTHER, another class has the name; NONE, NO_MEMORY. */
int32_t cmcore_same(cmcore_handle *cache, const uint8_t *loader, size_t loader_len,
                    cmcore_handle *prepared);

/* The names of the loaders, and of the classes of one of them, in byte order, as they are now: a
 * handle of kind `names`, which stays as it is. OK, NO_LOADER, NO_MEMORY. */
int32_t cmcore_loader_names(cmcore_handle *cache, cmcore_handle *names);
int32_t cmcore_class_names(cmcore_handle *cache, const uint8_t *loader, size_t loader_len,
                           cmcore_handle *names);

/* One of the names, counted from 0, where it is; valid until the handle is released. OK, NONE. */
int32_t cmcore_name(cmcore_handle *names, size_t at, const uint8_t **name, size_t *len);

/* The next step: it is told whether the call that was to be made was made, which it ignores if
 * there was none, and has the next one noted, for cmcore_next_call. A handle of kind `calls` shows
 * its first call before the first step, a cache none.
 *
 * `stored` is set to the number of the last command that is stored, only in a step that is told
 * that the last call of a group was made. Such a step has no call noted; the next one may. If a
 * step does neither, all that was accepted is stored. Of a handle of kind `calls` nothing is
 * stored.
 *
 * After a call that wasn't made, or can't be noted, no call is asked for any more, no number is
 * told, and each command is refused as BROKEN; cmcore_find still finds. OK, BROKEN. */
int32_t cmcore_step(cmcore_handle *cache_or_calls, bool made, uint64_t *stored);

/* The device call that is to be made now; kind NO_CALL if there is none. OK. */
int32_t cmcore_next_call(cmcore_handle *cache_or_calls, cmcore_call *call);

typedef struct {
    uint64_t accepted; /* the number of the last command that was accepted */
    uint64_t stored;   /* the number of the last command that is known to be stored */
    uint32_t top;
    uint32_t roots;
    uint32_t slots;
    size_t live;       /* how many loaders and classes live */
    size_t live_slots; /* how many slots they take; at half of `slots` the cache is full */
} cmcore_stats;

int32_t cmcore_get_stats(cmcore_handle *cache, cmcore_stats *stats);

/* ---- a class that is ready to be defined */

/* Reads and judges a class file, and lays its record. It may serve several cmcore_define. OK,
 * BAD_CLASS (and *bad says why), RECORD_TOO_LONG, NO_MEMORY. */
int32_t cmcore_prepare(const uint8_t *bytes, size_t len, cmcore_handle *prepared,
                       cmcore_bad_class *bad);

/* ---- a record; docs/RECORD.md describes its words */

/* Its words, where they are; valid until the handle is released. */
int32_t cmcore_record_words(cmcore_handle *record, const uint64_t **words, size_t *count);

int32_t cmcore_record_flags(cmcore_handle *record, uint16_t *flags);

/* A constant of the pool: its tag as in JVMS table 4.4-A, and what belongs to the tag. */
typedef struct {
    uint8_t tag;
    uint8_t kind;   /* of a MethodHandle: its reference_kind */
    uint16_t one;   /* the first index */
    uint16_t two;   /* the second index */
    uint16_t len;   /* of a Utf8: how many bytes it has */
    uint32_t at;    /* of a Utf8: where they begin, in bytes from the record's first byte */
    uint64_t value; /* of an Integer, Float, Long or Double: its bits */
} cmcore_constant;

int32_t cmcore_record_constant(cmcore_handle *record, uint16_t index, cmcore_constant *constant);

typedef struct {
    bool is_method;
    uint16_t index;
    uint16_t flags;
    uint16_t attributes;
} cmcore_member;

/* The first one of this name and descriptor. OK, NONE. */
int32_t cmcore_record_field(cmcore_handle *record, const uint8_t *name, size_t name_len,
                            const uint8_t *descriptor, size_t descriptor_len,
                            cmcore_member *member);
int32_t cmcore_record_method(cmcore_handle *record, const uint8_t *name, size_t name_len,
                             const uint8_t *descriptor, size_t descriptor_len,
                             cmcore_member *member);

/* Where the code of a method is; places count bytes from the record's first byte. */
typedef struct {
    uint16_t max_stack;
    uint16_t max_locals;
    uint16_t handlers;
    uint32_t code_at;
    uint32_t code_len;
    uint32_t handlers_at;
} cmcore_code;

int32_t cmcore_record_code(cmcore_handle *record, const cmcore_member *method, cmcore_code *code);

/* ---- a view of a file's bytes
 *
 * The caller owns the bytes, the rows and the loaders. No call but cmcore_view_open writes to them,
 * and none keeps anything, so any number of these calls may run at the same time. The bytes must
 * not change during a call. What is found in other bytes than those that were opened may be
 * missing, but it is never anything else than what its call says. */

/* A live class. */
typedef struct {
    uint64_t loader; /* the number of its loader */
    uint64_t at;     /* where its record begins, in bytes from the first byte */
    uint32_t words;  /* how many words the record has */
    uint32_t slot;   /* the slot of the entry that defined it */
    uint32_t mark;   /* what it is sorted by */
} cmcore_view_row;

/* A live loader. */
typedef struct {
    uint64_t number;
    uint32_t len;
    uint8_t name[96];
} cmcore_view_loader;

typedef struct {
    size_t rows;     /* one for each class */
    size_t loaders;
    uint64_t number; /* the number of the last command */
} cmcore_view_counts;

/* Opens a view of a file's bytes: writes its rows and loaders from the front on, the latter in byte
 * order of their names. No file has more than 32,768 of either. It looks at the journal and at the
 * names in the records; no record is judged. OK; NO_ROOM, and *counts says how much there is;
 * NOT_A_CACHE, DAMAGED (and *damage says where), NO_MEMORY. If the bytes stand for a cache it is
 * one of OK, NO_ROOM and NO_MEMORY. */
int32_t cmcore_view_open(const uint8_t *bytes, size_t len, cmcore_view_row *rows, size_t row_room,
                         cmcore_view_loader *loaders, size_t loader_room,
                         cmcore_view_counts *counts, cmcore_damage *damage);

/* Where the row of the class of this name in the loader of this name is. Its record isn't judged.
 * OK, NONE. */
int32_t cmcore_view_find(const uint8_t *bytes, size_t len, const cmcore_view_row *rows,
                         size_t row_count, const cmcore_view_loader *loaders, size_t loader_count,
                         const uint8_t *loader, size_t loader_len, const uint8_t *name,
                         size_t name_len, size_t *at);

/* Judges the record of a row. OK: it is the record of a class that keeps the rules, and has the
 * name by which the row was found. DAMAGED, NO_MEMORY. */
int32_t cmcore_view_judge(const uint8_t *bytes, size_t len, const cmcore_view_row *row);

/* The number of the loader of this name. OK, NONE. */
int32_t cmcore_view_loader_number(const cmcore_view_loader *loaders, size_t loader_count,
                                  const uint8_t *name, size_t name_len, uint64_t *number);

/* Where the first row of the loader of this number is, from a place on. OK, NONE. */
int32_t cmcore_view_next(const cmcore_view_row *rows, size_t row_count, uint64_t loader,
                         size_t from, size_t *at);

/* The name that a row's record shows, where it is in the bytes. OK. */
int32_t cmcore_view_name(const uint8_t *bytes, size_t len, const cmcore_view_row *row,
                         const uint8_t **name, size_t *name_len);

/* ---- the parts of a class, from the words of its record
 *
 * The words are those of cmcore_record_words, or any others: each call reads within them, and what
 * it says is the class's part if they are a class's record. No handle is used: any number of
 * threads may read the same words at once. What isn't there leaves what was to be set as it was. */

/* Where some bytes are, in bytes from the record's first byte. */
typedef struct {
    uint32_t at;
    uint32_t len;
} cmcore_place;

/* OK. */
int32_t cmcore_words_flags(const uint64_t *words, size_t count, uint16_t *flags);
int32_t cmcore_words_class_name(const uint64_t *words, size_t count, cmcore_place *name);

/* OK, NONE. */
int32_t cmcore_words_super_name(const uint64_t *words, size_t count, cmcore_place *name);

/* OK. */
int32_t cmcore_words_interface_count(const uint64_t *words, size_t count, uint16_t *interfaces);

/* The name of the interface at an index, which counts from 0. OK, NONE. */
int32_t cmcore_words_interface(const uint64_t *words, size_t count, uint16_t index,
                               cmcore_place *name);

/* One more than the last index of the pool. OK. */
int32_t cmcore_words_pool_count(const uint64_t *words, size_t count, uint16_t *pool_count);

/* OK, NONE. */
int32_t cmcore_words_constant(const uint64_t *words, size_t count, uint16_t index,
                              cmcore_constant *constant);

/* The first constant after the one at an index, or the first of all after 0, and its index. `after`
 * is 0 or the index of a constant. OK, NONE. */
int32_t cmcore_words_next_constant(const uint64_t *words, size_t count, uint16_t after,
                                   uint16_t *index, cmcore_constant *constant);

typedef struct {
    uint16_t flags;
    cmcore_place name;
    cmcore_place descriptor;
    uint16_t attributes; /* how many it has */
} cmcore_member_part;

/* OK. */
int32_t cmcore_words_field_count(const uint64_t *words, size_t count, uint16_t *fields);
int32_t cmcore_words_method_count(const uint64_t *words, size_t count, uint16_t *methods);

/* The one at an index, which counts from 0. OK, NONE. */
int32_t cmcore_words_field(const uint64_t *words, size_t count, uint16_t index,
                           cmcore_member_part *field);
int32_t cmcore_words_method(const uint64_t *words, size_t count, uint16_t index,
                            cmcore_member_part *method);

/* Whose attributes are meant: those of the class, of the field or of the method at an index. */
enum { CMCORE_OF_CLASS = 0, CMCORE_OF_FIELD = 1, CMCORE_OF_METHOD = 2 };

typedef struct {
    cmcore_place name;
    cmcore_place content;
} cmcore_attribute;

/* OK; there are none if there is no such member. */
int32_t cmcore_words_attribute_count(const uint64_t *words, size_t count, uint32_t of,
                                     uint16_t member, uint16_t *attributes);

/* The attribute at an index, which counts from 0. OK, NONE. */
int32_t cmcore_words_attribute(const uint64_t *words, size_t count, uint32_t of, uint16_t member,
                               uint16_t index, cmcore_attribute *attribute);

/* The first attribute of a name. OK, NONE. */
int32_t cmcore_words_attribute_named(const uint64_t *words, size_t count, uint32_t of,
                                     uint16_t member, const uint8_t *name, size_t name_len,
                                     cmcore_attribute *attribute);

/* The attributes of a method's code (JVMS 4.7.3). */
typedef struct {
    uint64_t from; /* the byte of the Code's content at which the first one begins */
    uint16_t count;
} cmcore_nested;

/* Given the content of a Code. OK, NONE if it ends before it tells their count. */
int32_t cmcore_words_nested(const uint64_t *words, size_t count, const cmcore_place *code,
                            cmcore_nested *nested);

/* The attribute that begins at a byte of the content; the next one begins 6 bytes and the length of
 * its own content after that. OK, NONE if the content ends before the attribute does. */
int32_t cmcore_words_nested_attribute(const uint64_t *words, size_t count,
                                      const cmcore_place *code, uint64_t from,
                                      cmcore_attribute *attribute);

/* The class file, exactly the bytes that were defined; *len is how many there are. OK; NO_ROOM if
 * they are more than `size`: nothing is written then; NO_MEMORY; NONE if the words are no
 * record. */
int32_t cmcore_words_class_file(const uint64_t *words, size_t count, uint8_t *out, size_t size,
                                size_t *len);

/* ---- the tag of files; docs/FRESH.md says what is hashed */

/* The digest of the files that were added so far; {0} is that of none. */
typedef struct {
    uint8_t bytes[32];
} cmcore_tag;

/* Adds a class file. OK. */
int32_t cmcore_tag_class(const uint8_t *bytes, size_t len, cmcore_tag *tag);

/* Adds a jar, of which only the directory is read; or another file, of which all bytes are. OK, and
 * NO_MEMORY: the digest is as it was. */
int32_t cmcore_tag_jar(const uint8_t *bytes, size_t len, cmcore_tag *tag);

/* ---- any handle */

/* Empties a handle, and gives back its memory. What a cache accepted and the caller wasn't told to
 * be stored may or may not be in the file. Does nothing to an empty handle. OK. */
int32_t cmcore_release(cmcore_handle *handle);

#endif
