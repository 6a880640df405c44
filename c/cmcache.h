/* A cache of class metadata in a file, for programs in C and for those that call C.
 *
 * A cache is used by any number of threads at once. A changing call returns CMCORE_OK only once its
 * command is stored, so that no crash loses it; commands of threads that wait at the same time are
 * stored together. docs/C.md has examples, and says what of this is proved.
 *
 * Who owns what. A cache is made by cmcache_open and belongs to the caller, who gives it back by
 * cmcache_close. A cmcache_prepared or cmcache_record begins as CMCACHE_EMPTY, or {0}; a call fills
 * it, and it must be empty then. Neither is copied: of a call with a copy nothing is promised. The
 * caller releases it, before or after the cache is closed. Names and bytes that are passed in are
 * read during the call alone.
 *
 * What may run at the same time. All calls with one cache, except cmcache_close: no other call with
 * the cache may run by then, or begin later. Calls with one prepared class, or with one record, run
 * one at a time; different ones may be used at the same time, even those of the same class.
 *
 * After fork the child must not use the caches of its parent. The file stays locked as long as such
 * a child lives, unless it calls exec. No call may be made in a signal handler, or be cut short by
 * pthread_cancel or longjmp.
 *
 * Errors. Each call returns a status: CMCORE_OK, one of cmcore.h, or one of those below. What a
 * pointer leads to is set only if the call returns what its comment says, and is otherwise as it
 * was.
 */
#ifndef CMCACHE_H
#define CMCACHE_H

#ifdef __cplusplus
extern "C" {
#endif

#include "cmcore.h"

/* Further statuses. After CMCACHE_DEVICE errno has the system's cause. */
enum {
    CMCACHE_DEVICE = 40,      /* a call of the system on the file failed */
    CMCACHE_EXISTS = 41,      /* something has the name of the file that is to be made */
    CMCACHE_BUSY = 42,        /* the file is in use, in this process or another */
    CMCACHE_NOT_REGULAR = 43, /* a folder, a pipe, a device */
    CMCACHE_NO_FILE = 44,     /* nothing has this name */
    CMCACHE_NOT_ALLOWED = 45, /* the file, or its folder, may not be opened in this way */
    CMCACHE_READ_ONLY = 46    /* a command for a cache that was opened only to read it */
};

typedef struct cmcache cmcache;
typedef struct cmcache_view cmcache_view;

/* Each is its handle: the inline calls below are calls of cmcore.h, which other languages make. */
typedef struct {
    cmcore_handle handle;
} cmcache_prepared;

typedef struct {
    cmcore_handle handle;
} cmcache_record;

/* What a prepared class or a record is before it is filled. */
#define CMCACHE_EMPTY {{false, NULL}}

/* The version of this header, and of the library. */
#define CMCACHE_VERSION "0.2.0"
const char *cmcache_version(void);

/* What a status, the damage of a file, or the fault of a class means, in a few words of English. */
const char *cmcache_status_text(int32_t status);
const char *cmcache_damage_text(const cmcore_damage *damage);
const char *cmcache_bad_class_text(const cmcore_bad_class *bad);

/* ---- a file */

/* Makes a new file with an empty cache. A root has 128 * 2^top words of 8 bytes (top is 3 to 12),
 * the file has at most `roots` of them (1 to 256), and each half of its journal has `slots` slots
 * (256 to 65536). File and folder are synced. OK, EXISTS; BAD_SIZES, NO_FILE (there is no such
 * folder), NOT_ALLOWED, DEVICE, NO_MEMORY: after these there is no such file, unless it can't be
 * removed. */
int32_t cmcache_format(const char *path, uint32_t top, uint32_t roots, uint32_t slots);

/* Opens the cache in a file, and locks the file (flock) until it is closed, as the programs of
 * cmcache do: meanwhile nothing else writes to it. A file of version 1 is upgraded; if that fails,
 * it still holds the same loaders and classes. The file is mapped while it is read: if its device
 * can't give a byte then, or somebody cuts the file, the system sends SIGBUS. OK, and *cache is
 * set; DAMAGED, and *damage says where, unless it is NULL; NOT_A_CACHE, BUSY, NOT_REGULAR, NO_FILE,
 * NOT_ALLOWED, TOO_LONG, DEVICE; NO_MEMORY, also if no thread can be started. */
int32_t cmcache_open(const char *path, cmcache **cache, cmcore_damage *damage);

/* How a cache is opened. */
typedef struct {
    bool create;      /* make the file if there is none, or format it if it is empty: */
    uint32_t top;     /* the sizes of cmcache_format */
    uint32_t roots;
    uint32_t slots;
    bool read_only;   /* commands are refused as READ_ONLY, and nothing is ever written: */
                      /* any number of processes may have the file so at once */
    uint32_t wait_ms; /* if the file is in use: wait for it at most these milliseconds */
} cmcache_options;

/* What cmcache_open takes; with other members, sizes that serve some 2,000 classes. */
#define CMCACHE_DEFAULTS {false, 8, 64, 4096, false, 0}

/* The same with options. In addition BAD_SIZES, if the file is to be made; and OLDER for a file of
 * version 1 that is opened only to read it, since it can't be upgraded. A process that is killed
 * while it makes the file leaves one that is empty, which is made again, or NOT_A_CACHE. */
int32_t cmcache_open_with(const char *path, const cmcache_options *options, cmcache **cache,
                          cmcore_damage *damage);

/* Sizes for a file that is to hold this many classes, of this many bytes of class files in all,
 * with room for as many again where a file can have that. OK; BAD_SIZES if no file holds them. */
int32_t cmcache_sizes_for(uint64_t classes, uint64_t bytes, uint32_t *top, uint32_t *roots,
                          uint32_t *slots);

/* Closes the cache: all that was accepted is stored, unless the device failed. The cache is gone
 * whatever this returns. OK, and DEVICE if the device failed since the cache was opened. NULL is no
 * cache: OK. */
int32_t cmcache_close(cmcache *cache);

/* ---- a class that is ready to be defined */

/* Reads and checks a class file, and makes its record. It needs no cache, and takes no lock. OK;
 * BAD_CLASS, and *bad says why, unless it is NULL; RECORD_TOO_LONG, NO_MEMORY. */
static inline int32_t cmcache_prepare(const uint8_t *bytes, size_t len,
                                      cmcache_prepared *prepared, cmcore_bad_class *bad)
{
    cmcore_bad_class why;
    return cmcore_prepare(bytes, len, &prepared->handle, bad ? bad : &why);
}

/* Gives back its memory. Does nothing if it is empty. */
static inline void cmcache_release_prepared(cmcache_prepared *prepared)
{
    cmcore_release(&prepared->handle);
}

/* ---- commands
 *
 * OK: the command has this number, and is stored. CMCORE_UNSURE: it has this number, and the device
 * failed; whether it is stored is known once the file is opened again. Anything else: the command
 * is refused, nothing changed, and no number is set. Once the device has failed every command is
 * refused as CMCORE_BROKEN; look-ups still find what was accepted.
 *
 * The statuses of refusals are those of docs/PROGRAM.md.
 *
 * A write beyond the limit on the size of files (RLIMIT_FSIZE) is a failure of the device. The
 * system's signal for it, SIGXFSZ, doesn't end the program if a command caused it, since the thread
 * that stores has all signals blocked; in cmcache_format and cmcache_open, which write in the
 * caller's thread, it does, unless the program ignores it. */

int32_t cmcache_add_loader(cmcache *cache, const char *loader, size_t loader_len,
                           uint64_t *number);

/* One prepared class may be defined in several loaders and caches. */
int32_t cmcache_define(cmcache *cache, const char *loader, size_t loader_len,
                       cmcache_prepared *prepared, uint64_t *number);

int32_t cmcache_unload(cmcache *cache, const char *loader, size_t loader_len, uint64_t *number);

/* Unloads one to seven loaders: all of them, also after a crash, or none. Their names stand in one
 * text, with one space between them. */
int32_t cmcache_unload_all(cmcache *cache, const char *loaders, size_t loaders_len,
                           uint64_t *number);

/* Compacts: moves the records on the loader's last chunk to a better one. */
int32_t cmcache_tighten(cmcache *cache, const char *loader, size_t loader_len, uint64_t *number);

/* ---- commands that aren't waited for
 *
 * Each is the command above without the wait: OK, and the command has this number, is found by
 * look-ups at once, and will be stored with those before it; or it is refused, as above. A crash
 * leaves the commands up to some number, with all that were waited for or known to be stored; of
 * the others those with the highest numbers may be lost. So a server submits the classes of its
 * start, works on, and waits for the last number. */

int32_t cmcache_submit_add_loader(cmcache *cache, const char *loader, size_t loader_len,
                                  uint64_t *number);
int32_t cmcache_submit_define(cmcache *cache, const char *loader, size_t loader_len,
                              cmcache_prepared *prepared, uint64_t *number);
int32_t cmcache_submit_unload(cmcache *cache, const char *loader, size_t loader_len,
                              uint64_t *number);
int32_t cmcache_submit_unload_all(cmcache *cache, const char *loaders, size_t loaders_len,
                                  uint64_t *number);
int32_t cmcache_submit_tighten(cmcache *cache, const char *loader, size_t loader_len,
                               uint64_t *number);

/* Waits until the command of this number, and so each before it, is stored. OK; UNSURE if the
 * device failed before that is known; NONE if no command has the number yet. */
int32_t cmcache_wait(cmcache *cache, uint64_t number);

/* Sets the number of the last command that is known to be stored, without a wait. OK, and BROKEN
 * once the device has failed: no later one will be known. */
int32_t cmcache_stored(cmcache *cache, uint64_t *number);

/* ---- look-ups */

/* The record of a class as accepted, which may be before it is stored: only the thread that defined
 * it knows that it is. It stays valid until it is released, even if the class is unloaded and the
 * cache closed. OK, CMCORE_NONE, NO_MEMORY. */
int32_t cmcache_find(cmcache *cache, const char *loader, size_t loader_len, const char *name,
                     size_t name_len, cmcache_record *record);

/* OK. */
int32_t cmcache_stats(cmcache *cache, cmcore_stats *stats);

/* Whether the class of this prepared class's name that the loader has is the same: its record has
 * the same words. OK; CMCORE_OTHER: another class has the name; NONE, NO_MEMORY. */
int32_t cmcache_same(cmcache *cache, const char *loader, size_t loader_len,
                     cmcache_prepared *prepared);

/* ---- listing
 *
 * A name is given in a call of `each`, with what was passed as `context`, and is valid until it
 * returns. If it returns anything but 0, the listing ends and returns that. */

typedef int32_t cmcache_each(void *context, const char *name, size_t len);

/* The loaders of the accepted cache, and the classes of one of them, in byte order of their names,
 * as they are at one moment during the call. No lock is held while `each` runs, so it may make any
 * call with the cache, apart from closing it. OK, NO_LOADER, NO_MEMORY. */
int32_t cmcache_loaders(cmcache *cache, cmcache_each *each, void *context);
int32_t cmcache_classes(cmcache *cache, const char *loader, size_t loader_len, cmcache_each *each,
                        void *context);

/* Whether the loader has a class of this name. OK, CMCORE_NONE. */
int32_t cmcache_contains(cmcache *cache, const char *loader, size_t loader_len, const char *name,
                         size_t name_len);

/* ---- a file that is only read
 *
 * A view maps a file, and finds its classes in the mapping. It is open within milliseconds, since
 * no record is judged before it is asked for; from then on the record is known to be good. What is
 * found is what a cache of the file would find; docs/VIEW.md has what is promised of a file that is
 * damaged.
 *
 * The file may be on a file system that can't be written to, and the process needs no right to
 * write to it. Any number of processes and threads may view a file at once, and its pages are
 * shared. It is locked until the view is closed: meanwhile no cache of it is opened for writing,
 * which would be BUSY, as this call is while one is open. A file of version 1 is viewed as it is.
 *
 * All calls with one view may run at the same time, without a lock, except cmcache_view_close: no
 * other call with the view may run by then, or begin later. If somebody cuts the file, or its
 * device can't give a byte, the system sends SIGBUS to whoever reads it: in any of these calls, and
 * where the words of a record are read. Whoever writes to the file in spite of the lock breaks all
 * of this. */

/* The words of a record, where they are in the mapping: valid until the view is closed.
 * docs/RECORD.md describes them. */
typedef struct {
    const uint64_t *words;
    size_t count;
} cmcache_words;

/* OK, and *view is set; DAMAGED, and *damage says where, unless it is NULL; NOT_A_CACHE, BUSY,
 * NOT_REGULAR, NO_FILE, NOT_ALLOWED, TOO_LONG, DEVICE, NO_MEMORY. */
int32_t cmcache_open_read_only(const char *path, cmcache_view **view, cmcore_damage *damage);

/* Unmaps and unlocks the file. NULL is no view. */
void cmcache_view_close(cmcache_view *view);

/* The record of a class. OK, NONE, NO_MEMORY; DAMAGED if what has the name isn't the record of a
 * class that keeps the rules. */
int32_t cmcache_view_find(const cmcache_view *view, const char *loader, size_t loader_len,
                          const char *name, size_t name_len, cmcache_words *words);

/* The loaders, in byte order of their names, and the classes of one of them, in no particular
 * order; records aren't judged for that. OK, NO_LOADER. */
int32_t cmcache_view_loaders(const cmcache_view *view, cmcache_each *each, void *context);
int32_t cmcache_view_classes(const cmcache_view *view, const char *loader, size_t loader_len,
                             cmcache_each *each, void *context);

/* How many classes (`rows`) and loaders there are, and the number of the last command. OK. */
int32_t cmcache_view_stats(const cmcache_view *view, cmcore_view_counts *counts);

/* ---- a record; docs/RECORD.md describes its words
 *
 * An empty record gives CMCORE_EMPTY. */

/* Its words, which stay where they are until it is released. OK. */
static inline int32_t cmcache_record_words(cmcache_record *record, const uint64_t **words,
                                           size_t *count)
{
    return cmcore_record_words(&record->handle, words, count);
}

/* OK. */
static inline int32_t cmcache_record_flags(cmcache_record *record, uint16_t *flags)
{
    return cmcore_record_flags(&record->handle, flags);
}

/* OK, CMCORE_NONE. */
static inline int32_t cmcache_record_constant(cmcache_record *record, uint16_t index,
                                              cmcore_constant *constant)
{
    return cmcore_record_constant(&record->handle, index, constant);
}

/* The first field of this name and descriptor. OK, CMCORE_NONE. */
static inline int32_t cmcache_record_field(cmcache_record *record, const char *name,
                                           size_t name_len, const char *descriptor,
                                           size_t descriptor_len, cmcore_member *member)
{
    return cmcore_record_field(&record->handle, (const uint8_t *)name, name_len,
                               (const uint8_t *)descriptor, descriptor_len, member);
}

/* The same of methods. */
static inline int32_t cmcache_record_method(cmcache_record *record, const char *name,
                                            size_t name_len, const char *descriptor,
                                            size_t descriptor_len, cmcore_member *member)
{
    return cmcore_record_method(&record->handle, (const uint8_t *)name, name_len,
                                (const uint8_t *)descriptor, descriptor_len, member);
}

/* Where a method's code lies in the record. OK, CMCORE_NONE. */
static inline int32_t cmcache_record_code(cmcache_record *record, const cmcore_member *method,
                                          cmcore_code *code)
{
    return cmcore_record_code(&record->handle, method, code);
}

/* ---- the parts of a class
 *
 * Each is the call of cmcore.h with the words of the record; what it sets is described there. */

/* OK. */
static inline int32_t cmcache_record_name(cmcache_record *record, cmcore_place *name)
{
    const uint64_t *words;
    size_t count;
    int32_t status = cmcache_record_words(record, &words, &count);
    return status ? status : cmcore_words_class_name(words, count, name);
}

/* OK, CMCORE_NONE. */
static inline int32_t cmcache_record_super_name(cmcache_record *record, cmcore_place *name)
{
    const uint64_t *words;
    size_t count;
    int32_t status = cmcache_record_words(record, &words, &count);
    return status ? status : cmcore_words_super_name(words, count, name);
}

/* OK. */
static inline int32_t cmcache_record_interface_count(cmcache_record *record, uint16_t *interfaces)
{
    const uint64_t *words;
    size_t count;
    int32_t status = cmcache_record_words(record, &words, &count);
    return status ? status : cmcore_words_interface_count(words, count, interfaces);
}

/* The name of the interface at an index, which counts from 0. OK, CMCORE_NONE. */
static inline int32_t cmcache_record_interface(cmcache_record *record, uint16_t index,
                                               cmcore_place *name)
{
    const uint64_t *words;
    size_t count;
    int32_t status = cmcache_record_words(record, &words, &count);
    return status ? status : cmcore_words_interface(words, count, index, name);
}

/* One more than the last index of the pool. OK. */
static inline int32_t cmcache_record_pool_count(cmcache_record *record, uint16_t *pool_count)
{
    const uint64_t *words;
    size_t count;
    int32_t status = cmcache_record_words(record, &words, &count);
    return status ? status : cmcore_words_pool_count(words, count, pool_count);
}

/* The constant after the one at an index, or the first one after 0. OK, CMCORE_NONE. */
static inline int32_t cmcache_record_next_constant(cmcache_record *record, uint16_t after,
                                                   uint16_t *index, cmcore_constant *constant)
{
    const uint64_t *words;
    size_t count;
    int32_t status = cmcache_record_words(record, &words, &count);
    return status ? status : cmcore_words_next_constant(words, count, after, index, constant);
}

/* OK. */
static inline int32_t cmcache_record_field_count(cmcache_record *record, uint16_t *fields)
{
    const uint64_t *words;
    size_t count;
    int32_t status = cmcache_record_words(record, &words, &count);
    return status ? status : cmcore_words_field_count(words, count, fields);
}

/* OK. */
static inline int32_t cmcache_record_method_count(cmcache_record *record, uint16_t *methods)
{
    const uint64_t *words;
    size_t count;
    int32_t status = cmcache_record_words(record, &words, &count);
    return status ? status : cmcore_words_method_count(words, count, methods);
}

/* The field at an index, which counts from 0. OK, CMCORE_NONE. */
static inline int32_t cmcache_record_field_at(cmcache_record *record, uint16_t index,
                                              cmcore_member_part *field)
{
    const uint64_t *words;
    size_t count;
    int32_t status = cmcache_record_words(record, &words, &count);
    return status ? status : cmcore_words_field(words, count, index, field);
}

/* The same of methods. */
static inline int32_t cmcache_record_method_at(cmcache_record *record, uint16_t index,
                                               cmcore_member_part *method)
{
    const uint64_t *words;
    size_t count;
    int32_t status = cmcache_record_words(record, &words, &count);
    return status ? status : cmcore_words_method(words, count, index, method);
}

/* How many attributes the class has, or the field or method at an index. OK. */
static inline int32_t cmcache_record_attribute_count(cmcache_record *record, uint32_t of,
                                                     uint16_t member, uint16_t *attributes)
{
    const uint64_t *words;
    size_t count;
    int32_t status = cmcache_record_words(record, &words, &count);
    return status ? status : cmcore_words_attribute_count(words, count, of, member, attributes);
}

/* The attribute at an index of these. OK, CMCORE_NONE. */
static inline int32_t cmcache_record_attribute(cmcache_record *record, uint32_t of, uint16_t member,
                                               uint16_t index, cmcore_attribute *attribute)
{
    const uint64_t *words;
    size_t count;
    int32_t status = cmcache_record_words(record, &words, &count);
    return status ? status : cmcore_words_attribute(words, count, of, member, index, attribute);
}

/* The first attribute of a name among these. OK, CMCORE_NONE. */
static inline int32_t cmcache_record_attribute_named(cmcache_record *record, uint32_t of,
                                                     uint16_t member, const char *name,
                                                     size_t name_len, cmcore_attribute *attribute)
{
    const uint64_t *words;
    size_t count;
    int32_t status = cmcache_record_words(record, &words, &count);
    return status ? status : cmcore_words_attribute_named(words, count, of, member,
                                                          (const uint8_t *)name, name_len,
                                                          attribute);
}

/* The attributes of a code, given the content of its Code. OK, CMCORE_NONE. */
static inline int32_t cmcache_record_nested(cmcache_record *record, const cmcore_place *code,
                                            cmcore_nested *nested)
{
    const uint64_t *words;
    size_t count;
    int32_t status = cmcache_record_words(record, &words, &count);
    return status ? status : cmcore_words_nested(words, count, code, nested);
}

/* The attribute at a byte of that content. OK, CMCORE_NONE. */
static inline int32_t cmcache_record_nested_attribute(cmcache_record *record,
                                                      const cmcore_place *code, uint64_t from,
                                                      cmcore_attribute *attribute)
{
    const uint64_t *words;
    size_t count;
    int32_t status = cmcache_record_words(record, &words, &count);
    return status ? status : cmcore_words_nested_attribute(words, count, code, from, attribute);
}

/* The class file, exactly the bytes that were defined; *len is how many there are. OK;
 * CMCORE_NO_ROOM if they are more than `size`: nothing is written then; NO_MEMORY. */
static inline int32_t cmcache_record_class_file(cmcache_record *record, uint8_t *out, size_t size,
                                                size_t *len)
{
    const uint64_t *words;
    size_t count;
    int32_t status = cmcache_record_words(record, &words, &count);
    return status ? status : cmcore_words_class_file(words, count, out, size, len);
}

/* Gives back its memory. Does nothing if it is empty. */
static inline void cmcache_release_record(cmcache_record *record)
{
    cmcore_release(&record->handle);
}

/* ---- whether jars have changed */

/* The tag of class files, jars and folders, in the order of a class path: 16 hexadecimal digits and
 * a zero. cm_import --tag puts it behind a loader's name and an `@`, so a server that asks for
 * NAME@TAG finds the classes of the files as they are now, or no loader (docs/FRESH.md). Of a jar
 * only the directory is read. Folders are searched as cm_import does. OK; DEVICE if a file or
 * folder can't be read, NOT_REGULAR if a path is something else, TOO_LONG, NO_MEMORY. A file that
 * somebody cuts meanwhile has the system send SIGBUS. */
int32_t cmcache_tag(const char *const *paths, size_t count, char tag[17]);

#ifdef __cplusplus
}
#endif

#endif
