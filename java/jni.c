/* What the Java library calls (org/cmcache/Native.java): each function takes what Java gives, makes
 * one call of cmcache.h, or a few, and gives back numbers and arrays.
 *
 * Nothing of a cache outlives its call here: the words of a record are copied into Java's own
 * arrays. A handle is the address of a cache that Java opened and didn't close; Java sees to that
 * (ClassCache). No argument is null. A call gives back a status; the numbers that belong to it are
 * written into `told`. */
#include <errno.h>
#include <jni.h>
#include <stdbool.h>
#include <stdlib.h>
#include <string.h>

#include "cmcache.h"

/* No name in a class file is longer, and no loader's. */
enum { LONGEST = 65535 };

/* What each call gets first; few need it. */
#define FROM_JAVA JNIEnv *env __attribute__((unused)), jclass type __attribute__((unused))

/* ---- what comes from Java */

static cmcache *cache_of(jlong handle)
{
    return (cmcache *)(intptr_t)handle;
}

static cmcache_view *view_of(jlong handle)
{
    return (cmcache_view *)(intptr_t)handle;
}

/* A string as a class file spells it (JVMS 4.4.7). */
typedef struct {
    char *bytes;
    size_t len;
    char room[256]; /* of short ones; a Java thread may have little stack left */
} text;

/* OK; NO_MEMORY; BAD_NAME if it is too long to be a name. */
static int32_t take(JNIEnv *env, jstring from, text *to)
{
    jsize units = (*env)->GetStringLength(env, from);
    to->bytes = NULL;
    if (units > LONGEST)
        return CMCORE_BAD_NAME;
    to->len = (size_t)(*env)->GetStringUTFLength(env, from);
    bool is_short = to->len < sizeof to->room;
    to->bytes = is_short ? to->room : malloc(to->len + 1); /* a 0 may be written behind it */
    if (to->bytes == NULL)
        return CMCORE_NO_MEMORY;
    (*env)->GetStringUTFRegion(env, from, 0, units, to->bytes);
    return CMCORE_OK;
}

static void drop(text *taken)
{
    if (taken->bytes != taken->room)
        free(taken->bytes);
}

/* The bytes of a path, with a 0 behind them; NULL if there is no memory. */
static char *path_of(JNIEnv *env, jbyteArray from)
{
    jsize len = (*env)->GetArrayLength(env, from);
    char *path = malloc((size_t)len + 1);
    if (path == NULL)
        return NULL;
    (*env)->GetByteArrayRegion(env, from, 0, len, (jbyte *)path);
    path[len] = 0;
    return path;
}

/* ---- what goes to Java */

static void tell(JNIEnv *env, jlongArray told, jsize count, const jlong *numbers)
{
    (*env)->SetLongArrayRegion(env, told, 0, count, numbers);
}

/* Tells the system's cause, if it has one. */
static jint with_cause(JNIEnv *env, int32_t status, int cause, jlongArray told)
{
    jlong number = cause;
    if (status == CMCACHE_DEVICE)
        tell(env, told, 1, &number);
    return status;
}

JNIEXPORT jstring JNICALL Java_org_cmcache_Native_statusText(FROM_JAVA, jint status)
{
    return (*env)->NewStringUTF(env, cmcache_status_text(status));
}

JNIEXPORT jstring JNICALL Java_org_cmcache_Native_causeText(FROM_JAVA, jint cause)
{
    return (*env)->NewStringUTF(env, strerror(cause));
}

JNIEXPORT jstring JNICALL Java_org_cmcache_Native_version(FROM_JAVA)
{
    return (*env)->NewStringUTF(env, cmcache_version());
}

/* ---- a file */

/* DEVICE: the cause. */
JNIEXPORT jint JNICALL Java_org_cmcache_Native_format(FROM_JAVA, jbyteArray path, jint top,
                                                      jint roots, jint slots, jlongArray told)
{
    char *name = path_of(env, path);
    if (name == NULL)
        return CMCORE_NO_MEMORY;
    int32_t status = cmcache_format(name, (uint32_t)top, (uint32_t)roots, (uint32_t)slots);
    int cause = errno;
    free(name);
    return with_cause(env, status, cause, told);
}

/* OK: the handle of a cache, or of a view. DAMAGED: what, and in which slot. DEVICE: the cause. */
JNIEXPORT jint JNICALL Java_org_cmcache_Native_open(FROM_JAVA, jbyteArray path, jboolean is_view,
                                                    jlongArray told)
{
    cmcache *cache = NULL;
    cmcache_view *view = NULL;
    cmcore_damage damage = {0};
    char *name = path_of(env, path);
    if (name == NULL)
        return CMCORE_NO_MEMORY;
    int32_t status = is_view ? cmcache_open_read_only(name, &view, &damage)
                             : cmcache_open(name, &cache, &damage);
    int cause = errno;
    free(name);
    if (status == CMCORE_OK)
        tell(env, told, 1, (jlong[]){is_view ? (jlong)(intptr_t)view : (jlong)(intptr_t)cache});
    if (status == CMCORE_DAMAGED)
        tell(env, told, 2, (jlong[]){damage.what, damage.slot});
    return with_cause(env, status, cause, told);
}

/* DEVICE: the cause. */
JNIEXPORT jint JNICALL Java_org_cmcache_Native_close(FROM_JAVA, jlong cache, jlongArray told)
{
    int32_t status = cmcache_close(cache_of(cache));
    return with_cause(env, status, errno, told);
}

JNIEXPORT void JNICALL Java_org_cmcache_Native_closeView(FROM_JAVA, jlong view)
{
    cmcache_view_close(view_of(view));
}

/* ---- commands; OK and UNSURE: the number */

typedef int32_t command(cmcache *cache, const char *loader, size_t loader_len, uint64_t *number);

/* As in Native.java. */
static command *const commands[] = {cmcache_add_loader, cmcache_unload, cmcache_unload_all,
                                    cmcache_tighten};

JNIEXPORT jint JNICALL Java_org_cmcache_Native_command(FROM_JAVA, jlong cache, jint which,
                                                       jstring loaders, jlongArray told)
{
    text names;
    uint64_t number = 0;
    int32_t status = take(env, loaders, &names);
    if (status == CMCORE_OK)
        status = commands[which](cache_of(cache), names.bytes, names.len, &number);
    drop(&names);
    tell(env, told, 1, (jlong[]){(jlong)number});
    return status;
}

/* With the class's bytes in Java: makes it ready, without a lock. */
static int32_t prepare(JNIEnv *env, jbyteArray file, cmcache_prepared *prepared,
                       cmcore_bad_class *bad)
{
    jsize len = (*env)->GetArrayLength(env, file);
    jbyte *bytes = (*env)->GetByteArrayElements(env, file, NULL);
    if (bytes == NULL) {
        (*env)->ExceptionClear(env); /* it is thrown for the status */
        return CMCORE_NO_MEMORY;
    }
    int32_t status = cmcache_prepare((const uint8_t *)bytes, (size_t)len, prepared, bad);
    (*env)->ReleaseByteArrayElements(env, file, bytes, JNI_ABORT);
    return status;
}

/* BAD_CLASS: its kind, the rule, the spot, and where. */
JNIEXPORT jint JNICALL Java_org_cmcache_Native_define(FROM_JAVA, jlong cache, jstring loader,
                                                      jbyteArray file, jboolean waits,
                                                      jlongArray told)
{
    cmcache_prepared prepared = CMCACHE_EMPTY;
    cmcore_bad_class bad = {0};
    text name;
    uint64_t number = 0;
    int32_t status = take(env, loader, &name);
    if (status == CMCORE_OK)
        status = prepare(env, file, &prepared, &bad);
    if (status == CMCORE_OK)
        status = (waits ? cmcache_define : cmcache_submit_define)(
            cache_of(cache), name.bytes, name.len, &prepared, &number);
    drop(&name);
    cmcache_release_prepared(&prepared);
    if (status == CMCORE_BAD_CLASS)
        tell(env, told, 4, (jlong[]){bad.kind, bad.rule, bad.spot, (jlong)bad.at});
    else
        tell(env, told, 1, (jlong[]){(jlong)number});
    return status;
}

JNIEXPORT jint JNICALL Java_org_cmcache_Native_await(FROM_JAVA, jlong cache, jlong number)
{
    return cmcache_wait(cache_of(cache), (uint64_t)number);
}

/* OK and BROKEN: the last number that is known to be stored. */
JNIEXPORT jint JNICALL Java_org_cmcache_Native_stored(FROM_JAVA, jlong cache, jlongArray told)
{
    uint64_t number = 0;
    int32_t status = cmcache_stored(cache_of(cache), &number);
    tell(env, told, 1, (jlong[]){(jlong)number});
    return status;
}

/* ---- look-ups, in a cache or in a view */

/* The words of a record go into found[0], those before its runs, as numbers, and found[1], as
 * bytes. If Java has no memory, an exception is left to be thrown. */
static void copy(JNIEnv *env, cmcache_words record, jobjectArray found)
{
    size_t runs_at = (size_t)record.words[7];
    jsize run_bytes = (jsize)(8 * (record.count - runs_at));
    jlongArray numbers = (*env)->NewLongArray(env, (jsize)runs_at);
    if (numbers == NULL)
        return;
    (*env)->SetLongArrayRegion(env, numbers, 0, (jsize)runs_at, (const jlong *)record.words);
    (*env)->SetObjectArrayElement(env, found, 0, numbers);
    jbyteArray runs = (*env)->NewByteArray(env, run_bytes);
    if (runs == NULL)
        return;
    (*env)->SetByteArrayRegion(env, runs, 0, run_bytes, (const jbyte *)(record.words + runs_at));
    (*env)->SetObjectArrayElement(env, found, 1, runs);
}

static int32_t find_in_cache(JNIEnv *env, cmcache *cache, const text *loader, const text *name,
                             jobjectArray found)
{
    cmcache_record record = CMCACHE_EMPTY;
    cmcache_words words = {0};
    int32_t status = cmcache_find(cache, loader->bytes, loader->len, name->bytes, name->len,
                                  &record);
    if (status == CMCORE_OK)
        status = cmcache_record_words(&record, &words.words, &words.count);
    if (status == CMCORE_OK)
        copy(env, words, found);
    cmcache_release_record(&record);
    return status;
}

static int32_t find_in_view(JNIEnv *env, const cmcache_view *view, const text *loader,
                            const text *name, jobjectArray found)
{
    cmcache_words words = {0};
    int32_t status = cmcache_view_find(view, loader->bytes, loader->len, name->bytes, name->len,
                                       &words);
    if (status == CMCORE_OK)
        copy(env, words, found);
    return status;
}

JNIEXPORT jint JNICALL Java_org_cmcache_Native_find(FROM_JAVA, jlong handle, jboolean is_view,
                                                    jstring loader, jstring name,
                                                    jobjectArray found)
{
    text loader_text, name_text = {0};
    int32_t status = take(env, loader, &loader_text);
    if (status == CMCORE_OK)
        status = take(env, name, &name_text);
    if (status == CMCORE_OK)
        status = is_view
            ? find_in_view(env, view_of(handle), &loader_text, &name_text, found)
            : find_in_cache(env, cache_of(handle), &loader_text, &name_text, found);
    drop(&loader_text);
    drop(&name_text);
    return status;
}

/* Names, each with a 0 behind it: none has one inside (JVMS 4.4.7). */
typedef struct {
    char *bytes;
    size_t len;
    size_t room;
} name_list;

static int32_t add_name(void *context, const char *name, size_t len)
{
    name_list *list = context;
    if (list->room - list->len <= len) {
        size_t room = 2 * (list->room + len + 1);
        char *bytes = realloc(list->bytes, room);
        if (bytes == NULL || room > INT32_MAX) {
            list->bytes = bytes != NULL ? bytes : list->bytes;
            return CMCORE_NO_MEMORY;
        }
        list->bytes = bytes;
        list->room = room;
    }
    memcpy(list->bytes + list->len, name, len);
    list->bytes[list->len + len] = 0;
    list->len += len + 1;
    return 0;
}

static int32_t list(jlong handle, jboolean is_view, const text *loader, name_list *names)
{
    if (is_view)
        return loader == NULL
            ? cmcache_view_loaders(view_of(handle), add_name, names)
            : cmcache_view_classes(view_of(handle), loader->bytes, loader->len, add_name, names);
    return loader == NULL
        ? cmcache_loaders(cache_of(handle), add_name, names)
        : cmcache_classes(cache_of(handle), loader->bytes, loader->len, add_name, names);
}

/* The names of the classes of a loader, or of the loaders if it is null, into names[0]. */
JNIEXPORT jint JNICALL Java_org_cmcache_Native_names(FROM_JAVA, jlong handle, jboolean is_view,
                                                     jstring loader, jobjectArray names)
{
    text loader_text = {0};
    name_list found = {0};
    int32_t status = loader == NULL ? CMCORE_OK : take(env, loader, &loader_text);
    if (status == CMCORE_OK)
        status = list(handle, is_view, loader == NULL ? NULL : &loader_text, &found);
    if (status == CMCORE_OK) {
        jbyteArray bytes = (*env)->NewByteArray(env, (jsize)found.len);
        if (bytes != NULL) {
            (*env)->SetByteArrayRegion(env, bytes, 0, (jsize)found.len, (jbyte *)found.bytes);
            (*env)->SetObjectArrayElement(env, names, 0, bytes);
        }
    }
    free(found.bytes);
    drop(&loader_text);
    return status;
}

/* What was accepted, what is stored, and the sizes. */
JNIEXPORT jint JNICALL Java_org_cmcache_Native_stats(FROM_JAVA, jlong cache, jlongArray told)
{
    cmcore_stats stats = {0};
    int32_t status = cmcache_stats(cache_of(cache), &stats);
    tell(env, told, 5, (jlong[]){(jlong)stats.accepted, (jlong)stats.stored, stats.top,
                                 stats.roots, stats.slots});
    return status;
}

/* How many commands were made, told twice, as stats does; a view tells no sizes. */
JNIEXPORT jint JNICALL Java_org_cmcache_Native_viewStats(FROM_JAVA, jlong view, jlongArray told)
{
    cmcore_view_counts counts = {0};
    int32_t status = cmcache_view_stats(view_of(view), &counts);
    tell(env, told, 2, (jlong[]){(jlong)counts.number, (jlong)counts.number});
    return status;
}

/* The tag of jars, folders and class files, as ASCII, into `tag`. DEVICE: the cause. */
JNIEXPORT jint JNICALL Java_org_cmcache_Native_tag(FROM_JAVA, jobjectArray paths, jbyteArray tag,
                                                   jlongArray told)
{
    jsize count = (*env)->GetArrayLength(env, paths), taken = 0;
    char digits[17] = "";
    int32_t status = CMCORE_NO_MEMORY;
    int cause = 0;
    char **names = calloc((size_t)count + 1, sizeof *names);
    while (names != NULL && taken < count) {
        jbyteArray path = (*env)->GetObjectArrayElement(env, paths, taken);
        names[taken] = path_of(env, path);
        (*env)->DeleteLocalRef(env, path); /* a frame has room for few */
        if (names[taken++] == NULL)
            break;
    }
    if (names != NULL && (count == 0 || names[count - 1] != NULL)) {
        status = cmcache_tag((const char *const *)names, (size_t)count, digits);
        cause = errno;
    }
    while (taken > 0)
        free(names[--taken]);
    free(names);
    (*env)->SetByteArrayRegion(env, tag, 0, 16, (const jbyte *)digits);
    return with_cause(env, status, cause, told);
}
