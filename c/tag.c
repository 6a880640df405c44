/* The tag of paths: their files are found as cm_import finds them, and the core hashes each. */
#define _POSIX_C_SOURCE 200809L
#define _FILE_OFFSET_BITS 64
#include "file.h"

#include <dirent.h>
#include <errno.h>
#include <fcntl.h>
#include <stdio.h>
#include <stdlib.h>
#include <string.h>
#include <sys/mman.h>
#include <sys/stat.h>
#include <unistd.h>

static const off_t MOST_BYTES = (off_t)1 << 40;

/* ---- one file */

static bool ends_with(const char *name, const char *end)
{
    size_t len = strlen(name), end_len = strlen(end);
    return len >= end_len && strcmp(name + len - end_len, end) == 0;
}

static int32_t add_bytes(bool is_class, const uint8_t *bytes, size_t len, cmcore_tag *tag)
{
    return is_class ? cmcore_tag_class(bytes, len, tag) : cmcore_tag_jar(bytes, len, tag);
}

/* Of a jar only the pages of its directory are read. */
static int32_t add_opened(int file, bool is_class, cmcore_tag *tag)
{
    struct stat info;
    if (fstat(file, &info) < 0)
        return CMCACHE_DEVICE;
    if (!S_ISREG(info.st_mode))
        return CMCACHE_NOT_REGULAR;
    if (info.st_size > MOST_BYTES)
        return CMCORE_TOO_LONG;
    size_t len = (size_t)info.st_size;
    if (len == 0) /* can't be mapped */
        return add_bytes(is_class, NULL, 0, tag);
    void *bytes = mmap(NULL, len, PROT_READ, MAP_SHARED, file, 0);
    if (bytes == MAP_FAILED)
        return errno == ENOMEM ? CMCORE_NO_MEMORY : CMCACHE_DEVICE;
    int32_t status = add_bytes(is_class, bytes, len, tag);
    munmap(bytes, len);
    return status;
}

/* A file is taken for a class by its name, and for a jar otherwise. */
static int32_t add_file(const char *path, cmcore_tag *tag)
{
    int file = open(path, O_RDONLY | O_NONBLOCK | O_NOCTTY | O_CLOEXEC);
    if (file < 0)
        return CMCACHE_DEVICE;
    int32_t status = add_opened(file, ends_with(path, ".class"), tag);
    cmfile_close(file);
    return status;
}

/* ---- folders */

static int32_t add_folder(const char *path, cmcore_tag *tag);

/* Whether a file in a folder holds classes, by its name. */
static bool is_taken(const char *name)
{
    if (strcmp(name, "module-info.class") == 0 || strcmp(name, "package-info.class") == 0)
        return false;
    return ends_with(name, ".class") || ends_with(name, ".jar");
}

/* What is in a folder. A link to a file is followed, and one to a folder isn't. */
static int32_t add_inner(const char *path, const char *name, cmcore_tag *tag)
{
    struct stat info;
    if (lstat(path, &info) < 0)
        return CMCACHE_DEVICE;
    if (S_ISDIR(info.st_mode))
        return add_folder(path, tag);
    if (!is_taken(name))
        return CMCORE_OK;
    if (stat(path, &info) < 0)
        return CMCACHE_DEVICE;
    return S_ISREG(info.st_mode) ? add_file(path, tag) : CMCORE_OK;
}

static int32_t add_named(const char *folder, const char *name, cmcore_tag *tag)
{
    size_t room = strlen(folder) + strlen(name) + 2;
    char *path = malloc(room);
    if (!path)
        return CMCORE_NO_MEMORY;
    snprintf(path, room, "%s/%s", folder, name);
    int32_t status = add_inner(path, name, tag);
    int cause = errno;
    free(path);
    errno = cause;
    return status;
}

static int is_inner(const struct dirent *entry)
{
    return strcmp(entry->d_name, ".") != 0 && strcmp(entry->d_name, "..") != 0;
}

static int by_bytes(const struct dirent **one, const struct dirent **two)
{
    return strcmp((*one)->d_name, (*two)->d_name);
}

/* What is in a folder, in byte order of the names. */
static int32_t add_folder(const char *path, cmcore_tag *tag)
{
    struct dirent **entries;
    int count = scandir(path, &entries, is_inner, by_bytes);
    if (count < 0)
        return errno == ENOMEM ? CMCORE_NO_MEMORY : CMCACHE_DEVICE;
    int32_t status = CMCORE_OK;
    for (int at = 0; at < count && status == CMCORE_OK; at++)
        status = add_named(path, entries[at]->d_name, tag);
    int cause = errno;
    for (int at = 0; at < count; at++)
        free(entries[at]);
    free(entries);
    errno = cause;
    return status;
}

/* ---- paths */

static int32_t add_path(const char *path, cmcore_tag *tag)
{
    struct stat info;
    if (stat(path, &info) < 0)
        return CMCACHE_DEVICE;
    return S_ISDIR(info.st_mode) ? add_folder(path, tag) : add_file(path, tag);
}

int32_t cmcache_tag(const char *const *paths, size_t count, char tag[17])
{
    cmcore_tag digest = {{0}};
    for (size_t at = 0; at < count; at++) {
        int32_t status = add_path(paths[at], &digest);
        if (status != CMCORE_OK)
            return status;
    }
    for (size_t at = 0; at < 8; at++)
        snprintf(tag + 2 * at, 3, "%02x", digest.bytes[at]);
    return CMCORE_OK;
}
