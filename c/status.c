/* What the library says of itself. */
#include "cmcache.h"

const char *cmcache_version(void)
{
    return CMCACHE_VERSION;
}

const char *cmcache_status_text(int32_t status)
{
    switch (status) {
    case CMCORE_OK: return "done";
    case CMCORE_BAD_NAME: return "a loader's name is 1 to 96 printable ASCII characters";
    case CMCORE_LOADER_EXISTS: return "a loader has this name";
    case CMCORE_NO_LOADER: return "no loader has this name";
    case CMCORE_CLASS_EXISTS: return "the loader has a class of this name";
    case CMCORE_RECORD_TOO_LONG: return "the class's record is too long";
    case CMCORE_REGION_FULL: return "no chunk is free for the record";
    case CMCORE_JOURNAL_FULL: return "too many loaders and classes live";
    case CMCORE_NO_MOVE: return "there is nothing to compact";
    case CMCORE_NO_MEMORY: return "out of memory";
    case CMCORE_BROKEN: return "the device failed earlier";
    case CMCORE_CLOSED: return "the cache is closed";
    case CMCORE_NUMBERS_SPENT: return "there is no next number";
    case CMCORE_UNSURE: return "the device failed: the command may or may not be stored";
    case CMCORE_BAD_CLASS: return "not a class file, or a class that breaks a rule";
    case CMCORE_BAD_LIST: return "more than seven loaders, or one of them twice";
    case CMCORE_BAD_SIZES: return "a size is outside its limits";
    case CMCORE_NOT_A_CACHE: return "not a cache";
    case CMCORE_DAMAGED: return "the file is damaged";
    case CMCORE_OLDER: return "the file is of version 1";
    case CMCORE_NONE: return "there is none";
    case CMCORE_EMPTY: return "the handle is empty";
    case CMCORE_TOO_LONG: return "the file is longer than 2^40 bytes";
    case CMCORE_NO_ROOM: return "there is more than there is room for";
    case CMCORE_OTHER: return "another class has this name";
    case CMCACHE_DEVICE: return "the device failed";
    case CMCACHE_EXISTS: return "the file exists";
    case CMCACHE_BUSY: return "the file is in use";
    case CMCACHE_NOT_REGULAR: return "not a regular file";
    case CMCACHE_NO_FILE: return "there is no such file";
    case CMCACHE_NOT_ALLOWED: return "the file may not be opened";
    case CMCACHE_READ_ONLY: return "the cache was opened to be read alone";
    default: return "unknown status";
    }
}

/* docs/REGION.md has each kind of damage. */
const char *cmcache_damage_text(const cmcore_damage *damage)
{
    switch (damage->what) {
    case 1: return "the superblock is of another version, or has a wrong size or byte";
    case 2: return "the file ends inside its journal";
    case 3: return "no half of the journal is open, or both are with one epoch";
    case 4: return "the head of a half or of a group of commands is damaged";
    case 5: return "a slot of the journal is no entry";
    case 6: return "a loader, a name or a number in the journal breaks a rule";
    case 7: return "a chunk or the place of a record breaks a rule";
    case 8: return "a record is no record of a class that keeps the rules";
    case 9: return "a loader has two classes of one name";
    default: return "no damage";
    }
}

/* docs/RULES.md has each rule. */
static const char *const rules[] = {
    "no rule",
    "a Utf8 constant isn't in its form",
    "an index names a constant of another kind",
    "a method handle's kind doesn't fit its reference",
    "a class constant has no class name",
    "a field reference has a wrong name or descriptor",
    "a method reference has a wrong name or descriptor",
    "an InvokeDynamic has a wrong name or descriptor",
    "a MethodType has a wrong descriptor",
    "a method handle names a method that its kind may not",
    "the flags of the class don't agree",
    "the class itself is an array",
    "the super class is wrong",
    "a field has a wrong name or descriptor",
    "the flags of a field don't agree",
    "two fields have one name and descriptor",
    "a method has a wrong name or descriptor",
    "a method has more than 254 units of parameters",
    "the flags of a method don't agree",
    "two methods have one name and descriptor",
    "a method has no code, or too much",
    "the code of a method is malformed",
    "an attribute of a field or method is wrong",
    "an attribute of the class is wrong",
    "a bootstrap method is wrong, or isn't there",
};

const char *cmcache_bad_class_text(const cmcore_bad_class *bad)
{
    switch (bad->kind) {
    case CMCORE_TRUNCATED: return "the class file ends too early";
    case CMCORE_TRAILING: return "bytes follow the class file";
    case CMCORE_MALFORMED: return "the bytes are no class file";
    case CMCORE_OTHER_VERSION: return "the class file isn't of version 52.0 (Java 8)";
    case CMCORE_RULE: return bad->rule < sizeof rules / sizeof *rules ? rules[bad->rule] : rules[0];
    default: return rules[0];
    }
}

/* ---- sizes */

enum { LEAST_SLOTS = 4096, MOST_SLOTS = 65536, MOST_ROOTS = 256, LEAST_TOP = 8, MOST_TOP = 12 };

/* Half of the slots are for live loaders and classes, so that four slots a class leave room for as
 * many again. A record takes up to some 1.4 times the bytes of its class file, and chunks leave
 * some room unused: three times the bytes are enough, and twice that for as many again. */
int32_t cmcache_sizes_for(uint64_t classes, uint64_t bytes, uint32_t *top, uint32_t *roots,
                          uint32_t *slots)
{
    const uint64_t most_bytes = (uint64_t)MOST_ROOTS << (MOST_TOP + 10);
    uint32_t slots_due = LEAST_SLOTS, top_due = LEAST_TOP;
    if (classes >= MOST_SLOTS / 2 || bytes > most_bytes / 2)
        return CMCORE_BAD_SIZES;
    while (slots_due < MOST_SLOTS && slots_due / 4 < classes)
        slots_due *= 2;
    while (top_due < MOST_TOP && ((uint64_t)MOST_ROOTS << (top_due + 10)) / 6 < bytes)
        top_due++;
    *top = top_due;
    *roots = MOST_ROOTS;
    *slots = slots_due;
    return CMCORE_OK;
}
