/* Stores records one commit after another, for comparison with `cm_bench_files put`:
 *
 *     stores sqlite|lmdb|bare|joined|holes FILE GROUP < RECORDS
 *     stores rocksdb FILE THREADS < RECORDS
 *
 * RECORDS are records one after another, each preceded by its length in four bytes and its place in
 * the cache's file in eight, big-endian. GROUP of them make a commit, which is durable when it
 * returns: SQLite with a write-ahead log and synchronous=FULL, LMDB with its defaults. With RocksDB
 * each of THREADS threads stores its share of the records, one a commit, synced: RocksDB itself
 * joins the commits of threads that wait. `bare` makes the device calls that a commit of the cache
 * makes, and nothing else: zeros if the file has too few roots, each record in its place, the
 * group's slots, fdatasync, the gate's byte, fdatasync. `joined` makes one write of records that
 * lie one after another, and `holes` also grows the file without writing zeros; the cache does
 * neither, and the two show what that would save. It prints the records, the commits and the
 * nanoseconds of all commits together, without making and opening the file. Each of the three
 * libraries is used if WITH_SQLITE, WITH_LMDB or WITH_ROCKSDB is defined. */
#include <fcntl.h>
#include <stdint.h>
#include <stdio.h>
#include <stdlib.h>
#include <string.h>
#include <time.h>
#include <unistd.h>
#ifdef WITH_LMDB
#include <lmdb.h>
#endif
#ifdef WITH_SQLITE
#include <sqlite3.h>
#endif
#ifdef WITH_ROCKSDB
#include <pthread.h>
#include <rocksdb/c.h>
#endif

/* The sizes of files.sh: top 12, 16384 slots. Zeros are written in pieces, as the cache does. */
enum { SLOT = 64, GROUP_LIMIT = 64, SLOTS = 16384 };
enum { JOURNAL = 4096, ROOTS = JOURNAL + 2 * SLOTS * SLOT };
enum { ROOT = 8 * 128 << 12, PIECE = 65536, HEAD = 12 };

struct record {
    const unsigned char *bytes;
    uint32_t length;
    off_t place;
};

struct records {
    struct record *all;
    size_t count;
};

static void fail(const char *what)
{
    fprintf(stderr, "stores: %s failed\n", what);
    exit(3);
}

static unsigned char *read_all(FILE *from, size_t *length)
{
    size_t room = 1 << 20;
    unsigned char *bytes = malloc(room);
    *length = 0;
    for (;;) {
        size_t got = fread(bytes + *length, 1, room - *length, from);
        if (got == 0)
            return bytes;
        *length += got;
        if (*length == room)
            bytes = realloc(bytes, room *= 2);
    }
}

static uint64_t number_of(const unsigned char *bytes, size_t length)
{
    uint64_t number = 0;
    for (size_t i = 0; i < length; i++)
        number = number << 8 | bytes[i];
    return number;
}

static struct records read_records(void)
{
    size_t length, at = 0;
    unsigned char *bytes = read_all(stdin, &length);
    struct records records = { malloc(sizeof(struct record) * (length / HEAD + 1)), 0 };
    while (at + HEAD <= length) {
        uint32_t size = (uint32_t)number_of(bytes + at, 4);
        off_t place = (off_t)number_of(bytes + at + 4, 8);
        at += HEAD;
        if (size > length - at)
            fail("a record's length");
        records.all[records.count++] = (struct record){ bytes + at, size, place };
        at += size;
    }
    return records;
}

static uint64_t now(void)
{
    struct timespec t;
    clock_gettime(CLOCK_MONOTONIC, &t);
    return (uint64_t)t.tv_sec * 1000000000u + (uint64_t)t.tv_nsec;
}

#if defined WITH_SQLITE || defined WITH_LMDB || defined WITH_ROCKSDB
static int name_of(char *name, size_t size, size_t number)
{
    return snprintf(name, size, "app/class%zu", number);
}
#endif

#ifdef WITH_SQLITE
/* ---- SQLite */

static sqlite3 *database;
static sqlite3_stmt *insert;

static void run_sql(const char *text)
{
    if (sqlite3_exec(database, text, NULL, NULL, NULL) != SQLITE_OK)
        fail(text);
}

static void sqlite_open(const char *path)
{
    if (sqlite3_open(path, &database) != SQLITE_OK)
        fail("sqlite3_open");
    run_sql("PRAGMA journal_mode=WAL");
    run_sql("PRAGMA synchronous=FULL");
    run_sql("CREATE TABLE records (name TEXT PRIMARY KEY, record BLOB) WITHOUT ROWID");
    if (sqlite3_prepare_v2(database, "INSERT INTO records VALUES (?, ?)", -1, &insert, NULL)
        != SQLITE_OK)
        fail("sqlite3_prepare_v2");
}

static void sqlite_commit(const struct record *group, size_t count, size_t number)
{
    char name[64];
    run_sql("BEGIN IMMEDIATE");
    for (size_t i = 0; i < count; i++) {
        int length = name_of(name, sizeof name, number + i);
        sqlite3_bind_text(insert, 1, name, length, SQLITE_STATIC);
        sqlite3_bind_blob(insert, 2, group[i].bytes, (int)group[i].length, SQLITE_STATIC);
        if (sqlite3_step(insert) != SQLITE_DONE)
            fail("an insert");
        sqlite3_reset(insert);
    }
    run_sql("COMMIT");
}
#endif

#ifdef WITH_LMDB
/* ---- LMDB */

static MDB_env *environment;
static MDB_dbi table;

static void lmdb_open(const char *path)
{
    MDB_txn *open;
    if (mdb_env_create(&environment) || mdb_env_set_mapsize(environment, (size_t)1 << 31)
        || mdb_env_open(environment, path, MDB_NOSUBDIR, 0644)
        || mdb_txn_begin(environment, NULL, 0, &open)
        || mdb_dbi_open(open, NULL, MDB_CREATE, &table) || mdb_txn_commit(open))
        fail("opening LMDB");
}

static void lmdb_commit(const struct record *group, size_t count, size_t number)
{
    char name[64];
    MDB_txn *open;
    if (mdb_txn_begin(environment, NULL, 0, &open))
        fail("mdb_txn_begin");
    for (size_t i = 0; i < count; i++) {
        MDB_val key = { (size_t)name_of(name, sizeof name, number + i), name };
        MDB_val value = { group[i].length, (void *)group[i].bytes };
        if (mdb_put(open, table, &key, &value, 0))
            fail("mdb_put");
    }
    if (mdb_txn_commit(open))
        fail("mdb_txn_commit");
}
#endif

#ifdef WITH_ROCKSDB
/* ---- RocksDB */

enum { MOST_THREADS = 64 };

static rocksdb_t *rocks;

struct share {
    const struct records *records;
    size_t first, step;
};

static void rocksdb_begin(const char *path)
{
    char *fault = NULL;
    rocksdb_options_t *options = rocksdb_options_create();
    rocksdb_options_set_create_if_missing(options, 1);
    rocks = rocksdb_open(options, path, &fault);
    if (fault)
        fail(fault);
}

static void *rocksdb_store(void *given)
{
    const struct share *share = given;
    rocksdb_writeoptions_t *synced = rocksdb_writeoptions_create();
    char name[64], *fault = NULL;
    rocksdb_writeoptions_set_sync(synced, 1);
    for (size_t i = share->first; i < share->records->count; i += share->step) {
        const struct record *record = share->records->all + i;
        size_t length = (size_t)name_of(name, sizeof name, i);
        rocksdb_put(rocks, synced, name, length, (const char *)record->bytes, record->length,
                    &fault);
        if (fault)
            fail(fault);
    }
    return NULL;
}

static void rocksdb_store_all(const struct records *records, size_t count)
{
    pthread_t threads[MOST_THREADS];
    struct share shares[MOST_THREADS];
    for (size_t i = 0; i < count; i++) {
        shares[i] = (struct share){ records, i, count };
        if (pthread_create(threads + i, NULL, rocksdb_store, shares + i))
            fail("pthread_create");
    }
    for (size_t i = 0; i < count; i++)
        pthread_join(threads[i], NULL);
}
#endif

/* ---- the device calls alone */

static int file;
static off_t journal_end, file_end;

static void write_at(const void *bytes, size_t length, off_t at)
{
    if (pwrite(file, bytes, length, at) != (ssize_t)length)
        fail("pwrite");
}

static void sync_file(void)
{
    if (fdatasync(file))
        fail("fdatasync");
}

static void grow_to(off_t end)
{
    static const unsigned char zeros[PIECE];
    for (; file_end < end; file_end += PIECE) {
        size_t left = (size_t)(end - file_end);
        write_at(zeros, left < PIECE ? left : PIECE, file_end);
    }
    file_end = end;
}

static void bare_open(const char *path)
{
    file = open(path, O_RDWR | O_CREAT | O_EXCL, 0644);
    if (file < 0)
        fail("making the file");
    grow_to(ROOTS);
    if (fsync(file))
        fail("fsync");
    /* After the half's head and the group that makes the loader. */
    journal_end = JOURNAL + 3 * SLOT;
}

/* The group's slots and its gate, once its records are written. */
static void write_journal(size_t count)
{
    static unsigned char slots[SLOT * (GROUP_LIMIT + 2)];
    const unsigned char gate = 0xa5;
    write_at(slots, SLOT * (count + 2) - 1, journal_end + 1);
    sync_file();
    write_at(&gate, 1, journal_end);
    sync_file();
    journal_end += SLOT * (off_t)(count + 1);
}

static void bare_commit(const struct record *group, size_t count, size_t number)
{
    (void)number;
    for (size_t i = 0; i < count; i++)
        while (group[i].place >= file_end)
            grow_to(file_end + ROOT);
    for (size_t i = 0; i < count; i++)
        write_at(group[i].bytes, group[i].length, group[i].place);
    write_journal(count);
}

static void write_joined(const struct record *group, size_t count)
{
    static unsigned char buffer[ROOT];
    for (size_t i = 0; i < count;) {
        size_t length = 0;
        off_t place = group[i].place;
        for (; i < count && group[i].place == place + (off_t)length
               && length + group[i].length <= sizeof buffer; i++) {
            memcpy(buffer + length, group[i].bytes, group[i].length);
            length += group[i].length;
        }
        write_at(buffer, length, place);
    }
}

static void joined_commit(const struct record *group, size_t count, size_t number)
{
    (void)number;
    for (size_t i = 0; i < count; i++)
        while (group[i].place >= file_end)
            grow_to(file_end + ROOT);
    write_joined(group, count);
    write_journal(count);
}

static void holes_commit(const struct record *group, size_t count, size_t number)
{
    (void)number;
    for (size_t i = 0; i < count; i++)
        while (group[i].place >= file_end)
            if (ftruncate(file, file_end += ROOT))
                fail("ftruncate");
    write_joined(group, count);
    write_journal(count);
}

/* ---- */

static void tell(const char *name, size_t records, size_t commits, uint64_t start)
{
    printf("%s records %zu commits %zu ns %llu\n", name, records, commits,
           (unsigned long long)(now() - start));
}

int main(int count, char **words)
{
    static const struct {
        const char *name;
        void (*open)(const char *);
        void (*commit)(const struct record *, size_t, size_t);
    } stores[] = {
#ifdef WITH_SQLITE
        { "sqlite", sqlite_open, sqlite_commit },
#endif
#ifdef WITH_LMDB
        { "lmdb", lmdb_open, lmdb_commit },
#endif
        { "bare", bare_open, bare_commit },
        { "joined", bare_open, joined_commit },
        { "holes", bare_open, holes_commit },
    };
    size_t group = count == 4 ? strtoul(words[3], NULL, 10) : 0;
    if (group < 1 || group > GROUP_LIMIT) {
        fprintf(stderr, "stores sqlite|lmdb|bare|joined|holes FILE GROUP < RECORDS\n"
                        "stores rocksdb FILE THREADS < RECORDS\n");
        return 2;
    }
#ifdef WITH_ROCKSDB
    if (!strcmp(words[1], "rocksdb")) {
        struct records records = read_records();
        rocksdb_begin(words[2]);
        uint64_t start = now();
        rocksdb_store_all(&records, group);
        tell(words[1], records.count, records.count, start);
        return 0;
    }
#endif
    for (size_t i = 0; i < sizeof stores / sizeof *stores; i++) {
        if (strcmp(words[1], stores[i].name))
            continue;
        struct records records = read_records();
        size_t commits = 0;
        stores[i].open(words[2]);
        uint64_t start = now();
        for (size_t at = 0; at < records.count; at += group, commits++)
            stores[i].commit(records.all + at,
                records.count - at < group ? records.count - at : group, at);
        tell(words[1], records.count, commits, start);
        return 0;
    }
    fprintf(stderr, "stores: no store %s\n", words[1]);
    return 2;
}
