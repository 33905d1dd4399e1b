/*
 * SQLite: an epoch is a transaction, in WAL mode. In the first way each line is a row, which a prepared statement updates; its
 * data are eight bytes, since an INTEGER would take fewer for small numbers, and lines are any words. In the second way all lines
 * are one value, which sqlite3_blob_write changes in place: no statement runs for a store. The pages are larger there, and the
 * log goes to the database earlier, since that was the fastest of what was tried.
 *
 * synchronous=OFF: what was written outlives the process without it. locking_mode=EXCLUSIVE: no other process reads, so that the
 * index of the log is in memory that is not shared, and no file is locked at each transaction.
 */
#include <sqlite3.h>
#include <stdio.h>
#include <stdlib.h>
#include <string.h>
#include <sys/types.h>

#include "peer.h"

enum { MOST_SETTINGS = 512, BLOB_ROW = 1 };
enum { ROWS, BLOB };

struct way {
    bool is_blob;
    unsigned page_bytes;
    unsigned pages_until_checkpoint;
    const char *table;
    const char *filled;
};

static const struct way ways[] = {
    [ROWS] = {false, 4096, 1000, "CREATE TABLE lines (address INTEGER PRIMARY KEY, data BLOB NOT NULL)",
              "WITH RECURSIVE every (line) AS (SELECT 0 UNION ALL SELECT line + 1 FROM every WHERE line + 1 < 65536) "
              "INSERT INTO lines SELECT line, x'0000000000000000' FROM every"},
    [BLOB] = {true, 32768, 100, "CREATE TABLE boards (board INTEGER PRIMARY KEY, data BLOB NOT NULL)",
              "INSERT INTO boards VALUES (1, zeroblob(65536 * 8))"},
};

struct database {
    const struct way *way;
    sqlite3 *database;
    sqlite3_stmt *begin;
    sqlite3_stmt *update;
    sqlite3_stmt *commit;
};

/* SQLite lets its system calls be replaced: the one that writes is, by one that counts and calls it. */
typedef ssize_t write_call(int file, const void *bytes, size_t count, off_t at);
static write_call *system_write;
static uint64_t bytes_written;

static ssize_t counted_write(int file, const void *bytes, size_t count, off_t at)
{
    bytes_written += count;
    return system_write(file, bytes, count, at);
}

static uint64_t words(void)
{
    return bytes_written / BYTES_A_WORD;
}

static void accept(struct database *database, int result)
{
    if (result != SQLITE_OK && result != SQLITE_DONE)
        fail("SQLite: %s", database->database == NULL ? sqlite3_errstr(result) : sqlite3_errmsg(database->database));
}

/* Once for the process: no locks between threads, no statistics, and the counted system call. */
static void configure(void)
{
    static const char *const names[] = {"pwrite64", "pwrite"};
    if (system_write != NULL)
        return;
    if (sqlite3_config(SQLITE_CONFIG_SINGLETHREAD) != SQLITE_OK || sqlite3_config(SQLITE_CONFIG_MEMSTATUS, 0) != SQLITE_OK)
        fail("SQLite: it does not take its settings");
    sqlite3_vfs *files = sqlite3_vfs_find(NULL);
    for (size_t name = 0; name < sizeof names / sizeof *names && system_write == NULL; name++) {
        system_write = (write_call *)files->xGetSystemCall(files, names[name]);
        if (system_write != NULL && files->xSetSystemCall(files, names[name], (sqlite3_syscall_ptr)counted_write) != SQLITE_OK)
            fail("SQLite: its writes can not be counted");
    }
    if (system_write == NULL)
        fail("SQLite: it writes by another system call than pwrite");
}

static void run(struct database *database, const char *text)
{
    accept(database, sqlite3_exec(database->database, text, NULL, NULL, NULL));
}

static sqlite3_stmt *prepared(struct database *database, const char *text)
{
    sqlite3_stmt *statement;
    accept(database, sqlite3_prepare_v3(database->database, text, -1, SQLITE_PREPARE_PERSISTENT, &statement, NULL));
    return statement;
}

static void *open_database(unsigned variant, const char *path, bool is_new)
{
    configure();
    struct database *database = calloc(1, sizeof *database);
    if (database == NULL)
        fail("no memory for a database");
    database->way = &ways[variant];
    accept(database, sqlite3_open(path, &database->database));
    char settings[MOST_SETTINGS];
    snprintf(settings, sizeof settings,
             "PRAGMA page_size = %u; PRAGMA locking_mode = EXCLUSIVE; PRAGMA journal_mode = WAL; PRAGMA synchronous = OFF; "
             "PRAGMA cache_size = -16384; PRAGMA temp_store = MEMORY; PRAGMA wal_autocheckpoint = %u",
             database->way->page_bytes, database->way->pages_until_checkpoint);
    run(database, settings);
    if (is_new) {
        run(database, database->way->table);
        run(database, database->way->filled);
        run(database, "PRAGMA wal_checkpoint(PASSIVE)");
    }
    database->begin = prepared(database, "BEGIN");
    database->commit = prepared(database, "COMMIT");
    if (!database->way->is_blob)
        database->update = prepared(database, "UPDATE lines SET data = ?2 WHERE address = ?1");
    return database;
}

static void step(struct database *database, sqlite3_stmt *statement)
{
    accept(database, sqlite3_step(statement));
    accept(database, sqlite3_reset(statement));
}

static void store_to_blob(struct database *database, const struct epoch *epoch)
{
    sqlite3_blob *blob;
    accept(database, sqlite3_blob_open(database->database, "main", "boards", "data", BLOB_ROW, true, &blob));
    for (size_t turn = 0; turn < epoch->count; turn++) {
        const struct store *due = &epoch->stores[turn];
        accept(database, sqlite3_blob_write(blob, &due->value, BYTES_A_WORD, (int)(due->address * BYTES_A_WORD)));
    }
    accept(database, sqlite3_blob_close(blob));
}

static void store(void *state, const struct epoch *epoch)
{
    struct database *database = state;
    step(database, database->begin);
    if (database->way->is_blob) {
        store_to_blob(database, epoch);
        return;
    }
    for (size_t turn = 0; turn < epoch->count; turn++) {
        const struct store *due = &epoch->stores[turn];
        accept(database, sqlite3_bind_int64(database->update, 1, (sqlite3_int64)due->address));
        accept(database, sqlite3_bind_blob(database->update, 2, &due->value, BYTES_A_WORD, SQLITE_STATIC));
        step(database, database->update);
    }
}

static void commit(void *state)
{
    struct database *database = state;
    step(database, database->commit);
}

static void read_rows(struct database *database, uint64_t *lines)
{
    sqlite3_stmt *every = prepared(database, "SELECT address, data FROM lines");
    while (sqlite3_step(every) == SQLITE_ROW)
        memcpy(&lines[sqlite3_column_int64(every, 0)], sqlite3_column_blob(every, 1), BYTES_A_WORD);
    accept(database, sqlite3_finalize(every));
}

static void read_lines(void *state, uint64_t *lines)
{
    struct database *database = state;
    if (!database->way->is_blob) {
        read_rows(database, lines);
        return;
    }
    sqlite3_blob *blob;
    accept(database, sqlite3_blob_open(database->database, "main", "boards", "data", BLOB_ROW, false, &blob));
    accept(database, sqlite3_blob_read(blob, lines, LINES * BYTES_A_WORD, 0));
    accept(database, sqlite3_blob_close(blob));
}

static void close_database(void *state)
{
    struct database *database = state;
    sqlite3_finalize(database->begin);
    sqlite3_finalize(database->update);
    sqlite3_finalize(database->commit);
    accept(database, sqlite3_close(database->database));
    free(database);
}

#define FUNCTIONS open_database, store, commit, read_lines, close_database, false, words

const struct peer sqlite_rows = {"SQLite, a row for each line", ROWS, true, false, FUNCTIONS};
const struct peer sqlite_blob = {"SQLite, all lines in one blob", BLOB, true, false, FUNCTIONS};
