/*
 * LMDB: an epoch is a write transaction, and its stores go through one cursor. In the first way each line is a value of its own,
 * in the second eight lines are: fewer pages are copied for scattered stores, since more lines stand on one.
 *
 * MDB_WRITEMAP and MDB_NOSYNC: pages are copied and changed in the mapped file, and nothing is synchronised. The file's pages
 * outlive the process, and the page that makes a transaction the current one is written last. MDB_NOLOCK: no other process reads.
 */
#include <lmdb.h>
#include <stdlib.h>
#include <string.h>

#include "peer.h"

enum { MOST_LINES_A_VALUE = 8, MAP_BYTES = 32 << 20 };
enum { LINE_BY_LINE, BY_EIGHTS };

struct environment {
    MDB_env *environment;
    MDB_dbi lines;
    MDB_txn *transaction;
    unsigned lines_a_value;
};

static void accept(int error)
{
    if (error != MDB_SUCCESS)
        fail("LMDB: %s", mdb_strerror(error));
}

/* All lines, zero, in the order of their keys: the pages are then as full as they can be. */
static void fill(struct environment *environment)
{
    uint64_t zeros[MOST_LINES_A_VALUE] = {0};
    for (unsigned number = 0; number < LINES / environment->lines_a_value; number++) {
        MDB_val key = {sizeof number, &number}, value = {environment->lines_a_value * sizeof *zeros, zeros};
        accept(mdb_put(environment->transaction, environment->lines, &key, &value, MDB_APPEND));
    }
}

static void *open_environment(unsigned variant, const char *path, bool is_new)
{
    const unsigned flags = MDB_NOSUBDIR | MDB_WRITEMAP | MDB_NOSYNC | MDB_NOLOCK;
    struct environment *environment = calloc(1, sizeof *environment);
    if (environment == NULL)
        fail("no memory for an environment");
    environment->lines_a_value = variant == LINE_BY_LINE ? 1 : MOST_LINES_A_VALUE;
    accept(mdb_env_create(&environment->environment));
    accept(mdb_env_set_mapsize(environment->environment, MAP_BYTES));
    accept(mdb_env_open(environment->environment, path, flags, OWNER_ONLY));
    accept(mdb_txn_begin(environment->environment, NULL, 0, &environment->transaction));
    accept(mdb_dbi_open(environment->transaction, NULL, MDB_INTEGERKEY, &environment->lines));
    if (is_new)
        fill(environment);
    accept(mdb_txn_commit(environment->transaction));
    return environment;
}

static void put_line(MDB_cursor *cursor, const struct store *due)
{
    unsigned number = (unsigned)due->address;
    uint64_t line = due->value;
    MDB_val key = {sizeof number, &number}, value = {sizeof line, &line};
    accept(mdb_cursor_put(cursor, &key, &value, 0));
}

static void put_among_eight(MDB_cursor *cursor, const struct store *due)
{
    unsigned number = (unsigned)(due->address / MOST_LINES_A_VALUE);
    uint64_t lines[MOST_LINES_A_VALUE];
    MDB_val key = {sizeof number, &number}, value;
    accept(mdb_cursor_get(cursor, &key, &value, MDB_SET));
    memcpy(lines, value.mv_data, sizeof lines);
    lines[due->address % MOST_LINES_A_VALUE] = due->value;
    value = (MDB_val){sizeof lines, lines};
    accept(mdb_cursor_put(cursor, &key, &value, MDB_CURRENT));
}

static void store(void *state, const struct epoch *epoch)
{
    struct environment *environment = state;
    MDB_cursor *cursor;
    accept(mdb_txn_begin(environment->environment, NULL, 0, &environment->transaction));
    accept(mdb_cursor_open(environment->transaction, environment->lines, &cursor));
    for (size_t turn = 0; turn < epoch->count; turn++)
        if (environment->lines_a_value == 1)
            put_line(cursor, &epoch->stores[turn]);
        else
            put_among_eight(cursor, &epoch->stores[turn]);
    mdb_cursor_close(cursor);
}

static void commit(void *state)
{
    struct environment *environment = state;
    accept(mdb_txn_commit(environment->transaction));
}

static void read_lines(void *state, uint64_t *lines)
{
    struct environment *environment = state;
    MDB_txn *transaction;
    accept(mdb_txn_begin(environment->environment, NULL, MDB_RDONLY, &transaction));
    for (unsigned number = 0; number < LINES / environment->lines_a_value; number++) {
        MDB_val key = {sizeof number, &number}, value;
        accept(mdb_get(transaction, environment->lines, &key, &value));
        memcpy(&lines[number * environment->lines_a_value], value.mv_data, value.mv_size);
    }
    mdb_txn_abort(transaction);
}

static void close_environment(void *state)
{
    struct environment *environment = state;
    mdb_env_close(environment->environment);
    free(environment);
}

#define FUNCTIONS open_environment, store, commit, read_lines, close_environment, true, NULL

const struct peer lmdb_lines = {"LMDB, a value for each line", LINE_BY_LINE, true, false, FUNCTIONS};
const struct peer lmdb_eights = {"LMDB, eight lines a value", BY_EIGHTS, true, false, FUNCTIONS};
