/*
 * libpmemobj: the lines are an array in the root object, and an epoch is a transaction with its undo log. A range has to be added
 * to the transaction before its first store.
 *
 * In the first way a line is added at each store: the library keeps the ranges in a tree and finds out that it has this one. In
 * the second the program notes what it has added, and adds the eight lines of a processor's cache line at once: one entry of the
 * log then has all of them.
 *
 * The environment turns off what is not needed for the death of a process: bench/peers/run has the reasons.
 */
#include <libpmemobj.h>
#include <stdlib.h>

#include "peer.h"

enum { LINES_A_RANGE = 8, POOL_BYTES = 16 << 20 };
enum { AT_EACH_STORE, NOTING };

static const char layout[] = "loom";

struct root {
    uint64_t lines[LINES];
};

struct pool {
    PMEMobjpool *pool;
    struct root *root;
    bool is_noting;
    uint32_t epoch;
    uint32_t added_in[LINES / LINES_A_RANGE];
};

static void need_environment(const char *variable)
{
    if (getenv(variable) == NULL)
        fail("%s is not set", variable);
}

static void *open_pool(unsigned variant, const char *path, bool is_new)
{
    need_environment("PMEM_IS_PMEM_FORCE");
    need_environment("PMEM_NO_FLUSH");
    need_environment("PMEM_NO_MOVNT");
    struct pool *pool = calloc(1, sizeof *pool);
    if (pool == NULL)
        fail("no memory for a pool");
    pool->is_noting = variant == NOTING;
    pool->pool = is_new ? pmemobj_create(path, layout, POOL_BYTES, OWNER_ONLY) : pmemobj_open(path, layout);
    if (pool->pool == NULL)
        fail("libpmemobj: %s", pmemobj_errormsg());
    pool->root = pmemobj_direct(pmemobj_root(pool->pool, sizeof *pool->root));
    if (pool->root == NULL)
        fail("libpmemobj: %s", pmemobj_errormsg());
    return pool;
}

static void add(uint64_t *lines, size_t count)
{
    if (pmemobj_tx_add_range_direct(lines, count * sizeof *lines) != 0)
        fail("libpmemobj: %s", pmemobj_errormsg());
}

static void store_noting(struct pool *pool, const struct epoch *epoch)
{
    uint32_t number = ++pool->epoch;
    for (size_t turn = 0; turn < epoch->count; turn++) {
        uint64_t address = epoch->stores[turn].address, range = address / LINES_A_RANGE;
        if (pool->added_in[range] != number) {
            pool->added_in[range] = number;
            add(&pool->root->lines[range * LINES_A_RANGE], LINES_A_RANGE);
        }
        pool->root->lines[address] = epoch->stores[turn].value;
    }
}

static void store(void *state, const struct epoch *epoch)
{
    struct pool *pool = state;
    if (pmemobj_tx_begin(pool->pool, NULL, TX_PARAM_NONE) != 0)
        fail("libpmemobj: %s", pmemobj_errormsg());
    if (pool->is_noting) {
        store_noting(pool, epoch);
        return;
    }
    for (size_t turn = 0; turn < epoch->count; turn++) {
        uint64_t *line = &pool->root->lines[epoch->stores[turn].address];
        add(line, 1);
        *line = epoch->stores[turn].value;
    }
}

static void commit(void *state)
{
    (void)state;
    pmemobj_tx_commit();
    if (pmemobj_tx_end() != 0)
        fail("libpmemobj: %s", pmemobj_errormsg());
}

static void read_lines(void *state, uint64_t *lines)
{
    struct pool *pool = state;
    for (uint64_t address = 0; address < LINES; address++)
        lines[address] = pool->root->lines[address];
}

static void close_pool(void *state)
{
    struct pool *pool = state;
    pmemobj_close(pool->pool);
    free(pool);
}

#define FUNCTIONS open_pool, store, commit, read_lines, close_pool, true, NULL

const struct peer pmemobj_plain = {"libpmemobj, a range at each store", AT_EACH_STORE, true, false, FUNCTIONS};
const struct peer pmemobj_noting = {"libpmemobj, eight lines a range, noted", NOTING, true, false, FUNCTIONS};
