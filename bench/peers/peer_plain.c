/* No log at all: the stores go to the lines, and a commit notes its number. It is the least that a store can take, and
 * shows that deaths leave lines of mixed epochs where nothing protects them. */
#include <stdlib.h>
#include <string.h>

#include "peer.h"

/* Volatile, as board memory is: each store is made, and in its order. */
struct plain {
    volatile uint64_t committed;
    volatile uint64_t lines[LINES];
};

static uint64_t words_stored;

static uint64_t words(void)
{
    return words_stored;
}

static void *open_plain(unsigned variant, const char *path, bool is_new)
{
    (void)variant;
    return map_file(path, sizeof(struct plain), is_new);
}

static void store(void *state, const struct epoch *epoch)
{
    struct plain *plain = state;
    for (size_t turn = 0; turn < epoch->count; turn++)
        plain->lines[epoch->stores[turn].address] = epoch->stores[turn].value;
    words_stored += epoch->count;
}

static void commit(void *state)
{
    struct plain *plain = state;
    plain->committed++;
    words_stored++;
}

static void read_lines(void *state, uint64_t *lines)
{
    struct plain *plain = state;
    for (uint64_t address = 0; address < LINES; address++)
        lines[address] = plain->lines[address];
}

static void close_plain(void *state)
{
    unmap_file(state, sizeof(struct plain));
}

const struct peer plain_stores = {
    "plain stores, no log", 0, false, false, open_plain, store, commit, read_lines, close_plain, true, words,
};
