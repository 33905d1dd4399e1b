/*
 * This library, as docs/INTEGRATION.md recommends it: the largest log, and 256 slots, or 64 where the controller evicts the
 * lines of a pick at its end; twice the S + 1 scan calls an epoch that persist one, spread evenly between the stores. A
 * committed epoch then waits for half an epoch until it is persisted. At this rate no order of the stores fills the log.
 *
 * The third way makes no scan calls between the stores, and S + 1 right after each commit: then every epoch is persisted when
 * its commit ends, as with the peers.
 */
#include <stdlib.h>

#include "peer.h"
#include "picl.h"

enum { LOG_ENTRIES = PICL_MOST_ENTRIES };

struct way {
    unsigned slots;
    unsigned scans_an_epoch; /* between the stores */
    bool is_evicting;
    bool is_persisting_at_commit;
};

enum { SPREAD, SPREAD_AND_EVICTING, AT_COMMIT };
static const struct way ways[] = {
    [SPREAD] = {256, 2 * (256 + 1), false, false},
    [SPREAD_AND_EVICTING] = {64, 2 * (64 + 1), true, false},
    [AT_COMMIT] = {256, 0, false, true},
};

struct controller {
    struct way way;
    uint64_t *board;
    uint64_t *work;
    uint64_t registers[PICL_REGISTER_WORDS];
    uint64_t answer[PICL_ANSWER_WORDS];
};

#define BOARD_WORDS PICL_BOARD_WORDS(LINES, LOG_ENTRIES)
#define LENT_BOARD controller->board, BOARD_WORDS
#define LENT_WORK controller->work, PICL_WORK_WORDS(controller->way.slots)
#define LENT_REGISTERS controller->registers, PICL_REGISTER_WORDS
#define LENT_ANSWER controller->answer, PICL_ANSWER_WORDS

static uint64_t words_stored;

static uint64_t words(void)
{
    return words_stored;
}

static void accept(struct controller *controller, const char *call, uint64_t number)
{
    if (number != PICL_OK)
        fail("%s answered %llu", call, (unsigned long long)number);
    words_stored += controller->answer[PICL_STORES];
}

static void *open_board(unsigned variant, const char *path, bool is_new)
{
    struct controller *controller = calloc(1, sizeof *controller);
    if (controller == NULL)
        fail("no memory for a controller");
    controller->way = ways[variant];
    controller->work = calloc(PICL_WORK_WORDS(controller->way.slots), sizeof *controller->work);
    if (controller->work == NULL)
        fail("no memory for a work memory");
    controller->board = map_file(path, BOARD_WORDS * sizeof *controller->board, is_new);
    if (is_new)
        accept(controller, "format", picl_format(LENT_BOARD, LINES, LOG_ENTRIES, LENT_ANSWER));
    accept(controller, "power-up", picl_power_up(LENT_BOARD, LENT_WORK, LENT_REGISTERS, PICL_NO_CUT, LENT_ANSWER));
    return controller;
}

static void scan(struct controller *controller, size_t calls)
{
    while (calls-- > 0) {
        uint64_t number = picl_scan(LENT_BOARD, LENT_WORK, LENT_REGISTERS, PICL_NO_CUT, LENT_ANSWER);
        if (number != PICL_NONE)
            accept(controller, "scan", number);
    }
}

/* How many scan calls are due before a turn of an epoch with so many stores. */
static size_t scans_before(const struct controller *controller, size_t turn, size_t stores)
{
    return (turn * controller->way.scans_an_epoch + stores - 1) / stores;
}

static void evict_pick(struct controller *controller, const struct epoch *epoch, size_t pick)
{
    for (size_t place = 0; place < LINES_OF_A_PICK; place++) {
        uint64_t address = epoch->lines[pick * LINES_OF_A_PICK + place];
        accept(controller, "evict", picl_evict(LENT_BOARD, LENT_WORK, LENT_REGISTERS, address, PICL_NO_CUT, LENT_ANSWER));
    }
}

static void store(void *state, const struct epoch *epoch)
{
    struct controller *controller = state;
    bool is_evicting = controller->way.is_evicting && epoch->is_by_picks;
    for (size_t turn = 0; turn < epoch->count; turn++) {
        const struct store *due = &epoch->stores[turn];
        accept(controller, "store",
               picl_store(LENT_BOARD, LENT_WORK, LENT_REGISTERS, due->address, due->value, PICL_NO_CUT, LENT_ANSWER));
        scan(controller, scans_before(controller, turn + 1, epoch->count) - scans_before(controller, turn, epoch->count));
        size_t pick = turn * PICKS_AN_EPOCH / epoch->count;
        if (is_evicting && (turn + 1) * PICKS_AN_EPOCH / epoch->count != pick)
            evict_pick(controller, epoch, pick);
    }
}

static void commit(void *state)
{
    struct controller *controller = state;
    accept(controller, "commit", picl_commit(LENT_BOARD, LENT_WORK, LENT_REGISTERS, PICL_NO_CUT, LENT_ANSWER));
    if (controller->way.is_persisting_at_commit)
        scan(controller, controller->way.slots + 1);
}

static void read_lines(void *state, uint64_t *lines)
{
    struct controller *controller = state;
    for (uint64_t address = 0; address < LINES; address++) {
        accept(controller, "load", picl_load(LENT_BOARD, LENT_WORK, LENT_REGISTERS, address, PICL_NO_CUT, LENT_ANSWER));
        lines[address] = controller->answer[PICL_VALUE];
    }
}

static void close_board(void *state)
{
    struct controller *controller = state;
    unmap_file(controller->board, BOARD_WORDS * sizeof *controller->board);
    free(controller->work);
    free(controller);
}

#define FUNCTIONS open_board, store, commit, read_lines, close_board, true, words

const struct peer picl_256 = {"this library, S = 256", SPREAD, true, true, FUNCTIONS};
const struct peer picl_64 = {"this library, S = 64, picks evicted", SPREAD_AND_EVICTING, true, true, FUNCTIONS};
const struct peer picl_at_commit = {"this library, S = 256, persisted at commit", AT_COMMIT, true, false, FUNCTIONS};
