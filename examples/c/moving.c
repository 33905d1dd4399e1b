/*
 * Before a loom is moved: every committed epoch goes down in one pass, and only then is the mains turned off. begin_move and
 * finish_move are what a controller needs for it; the rest tries them. Where the loom stands still meanwhile, picl_handle_settle
 * is both.
 *
 * This loom stores to line n - 1 in each epoch that is a multiple of n, and what it stores is the epoch's number. So an
 * epoch alone decides what every line held at its commit, and after each power-up ALL lines are held to ONE epoch.
 *
 * Each move is made on a new board, and the mains turned off behind it: every line must come back as of the last epoch
 * that was committed. Then it is made again and again, and the mains goes off at the first board store of the pass, at
 * the second, and so on to the last: every line must come back as of the epoch that was persisted before the pass.
 */
#include <stdbool.h>
#include <stdio.h>
#include <stdlib.h>
#include <string.h>

#include "picl_handle.h"

enum {
    SLOTS = 16,
    LINES = SLOTS + 4, /* more than a pass has calls: a loom that is running stores to another line before each */
    LOG_ENTRIES = 128,
    PERSISTED = 30, /* epochs that are persisted one by one before those that wait for the move: so many that the log turns */
    LAST_COMMITTED = PERSISTED + PICL_MOST_WAITING,
    SOME_SCANS = 5,   /* too few for a whole pass */
    HALF_MADE = 1000, /* what lines hold in mid-epoch: the number of no epoch */
    ANY_BYTE = 0xA5   /* work memory and registers come up with any words */
};

/* The board outlives the current. */
static uint64_t board[PICL_BOARD_WORDS(LINES, LOG_ENTRIES)];

/* All else does not. The handle's allowance is the simulated mains switch: so many board stores still reach the board, or
 * PICL_NO_CUT. */
static uint64_t work[PICL_WORK_WORDS(SLOTS)];
static struct picl_handle loom = PICL_HANDLE(board, LINES, LOG_ENTRIES, work, SLOTS);

static uint32_t stores_made; /* since the pass for all epochs began */

static void fail(const char *what, uint64_t number)
{
    fprintf(stderr, "moving: %s: %llu\n", what, (unsigned long long)number);
    exit(1);
}

static void accepted(const char *call, uint64_t number)
{
    if (number != PICL_OK)
        fail(call, number);
}

static uint64_t answered(uint64_t number)
{
    stores_made += (uint32_t)picl_handle_stores(&loom);
    if (loom.allowance != PICL_NO_CUT)
        loom.allowance -= (uint32_t)picl_handle_stores(&loom);
    return number;
}

static uint64_t store(uint64_t address, uint64_t value)
{
    return answered(picl_handle_store(&loom, address, value));
}

static uint64_t scan(void)
{
    return answered(picl_handle_scan(&loom));
}

/* At a moment when the lines agree: the running epoch is committed too, a pass under way is brought to its end, and one begins
 * for all epochs that wait. */
static uint64_t begin_move(void)
{
    uint64_t number = picl_handle_end_epoch(&loom);
    if (number == PICL_OK && loom.registers[PICL_PASS_TARGET] != 0)
        number = picl_handle_persist(&loom);
    return number == PICL_OK ? picl_handle_begin(&loom, picl_handle_epoch(&loom) - 1) : number;
}

/* The pass: after it P is the last committed epoch, and the mains may be turned off. A loom may run on meanwhile. What
 * it stores is of the running epoch, which a cut takes back as ever. */
static uint64_t finish_move(bool is_running)
{
    uint64_t number = PICL_OK;
    for (unsigned calls = 0; number == PICL_OK && calls < SLOTS + 1; calls++) {
        if (is_running)
            number = store(LINES - 1 - calls, HALF_MADE);
        if (number == PICL_OK)
            number = scan();
    }
    return number;
}

/* What a line held when an epoch was committed: the last multiple of n up to it, for line n - 1. */
static uint64_t line_of(uint64_t epoch, uint64_t address)
{
    return epoch - epoch % (address + 1);
}

/* Mains on: P is this epoch, and every line is as of it. */
static void restart(uint64_t epoch)
{
    memset(work, ANY_BYTE, sizeof work);
    memset(loom.registers, ANY_BYTE, sizeof loom.registers);
    accepted("power-up", picl_handle_power_up(&loom));
    if (picl_handle_persisted(&loom) != epoch)
        fail("the loom restarts in another epoch", picl_handle_persisted(&loom));
    for (uint64_t address = 0; address < LINES; address++) {
        accepted("load", picl_handle_load(&loom, address));
        if (picl_handle_value(&loom) != line_of(epoch, address))
            fail("a line is not of the epoch that the loom restarts in", address);
    }
}

static void store_epoch(uint64_t epoch)
{
    for (uint64_t address = 0; address < LINES; address++)
        if (line_of(epoch, address) == epoch)
            accepted("store", store(address, epoch));
}

/* A new board, and all work before the move: of the epochs that are to go down in one pass only the last is not committed yet. */
static void work_until_move(void)
{
    accepted("format", picl_handle_format(&loom));
    restart(0);
    for (uint64_t epoch = 1; epoch < LAST_COMMITTED; epoch++) {
        store_epoch(epoch);
        accepted("commit", picl_handle_commit(&loom));
        for (unsigned calls = 0; epoch <= PERSISTED && calls < SLOTS + 1; calls++)
            accepted("scan", scan());
    }
    store_epoch(LAST_COMMITTED);
}

/* No pass begins, and the registers stay as they are. */
static void refused(uint64_t target)
{
    uint64_t before[PICL_REGISTER_WORDS];
    memcpy(before, loom.registers, sizeof before);
    uint64_t number = picl_handle_begin(&loom, target);
    if (number != PICL_TARGET)
        fail("begin is not refused for its target", number);
    if (memcmp(before, loom.registers, sizeof before) != 0)
        fail("a refused begin has changed the registers", target);
}

/* How a loom is found when it is to be moved. */
struct found {
    const char *state;
    unsigned scans_before; /* ordinary scan calls: some, and a pass is under way */
    uint64_t persisted;    /* P when the pass for all epochs begins */
    bool is_running;
};

/* One move, with a mains that goes off after so many board stores of the pass. Was that before its end? */
static bool is_cut_after(const struct found *found, uint32_t stores)
{
    work_until_move();
    for (unsigned calls = 0; calls < found->scans_before; calls++)
        accepted("scan", scan());
    refused(picl_handle_epoch(&loom)); /* it is not committed */
    accepted("the begin of a move", begin_move());
    refused(picl_handle_epoch(&loom) - 1); /* a pass is under way */
    stores_made = 0;
    loom.allowance = stores;
    uint64_t number = finish_move(found->is_running);
    loom.allowance = PICL_NO_CUT;
    if (number == PICL_CUT) {
        restart(found->persisted);
        return true;
    }
    accepted("the end of a move", number);
    if (picl_handle_value(&loom) != LAST_COMMITTED)
        fail("the last scan call has persisted another epoch", picl_handle_value(&loom));
    if (picl_handle_persisted(&loom) != LAST_COMMITTED)
        fail("behind the pass another epoch is persisted", picl_handle_persisted(&loom));
    refused(LAST_COMMITTED); /* none waits */
    restart(LAST_COMMITTED);
    return false;
}

static void move(const struct found *found)
{
    if (is_cut_after(found, PICL_NO_CUT))
        fail("the mains was on, and a call of the pass was cut, store", stores_made);
    uint32_t stores = stores_made;
    for (uint32_t made = 0; made < stores; made++)
        if (!is_cut_after(found, made))
            fail("the mains went off, and the pass went on, store", made);
    printf("%s: %u epochs in one pass of %u board stores; cut at each of them, every line of one epoch\n", found->state,
           (unsigned)(LAST_COMMITTED - found->persisted), (unsigned)stores);
}

int main(void)
{
    static const struct found looms[] = {
        {"at rest", 0, PERSISTED, false},
        {"weaving on", 0, PERSISTED, true},
        {"at rest, in a pass", SOME_SCANS, PERSISTED + 1, false},
        {"weaving on, in a pass", SOME_SCANS, PERSISTED + 1, true},
    };
    for (size_t i = 0; i < sizeof looms / sizeof *looms; i++)
        move(&looms[i]);
    return 0;
}
