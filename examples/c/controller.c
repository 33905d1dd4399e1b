/*
 * A loom controller's loop over the PiCL cache log, with a mains switch that a weaver turns off every now and then.
 *
 * The loom weaves picks. After pick n its lines hold what only n decides: the pick count, the card's position, the
 * beam's tension, and for each card the last pick that it was used for. In mid-pick these lines do not agree, so an
 * epoch is some whole picks and then a commit. The pick count at each commit is recorded outside of the controller, and
 * every other line follows from it. That is how the controller sees, after each power-up, that ALL lines came back as
 * of ONE epoch.
 *
 * At first an epoch has PICKS_AN_EPOCH picks. If one needs more undo entries than the log has, the controller gives it
 * up, and from then on its epochs have half as many picks. How often it has halved them is a line too.
 *
 *     controller SCRIPT TRANSCRIPT HEX
 *
 * also writes the calls that it made, in the language of the bench program `loomreplay`, and what they answered, as
 * that prints it. HEX is for the service laptop: after each power-up the controller writes all lines into that file
 * anew, as Intel HEX.
 *
 *     controller SCRIPT TRANSCRIPT HEX TRACE TOTALS
 *
 * runs without a cut. It also records itself: it writes its calls as a trace, and the board stores that each kind of
 * call has made, as the bench program `loomtrace` prints them for that trace.
 */
#include <stdbool.h>
#include <stdio.h>
#include <stdlib.h>

#include "exporter.h"
#include "picl_handle.h"
#include "recorder.h"
#include "trace.h"

/* The figures that decide how large an export is, whether the log fills up, whether epochs have to wait, how often the mains
 * goes, and whether cards are evicted. */
#ifndef LINES
#define LINES 64
#endif
#ifndef LOG_ENTRIES
#define LOG_ENTRIES 96
#endif
#ifndef SCANS_A_PICK
#define SCANS_A_PICK 2
#endif
#ifndef MOST_STORES_BETWEEN_CUTS
#define MOST_STORES_BETWEEN_CUTS 300
#endif
#ifndef CARDS_KEPT
#define CARDS_KEPT CARDS
#endif

enum {
    SLOTS = 16,

    /* The loom's lines. */
    PICK_COUNT = 0,
    CARD_POSITION = 1,
    BEAM_TENSION = 2,
    HALVINGS = 3, /* how often the picks of an epoch have been halved */
    FIRST_CARD = 8,
    CARDS = 48,

    /* The beam's tension, as a function of the pick. */
    LEAST_TENSION = 1000,
    TENSION_STEP = 7,
    TENSION_SPAN = 50,

    BITS_AN_ENTRY = 2,
    DIRTY_SLOT = 3, /* the two topmost bits of a slot's first word: a line is held, and it is dirty */
    TOP_BITS_AT = 62,

    PICKS_AN_EPOCH = 20,
    EPOCHS = 40,
    MOST_CUTS = 1000 /* with fewer stores between two cuts than an epoch takes, the loom never gets on */
};

/* The board outlives the current. */
static uint64_t board[PICL_BOARD_WORDS(LINES, LOG_ENTRIES)];

/* All else does not. The handle's allowance is the simulated mains switch: so many board stores still reach the board, or
 * PICL_NO_CUT. */
static uint64_t work[PICL_WORK_WORDS(SLOTS)];
static struct picl_handle loom = PICL_HANDLE(board, LINES, LOG_ENTRIES, work, SLOTS);

static bool is_uncut; /* nobody turns the mains off */
static unsigned cuts;

/* Epochs that needed more entries than the log has. */
static unsigned given_up;

/* The file that the service laptop reads, or NULL where there is no laptop. */
static const char *hex_file;

/* The record of what was committed, which no cut reaches: how far the loom was at the commit of each epoch. end_epoch
 * writes it, and check_lines holds the lines to it. Nothing that the controller stores depends on it. */
static struct {
    uint64_t picks;
    uint64_t halvings;
} at_commit[EPOCHS + 1];

static void fail(const char *what, uint64_t number)
{
    fprintf(stderr, "controller: %s: %llu\n", what, (unsigned long long)number);
    exit(1);
}

/* The mains is on again. After how many board stores it goes off is drawn at random. */
static void turn_on(void)
{
    static uint64_t random = 1; /* Knuth's MMIX generator */
    random = random * 6364136223846793005u + 1442695040888963407u;
    loom.allowance = is_uncut ? PICL_NO_CUT : (uint32_t)(random >> 33) % MOST_STORES_BETWEEN_CUTS;
}

/* What every call comes back to. A cut loses work memory and registers, and the loop starts again from the board. */
static uint64_t answered(const char *call, uint64_t number)
{
    record_answer(number, &loom);
    if (loom.allowance != PICL_NO_CUT)
        loom.allowance -= (uint32_t)picl_handle_stores(&loom);
    if (number == PICL_CUT) {
        cuts++;
        printf("mains off in %s after %llu of its stores\n", call, (unsigned long long)picl_handle_stores(&loom));
    }
    return number;
}

/* Not the first of a board: a power-up has no record, so a trace ends before it. */
static uint64_t power_up(void)
{
    end_trace();
    record_call(loom.allowance, "p");
    return answered("power-up", picl_handle_power_up(&loom));
}

static uint64_t load(uint64_t address, uint64_t *value)
{
    record_call(loom.allowance, "l %u", (unsigned)address);
    uint64_t number = answered("load", picl_handle_load(&loom, address));
    trace_call(PICL_RECORD_LOAD, address, NO_VALUE, picl_handle_stores(&loom));
    *value = picl_handle_value(&loom);
    return number;
}

static uint64_t evict(uint64_t address)
{
    record_call(loom.allowance, "e %u", (unsigned)address);
    uint64_t number = answered("evict", picl_handle_evict(&loom, address));
    trace_call(PICL_RECORD_EVICT, address, NO_VALUE, picl_handle_stores(&loom));
    return number;
}

static uint64_t scan(void)
{
    record_call(loom.allowance, "a");
    uint64_t number = answered("scan", picl_handle_scan(&loom));
    trace_call(PICL_RECORD_SCAN, NO_ADDRESS, NO_VALUE, picl_handle_stores(&loom));
    return number;
}

static uint64_t commit_once(void)
{
    record_call(loom.allowance, "c");
    uint64_t number = answered("commit", picl_handle_commit(&loom));
    trace_call(PICL_RECORD_COMMIT, NO_ADDRESS, NO_VALUE, picl_handle_stores(&loom));
    return number;
}

/* Scan calls until one of them has persisted an epoch, or none waits. This, commit and store are picl_handle_persist,
 * picl_handle_end_epoch and picl_handle_store_with_room once more, since here each call is recorded by itself. */
static uint64_t persist(void)
{
    uint64_t number;
    do {
        number = scan();
    } while (number == PICL_OK && picl_handle_value(&loom) == 0);
    return number;
}

/* The end of an epoch. Where 15 epochs wait, one has to be persisted first. */
static uint64_t commit(void)
{
    uint64_t number = commit_once();
    while (number == PICL_WAITING) {
        number = persist();
        if (number == PICL_OK)
            number = commit_once();
    }
    return number;
}

static uint64_t store_once(uint64_t address, uint64_t value)
{
    record_call(loom.allowance, "s %u %llu", (unsigned)address, (unsigned long long)value);
    uint64_t number = answered("store", picl_handle_store(&loom, address, value));
    trace_call(PICL_RECORD_STORE, address, value, picl_handle_stores(&loom));
    return number;
}

/* Where the log is full, the oldest epoch that waits has to be persisted first: its entries then go. It may have had none, so
 * that the store is refused again and the next epoch has to be persisted. PICL_ROOM is the answer only where no epoch waits
 * any more: then the entries of the running epoch fill the log, and one more is due. */
static uint64_t store(uint64_t address, uint64_t value)
{
    uint64_t number = store_once(address, value);
    while (number == PICL_ROOM) {
        number = persist();
        if (number == PICL_NONE)
            return PICL_ROOM;
        if (number == PICL_OK)
            number = store_once(address, value);
    }
    return number;
}

static uint64_t tension_at(uint64_t pick)
{
    return LEAST_TENSION + pick * TENSION_STEP % TENSION_SPAN;
}

static uint64_t card_at(uint64_t pick)
{
    return pick % CARDS;
}

/* After a pick: the cards of the last picks stay in the cache, since a weaver who mends a fault goes back by some picks. The
 * one before them is not needed again for long, and is evicted now, so that no later call has to write it out. */
static uint64_t evict_card(uint64_t pick)
{
    bool is_any = CARDS_KEPT < CARDS && pick > CARDS_KEPT;
    return is_any ? evict(FIRST_CARD + card_at(pick - CARDS_KEPT)) : PICL_OK;
}

/* One pick: what it stores depends on its number alone. */
static uint64_t run_pick(void)
{
    uint64_t pick, number = load(PICK_COUNT, &pick);
    pick++;
    if (number == PICL_OK)
        number = store(PICK_COUNT, pick);
    if (number == PICL_OK)
        number = store(FIRST_CARD + card_at(pick), pick);
    if (number == PICL_OK)
        number = store(CARD_POSITION, card_at(pick));
    if (number == PICL_OK)
        number = store(BEAM_TENSION, tension_at(pick));
    if (number == PICL_OK)
        number = evict_card(pick);
    for (int i = 0; number == PICL_OK && i < SCANS_A_PICK; i++)
        number = scan();
    return number == PICL_NONE ? PICL_OK : number; /* that no epoch waits is no fault */
}

static uint64_t picks_an_epoch(uint64_t halvings)
{
    return (uint64_t)PICKS_AN_EPOCH >> halvings;
}

/* The filter has the bits of the buffered entries and no others: at most two for each, and none after a power-up. */
static void check_filter(void)
{
    uint64_t number = picl_handle_filter_bits(&loom);
    if (number != PICL_OK)
        fail("filter-bits answered", number);
    if (picl_handle_value(&loom) > BITS_AN_ENTRY * loom.registers[PICL_BUFFERED])
        fail("the filter has more bits than the buffered entries", picl_handle_value(&loom));
}

/* What the panel shows: how many lines are dirty. It is read from the registers, and every slot agrees with it. */
static void check_panel(void)
{
    uint64_t dirty = 0, number = picl_handle_tally(&loom);
    if (number != PICL_OK)
        fail("tally answered", number);
    for (size_t slot = 0; slot < SLOTS; slot++)
        dirty += work[PICL_SLOT_WORDS * slot] >> TOP_BITS_AT == DIRTY_SLOT;
    if (picl_handle_value(&loom) != dirty)
        fail("the panel shows another number of dirty lines than the slots have", picl_handle_value(&loom));
}

/* Commits the running epoch, which has so many picks. */
static uint64_t end_epoch(uint64_t picks, uint64_t halvings)
{
    uint64_t number = commit();
    if (number == PICL_OK) {
        check_filter();
        check_panel();
        uint64_t committed = picl_handle_epoch(&loom) - 1;
        at_commit[committed].picks = at_commit[committed - 1].picks + picks;
        at_commit[committed].halvings = halvings;
    }
    return number;
}

static uint64_t run_epoch(void)
{
    uint64_t halvings, number = load(HALVINGS, &halvings);
    uint64_t picks = picks_an_epoch(halvings);
    for (uint64_t i = 0; number == PICL_OK && i < picks; i++)
        number = run_pick();
    return number == PICL_OK ? end_epoch(picks, halvings) : number;
}

/* What a line holds after so many picks. */
static uint64_t line_after(uint64_t picks, uint64_t address)
{
    if (address == PICK_COUNT)
        return picks;
    if (address == CARD_POSITION)
        return card_at(picks);
    if (address == BEAM_TENSION)
        return picks == 0 ? 0 : tension_at(picks);
    if (address < FIRST_CARD || address >= FIRST_CARD + CARDS)
        return 0;
    uint64_t since = (picks + CARDS - (address - FIRST_CARD)) % CARDS;
    return since < picks ? picks - since : 0;
}

/* What a line held when an epoch was committed. */
static uint64_t line_of(uint64_t epoch, uint64_t address)
{
    return address == HALVINGS ? at_commit[epoch].halvings : line_after(at_commit[epoch].picks, address);
}

/* Each line against what it held when the persisted epoch was committed. */
static uint64_t check_lines(void)
{
    uint64_t number = PICL_OK, persisted = picl_handle_persisted(&loom);
    check_filter();
    check_panel();
    for (uint64_t address = 0; number == PICL_OK && address < LINES; address++) {
        uint64_t value;
        number = load(address, &value);
        if (number == PICL_OK && value != line_of(persisted, address))
            fail("a line is not of the persisted epoch", address);
    }
    if (number == PICL_OK)
        printf("awake: every line is of epoch %llu, pick %llu\n", (unsigned long long)persisted,
               (unsigned long long)at_commit[persisted].picks);
    return number;
}

/* All lines to the service laptop. The log is empty and nothing is stored yet, so that only the end of the file ends it. */
static void serve_laptop(void)
{
    uint64_t records, number = export_lines(hex_file, &loom, &records);
    if (number != PICL_PAST)
        fail("an export ended with", number);
    if (records != PICL_HEX_RECORDS(LINES))
        fail("an export has too many records, or too few", records);
}

/* After every accepted power-up, before anything else. */
static uint64_t after_power_up(void)
{
    if (hex_file != NULL)
        serve_laptop();
    return check_lines();
}

/* Half as many picks an epoch, from now on. The line that says so is an epoch of its own, and persisted at once: otherwise the
 * next cut, or the next epoch that is given up, would undo it. */
static uint64_t halve_epochs(void)
{
    uint64_t halvings, number = load(HALVINGS, &halvings);
    if (number != PICL_OK)
        return number;
    halvings++;
    if (picks_an_epoch(halvings) == 0)
        fail("one pick needs more undo entries than the log has", LOG_ENTRIES);
    printf("from now on: picks an epoch %llu\n", (unsigned long long)picks_an_epoch(halvings));
    number = store(HALVINGS, halvings);
    if (number == PICL_OK)
        number = end_epoch(0, halvings);
    return number == PICL_OK ? persist() : number;
}

/* The way back from an epoch that needs more undo entries than the log has. A commit would persist a half-made pick. A power-up
 * with the current on undoes the running epoch, and that alone, since no other waits. The same picks would need as many entries
 * again, so the epochs have to become smaller. */
static uint64_t give_up_epoch(void)
{
    given_up++;
    printf("epoch %llu needs more entries than the log has: given up\n", (unsigned long long)picl_handle_epoch(&loom));
    uint64_t number = power_up();
    if (number == PICL_OK)
        number = after_power_up();
    return number == PICL_OK ? halve_epochs() : number;
}

static void format_new_board(void)
{
    uint64_t number = picl_handle_format(&loom);
    if (number != PICL_OK)
        fail("format", number);
    printf("new board: formatted\n");
    record_format(LINES, LOG_ENTRIES, SLOTS);
}

/* The way from mains on to the first pick. The first power-up of a new board belongs to the bench's `n`, without a cut. */
static uint64_t start(void)
{
    uint64_t number;
    if (board[PICL_SHAPE_AT] == 0) {
        format_new_board();
        loom.allowance = PICL_NO_CUT;
        number = answered("power-up", picl_handle_power_up(&loom));
        turn_on();
    } else {
        turn_on();
        number = power_up();
    }
    return number == PICL_OK ? after_power_up() : number;
}

/* From mains on to mains off, or to the last epoch. */
static uint64_t run(void)
{
    uint64_t number = start();
    while (number == PICL_OK && picl_handle_epoch(&loom) <= EPOCHS) {
        number = run_epoch();
        if (number == PICL_ROOM)
            number = give_up_epoch();
    }
    return number;
}

/* The program's words, behind its name. */
enum { SCRIPT = 1, TRANSCRIPT, HEX, TRACE, TOTALS };

int main(int count, char **words)
{
    if (count > HEX) {
        open_records(words[SCRIPT], words[TRANSCRIPT]);
        hex_file = words[HEX];
    }
    if (count > TOTALS) {
        is_uncut = true;
        open_trace(words[TRACE], words[TOTALS]);
    }
    uint64_t number;
    do {
        number = run();
    } while (number == PICL_CUT && cuts < MOST_CUTS);
    if (number != PICL_OK)
        fail("the last call answered", number);
    end_trace();
    close_records();
    printf("wove %d epochs through %u cuts, gave up %u\n", EPOCHS, cuts, given_up);
    return 0;
}
