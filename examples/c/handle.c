/*
 * The handle of picl_handle.h, held to the proved functions that it calls. One board is worked on through a handle and a second
 * one by the functions of picl.h, with the same calls, any of them and with any allowance: after each the two are the same, word
 * for word. Then the macros that read a board, and the functions that make several calls, on boards of which all numbers are
 * known.
 *
 * It is C99 and C++11: examples/c/run builds it as both.
 */
#include <inttypes.h>
#include <stdio.h>
#include <stdlib.h>
#include <string.h>

#include "picl_handle.h"

#if PICL_VERSION_MAJOR != 9
#error "the headers are of another version than this program"
#endif

enum {
    LINES = 40,
    LOG_ENTRIES = 24,
    SLOTS = 16,
    CALLS = 100000,
    ANY_BYTE = 0xA5
};

/* One board, and what belongs to it, as C lends them. */
static uint64_t board[PICL_BOARD_WORDS(LINES, LOG_ENTRIES)];
static uint64_t work[PICL_WORK_WORDS(SLOTS)];
static struct picl_handle loom = PICL_HANDLE(board, LINES, LOG_ENTRIES, work, SLOTS);
static uint8_t text[PICL_HEX_BYTES];
static struct picl_reader reader;

/* The other. */
static uint64_t plain_board[PICL_BOARD_WORDS(LINES, LOG_ENTRIES)];
static uint64_t plain_work[PICL_WORK_WORDS(SLOTS)];
static uint64_t plain_registers[PICL_REGISTER_WORDS];
static uint64_t plain_answer[PICL_ANSWER_WORDS];
static uint8_t plain_text[PICL_HEX_BYTES];
static uint64_t plain_reader[PICL_READER_WORDS];

/* How many bytes of the text are a record, once one is exported. It is loaded again; a byte less is refused. */
static size_t text_bytes = PICL_HEX_BYTES;

#define PLAIN_BOARD plain_board, PICL_BOARD_WORDS(LINES, LOG_ENTRIES)
#define PLAIN_WORK plain_work, PICL_WORK_WORDS(SLOTS)
#define PLAIN_REGISTERS plain_registers, PICL_REGISTER_WORDS
#define PLAIN_ANSWER plain_answer, PICL_ANSWER_WORDS

static void fail(const char *what, uint64_t number)
{
    fprintf(stderr, "handle: %s: %" PRIu64 "\n", what, number);
    exit(1);
}

static void expect(const char *what, uint64_t given, uint64_t expected)
{
    if (given != expected)
        fail(what, given);
}

/* A board in the layout before version 9, for conversions: its log is empty, and line i has the value i. One word less is refused. */
#define OLD_WORDS PICL_BOARD_WORDS(LINES, LOG_ENTRIES)
static uint64_t old_board[OLD_WORDS];

static void make_old_board(void)
{
    enum { PERSISTED = 3 };
    old_board[PICL_CONTROL_AT] = PICL_AS(uint64_t, PERSISTED) << 2 * PICL_SIZE_BITS; /* P 24, log start 20, log length 20 */
    old_board[PICL_SHAPE_AT] = PICL_AS(uint64_t, LINES) << PICL_SIZE_BITS | LOG_ENTRIES;
    for (uint64_t line = 0; line < LINES; line++)
        old_board[PICL_LINE_AT(old_board, line)] = line;
}

enum { FORMAT, CONVERT, POWER_UP, LOAD, STORE, EVICT, COMMIT, BEGIN, SCAN, TALLY, FILTER_BITS, HEX_OUT, HEX_IN, KINDS };

/* How often a call of each kind comes: what a controller does most, most often. */
enum { IN_ALL = 100 };
static const struct {
    const char *name;
    uint32_t often;
} kinds[KINDS] = {{"format", 1}, {"convert", 1}, {"power-up", 1}, {"load", 5},  {"store", 20},      {"evict", 5},
                  {"commit", 9}, {"begin", 6},   {"scan", 42},    {"tally", 2}, {"filter bits", 2}, {"hex out", 3},
                  {"hex in", 3}};

/* Any call. Number is an address, a target, a record, or how many words of the old board or bytes of the text are lacking. */
struct call {
    uint32_t kind;
    uint64_t number;
    uint64_t value;
};

static uint64_t through_handle(struct call call)
{
    switch (call.kind) {
    case FORMAT:
        return picl_handle_format(&loom);
    case CONVERT:
        return picl_handle_convert(&loom, old_board, OLD_WORDS - call.number);
    case POWER_UP:
        return picl_handle_power_up(&loom);
    case LOAD:
        return picl_handle_load(&loom, call.number);
    case STORE:
        return picl_handle_store(&loom, call.number, call.value);
    case EVICT:
        return picl_handle_evict(&loom, call.number);
    case COMMIT:
        return picl_handle_commit(&loom);
    case BEGIN:
        return picl_handle_begin(&loom, call.number);
    case SCAN:
        return picl_handle_scan(&loom);
    case TALLY:
        return picl_handle_tally(&loom);
    case FILTER_BITS:
        return picl_handle_filter_bits(&loom);
    case HEX_OUT:
        return picl_handle_hex_out(&loom, &text, call.number);
    default:
        return picl_handle_hex_in(&loom, &reader, text, text_bytes - call.number);
    }
}

static uint64_t plainly(struct call call, uint32_t allowance)
{
    switch (call.kind) {
    case FORMAT:
        return picl_format(PLAIN_BOARD, LINES, LOG_ENTRIES, PLAIN_ANSWER);
    case CONVERT:
        return picl_convert(old_board, OLD_WORDS - call.number, PLAIN_BOARD, PLAIN_ANSWER);
    case POWER_UP:
        return picl_power_up(PLAIN_BOARD, PLAIN_WORK, PLAIN_REGISTERS, allowance, PLAIN_ANSWER);
    case LOAD:
        return picl_load(PLAIN_BOARD, PLAIN_WORK, PLAIN_REGISTERS, call.number, allowance, PLAIN_ANSWER);
    case STORE:
        return picl_store(PLAIN_BOARD, PLAIN_WORK, PLAIN_REGISTERS, call.number, call.value, allowance, PLAIN_ANSWER);
    case EVICT:
        return picl_evict(PLAIN_BOARD, PLAIN_WORK, PLAIN_REGISTERS, call.number, allowance, PLAIN_ANSWER);
    case COMMIT:
        return picl_commit(PLAIN_BOARD, PLAIN_WORK, PLAIN_REGISTERS, allowance, PLAIN_ANSWER);
    case BEGIN:
        return picl_begin(PLAIN_BOARD, PLAIN_WORK, PLAIN_REGISTERS, call.number, PLAIN_ANSWER);
    case SCAN:
        return picl_scan(PLAIN_BOARD, PLAIN_WORK, PLAIN_REGISTERS, allowance, PLAIN_ANSWER);
    case TALLY:
        return picl_tally(PLAIN_BOARD, PLAIN_WORK, PLAIN_REGISTERS, PLAIN_ANSWER);
    case FILTER_BITS:
        return picl_filter_bits(PLAIN_WORK, PLAIN_ANSWER);
    case HEX_OUT:
        return picl_hex_out(PLAIN_BOARD, plain_text, PICL_HEX_BYTES, call.number, PLAIN_ANSWER);
    default:
        return picl_hex_in(PLAIN_BOARD, plain_reader, PICL_READER_WORDS, plain_text, text_bytes - call.number, PLAIN_ANSWER);
    }
}

/* Both boards, and all that belongs to them. */
static void check_same(const char *call, uint64_t number, uint64_t plain_number)
{
    if (number != plain_number || picl_handle_value(&loom) != plain_answer[PICL_VALUE] ||
        picl_handle_stores(&loom) != plain_answer[PICL_STORES] ||
        memcmp(loom.registers, plain_registers, sizeof plain_registers) != 0 ||
        memcmp(board, plain_board, sizeof board) != 0 || memcmp(work, plain_work, sizeof work) != 0 ||
        memcmp(text, plain_text, sizeof text) != 0 || memcmp(reader.words, plain_reader, sizeof plain_reader) != 0)
        fail(call, number);
}

static uint32_t below(uint32_t bound)
{
    static uint32_t state = 1; /* Knuth's and Lewis's generator; its lowest bits are the least random ones */
    state = state * 1664525u + 1013904223u;
    return (state >> 8) % bound;
}

static uint32_t any_kind(void)
{
    uint32_t turn = below(IN_ALL), kind = 0;
    while (turn >= kinds[kind].often)
        turn -= kinds[kind++].often;
    return kind;
}

/* Where the registers are zero every other call is a power-up. Some addresses, targets and records are just too large. */
static struct call any_call(void)
{
    enum { TARGETS = 4, VALUES = 1000 };
    struct call call;
    call.kind = any_kind();
    call.number = below(LINES + 1);
    call.value = below(VALUES);
    if (plain_registers[PICL_EPOCH] == 0 && below(2) == 0)
        call.kind = POWER_UP;
    if (call.kind == BEGIN)
        call.number = PICL_PERSISTED(plain_board) + below(TARGETS);
    if (call.kind == CONVERT || call.kind == HEX_IN)
        call.number = below(2);
    return call;
}

/* One call in so many has an allowance that may be too small for it. */
static uint32_t any_allowance(void)
{
    enum { CUT = 10, MOST = 4 };
    return below(CUT) == 0 ? below(MOST) : PICL_NO_CUT;
}

/* An accepted export: the text is another record, and with the first of a file both readers begin anew. */
static void note_export(uint64_t record)
{
    text_bytes = PICL_AS(size_t, picl_handle_value(&loom));
    if (record > 0)
        return;
    memset(&reader, 0, sizeof reader);
    memset(plain_reader, 0, sizeof plain_reader);
}

static void compare_calls(void)
{
    static uint32_t accepted[KINDS];
    uint32_t cuts = 0, refused = 0;
    for (uint32_t made = 0; made < CALLS; made++) {
        struct call call = any_call();
        loom.allowance = any_allowance();
        uint64_t number = through_handle(call);
        check_same(kinds[call.kind].name, number, plainly(call, loom.allowance));
        accepted[call.kind] += number == PICL_OK;
        cuts += number == PICL_CUT;
        refused += number != PICL_OK && number != PICL_CUT;
        if (call.kind == HEX_OUT && number == PICL_OK)
            note_export(call.number);
    }
    for (uint32_t kind = 0; kind < KINDS; kind++)
        if (accepted[kind] == 0)
            fail("no such call was accepted", kind);
    if (cuts == 0 || refused == 0)
        fail("no call was cut, or none refused", cuts);
    printf("%d calls as the plain functions answer them: cut %" PRIu32 ", refused %" PRIu32 "; accepted", CALLS, cuts, refused);
    for (uint32_t kind = 0; kind < KINDS; kind++)
        printf(" %s %" PRIu32, kinds[kind].name, accepted[kind]);
    puts("");
}

/* A new board, powered up. Its handle is made of the addresses of its memories. */
static void start(void)
{
    struct picl_board lent_board = {board, LINES, LOG_ENTRIES};
    struct picl_work lent_work = {work, SLOTS};
    memset(&loom, ANY_BYTE, sizeof loom);
    memset(work, ANY_BYTE, sizeof work);
    picl_handle_init(&loom, lent_board, lent_work);
    expect("format", picl_handle_format(&loom), PICL_OK);
    expect("a load before the first power-up", picl_handle_load(&loom, 0), PICL_REGS);
    expect("power-up", picl_handle_power_up(&loom), PICL_OK);
    expect("stores of a power-up with an empty log", picl_handle_stores(&loom), 1);
}

/* Stores to so many lines, one undo entry each. */
static void store_lines(uint64_t first, uint64_t count, uint64_t value)
{
    for (uint64_t i = 0; i < count; i++)
        expect("store", picl_handle_store(&loom, first + i, value), PICL_OK);
}

static void expect_epochs(uint64_t persisted, uint64_t running)
{
    expect("P", picl_handle_persisted(&loom), persisted);
    expect("s", picl_handle_epoch(&loom), running);
    expect("epochs that wait", picl_handle_waiting(&loom), running - 1 - persisted);
}

/* Scan calls of a pass: all slots are visited, and no more. */
static void check_pass(void)
{
    uint64_t calls = 0;
    start();
    expect("commit", picl_handle_commit(&loom), PICL_OK);
    do {
        expect("scan", picl_handle_scan(&loom), PICL_OK);
        calls++;
    } while (picl_handle_value(&loom) == 0);
    expect("the scan calls of a pass", calls, SLOTS + 1);
}

/* The epoch of the first stores goes, and its entries with it. */
static void check_macros(void)
{
    enum { FIRST = 12, SECOND = 5, VALUE = 7 };
    start();
    expect("the board's version", PICL_BOARD_VERSION_OF(board), PICL_BOARD_VERSION);
    expect("N", PICL_LINES(board), LINES);
    expect("L", PICL_ENTRIES(board), LOG_ENTRIES);
    store_lines(0, FIRST, VALUE);
    expect("commit", picl_handle_commit(&loom), PICL_OK);
    expect_epochs(0, 2);
    store_lines(FIRST, SECOND, VALUE + 1);
    expect("a pass", picl_handle_persist(&loom), PICL_OK);
    expect("its epoch", picl_handle_value(&loom), 1);
    expect_epochs(1, 2);
    expect("the log's start", PICL_LOG_START(board), FIRST);
    expect("the log's length", PICL_LOG_LENGTH(board), SECOND);
    expect("a pass where no epoch waits", picl_handle_persist(&loom), PICL_NONE);
    expect("power-up", picl_handle_power_up(&loom), PICL_OK);
    expect("the log's start after a power-up", PICL_LOG_START(board), 0);
    expect("the log's length after a power-up", PICL_LOG_LENGTH(board), 0);
    for (uint64_t line = 0; line < LINES; line++)
        expect("the word of a line", board[PICL_LINE_AT(board, line)], line < FIRST ? VALUE : 0);
    expect("the place of the last line", PICL_LINE_AT(board, LINES - 1), PICL_BOARD_WORDS(LINES, LOG_ENTRIES) - 1);
    expect("HEX records", PICL_HEX_RECORDS(PICL_LINES(board)), 1 + LINES / 2 + 1); /* opener, pairs of lines, end */
}

/* Fifteen epochs wait, and one more is to. */
static void check_end_epoch(void)
{
    start();
    for (uint64_t epoch = 1; epoch <= PICL_MOST_WAITING; epoch++) {
        store_lines(epoch, 1, epoch);
        expect("the end of an epoch", picl_handle_end_epoch(&loom), PICL_OK);
    }
    expect_epochs(0, PICL_MOST_WAITING + 1);
    expect("commit", picl_handle_commit(&loom), PICL_WAITING);
    loom.allowance = 0;
    expect("the end of an epoch with the mains off", picl_handle_end_epoch(&loom), PICL_CUT);
    loom.allowance = PICL_NO_CUT;
    expect("power-up", picl_handle_power_up(&loom), PICL_OK);
    expect_epochs(0, 1);
    for (uint64_t epoch = 1; epoch <= PICL_MOST_WAITING + 1; epoch++)
        expect("the end of an epoch", picl_handle_end_epoch(&loom), PICL_OK);
    expect_epochs(1, PICL_MOST_WAITING + 2);
}

/* An epoch without entries, half a log of a committed one, and half a log of the running one: the next store has no room. */
static void fill_log(void)
{
    start();
    expect("commit", picl_handle_commit(&loom), PICL_OK);
    store_lines(0, LOG_ENTRIES / 2, 1);
    expect("commit", picl_handle_commit(&loom), PICL_OK);
    store_lines(LOG_ENTRIES / 2, LOG_ENTRIES / 2, 2);
    expect("a store without room", picl_handle_store(&loom, 0, 2), PICL_ROOM);
}

static void check_store_with_room(void)
{
    fill_log();
    loom.allowance = 0;
    expect("a store with the mains off", picl_handle_store_with_room(&loom, 0, 2), PICL_CUT);
    fill_log();
    for (uint64_t line = 0; line < LOG_ENTRIES / 2; line++)
        expect("a store, with room", picl_handle_store_with_room(&loom, line, line + 1), PICL_OK);
    expect("a store, the epoch being too large", picl_handle_store_with_room(&loom, LINES - 1, 1), PICL_ROOM);
    expect_epochs(2, 3);
    for (uint64_t line = 0; line < LINES; line++) {
        uint64_t stored = line < LOG_ENTRIES / 2 ? line + 1 : line < LOG_ENTRIES ? 2 : 0;
        expect("load", picl_handle_load(&loom, line), PICL_OK);
        expect("a line", picl_handle_value(&loom), stored);
    }
}

/* Epochs that wait, a pass under way or none, and a running epoch: all of it is persisted. */
static void check_settle(uint64_t waiting, uint64_t scans)
{
    start();
    for (uint64_t epoch = 1; epoch <= waiting; epoch++) {
        store_lines(epoch, 1, epoch);
        expect("commit", picl_handle_commit(&loom), PICL_OK);
    }
    for (uint64_t i = 0; i < scans; i++)
        expect("scan", picl_handle_scan(&loom), PICL_OK);
    store_lines(0, 1, waiting + 1);
    expect("before a move", picl_handle_settle(&loom), PICL_OK);
    expect("value", picl_handle_value(&loom), waiting + 1);
    expect_epochs(waiting + 1, waiting + 2);
    expect("power-up", picl_handle_power_up(&loom), PICL_OK);
    expect_epochs(waiting + 1, waiting + 2);
    for (uint64_t line = 0; line < LINES; line++) {
        expect("load", picl_handle_load(&loom, line), PICL_OK);
        expect("a line that was moved", picl_handle_value(&loom), line == 0 ? waiting + 1 : line <= waiting ? line : 0);
    }
    loom.allowance = 0;
    expect("before a move, with the mains off", picl_handle_settle(&loom), PICL_CUT);
}

static void check_names(void)
{
    char string[PICL_NAME_STRING_BYTES];
    for (uint64_t number = 0; number <= PICL_TOO_SHORT; number++) {
        memset(string, ANY_BYTE, sizeof string);
        memset(plain_text, 0, sizeof plain_text);
        expect("name", picl_name(plain_text, sizeof plain_text, number, PLAIN_ANSWER), PICL_OK);
        if (picl_name_string(&string, number) != string || memcmp(string, plain_text, plain_answer[PICL_VALUE] + 1) != 0)
            fail("another name", number);
    }
    if (strcmp(picl_name_string(&string, PICL_LOGHELD), "logheld") != 0)
        fail("this is not logheld", PICL_LOGHELD);
}

static void check_records(void)
{
    enum { ADDRESSES = 3, VALUES = 5 };
    uint8_t record[PICL_RECORD_BYTES], plain_record[PICL_RECORD_BYTES];
    for (uint64_t kind = 0; kind <= PICL_RECORD_EVICT + 1; kind++)
        for (uint64_t address = 0; address < ADDRESSES; address++)
            for (uint64_t value = 0; value < VALUES; value++) {
                memset(record, ANY_BYTE, sizeof record);
                memset(plain_record, ANY_BYTE, sizeof plain_record);
                uint64_t number =
                    picl_trace_write(plain_record, sizeof plain_record, kind, address, value, PLAIN_ANSWER);
                expect("record", picl_record_write(&record, kind, address, value), number);
                if (memcmp(record, plain_record, sizeof record) != 0)
                    fail("another record", kind);
            }
    expect("the record of a store", picl_record_write(&record, PICL_RECORD_STORE, LINES, VALUES), PICL_OK);
    expect("the record of a scan with an address", picl_record_write(&record, PICL_RECORD_SCAN, LINES, 0), PICL_TRACE);
}

int main(void)
{
    expect("the allowance of a new handle", loom.allowance, PICL_NO_CUT);
    make_old_board();
    compare_calls();
    check_pass();
    check_macros();
    check_end_epoch();
    check_store_with_room();
    check_settle(0, 0);
    check_settle(PICL_MOST_WAITING - 1, 0);
    check_settle(PICL_MOST_WAITING, 0);
    check_settle(PICL_MOST_WAITING, SLOTS - 1);
    check_settle(PICL_MOST_WAITING / 2, SLOTS);
    check_names();
    check_records();
    puts("macros of a board, stores with room, ends of epochs, moves, names and records as they must be");
    return 0;
}
