/*
 * A repaired board gets its lines from the service laptop: load_board is what a controller needs for it, and the rest tries it.
 *
 * One board has woven and is exported. The repaired one has as many lines, another log, and lines and epochs of its own. Loaded,
 * it must have the lines of the first, and its own P. Where the mains goes meanwhile it powers up with some lines of each, and
 * loading again from the first record mends it. Last, files of another program, written by hand.
 */
#include <stdbool.h>
#include <stdio.h>
#include <stdlib.h>
#include <string.h>

#include "picl_handle.h"

enum {
    LINES = PICL_HEX_BANK_LINES + 3, /* two banks, and a last line with a record of its own */
    WOVEN_ENTRIES = 1024,
    REPAIRED_ENTRIES = 64,
    SLOTS = 16,
    WOVEN = 0x11, /* what the last byte of each line is */
    OWN = 0x22,
    STORED = 0x33,
    ANY_BYTE = 0xA5
};

static uint64_t woven_board[PICL_BOARD_WORDS(LINES, WOVEN_ENTRIES)], repaired_board[PICL_BOARD_WORDS(LINES, REPAIRED_ENTRIES)];
static uint64_t woven_work[PICL_WORK_WORDS(SLOTS)], repaired_work[PICL_WORK_WORDS(SLOTS)];
static struct picl_handle woven = PICL_HANDLE(woven_board, LINES, WOVEN_ENTRIES, woven_work, SLOTS);
static struct picl_handle repaired = PICL_HANDLE(repaired_board, LINES, REPAIRED_ENTRIES, repaired_work, SLOTS);

/* In nonvolatile memory that is not lent. Where it is set at a start, the lines are of two boards: load again. */
static bool is_half_loaded;

/* The exported file. */
static uint8_t file[PICL_HEX_RECORDS(LINES) * PICL_HEX_BYTES];
static size_t file_bytes;

static void fail(const char *what, uint64_t number)
{
    fprintf(stderr, "loading: %s: %llu\n", what, (unsigned long long)number);
    exit(1);
}

static void expect(const char *what, uint64_t given, uint64_t due)
{
    if (given != due)
        fail(what, given);
}

/* A file from the laptop. The power-up before it empties the log, the one behind it comes whatever the file's number is. */
static uint64_t load_board(struct picl_handle *loom, const uint8_t *text, size_t text_bytes, uint64_t *line)
{
    uint64_t number = picl_handle_power_up(loom);
    if (number != PICL_OK)
        return number;
    is_half_loaded = true;
    uint64_t loaded = picl_handle_hex_in_file(loom, text, text_bytes, line);
    is_half_loaded = loaded != PICL_OK;
    number = picl_handle_power_up(loom);
    return number == PICL_OK ? loaded : number;
}

static uint64_t line_of(uint64_t line, uint64_t last_byte)
{
    return line * UINT64_C(0x0102030405060700) + last_byte; /* of neighbours all bytes but the last are different */
}

/* All lines are stored and persisted, in as many epochs as the log asks for. */
static void weave(struct picl_handle *loom, uint64_t last_byte)
{
    for (uint64_t line = 0; line < LINES; line++) {
        expect("store", picl_handle_store(loom, line, line_of(line, last_byte)), PICL_OK);
        if ((line + 1) % loom->entries == 0 || line + 1 == LINES)
            expect("an epoch's end, and all persisted", picl_handle_settle(loom), PICL_OK);
    }
}

static void start(struct picl_handle *loom, uint64_t last_byte)
{
    expect("format", picl_handle_format(loom), PICL_OK);
    expect("power-up", picl_handle_power_up(loom), PICL_OK);
    weave(loom, last_byte);
}

/* The mains off and on: P is what it was, the first lines are those of the file, and the others the board's own. */
static void restart(uint64_t persisted, uint64_t loaded)
{
    memset(repaired_work, ANY_BYTE, sizeof repaired_work);
    memset(repaired.registers, ANY_BYTE, sizeof repaired.registers);
    expect("power-up", picl_handle_power_up(&repaired), PICL_OK);
    expect("P", picl_handle_persisted(&repaired), persisted);
    for (uint64_t line = 0; line < LINES; line++) {
        expect("load", picl_handle_load(&repaired, line), PICL_OK);
        expect("a line", picl_handle_value(&repaired), line_of(line, line < loaded ? WOVEN : OWN));
    }
}

static void export_woven(void)
{
    uint8_t text[PICL_HEX_BYTES];
    uint64_t number, record = 0;
    expect("power-up", picl_handle_power_up(&woven), PICL_OK);
    while ((number = picl_handle_hex_out(&woven, &text, record)) == PICL_OK) {
        memcpy(file + file_bytes, text, (size_t)picl_handle_value(&woven));
        file_bytes += (size_t)picl_handle_value(&woven);
        record++;
    }
    expect("an export", number, PICL_PAST);
}

/* A board at work: the entries of its log stop the file. What is in the cache alone does not, and is lost. From the loaded lines
 * on a cut takes back what was not committed, as ever. */
static void load_at_work(void)
{
    uint64_t line, persisted = picl_handle_persisted(&repaired);
    expect("store", picl_handle_store(&repaired, 0, STORED), PICL_OK);
    expect("evict", picl_handle_evict(&repaired, 0), PICL_OK);
    expect("a file beside a log", picl_handle_hex_in_file(&repaired, file, file_bytes, &line), PICL_LOGHELD);
    restart(persisted, 0);
    expect("store", picl_handle_store(&repaired, 0, STORED), PICL_OK);
    expect("a file", picl_handle_hex_in_file(&repaired, file, file_bytes, &line), PICL_OK);
    expect("its records", line, PICL_HEX_RECORDS(LINES));
    restart(persisted, LINES);
    expect("store", picl_handle_store(&repaired, 0, STORED), PICL_OK);
    restart(persisted, LINES);
    printf("%u lines of %u records, each as on the other board, and P as it was\n", LINES, (unsigned)line);
}

/* So many records of the file, one call each. How many lines do they have? */
static uint64_t load_first(uint64_t records)
{
    enum { PAIR_BYTES = 44, SINGLE_BYTES = 28 };
    struct picl_reader reader = {{0}};
    const uint8_t *text = file;
    uint64_t lines = 0;
    for (uint64_t record = 0; record < records; record++) {
        size_t bytes = 1;
        while (text[bytes - 1] != '\n')
            bytes++;
        expect("a record", picl_handle_hex_in(&repaired, &reader, text, bytes), PICL_OK);
        lines += bytes == PAIR_BYTES ? 2 : bytes == SINGLE_BYTES ? 1 : 0;
        text += bytes;
    }
    return lines;
}

static void load_through_cuts(void)
{
    static const uint64_t loaded[] = {0, 1, 2, 1000, LINES / 2, LINES / 2 + 1, PICL_HEX_RECORDS(LINES) - 1};
    const size_t cuts = sizeof loaded / sizeof *loaded;
    for (size_t i = 0; i < cuts; i++) {
        uint64_t line, persisted;
        weave(&repaired, OWN);
        persisted = picl_handle_persisted(&repaired);
        restart(persisted, load_first(loaded[i]));
        expect("a file after a cut", load_board(&repaired, file, file_bytes, &line), PICL_OK);
        restart(persisted, LINES);
    }
    printf("cut after 0 to %u records, at %u places: some lines of each board, and loaded again all of the file's\n",
           (unsigned)loaded[cuts - 1], (unsigned)cuts);
}

/* Of another program, by hand: in lower case, and line 2 alone. */
#define OPENER ":020000040000fa\n"
#define LINE_2 ":080010000102030405060708c4\n"
#define END ":00000001ff\n"

static uint64_t load_text(const char *text, uint64_t *line)
{
    return load_board(&repaired, (const uint8_t *)text, strlen(text), line);
}

/* Files that are refused, each in its line. */
static void check_refusals(void)
{
    static const struct {
        const char *text;
        uint64_t number, line;
    } files[] = {
        {OPENER LINE_2, PICL_RECORD, 3},                               /* no end record */
        {OPENER LINE_2 ":00000001ff", PICL_RECORD, 3},                 /* no line feed behind it */
        {OPENER LINE_2 END END, PICL_RECORD, 4},                       /* a record behind it */
        {OPENER ":080010000102030405060708c5\n" END, PICL_RECORD, 2},  /* a wrong sum */
        {":020000040002f8\n" LINE_2 END, PICL_OUTSIDE, 2},             /* a bank that the board has not */
    };
    for (size_t i = 0; i < sizeof files / sizeof *files; i++) {
        uint64_t line;
        expect("a file that is refused", load_text(files[i].text, &line), files[i].number);
        expect("the line in which it is", line, files[i].line);
        expect("the mark of a board that is half loaded", is_half_loaded, true);
    }
}

/* A carriage return before each line feed: refused, and nothing stored. Without them the file is loaded. */
static void load_foreign(void)
{
    char text[] = ":020000040000fa\r\n:080010000102030405060708c4\r\n:00000001ff\r\n";
    uint64_t line, persisted = picl_handle_persisted(&repaired);
    expect("carriage returns", load_text(text, &line), PICL_RECORD);
    expect("the line in which they are refused", line, 1);
    restart(persisted, LINES);
    char *kept = text;
    for (const char *at = text; *at != '\0'; at++)
        if (*at != '\r')
            *kept++ = *at;
    *kept = '\0';
    expect("the file without them", load_text(text, &line), PICL_OK);
    expect("its records", line, 3);
    expect("the mark of a board that is half loaded", is_half_loaded, false);
    expect("load", picl_handle_load(&repaired, 2), PICL_OK);
    expect("line 2", picl_handle_value(&repaired), UINT64_C(0x0102030405060708));
    puts("a file with carriage returns is refused in its first line; without them it is loaded");
}

int main(void)
{
    start(&woven, WOVEN);
    start(&repaired, OWN);
    export_woven();
    load_at_work();
    load_through_cuts();
    load_foreign();
    check_refusals();
    return 0;
}
