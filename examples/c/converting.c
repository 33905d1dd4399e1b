/*
 * A board of a library before version 9 goes over to this one: convert_board is what a controller needs for it, and the rest tries
 * it.
 *
 * The old board is worked out by hand, word for word, and so are the words that the conversion must leave in the second memory.
 * It is a constant: a store to it would end the program. The mains may go at any moment of a conversion, and then the second
 * memory holds anything. Here it has new words up to any place and others behind it, or the other way round: the conversion that
 * begins again must leave the same.
 *
 *     converting OLD_IMAGE NEW_IMAGE
 *
 * writes both boards as the bench program loomconvert reads and writes them, eight bytes a word, the most significant first.
 */
#include <stdbool.h>
#include <stdio.h>
#include <stdlib.h>
#include <string.h>

#include "files.h"
#include "picl_handle.h"

enum {
    LINES = 6,
    LOG_ENTRIES = 4,
    SLOTS = 4,
    PERSISTED = 5,
    ANY_BYTE = 0xA5
};

#define WORDS PICL_BOARD_WORDS(LINES, LOG_ENTRIES)

/* Epoch 5 is persisted. Epochs 6 and 7 have stored to lines 2 and 4, and the mains has gone in epoch 7. Line 2 was clean when epoch
 * 7 stored to it, so that its second entry covers epoch 5 too: the older one tells. The log has turned: its oldest entry is at place
 * 3, the next ones at 0 and 1, and place 2 has what an entry that was dropped has left. What is of line n as of epoch e is 0xne
 * here. */
static const uint64_t old_board[WORDS] = {
    0x0000050000300003, /* P 5, log start 3, log length 3 */
    0x0000000000600004, /* version 0, N 6, L 4 */
    0x0004000005000006, /* place 0: line 4, ValidFrom 5, ValidTill 6 */
    0x45,
    0x0002000005000007, /* place 1: line 2, ValidFrom 5, ValidTill 7 */
    0x26,
    0x0001000003000005, /* place 2: no entry of the log any more */
    0x13,
    0x0002000004000006, /* place 3: line 2, ValidFrom 4, ValidTill 6 */
    0x24,
    0x00, 0x15, 0x27, 0x32, 0x46, 0x51, /* the lines, of several epochs */
};

/* Line 2 is as of epoch 4, in which it was last stored to until epoch 5 ended, and line 4 as of epoch 5. */
static const uint64_t expected[WORDS] = {
    0x0000000005000000, /* P 5, log start 0, log length 0 */
    0x0000010000600004, /* version 1, N 6, L 4 */
    0, 0, 0, 0, 0, 0, 0, 0,
    0x00, 0x15, 0x24, 0x32, 0x45, 0x51,
};

/* The second memory, in the new firmware's nonvolatile memory; a mark of its own says, there too, that it is converted. */
static uint64_t board[WORDS];
static bool is_converted;

static uint64_t work[PICL_WORK_WORDS(SLOTS)];
static struct picl_handle loom = PICL_HANDLE(board, LINES, LOG_ENTRIES, work, SLOTS);

static void fail(const char *what, uint64_t number)
{
    fprintf(stderr, "converting: %s: %llu\n", what, (unsigned long long)number);
    exit(1);
}

static void expect(const char *what, uint64_t given, uint64_t due)
{
    if (given != due)
        fail(what, given);
}

/* At each start, before the power-up. The mark is set only when the conversion has answered 0: after a cut in it all begins again,
 * from the old board. */
static uint64_t convert_board(void)
{
    if (is_converted)
        return PICL_OK;
    uint64_t number = picl_handle_convert(&loom, old_board, WORDS);
    is_converted = number == PICL_OK;
    return number;
}

static void expect_converted(uint64_t new_words)
{
    is_converted = false;
    expect("a conversion", convert_board(), PICL_OK);
    expect("its value", picl_handle_value(&loom), 0);
    expect("its stores", picl_handle_stores(&loom), 0);
    if (memcmp(board, expected, sizeof board) != 0)
        fail("the converted board is another, where the second memory had so many new words", new_words);
}

/* Whatever a cut has left in the second memory: new words in front, and any behind them; and the other way round. */
static void convert_after_cuts(void)
{
    for (size_t made = 0; made <= WORDS; made++) {
        memset(board, ANY_BYTE, sizeof board);
        memcpy(board, expected, made * sizeof *board);
        expect_converted(made);
        memset(board, ANY_BYTE, made * sizeof *board);
        expect_converted(WORDS - made);
    }
    printf("converted anew after %u cuts, each time the same %u words\n", (unsigned)(2 * (WORDS + 1)), (unsigned)WORDS);
}

/* The check after a conversion, and then the loom weaves on: P is what it was, and so is every line as of P. */
static void weave_on(void)
{
    expect("power-up", picl_handle_power_up(&loom), PICL_OK);
    expect("P", picl_handle_persisted(&loom), PERSISTED);
    expect("the running epoch", picl_handle_epoch(&loom), PERSISTED + 1);
    for (uint64_t line = 0; line < LINES; line++) {
        expect("load", picl_handle_load(&loom, line), PICL_OK);
        expect("a line", picl_handle_value(&loom), expected[PICL_LINE_AT(expected, line)]);
        expect("store", picl_handle_store(&loom, line, line), PICL_OK);
        if (line == LOG_ENTRIES - 1)
            expect("an epoch's end, and all persisted", picl_handle_settle(&loom), PICL_OK);
    }
    expect("an epoch's end, and all persisted", picl_handle_settle(&loom), PICL_OK);
    expect("P after two epochs", picl_handle_persisted(&loom), PERSISTED + 2);
    puts("the loom weaves on, two epochs");
}

/* One entry too many for a log of this library. */
enum { TOO_MANY = PICL_MOST_ENTRIES + 1 };
#define LARGE_WORDS PICL_BOARD_WORDS(1, TOO_MANY)

/* A conversion that is refused, with this value: the second memory stays as it was. */
static void expect_refused(const char *what, const uint64_t *old, size_t old_words, size_t words, uint64_t number, uint64_t value)
{
    static uint64_t second[LARGE_WORDS], before[LARGE_WORDS];
    uint64_t answer[PICL_ANSWER_WORDS];
    memset(second, ANY_BYTE, sizeof second);
    memcpy(before, second, sizeof second);
    expect(what, picl_convert(old, old_words, second, words, answer, PICL_ANSWER_WORDS), number);
    expect(what, answer[PICL_VALUE], value);
    expect(what, answer[PICL_STORES], 0);
    if (memcmp(second, before, sizeof second) != 0)
        fail("a refused conversion has changed the second memory", number);
}

/* What a service engineer may meet. */
static void check_refusals(void)
{
    /* The newest entry, oldest counted 0, where its word is and its ValidTill; and the first that is too late. */
    enum { NEWEST = 2, NEWEST_AT = 4, NEWEST_TILL = 7, TOO_LATE = PERSISTED + PICL_MOST_WAITING + 2 };
    static uint64_t large[LARGE_WORDS];
    uint64_t damaged[WORDS];
    large[PICL_SHAPE_AT] = PICL_AS(uint64_t, 1) << PICL_SIZE_BITS | TOO_MANY;
    expect_refused("L above 4,095", large, LARGE_WORDS, LARGE_WORDS, PICL_SHAPE, 0);
    expect_refused("a word too few", old_board, WORDS - 1, WORDS, PICL_SHAPE, 0);
    expect_refused("a second memory that is too short", old_board, WORDS, WORDS - 1, PICL_SHAPE, 0);
    expect_refused("a second memory that is too long", old_board, WORDS, WORDS + 1, PICL_SHAPE, 0);
    expect_refused("a board that is converted already", expected, WORDS, WORDS, PICL_SHAPE, 0);
    memcpy(damaged, old_board, sizeof damaged);
    damaged[PICL_SHAPE_AT] = expected[PICL_SHAPE_AT];
    expect_refused("an old board that says another version", damaged, WORDS, WORDS, PICL_SHAPE, 0);
    memcpy(damaged, old_board, sizeof damaged);
    damaged[NEWEST_AT] += TOO_LATE - NEWEST_TILL;
    expect_refused("an entry that ends too late", damaged, WORDS, WORDS, PICL_ENTRY, NEWEST);

    memcpy(board, old_board, sizeof board);
    expect("power-up of an old board", picl_handle_power_up(&loom), PICL_SHAPE);
    if (memcmp(board, old_board, sizeof board) != 0)
        fail("a refused power-up has changed an old board", PICL_SHAPE);
    puts("what cannot be converted is refused, and nothing is touched");
}

static void write_image(const char *name, const uint64_t *words)
{
    enum { BYTE_BITS = 8, WORD_BITS = 64 };
    FILE *file = opened(name);
    for (size_t i = 0; i < WORDS; i++)
        for (unsigned shift = WORD_BITS; shift > 0; shift -= BYTE_BITS)
            fputc((int)(words[i] >> (shift - BYTE_BITS) & 0xFF), file);
    closed(file);
}

int main(int argc, char **argv)
{
    if (argc != 3) {
        fputs("usage: converting OLD_IMAGE NEW_IMAGE\n", stderr);
        return 2;
    }
    convert_after_cuts();
    write_image(argv[1], old_board);
    write_image(argv[2], board);
    weave_on();
    check_refusals();
    return 0;
}
