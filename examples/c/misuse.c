/* Faults that a compiler finds, by the macro that asks for each. Without any of them this compiles. */
#include "picl_handle.h"

enum { LINES = 64, LOG_ENTRIES = 96, SLOTS = 16 };

static uint64_t board[PICL_BOARD_WORDS(LINES, LOG_ENTRIES)];
static uint64_t work[PICL_WORK_WORDS(SLOTS)];

#if defined MEMORIES
static struct picl_handle loom = PICL_HANDLE(work, LINES, LOG_ENTRIES, board, SLOTS);
#elif defined FIGURES
static struct picl_handle loom = PICL_HANDLE(board, LOG_ENTRIES, LINES, work, SLOTS);
#elif defined SHORT_WORK
static struct picl_handle loom = PICL_HANDLE(board, LINES, LOG_ENTRIES, work, SLOTS + 4);
#elif defined ADDRESS
static struct picl_handle loom = PICL_HANDLE(&board[0], LINES, LOG_ENTRIES, work, SLOTS);
#else
static struct picl_handle loom = PICL_HANDLE(board, LINES, LOG_ENTRIES, work, SLOTS);
#endif

#ifdef SHORT_TEXT
static uint8_t text[PICL_NAME_BYTES];
#else
static uint8_t text[PICL_HEX_BYTES];
#endif

#ifdef READER
static uint64_t reader[PICL_READER_WORDS];
#else
static struct picl_reader reader;
#endif

int main(void)
{
    struct picl_board lent_board = {board, LINES, LOG_ENTRIES};
    struct picl_work lent_work = {work, SLOTS};
#ifdef MEMORIES_BY_ADDRESS
    picl_handle_init(&loom, lent_work, lent_board);
#else
    picl_handle_init(&loom, lent_board, lent_work);
#endif
#ifdef BOARD_TWICE
    picl_load(board, loom.board_words, board, loom.work_words, loom.registers, PICL_REGISTER_WORDS, 0, PICL_NO_CUT, loom.answer,
              PICL_ANSWER_WORDS);
#endif
    return picl_handle_hex_out(&loom, &text, 0) != PICL_OK || picl_handle_hex_in(&loom, &reader, text, PICL_HEX_BYTES) != PICL_OK;
}
