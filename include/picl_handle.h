/*
 * A handle for the PiCL cache log: what most programs call.
 *
 * The functions of picl.h take up to eleven arguments. Four of them are pointers to words, and a compiler lets a program exchange
 * two. Here one struct holds what is lent to every call, with its lengths, and a call takes the struct and what it is about:
 *
 *     static uint64_t board[PICL_BOARD_WORDS(LINES, ENTRIES)];        in the nonvolatile memory
 *     static uint64_t work[PICL_WORK_WORDS(SLOTS)];
 *     static struct picl_handle loom = PICL_HANDLE(board, LINES, ENTRIES, work, SLOTS);
 *
 *     number = picl_handle_power_up(&loom);
 *     ..
 *     number = picl_handle_load(&loom, PICK_COUNT);
 *     if (number == PICL_OK)
 *         number = picl_handle_store(&loom, PICK_COUNT, picl_handle_value(&loom) + 1);
 *
 * picl_handle_load makes one call of picl_load, and returns its number: so it is with each function up to picl_handle_hex_in.
 * What picl.h says of the calls, of the caller's duties and of what to do after a cut or a refusal, holds as it stands there.
 * Value and stores are in the handle until its next call.
 *
 * The handle has no state beside memory, registers and answer, allocates nothing, and is lost with the current as registers are:
 * it does not stand on the board. There is one for a board: a copy has registers of its own, which the next call makes out of
 * date. Before the first power-up the registers are zero, and no call that reads them is accepted.
 *
 * These functions are plain C, C99 or C++11, and not proved. examples/c/handle.c holds each to the proved one that it calls;
 * examples/c/loading.c tries the one that loads a file.
 */
#ifndef PICL_HANDLE_H
#define PICL_HANDLE_H

#include "picl.h"

#ifdef __cplusplus
extern "C" {
#endif

/* All of it may be read. The allowance alone may be written, on a test bench (picl.h): it is that of each call. */
struct picl_handle {
    uint64_t *board;
    size_t board_words;
    uint64_t *work;
    size_t work_words;
    uint32_t lines;   /* N */
    uint32_t entries; /* L */
    uint32_t allowance;
    uint64_t registers[PICL_REGISTER_WORDS];
    uint64_t answer[PICL_ANSWER_WORDS];
};

/* So many words, where a memory is an array of just so many. Otherwise it does not compile: the array of char has no size. */
#define PICL_EXACTLY(memory, words) ((words) + 0 * sizeof(char[sizeof(memory) == sizeof(uint64_t) * (words) ? 1 : -1]))

/* What a handle is initialised with, also a static one: a board of N lines and L entries and a work memory of S slots, both
 * arrays, and N, L and S constants. A memory of another length does not compile: so memories that are exchanged do not, unless
 * both are of one length, nor N and L in each other's place, nor a pointer. */
#define PICL_HANDLE(board, lines, entries, work, slots)                                                                     \
    {                                                                                                                       \
        board, PICL_EXACTLY(board, PICL_BOARD_WORDS(lines, entries)), work, PICL_EXACTLY(work, PICL_WORK_WORDS(slots)),     \
            lines, entries, PICL_NO_CUT, {0}, {0}                                                                           \
    }

/* Memories that are known by their addresses alone. They are of two types, so that they cannot be exchanged either:
 *
 *     struct picl_board board = {address, LINES, ENTRIES};
 *     struct picl_work work = {other_address, SLOTS};
 *     picl_handle_init(&loom, board, work);
 */
struct picl_board {
    uint64_t *words;
    uint32_t lines;
    uint32_t entries;
};

struct picl_work {
    uint64_t *words;
    uint32_t slots;
};

/* The handle of a controller that was just switched on. It touches neither memory. */
static inline void picl_handle_init(struct picl_handle *handle, struct picl_board board, struct picl_work work)
{
    const struct picl_handle fresh = {board.words, PICL_BOARD_WORDS(board.lines, board.entries), work.words,
                                      PICL_WORK_WORDS(work.slots), board.lines, board.entries, PICL_NO_CUT, {0}, {0}};
    *handle = fresh;
}

/* Of the last call: what it gave back, and how many board stores it has made. */
static inline uint64_t picl_handle_value(const struct picl_handle *handle)
{
    return handle->answer[PICL_VALUE];
}

static inline uint64_t picl_handle_stores(const struct picl_handle *handle)
{
    return handle->answer[PICL_STORES];
}

/* Of a running board: the running epoch s, the persisted one P, and how many are committed and wait, s - 1 - P. */
static inline uint64_t picl_handle_epoch(const struct picl_handle *handle)
{
    return handle->registers[PICL_EPOCH];
}

static inline uint64_t picl_handle_persisted(const struct picl_handle *handle)
{
    return PICL_PERSISTED(handle->board);
}

static inline uint64_t picl_handle_waiting(const struct picl_handle *handle)
{
    return PICL_EPOCHS_WAITING(handle->board, handle->registers);
}

/* The calls. */

static inline uint64_t picl_handle_format(struct picl_handle *handle)
{
    return picl_format(handle->board, handle->board_words, handle->lines, handle->entries, handle->answer, PICL_ANSWER_WORDS);
}

/* In the place of format, where the board is to have what an old board has: one of the handle's N and L, which is only read. */
static inline uint64_t picl_handle_convert(struct picl_handle *handle, const uint64_t *old_board, size_t old_words)
{
    return picl_convert(old_board, old_words, handle->board, handle->board_words, handle->answer, PICL_ANSWER_WORDS);
}

static inline uint64_t picl_handle_power_up(struct picl_handle *handle)
{
    return picl_power_up(handle->board, handle->board_words, handle->work, handle->work_words, handle->registers,
                         PICL_REGISTER_WORDS, handle->allowance, handle->answer, PICL_ANSWER_WORDS);
}

static inline uint64_t picl_handle_load(struct picl_handle *handle, uint64_t address)
{
    return picl_load(handle->board, handle->board_words, handle->work, handle->work_words, handle->registers,
                     PICL_REGISTER_WORDS, address, handle->allowance, handle->answer, PICL_ANSWER_WORDS);
}

static inline uint64_t picl_handle_store(struct picl_handle *handle, uint64_t address, uint64_t value)
{
    return picl_store(handle->board, handle->board_words, handle->work, handle->work_words, handle->registers,
                      PICL_REGISTER_WORDS, address, value, handle->allowance, handle->answer, PICL_ANSWER_WORDS);
}

static inline uint64_t picl_handle_evict(struct picl_handle *handle, uint64_t address)
{
    return picl_evict(handle->board, handle->board_words, handle->work, handle->work_words, handle->registers,
                      PICL_REGISTER_WORDS, address, handle->allowance, handle->answer, PICL_ANSWER_WORDS);
}

static inline uint64_t picl_handle_commit(struct picl_handle *handle)
{
    return picl_commit(handle->board, handle->board_words, handle->work, handle->work_words, handle->registers,
                       PICL_REGISTER_WORDS, handle->allowance, handle->answer, PICL_ANSWER_WORDS);
}

static inline uint64_t picl_handle_begin(struct picl_handle *handle, uint64_t target)
{
    return picl_begin(handle->board, handle->board_words, handle->work, handle->work_words, handle->registers,
                      PICL_REGISTER_WORDS, target, handle->answer, PICL_ANSWER_WORDS);
}

static inline uint64_t picl_handle_scan(struct picl_handle *handle)
{
    return picl_scan(handle->board, handle->board_words, handle->work, handle->work_words, handle->registers,
                     PICL_REGISTER_WORDS, handle->allowance, handle->answer, PICL_ANSWER_WORDS);
}

static inline uint64_t picl_handle_tally(struct picl_handle *handle)
{
    return picl_tally(handle->board, handle->board_words, handle->work, handle->work_words, handle->registers,
                      PICL_REGISTER_WORDS, handle->answer, PICL_ANSWER_WORDS);
}

static inline uint64_t picl_handle_filter_bits(struct picl_handle *handle)
{
    return picl_filter_bits(handle->work, handle->work_words, handle->answer, PICL_ANSWER_WORDS);
}

static inline uint64_t picl_handle_hex_out(struct picl_handle *handle, uint8_t (*text)[PICL_HEX_BYTES], uint64_t record)
{
    return picl_hex_out(handle->board, handle->board_words, *text, PICL_HEX_BYTES, record, handle->answer, PICL_ANSWER_WORDS);
}

/* The reader of a HEX file, of a type of its own, so that no other memory is taken for it. One for each file, first all zero:
 *
 *     struct picl_reader reader = {{0}};
 */
struct picl_reader {
    uint64_t words[PICL_READER_WORDS];
};

static inline uint64_t picl_handle_hex_in(struct picl_handle *handle, struct picl_reader *reader, const uint8_t *text,
                                          size_t text_bytes)
{
    return picl_hex_in(handle->board, handle->board_words, reader->words, PICL_READER_WORDS, text, text_bytes, handle->answer,
                       PICL_ANSWER_WORDS);
}

/* Two that need no board, and so no handle: the calls of picl.h with an answer of their own. */

/* picl_trace_write: the record of a call, by its kind (PICL_RECORD_LOAD and so on). */
static inline uint64_t picl_record_write(uint8_t (*record)[PICL_RECORD_BYTES], uint64_t kind, uint64_t address, uint64_t value)
{
    uint64_t answer[PICL_ANSWER_WORDS];
    return picl_trace_write(*record, PICL_RECORD_BYTES, kind, address, value, answer, PICL_ANSWER_WORDS);
}

/* picl_name, as a string: a number's name with a zero byte behind it, or the empty string where it has none. Its letters are
 * ASCII. */
#define PICL_NAME_STRING_BYTES (PICL_NAME_BYTES + 1)
#define PICL_ASCII_MASK 0x7F

static inline const char *picl_name_string(char (*string)[PICL_NAME_STRING_BYTES], uint64_t number)
{
    uint8_t name[PICL_NAME_BYTES];
    uint64_t i, answer[PICL_ANSWER_WORDS] = {0};
    picl_name(name, PICL_NAME_BYTES, number, answer, PICL_ANSWER_WORDS);
    for (i = 0; i < answer[PICL_VALUE]; i++)
        (*string)[i] = name[i] & PICL_ASCII_MASK;
    (*string)[i] = '\0';
    return *string;
}

/*
 * What picl.h prescribes after a refusal, before a loom is moved and for a file. Each makes as many of the calls above as it
 * takes, S + 1 scan calls for a pass, and returns PICL_OK or the number of the call that ended it, with which the program deals as
 * if it had made that call itself. Value and stores are those of the last call. A controller that spreads its scan calls, or
 * counts stores, makes the calls itself.
 */

/* Scan calls until one has persisted an epoch, which is then the value, with all before it. PICL_NONE: none waits. */
static inline uint64_t picl_handle_persist(struct picl_handle *handle)
{
    uint64_t number;
    do {
        number = picl_handle_scan(handle);
    } while (number == PICL_OK && picl_handle_value(handle) == 0);
    return number;
}

/* A store. Where the log is full, epochs that wait are persisted, and their entries go, until there is room. PICL_ROOM: none
 * waits any more, the running epoch has filled the log by itself and has to be given up (picl.h, after PICL_ROOM and then
 * PICL_NONE). */
static inline uint64_t picl_handle_store_with_room(struct picl_handle *handle, uint64_t address, uint64_t value)
{
    uint64_t number = picl_handle_store(handle, address, value);
    while (number == PICL_ROOM) {
        number = picl_handle_persist(handle);
        if (number == PICL_NONE)
            return PICL_ROOM;
        if (number == PICL_OK)
            number = picl_handle_store(handle, address, value);
    }
    return number;
}

/* A commit, at a moment when the lines agree. Where 15 epochs wait already, the oldest is persisted first. */
static inline uint64_t picl_handle_end_epoch(struct picl_handle *handle)
{
    uint64_t number = picl_handle_commit(handle);
    if (number == PICL_WAITING) {
        number = picl_handle_persist(handle);
        if (number == PICL_OK)
            number = picl_handle_commit(handle);
    }
    return number;
}

/* Before a loom is moved, at a moment when the lines agree: the running epoch is committed, a pass under way is brought to its
 * end, and one more persists all that wait. PICL_OK: P, which is the value too, is the epoch that was running. The mains may be
 * turned off. */
static inline uint64_t picl_handle_settle(struct picl_handle *handle)
{
    uint64_t number = picl_handle_end_epoch(handle);
    if (number == PICL_OK && handle->registers[PICL_PASS_TARGET] != 0)
        number = picl_handle_persist(handle);
    if (number == PICL_OK)
        number = picl_handle_begin(handle, picl_handle_epoch(handle) - 1);
    return number == PICL_OK ? picl_handle_persist(handle) : number;
}

/* A HEX file that is held in memory, record by record, up to the first that is refused: line is where it stands, counted from 1.
 * PICL_OK: the file is loaded, and line is how many records it has. A file that is not whole is PICL_RECORD: in the line behind
 * its last where the end record is missing, in that of the end record where its line feed is missing, in the next one where
 * something stands behind it. Accepted or refused, picl_handle_power_up comes next. */
static inline uint64_t picl_handle_hex_in_file(struct picl_handle *handle, const uint8_t *text, size_t text_bytes, uint64_t *line)
{
    struct picl_reader reader = {{0}};
    uint64_t number;
    *line = 0;
    do {
        size_t record_bytes = 0;
        while (record_bytes < text_bytes && text[record_bytes++] != '\n')
            ;
        number = picl_handle_hex_in(handle, &reader, text, record_bytes);
        text += record_bytes;
        text_bytes -= record_bytes;
        *line += 1;
    } while (number == PICL_OK && (text_bytes > 0 || reader.words[PICL_READER_ENDED] == 0));
    return number;
}

#ifdef __cplusplus
}
#endif

#endif
