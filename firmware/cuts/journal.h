/*
 * The memory that outlives the processes: the board, and beside it a journal, in which the process at work notes what it is
 * about to do. No code of the library reads the journal. Its words are volatile: the compiler keeps their stores in the
 * program's order, before or behind the library's calls as they are written.
 */
#ifndef JOURNAL_H
#define JOURNAL_H

#include <stddef.h>
#include <stdint.h>

#include "contents.h"
#include "picl.h"

enum call { NO_CALL, POWER_UP, LOAD, STORE, EVICT, COMMIT, BEGIN, SCAN, CALLS };

enum {
    JOURNAL_EPOCHS = 4096, /* so many epochs may be begun between two recoveries */
    FAULT_BYTES = 256
};

struct journal {
    volatile uint64_t has_failed;                 /* the process has found a fault, and said below which */
    volatile uint64_t moment;                     /* at which a recovery process powers up */
    volatile uint64_t call;                       /* the library's call under way */
    volatile uint64_t told;                       /* the persisted epoch, as the last call said that persisted one */
    volatile uint64_t due;                        /* what the last call of a pass, made or under way, persists */
    volatile uint64_t attempts;                   /* so far, on all boards */
    volatile uint64_t attempt_of[JOURNAL_EPOCHS]; /* the last one of each epoch, at its number modulo so many */

    /* Before the call under way: the control word, and the place that the log's next entry goes to. */
    volatile uint64_t control;
    volatile uint64_t behind_log[PICL_ENTRY_WORDS];

    /* How often controllers had to do what the guide says. */
    volatile uint64_t stores_refused;
    volatile uint64_t commits_refused;
    volatile uint64_t epochs_given_up;
    volatile uint64_t passes_begun;

    char fault[FAULT_BYTES];
};

/* A board at work. */
struct loom {
    const struct shape *shape;
    uint64_t *board;
    struct journal *journal;
    uint64_t seed;
    int ready; /* the pipe by which a process tells that it has begun */
};

static inline size_t words_of(const struct shape *shape)
{
    return PICL_BOARD_WORDS(shape->lines, shape->entries);
}

static inline const uint64_t *lines_of(const struct loom *loom)
{
    return loom->board + words_of(loom->shape) - loom->shape->lines;
}

/* The place that the log's next entry goes to; some place of the log even where a control word is wrong. */
static inline const uint64_t *behind_log(const struct loom *loom)
{
    uint64_t place = (PICL_LOG_START(loom->board) + PICL_LOG_LENGTH(loom->board)) % loom->shape->entries;
    return loom->board + PICL_LOG_AT + PICL_ENTRY_WORDS * place;
}

#endif
