/* What the rows of the tables are measured on: a library, in one way of using it. */
#ifndef PEER_H
#define PEER_H

#include <stdbool.h>
#include <stdint.h>

#include "loom.h"

struct peer {
    const char *name;
    unsigned variant; /* which of the ways that its file knows */

    /* Whether a process may die at any moment, and whether that may take back the epoch that was committed last. */
    bool survives_death;
    bool may_lose_one;

    /* Opens the file of that name, which is new or has been worked on before, perhaps by a process that died. Gives the state
     * that the other functions take. */
    void *(*open)(unsigned variant, const char *path, bool is_new);

    /* The stores of an epoch, one by one in their order; then its commit. */
    void (*store)(void *state, const struct epoch *epoch);
    void (*commit)(void *state);

    /* All lines, as a program that goes on working finds them. */
    void (*read)(void *state, uint64_t *lines);

    void (*close)(void *state);

    /* Whether the medium is memory that the process has mapped: all that goes to it are then the machine's stores. */
    bool is_mapped;

    /* The words that have gone to the medium until now, of all that are open: a difference of two is what came between. NULL
     * where only the machine's stores can tell. */
    uint64_t (*words)(void);
};

extern const struct peer *const peers[];
extern const unsigned peer_count;

enum {
    MOST_PATH = 4096,
    OWNER_ONLY = 0600, /* who may read and write a file */
    BYTES_A_WORD = 8
};

/* The file of a row and a work in that folder. */
void path_of(char *path, const char *folder, unsigned row, unsigned work);

/* A number with a comma before each three digits; and the same as a cell of a table. */
void print_digits(uint64_t number);
void print_number(uint64_t number);

/* Says what is wrong, in one line, and ends the program. */
_Noreturn void fail(const char *format, ...) __attribute__((format(printf, 1, 2)));

/* A new file of so many bytes, or the one that is there, mapped and shared. */
void *map_file(const char *path, uint64_t bytes, bool is_new);
void unmap_file(void *map, uint64_t bytes);

#endif
