/*
 * What the epochs of a loom store: a function of the attempt alone, so that whoever knows the attempt of each epoch knows
 * every line. An attempt is one try of a controller to bring an epoch to its end. Each has a number of its own, also where a
 * later life, or the same one, tries the same epoch again: what an epoch has stored that was given up is told from what its
 * successor stores.
 */
#ifndef CONTENTS_H
#define CONTENTS_H

#include <stdbool.h>
#include <stdint.h>

/* A sequence of random words. */
struct sequence {
    uint64_t state;
};

/* The sequence of a number; each seed has others. */
struct sequence sequence_of(uint64_t seed, uint64_t number);
uint64_t draw(struct sequence *sequence);
uint64_t draw_below(struct sequence *sequence, uint32_t bound);

/* A board, and how many stores its epochs have: fewest, and by chance up to spread more, before any halving. */
struct shape {
    uint32_t lines;
    uint32_t entries;
    uint32_t fewest;
    uint32_t spread;
};

/* An attempt as one word: its number, and how often the number of its stores is halved. */
uint64_t attempt_word(uint64_t number, unsigned halvings);

/* The stores of an attempt that are still to be made. */
struct stores {
    struct sequence sequence;
    uint64_t lines;
    uint64_t first_near;
    uint64_t left;
};

struct stores stores_of(const struct shape *shape, uint64_t seed, uint64_t attempt);

/* The next store, or false after the last. */
bool next_store(struct stores *stores, uint64_t *address, uint64_t *value);

/* All stores of an attempt, to lines that no cache stands before. */
void apply(const struct shape *shape, uint64_t seed, uint64_t attempt, uint64_t *lines);

#endif
