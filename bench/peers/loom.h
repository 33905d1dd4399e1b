/* The loom's work, as bench/src/loom/workload.rs has it: the same lines, stores and words for the same seed. */
#ifndef LOOM_H
#define LOOM_H

#include <stdbool.h>
#include <stddef.h>
#include <stdint.h>

enum {
    LINES = 65536,
    LINES_OF_A_LOOM = 400,
    STORES_AN_EPOCH = 2600,
    PICKS_AN_EPOCH = 10,
    LINES_OF_A_PICK = LINES_OF_A_LOOM / PICKS_AN_EPOCH,
    LOOM_SEED = 2600400
};

/* By picks: each pick works on lines of its own, side by side, over and over. Scattered: each store is to any of the loom's
 * lines, and these stand anywhere. */
enum order { BY_PICKS, SCATTERED };

/* Gathered: the program keeps the stores of an epoch itself, and hands each line over once, with its last word. */
struct work {
    const char *name;
    enum order order;
    bool is_gathered;
};

enum { WORKS = 4 };
extern const struct work works[WORKS];

struct store {
    uint64_t address;
    uint64_t value;
};

struct epoch {
    bool is_by_picks;
    const uint64_t *lines; /* of the loom; those of a pick stand side by side */
    size_t count;
    struct store stores[STORES_AN_EPOCH];
};

struct loom {
    enum order order;
    uint64_t random; /* the state of SplitMix64 */
    uint64_t lines[LINES_OF_A_LOOM];
};

void loom_start(struct loom *loom, enum order order, uint64_t seed);

/* The stores of the loom's next epoch. */
void loom_next_epoch(struct loom *loom, struct epoch *epoch);

/* 0 to limit - 1, and the next state. */
uint64_t random_below(uint64_t *random, uint64_t limit);

/* Where a line stands among those that were gathered, and in which epoch it was put there. */
struct gathering {
    uint32_t epoch;
    uint32_t gathered_in[LINES];
    uint32_t place[LINES];
};

void gather(struct gathering *gathering, const struct epoch *all, struct epoch *once);

/* What an epoch does to lines that nothing stands before. */
void apply(uint64_t *lines, const struct epoch *epoch);

#endif
