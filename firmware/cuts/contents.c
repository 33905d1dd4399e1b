#include "contents.h"

enum {
    HALVING_BITS = 8,

    /* Half of an epoch's stores go to a few lines, over and over, which are the same for some attempts in a row; the others go to
     * any line. */
    NEAR_OR_ANY = 2,
    NEAR_LINES = 12,
    ATTEMPTS_IN_A_ROW = 32
};

/* Vigna's splitmix64. */
uint64_t draw(struct sequence *sequence)
{
    uint64_t word = sequence->state += 0x9E3779B97F4A7C15u;
    word = (word ^ word >> 30) * 0xBF58476D1CE4E5B9u;
    word = (word ^ word >> 27) * 0x94D049BB133111EBu;
    return word ^ word >> 31;
}

/* The upper half of a word as a fraction of the bound: no division, which would take the time of many board stores. */
static uint64_t scaled(uint64_t word, uint64_t bound)
{
    return (word >> 32) * bound >> 32;
}

uint64_t draw_below(struct sequence *sequence, uint32_t bound)
{
    return scaled(draw(sequence), bound);
}

struct sequence sequence_of(uint64_t seed, uint64_t number)
{
    struct sequence of_seed = {seed};
    struct sequence of_number = {draw(&of_seed) ^ number};
    return (struct sequence){draw(&of_number)};
}

uint64_t attempt_word(uint64_t number, unsigned halvings)
{
    return number << HALVING_BITS | halvings;
}

struct stores stores_of(const struct shape *shape, uint64_t seed, uint64_t attempt)
{
    struct stores stores = {.sequence = sequence_of(seed, attempt), .lines = shape->lines};
    unsigned halvings = attempt & ((1u << HALVING_BITS) - 1);
    uint64_t number = attempt >> HALVING_BITS;
    stores.first_near = number / ATTEMPTS_IN_A_ROW * NEAR_LINES % (stores.lines - NEAR_LINES);
    stores.left = (shape->fewest + draw_below(&stores.sequence, shape->spread)) >> halvings;
    return stores;
}

bool next_store(struct stores *stores, uint64_t *address, uint64_t *value)
{
    if (stores->left == 0)
        return false;
    stores->left--;
    uint64_t where = draw(&stores->sequence);
    bool is_near = where % NEAR_OR_ANY == 0;
    *address = is_near ? stores->first_near + scaled(where, NEAR_LINES) : scaled(where, stores->lines);
    *value = draw(&stores->sequence);
    return true;
}

void apply(const struct shape *shape, uint64_t seed, uint64_t attempt, uint64_t *lines)
{
    struct stores stores = stores_of(shape, seed, attempt);
    uint64_t address, value;
    while (next_store(&stores, &address, &value))
        lines[address] = value;
}
