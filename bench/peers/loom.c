#include "loom.h"

const struct work works[WORKS] = {
    {"by picks", BY_PICKS, false},
    {"scattered", SCATTERED, false},
    {"by picks, gathered", BY_PICKS, true},
    {"scattered, gathered", SCATTERED, true},
};

/* SplitMix64 (Steele, Lea, Flood), as bench/src/random.rs has it. */
static uint64_t random_word(uint64_t *random)
{
    uint64_t word = *random += 0x9E3779B97F4A7C15;
    word = (word ^ (word >> 30)) * 0xBF58476D1CE4E5B9;
    word = (word ^ (word >> 27)) * 0x94D049BB133111EB;
    return word ^ (word >> 31);
}

uint64_t random_below(uint64_t *random, uint64_t limit)
{
    __extension__ typedef unsigned __int128 wide;
    return (uint64_t)(((wide)random_word(random) * limit) >> 64);
}

static bool is_among(const uint64_t *lines, size_t count, uint64_t address)
{
    for (size_t place = 0; place < count; place++)
        if (lines[place] == address)
            return true;
    return false;
}

void loom_start(struct loom *loom, enum order order, uint64_t seed)
{
    loom->order = order;
    loom->random = seed;
    for (size_t count = 0; count < LINES_OF_A_LOOM;) {
        uint64_t address = order == BY_PICKS ? count : random_below(&loom->random, LINES);
        if (!is_among(loom->lines, count, address))
            loom->lines[count++] = address;
    }
}

static uint64_t address_of(struct loom *loom, size_t turn)
{
    if (loom->order == SCATTERED)
        return loom->lines[random_below(&loom->random, LINES_OF_A_LOOM)];
    size_t pick = turn * PICKS_AN_EPOCH / STORES_AN_EPOCH;
    return loom->lines[pick * LINES_OF_A_PICK + turn % LINES_OF_A_PICK];
}

void loom_next_epoch(struct loom *loom, struct epoch *epoch)
{
    epoch->is_by_picks = loom->order == BY_PICKS;
    epoch->lines = loom->lines;
    epoch->count = STORES_AN_EPOCH;
    for (size_t turn = 0; turn < STORES_AN_EPOCH; turn++) {
        uint64_t address = address_of(loom, turn);
        epoch->stores[turn] = (struct store){address, random_word(&loom->random)};
        /* bench/run loom loads a line after each store. Its address is drawn, so that the stores stay the same. */
        (void)address_of(loom, turn);
    }
}

void gather(struct gathering *gathering, const struct epoch *all, struct epoch *once)
{
    uint32_t epoch = ++gathering->epoch;
    once->is_by_picks = all->is_by_picks;
    once->lines = all->lines;
    once->count = 0;
    for (size_t turn = 0; turn < all->count; turn++) {
        uint64_t address = all->stores[turn].address;
        if (gathering->gathered_in[address] != epoch) {
            gathering->gathered_in[address] = epoch;
            gathering->place[address] = (uint32_t)once->count++;
        }
        once->stores[gathering->place[address]] = all->stores[turn];
    }
}

void apply(uint64_t *lines, const struct epoch *epoch)
{
    for (size_t turn = 0; turn < epoch->count; turn++)
        lines[epoch->stores[turn].address] = epoch->stores[turn].value;
}
