/*
 * The times, by turns: in each turn all rows store the same epochs, one row after the other, another one first each
 * time. What is timed are the stores of an epoch and its commit, and for gathered stores the gathering too. At the end
 * every row's lines are held to a plain array.
 */
#include <inttypes.h>
#include <malloc.h>
#include <stdio.h>
#include <stdlib.h>
#include <string.h>
#include <sys/stat.h>
#include <time.h>

#include "counting.h"
#include "modes.h"
#include "peer.h"

enum {
    TURNS = 31,
    EPOCHS_BEFORE = 2, /* of a turn's epochs: what other rows have left in the processor's caches is not this one's */
    EPOCHS_TIMED = 20,
    EPOCHS_A_TURN = EPOCHS_BEFORE + EPOCHS_TIMED,
    EPOCHS_WATCHED = 4,
    ROUNDS_BEFORE = 24, /* of a turn's epochs, until logs and files have grown to what they stay */
    MOST_ROWS = 16,
    MOST_CELL = 64,
    BYTES_A_BLOCK = 512, /* of those that stat counts */
    BYTES_A_KIB = 1024,
    ANY_BYTE = 0xA5
};

struct measured {
    char path[MOST_PATH];
    void *state;
    double nanoseconds[TURNS]; /* a store */
    uint64_t words;            /* of epochs_counted epochs */
    uint64_t epochs_counted;
    uint64_t heap_bytes;
};

static struct measured measured[MOST_ROWS][WORKS];
static uint64_t lines_due[WORKS][LINES];
static struct loom looms[WORKS];
static struct epoch epochs[EPOCHS_A_TURN];
static struct gathering gathering;

/* The processor time of this process: what others on the machine do counts less. Nothing here waits for anything. */
static double now(void)
{
    const double nanoseconds_a_second = 1e9;
    struct timespec time;
    clock_gettime(CLOCK_PROCESS_CPUTIME_ID, &time);
    return (double)time.tv_sec * nanoseconds_a_second + (double)time.tv_nsec;
}

static uint64_t heap_bytes(void)
{
    struct mallinfo2 heap = mallinfo2();
    return heap.uordblks + heap.hblkhd;
}

static uint64_t words_until_now(const struct peer *peer)
{
    return peer->words == NULL ? 0 : peer->words();
}

static void store_epochs(unsigned row, unsigned work, const struct epoch *from, const struct epoch *to)
{
    static struct epoch once;
    void *state = measured[row][work].state;
    for (const struct epoch *epoch = from; epoch < to; epoch++) {
        if (works[work].is_gathered)
            gather(&gathering, epoch, &once);
        peers[row]->store(state, works[work].is_gathered ? &once : epoch);
        peers[row]->commit(state);
    }
}

static void draw_epochs(unsigned work)
{
    for (unsigned epoch = 0; epoch < EPOCHS_A_TURN; epoch++) {
        loom_next_epoch(&looms[work], &epochs[epoch]);
        apply(lines_due[work], &epochs[epoch]);
    }
}

/* Opens a row and brings it into the midst of work. The heap that it has taken by then is what it works with. */
static void start(const char *folder, unsigned row, unsigned work)
{
    struct measured *one = &measured[row][work];
    uint64_t heap_before = heap_bytes();
    path_of(one->path, folder, row, work);
    one->state = peers[row]->open(peers[row]->variant, one->path, true);
    for (unsigned round = 0; round < ROUNDS_BEFORE; round++)
        store_epochs(row, work, epochs, epochs + EPOCHS_A_TURN);
    one->heap_bytes = heap_bytes() - heap_before;
}

/* The machine's stores to the map. A row that counts for itself has to have counted the same. */
static void count_words(unsigned row, unsigned work)
{
    struct measured *one = &measured[row][work];
    uint64_t words_before = words_until_now(peers[row]);
    watch(one->path);
    store_epochs(row, work, epochs, epochs + EPOCHS_WATCHED);
    one->words = unwatch();
    one->epochs_counted = EPOCHS_WATCHED;
    uint64_t counted_by_itself = words_until_now(peers[row]) - words_before;
    if (peers[row]->words != NULL && counted_by_itself != one->words)
        fail("%s, %s: %" PRIu64 " words went to the medium, and it has counted %" PRIu64, peers[row]->name, works[work].name,
             one->words, counted_by_itself);
    store_epochs(row, work, epochs + EPOCHS_WATCHED, epochs + EPOCHS_A_TURN);
}

static void take_turn(unsigned row, unsigned work, unsigned turn)
{
    struct measured *one = &measured[row][work];
    store_epochs(row, work, epochs, epochs + EPOCHS_BEFORE);
    uint64_t words_before = words_until_now(peers[row]);
    double from = now();
    store_epochs(row, work, epochs + EPOCHS_BEFORE, epochs + EPOCHS_A_TURN);
    one->nanoseconds[turn] = (now() - from) / EPOCHS_TIMED / STORES_AN_EPOCH;
    if (peers[row]->words != NULL) {
        one->words += words_until_now(peers[row]) - words_before;
        one->epochs_counted += EPOCHS_TIMED;
    }
}

static void measure(const char *folder)
{
    for (unsigned work = 0; work < WORKS; work++) {
        loom_start(&looms[work], works[work].order, LOOM_SEED);
        draw_epochs(work);
        for (unsigned row = 0; row < peer_count; row++)
            start(folder, row, work);
        draw_epochs(work);
        for (unsigned row = 0; row < peer_count; row++)
            if (peers[row]->is_mapped)
                count_words(row, work);
            else
                store_epochs(row, work, epochs, epochs + EPOCHS_A_TURN);
    }
    for (unsigned turn = 0; turn < TURNS; turn++)
        for (unsigned work = 0; work < WORKS; work++) {
            draw_epochs(work);
            for (unsigned place = 0; place < peer_count; place++)
                take_turn((turn + place) % peer_count, work, turn);
        }
}

static void hold_to_array(unsigned row, unsigned work)
{
    static uint64_t lines[LINES];
    memset(lines, ANY_BYTE, sizeof lines);
    peers[row]->read(measured[row][work].state, lines);
    for (uint64_t address = 0; address < LINES; address++)
        if (lines[address] != lines_due[work][address])
            fail("%s, %s: line %" PRIu64 " is not what was stored", peers[row]->name, works[work].name, address);
}

static int compare_times(const void *one, const void *other)
{
    double left = *(const double *)one, right = *(const double *)other;
    return (left > right) - (left < right);
}

static uint64_t words_an_epoch(const struct measured *one)
{
    return (one->words + one->epochs_counted / 2) / one->epochs_counted;
}

static void print_time(struct measured *one)
{
    const unsigned quarter = TURNS / 4, half = TURNS / 2;
    qsort(one->nanoseconds, TURNS, sizeof *one->nanoseconds, compare_times);
    printf(" | %.1f (%.1f to %.1f)", one->nanoseconds[half], one->nanoseconds[quarter], one->nanoseconds[TURNS - 1 - quarter]);
}

/* The two works from the first on. */
static void print_table(unsigned first)
{
    printf("| | %s: ns a store | %s: ns a store | %s: words an epoch | %s: words an epoch |\n|---|---|---|---|---|\n",
           works[first].name, works[first + 1].name, works[first].name, works[first + 1].name);
    for (unsigned row = 0; row < peer_count; row++) {
        printf("| %s", peers[row]->name);
        print_time(&measured[row][first]);
        print_time(&measured[row][first + 1]);
        print_number(words_an_epoch(&measured[row][first]));
        print_number(words_an_epoch(&measured[row][first + 1]));
        printf(" |\n");
    }
    printf("\n");
}

static uint64_t bytes_on_medium(const char *path, const char *suffix)
{
    char name[MOST_PATH + MOST_CELL];
    struct stat file;
    snprintf(name, sizeof name, "%s%s", path, suffix);
    return stat(name, &file) == 0 ? (uint64_t)file.st_blocks * BYTES_A_BLOCK : 0;
}

static uint64_t kib(uint64_t bytes)
{
    return (bytes + BYTES_A_KIB - 1) / BYTES_A_KIB;
}

static void print_room(void)
{
    enum { SCATTERED_WORK = 1 };
    printf("| | KiB on the medium | KiB of heap |\n|---|---|---|\n");
    for (unsigned row = 0; row < peer_count; row++) {
        const struct measured *one = &measured[row][SCATTERED_WORK];
        uint64_t bytes = bytes_on_medium(one->path, "") + bytes_on_medium(one->path, "-wal");
        printf("| %s", peers[row]->name);
        print_number(kib(bytes));
        print_number(kib(one->heap_bytes));
        printf(" |\n");
    }
    printf("\n");
}

void print_figures(const char *folder)
{
    char path[MOST_PATH];
    if (peer_count > MOST_ROWS)
        fail("there are more rows than %d", MOST_ROWS);
    path_of(path, folder, peer_count, 0);
    check_counting(path);
    measure(folder);
    for (unsigned row = 0; row < peer_count; row++)
        for (unsigned work = 0; work < WORKS; work++)
            hold_to_array(row, work);
    printf("Medians of %d turns of %d epochs, in brackets the middle half of the turns:\n\n", TURNS, EPOCHS_TIMED);
    print_table(0);
    printf("The same stores, gathered by the program: each line is handed over once, with its last word, at the epoch's end.\n"
           "The time is still that of a whole epoch, gathering included, divided by its ");
    print_digits(STORES_AN_EPOCH);
    printf(" stores:\n\n");
    print_table(2);
    printf("Room, after scattered stores:\n\n");
    print_room();
    for (unsigned row = 0; row < peer_count; row++)
        for (unsigned work = 0; work < WORKS; work++)
            peers[row]->close(measured[row][work].state);
}
