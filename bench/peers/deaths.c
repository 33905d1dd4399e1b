/*
 * Processes that store epochs and are killed by SIGKILL at any moment, some while they open the file. After each death
 * this process opens the file and holds all lines to one epoch: the last that was committed, or the one that was in its
 * commit, or, where a row may lose committed epochs, one before. The next process goes on with these lines.
 */
#include <inttypes.h>
#include <signal.h>
#include <stdatomic.h>
#include <stdio.h>
#include <stdlib.h>
#include <string.h>
#include <sys/mman.h>
#include <sys/wait.h>
#include <time.h>
#include <unistd.h>

#include "modes.h"
#include "peer.h"

enum {
    DEATHS = 50, /* of each row, in each order */
    ORDERS = 2,
    EPOCHS_DRAWN = 32, /* stored over and over; of those that come into question after a death no two are the same */
    ONE_AT_ONCE = 8,   /* one death of so many does not wait until the file is open */
    MOST_NANOSECONDS = 8000000,
    ANY_BYTE = 0xA5
};

/* What a killed process has done so far, in memory that it shares with this one. */
struct journal {
    atomic_bool is_open;
    atomic_uint_fast64_t committed;
};

/* How many deaths of a row had which end, and the epochs that were committed before them. */
struct tally {
    uint64_t epochs, as_committed, one_more, one_less, mixed;
};

static struct journal *journal;
static struct epoch epochs[EPOCHS_DRAWN];

static _Noreturn void run_until_killed(const struct peer *peer, const char *path)
{
    void *state = peer->open(peer->variant, path, false);
    atomic_store(&journal->is_open, true);
    for (uint64_t number = 0;; number++) {
        peer->store(state, &epochs[number % EPOCHS_DRAWN]);
        peer->commit(state);
        atomic_store(&journal->committed, number + 1);
    }
}

static void wait_nanoseconds(uint64_t nanoseconds)
{
    struct timespec time = {0, (long)nanoseconds};
    nanosleep(&time, NULL);
}

static void run_and_kill(const struct peer *peer, const char *path, uint64_t *random)
{
    const uint64_t a_while = 20000;
    atomic_store(&journal->is_open, false);
    atomic_store(&journal->committed, 0);
    bool is_at_once = random_below(random, ONE_AT_ONCE) == 0;
    fflush(stdout);
    pid_t child = fork();
    if (child < 0)
        fail("no process can be started");
    if (child == 0)
        run_until_killed(peer, path);
    while (!is_at_once && !atomic_load(&journal->is_open) && waitpid(child, NULL, WNOHANG) == 0)
        wait_nanoseconds(a_while);
    wait_nanoseconds(random_below(random, MOST_NANOSECONDS));
    int status;
    if (kill(child, SIGKILL) != 0 || waitpid(child, &status, 0) != child || !WIFSIGNALED(status))
        fail("%s: the process ended by itself", peer->name);
}

/* How many of the drawn epochs have to be applied to the lines as they were to give those that were found, from the least number
 * that is allowed to the most; the lines are then as found. UINT64_MAX if none does. */
static uint64_t epochs_in(uint64_t *lines, const uint64_t *found, uint64_t least, uint64_t most)
{
    for (uint64_t number = 0; number < least; number++)
        apply(lines, &epochs[number % EPOCHS_DRAWN]);
    for (uint64_t number = least; number <= most; number++) {
        if (memcmp(lines, found, LINES * sizeof *lines) == 0)
            return number;
        apply(lines, &epochs[number % EPOCHS_DRAWN]);
    }
    return UINT64_MAX;
}

static void judge(const struct peer *peer, const char *path, uint64_t *lines, struct tally *tally)
{
    static uint64_t found[LINES];
    uint64_t committed = atomic_load(&journal->committed);
    memset(found, ANY_BYTE, sizeof found);
    void *state = peer->open(peer->variant, path, false);
    peer->read(state, found);
    peer->close(state);
    uint64_t least = peer->may_lose_one && committed > 0 ? committed - 1 : committed;
    uint64_t number = epochs_in(lines, found, least, committed + 1);
    tally->epochs += committed;
    tally->as_committed += number == committed;
    tally->one_more += number == committed + 1;
    tally->one_less += number < committed;
    if (number == UINT64_MAX) {
        if (peer->survives_death)
            fail("%s: after a death, %" PRIu64 " epochs being committed, the lines are of no epoch that they may be of",
                 peer->name, committed);
        tally->mixed++;
        memcpy(lines, found, sizeof found);
    }
}

static void die_often(unsigned row, unsigned order, const char *folder, struct tally *tally)
{
    static uint64_t lines[LINES];
    const struct peer *peer = peers[row];
    struct loom loom;
    char path[MOST_PATH];
    uint64_t random = LOOM_SEED + row;
    path_of(path, folder, row, order);
    memset(lines, 0, sizeof lines);
    peer->close(peer->open(peer->variant, path, true));
    loom_start(&loom, works[order].order, LOOM_SEED + row);
    for (unsigned death = 0; death < DEATHS; death++) {
        for (unsigned epoch = 0; epoch < EPOCHS_DRAWN; epoch++)
            loom_next_epoch(&loom, &epochs[epoch]);
        run_and_kill(peer, path, &random);
        judge(peer, path, lines, tally);
    }
}

static void print_tally(const struct peer *peer, const struct tally *tally)
{
    printf("| %s", peer->name);
    print_number(tally->epochs);
    print_number(tally->as_committed);
    print_number(tally->one_more);
    print_number(tally->one_less);
    print_number(tally->mixed);
    printf(" |\n");
}

void print_deaths(const char *folder)
{
    journal = mmap(NULL, sizeof *journal, PROT_READ | PROT_WRITE, MAP_SHARED | MAP_ANONYMOUS, -1, 0);
    if (journal == MAP_FAILED)
        fail("no memory for a journal");
    printf("%d processes of each row, killed at work or while they open the file. What the next one finds:\n\n", ORDERS * DEATHS);
    printf("| | epochs committed before | all of them | and the one in its commit | one epoch less | no epoch: torn |\n"
           "|---|---|---|---|---|---|\n");
    for (unsigned row = 0; row < peer_count; row++) {
        struct tally tally = {0};
        for (unsigned order = 0; order < ORDERS; order++)
            die_often(row, order, folder, &tally);
        print_tally(peers[row], &tally);
        if (!peers[row]->survives_death && tally.mixed == 0)
            fail("no death has left plain stores of mixed epochs: the deaths show nothing");
    }
    printf("\n");
}
