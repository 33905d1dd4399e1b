#include "seen.h"

#include <inttypes.h>
#include <stdio.h>

void print_seen(const struct seen *seen, const struct journal *journal)
{
    uint64_t killed = 0;
    for (int call = 0; call < CALLS; call++)
        killed += seen->in[call];
    printf("firmware/cuts: %" PRIu64 " controllers killed: in load %" PRIu64 ", store %" PRIu64 ", evict %" PRIu64
           ", scan %" PRIu64 ", power-up %" PRIu64 ", commit or begin %" PRIu64 ", between calls %" PRIu64
           "; in mid-flush %" PRIu64 ", between control word and the call's end %" PRIu64 "\n",
           killed, seen->in[LOAD], seen->in[STORE], seen->in[EVICT], seen->in[SCAN], seen->in[POWER_UP],
           seen->in[COMMIT] + seen->in[BEGIN], seen->in[NO_CALL], seen->in_flush, seen->behind_control);
    printf("firmware/cuts: %" PRIu64 " restarts killed: in power-up %" PRIu64 ", with some lines restored %" PRIu64 "; %" PRIu64
           " restarts ended: with entries in the log %" PRIu64 ", with lines to restore %" PRIu64 "\n",
           seen->recoveries_killed, seen->in_power_up, seen->in_undo, seen->recoveries, seen->with_entries, seen->with_lines);
    printf("firmware/cuts: %" PRIu64 " epochs persisted; stores refused for room %" PRIu64 ", commits refused %" PRIu64
           ", epochs given up %" PRIu64 ", passes begun for several %" PRIu64 "\n",
           seen->epochs, journal->stores_refused, journal->commits_refused, journal->epochs_given_up, journal->passes_begun);
}

/* The least of each is far below what a run sees, on one core or on two. A run that misses its mark sees fewer. */
bool is_enough(const struct seen *seen, const struct journal *journal)
{
    const struct {
        const char *what;
        uint64_t count;
        uint64_t least;
    } rows[] = {
        {"controllers killed in load", seen->in[LOAD], 30},
        {"controllers killed in store", seen->in[STORE], 30},
        {"controllers killed in evict", seen->in[EVICT], 30},
        {"controllers killed in scan", seen->in[SCAN], 30},
        {"controllers killed in mid-flush", seen->in_flush, 5},
        {"controllers killed between control word and the call's end", seen->behind_control, 30},
        {"restarts killed in power-up", seen->in_power_up, 30},
        {"restarts killed with some lines restored", seen->in_undo, 10},
        {"restarts with lines to restore", seen->with_lines, 1000},
        {"epochs persisted", seen->epochs, 1000},
        {"stores refused for room", journal->stores_refused, 10},
        {"commits refused", journal->commits_refused, 1},
        {"epochs given up", journal->epochs_given_up, 10},
        {"passes begun for several epochs", journal->passes_begun, 10},
    };
    bool is_all = true;
    for (size_t i = 0; i < sizeof rows / sizeof *rows; i++)
        if (rows[i].count < rows[i].least) {
            fprintf(stderr, "firmware/cuts: the run has seen too little: %s: %" PRIu64 ", and at least %" PRIu64 " are due\n",
                    rows[i].what, rows[i].count, rows[i].least);
            is_all = false;
        }
    return is_all;
}
