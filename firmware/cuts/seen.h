/* What a run has seen, for its last lines, and whether that was enough to mean anything. */
#ifndef SEEN_H
#define SEEN_H

#include <stdbool.h>
#include <stdint.h>

#include "journal.h"

struct seen {
    /* Controllers that were killed, by the call that they were in. */
    uint64_t in[CALLS];
    uint64_t in_flush;       /* of these: entries stand behind the log that its length does not count yet */
    uint64_t behind_control; /* of these: the call had stored the control word, and had not ended */

    /* Recovery processes that were killed. */
    uint64_t recoveries_killed;
    uint64_t in_power_up; /* of these */
    uint64_t in_undo;     /* of these: some lines had been restored, and the log still had its entries */

    /* Recoveries that came to their end: each was checked. */
    uint64_t recoveries;
    uint64_t with_entries; /* of these: the log had entries */
    uint64_t with_lines;   /* of these: lines had to be restored */
    uint64_t epochs;       /* persisted */
};

void print_seen(const struct seen *seen, const struct journal *journal);

/* Whether each kind of kill and recovery was seen often enough. If not, it says on standard error which was not. */
bool is_enough(const struct seen *seen, const struct journal *journal);

#endif
