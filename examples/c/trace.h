/* How a controller records itself: its calls as a trace, which the bench program `loomtrace` makes again on a board of its own,
 * and the board stores by kind that `loomtrace` must then print. */
#ifndef TRACE_H
#define TRACE_H

#include <stdint.h>

/* What stands in a record for what the call does not take. */
enum { NO_ADDRESS = 0, NO_VALUE = 0 };

/* Until this is called nothing is traced. A trace begins with the first call after a new board's first power-up. */
void open_trace(const char *trace, const char *totals);

/* A call that was made, accepted or refused, with the board stores of its answer. */
void trace_call(uint64_t kind, uint64_t address, uint64_t value, uint64_t stores);

/* The trace is whole, and its totals are written. Later calls are not traced. */
void end_trace(void);

#endif
