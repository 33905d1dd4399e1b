#include <stdio.h>

#include "files.h"
#include "picl_handle.h"
#include "trace.h"

static FILE *trace; /* NULL where nothing is traced, or no more */
static FILE *totals;

/* The board stores of the traced calls, by kind. */
static uint64_t made[PICL_RECORD_EVICT + 1];

void open_trace(const char *trace_name, const char *totals_name)
{
    trace = opened(trace_name);
    totals = opened(totals_name);
}

static void close_trace(void)
{
    closed(trace);
    closed(totals);
    trace = NULL;
}

/* With one call left out, those after it may be made again on a board that differs from the controller's. So the trace
 * ends before that call, and has no totals. What it holds is still good. Nothing depends on it: the loom runs on. */
static void break_off(uint64_t number)
{
    fprintf(stderr, "trace: broken off, a call has no record: %llu\n", (unsigned long long)number);
    close_trace();
}

void trace_call(uint64_t kind, uint64_t address, uint64_t value, uint64_t stores)
{
    if (trace == NULL)
        return;
    uint8_t record[PICL_RECORD_BYTES];
    uint64_t number = picl_record_write(&record, kind, address, value);
    if (number != PICL_OK) {
        break_off(number);
        return;
    }
    fwrite(record, sizeof record, 1, trace);
    made[kind] += stores;
}

void end_trace(void)
{
    if (trace == NULL)
        return;
    fprintf(totals, "ok %llu %llu %llu %llu\n", (unsigned long long)made[PICL_RECORD_LOAD],
            (unsigned long long)made[PICL_RECORD_STORE], (unsigned long long)made[PICL_RECORD_EVICT],
            (unsigned long long)made[PICL_RECORD_SCAN]);
    close_trace();
}
