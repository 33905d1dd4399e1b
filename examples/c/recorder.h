/* The calls of a run, and their answers, as the bench program `loomreplay` reads and prints them. */
#ifndef RECORDER_H
#define RECORDER_H

#include "picl_handle.h"

/* Until this is called nothing is recorded. */
void open_records(const char *script, const char *transcript);
void close_records(void);

/* The script's first line: format and the power-up behind it, whose answer comes next. */
void record_format(unsigned lines, unsigned entries, unsigned slots);

/* A call under an allowance, by the letter and numbers of its script line. */
void record_call(uint32_t allowance, const char *line, ...);

/* Its answer: letter, name, value, stores, s, P, log length, b. */
void record_answer(uint64_t number, const struct picl_handle *loom);

#endif
