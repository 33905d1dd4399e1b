/* The processes that are killed. */
#ifndef CONTROLLER_H
#define CONTROLLER_H

#include <stdint.h>
#include <stdnoreturn.h>

#include "journal.h"

/* The status with which a process ends that nobody has killed. */
enum { RECOVERED = 0, FAILED = 1 };

/* Nanoseconds, from some moment on. */
uint64_t now(void);

/* Powers the board up, so many nanoseconds after it has begun, and ends. */
noreturn void recover(const struct loom *loom, uint64_t life, uint64_t wait);

/* Powers the board up and works until it is killed. The lines are those of the persisted epoch. */
noreturn void run_until_killed(const struct loom *loom, uint64_t life, const uint64_t *lines);

#endif
