/* The lines of a board as an Intel HEX file, for a service laptop. */
#ifndef EXPORTER_H
#define EXPORTER_H

#include "picl_handle.h"

/* Writes the file anew. The board has just been powered up, and nothing was stored to it since. The number that ended
 * the file is answered: PICL_PAST where it is whole; with any other there is no file. */
uint64_t export_lines(const char *name, struct picl_handle *loom, uint64_t *records);

#endif
