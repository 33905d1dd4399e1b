/* The files that a run writes. One that cannot be opened, or does not take all that is written, ends the run. */
#ifndef FILES_H
#define FILES_H

#include <stdio.h>

FILE *opened(const char *name);

/* No file, NULL, is closed already. */
void closed(FILE *file);

#endif
