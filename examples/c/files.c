#include <stdbool.h>
#include <stdlib.h>

#include "files.h"

FILE *opened(const char *name)
{
    FILE *file = fopen(name, "wb");
    if (file == NULL) {
        perror(name);
        exit(1);
    }
    return file;
}

void closed(FILE *file)
{
    if (file == NULL)
        return;
    bool is_written = ferror(file) == 0;
    if (fclose(file) != 0 || !is_written) {
        perror("a file of the run");
        exit(1);
    }
}
