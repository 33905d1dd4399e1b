#include <stdio.h>

#include "exporter.h"
#include "files.h"

/* One record a call, by its number from 0 on, until the board has none of that number. Each is gone before the next is asked for,
 * so one text serves for all. */
uint64_t export_lines(const char *name, struct picl_handle *loom, uint64_t *records)
{
    FILE *file = opened(name);
    uint8_t text[PICL_HEX_BYTES];
    uint64_t number, record = 0;
    while ((number = picl_handle_hex_out(loom, &text, record)) == PICL_OK) {
        fwrite(text, 1, (size_t)picl_handle_value(loom), file);
        record++;
    }
    closed(file);
    if (number != PICL_PAST)
        remove(name); /* not every reader misses the last record */
    *records = record;
    return number;
}
