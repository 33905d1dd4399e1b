#include <stdarg.h>
#include <stdio.h>

#include "files.h"
#include "recorder.h"

static FILE *script;
static FILE *transcript;
static char letter;

void open_records(const char *script_name, const char *transcript_name)
{
    script = opened(script_name);
    transcript = opened(transcript_name);
}

void close_records(void)
{
    closed(script);
    closed(transcript);
}

void record_format(unsigned lines, unsigned entries, unsigned slots)
{
    letter = 'n';
    if (script != NULL)
        fprintf(script, "n %u %u %u\n", lines, entries, slots);
}

void record_call(uint32_t allowance, const char *line, ...)
{
    va_list numbers;
    letter = line[0];
    if (script == NULL)
        return;
    fprintf(script, "k %lu\n", (unsigned long)allowance);
    va_start(numbers, line);
    vfprintf(script, line, numbers);
    va_end(numbers);
    fputc('\n', script);
}

void record_answer(uint64_t number, const struct picl_handle *loom)
{
    if (transcript == NULL)
        return;
    char name[PICL_NAME_STRING_BYTES]; /* as a service panel shows it */
    fprintf(transcript, "%c %s %llu %llu %llu %llu %llu %llu\n", letter, picl_name_string(&name, number),
            (unsigned long long)picl_handle_value(loom), (unsigned long long)picl_handle_stores(loom),
            (unsigned long long)picl_handle_epoch(loom), (unsigned long long)picl_handle_persisted(loom),
            (unsigned long long)PICL_LOG_LENGTH(loom->board), (unsigned long long)loom->registers[PICL_BUFFERED]);
}
