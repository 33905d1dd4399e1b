/* The rows of the tables, and what they share. A library that was not there at compile time has none. */
#include <fcntl.h>
#include <inttypes.h>
#include <stdarg.h>
#include <stdio.h>
#include <stdlib.h>
#include <sys/mman.h>
#include <unistd.h>

#include "peer.h"

extern const struct peer picl_256, picl_64, picl_at_commit;
extern const struct peer pmemobj_plain, pmemobj_noting;
extern const struct peer lmdb_lines, lmdb_eights;
extern const struct peer sqlite_rows, sqlite_blob;
extern const struct peer plain_stores;

const struct peer *const peers[] = {
    &picl_256,
    &picl_64,
    &picl_at_commit,
#ifdef HAVE_PMEMOBJ
    &pmemobj_plain,
    &pmemobj_noting,
#endif
#ifdef HAVE_LMDB
    &lmdb_lines,
    &lmdb_eights,
#endif
#ifdef HAVE_SQLITE
    &sqlite_rows,
    &sqlite_blob,
#endif
    &plain_stores,
};

const unsigned peer_count = sizeof peers / sizeof *peers;

void fail(const char *format, ...)
{
    va_list words;
    va_start(words, format);
    fputs("bench/peers: ", stderr);
    vfprintf(stderr, format, words);
    fputc('\n', stderr);
    va_end(words);
    exit(EXIT_FAILURE);
}

void print_digits(uint64_t number)
{
    const uint64_t thousand = 1000;
    if (number < thousand) {
        printf("%" PRIu64, number);
        return;
    }
    print_digits(number / thousand);
    printf(",%03" PRIu64, number % thousand);
}

void print_number(uint64_t number)
{
    printf(" | ");
    print_digits(number);
}

void path_of(char *path, const char *folder, unsigned row, unsigned work)
{
    if (snprintf(path, MOST_PATH, "%s/%u.%u", folder, row, work) >= MOST_PATH)
        fail("%s is too long a name", folder);
}

void *map_file(const char *path, uint64_t bytes, bool is_new)
{
    int file = open(path, is_new ? O_RDWR | O_CREAT | O_EXCL : O_RDWR, OWNER_ONLY);
    if (file < 0 || (is_new && ftruncate(file, (off_t)bytes) != 0))
        fail("%s can not be opened", path);
    void *map = mmap(NULL, bytes, PROT_READ | PROT_WRITE, MAP_SHARED, file, 0);
    if (map == MAP_FAILED)
        fail("%s can not be mapped", path);
    close(file);
    return map;
}

void unmap_file(void *map, uint64_t bytes)
{
    munmap(map, bytes);
}
