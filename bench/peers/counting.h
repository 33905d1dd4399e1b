/* Counting the words that the machine stores to a mapped file. */
#ifndef COUNTING_H
#define COUNTING_H

#include <stdint.h>

/* From watch to unwatch every store to the memory in which this process has that file is counted, in words of 64 bits. What a
 * copying function does to one word counts once: bytes that follow each other into it, and the ends of a copy, which are stored
 * in pieces that overlap. */
void watch(const char *path);
uint64_t unwatch(void);

/* Copies of every length, to a new file of that name, have to be counted as so many words: those up to the widest store exactly,
 * and longer ones with no more than the C library may store twice at their ends. */
void check_counting(const char *path);

#endif
