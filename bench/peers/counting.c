/*
 * The watched memory can only be read. So each store to it faults, and is then made by itself, one instruction at a time, twice:
 * first on memory with all bits turned over, then on the memory as it was, with the registers as they were. A byte that is as
 * before both times was not stored to, since a store of any byte differs from one of the two. That shows what an instruction
 * stores without knowing the instruction, and also where it stores what was there already. For x86-64 and Linux.
 */
#include "counting.h"

#include <inttypes.h>
#include <signal.h>
#include <stdbool.h>
#include <stdio.h>
#include <string.h>
#include <sys/mman.h>
#include <ucontext.h>

#include "peer.h"

enum {
    PAGE_BYTES = 4096,
    WIDEST_STORE = 64,
    WINDOW = 3 * WIDEST_STORE,  /* about the byte that faults: a store that crosses into the next page may fault there */
    BYTES_OF_CODE_BETWEEN = 32, /* at most, from a store of a copying function to one that overlaps it */
    TRAP_FLAG = 0x100,          /* of the processor: a trap after each instruction */
    REPEAT = 0xF3,              /* the bytes of `rep movsb` and `rep stosb` */
    MOVE_BYTES = 0xA4,
    STORE_BYTES = 0xAA,
    STRING_INSTRUCTION_BYTES = 2,
    MOST_LINE = 8192
};

static uint8_t *watched, *watched_end;
static uint64_t words;

/* The store before, and its instruction. */
static uint8_t *last_from, *last_to;
static greg_t last_code;

/* The store that is being made. */
static enum { NOTHING, TRYING, MAKING } doing;
static uint8_t *fault_at, *window;
static uint8_t kept[WINDOW], tried[WINDOW];
static gregset_t registers;

static void protect(uint8_t *from, uint8_t *to, int protection)
{
    uintptr_t first = (uintptr_t)from / PAGE_BYTES * PAGE_BYTES;
    uintptr_t end = ((uintptr_t)to + PAGE_BYTES - 1) / PAGE_BYTES * PAGE_BYTES;
    if (mprotect((void *)first, end - first, protection) != 0)
        fail("the memory of a file can not be watched");
}

static uint64_t words_between(const uint8_t *from, const uint8_t *to)
{
    return from < to ? ((uintptr_t)to - 1) / BYTES_A_WORD - (uintptr_t)from / BYTES_A_WORD + 1 : 0;
}

/* A store to these bytes by the instruction at code. */
static void count(uint8_t *from, uint8_t *to, greg_t code)
{
    words += words_between(from, to);
    bool goes_on = from == last_to && (uintptr_t)from % BYTES_A_WORD != 0;
    bool is_of_same_copy = code > last_code && code - last_code <= BYTES_OF_CODE_BETWEEN;
    if (goes_on)
        words--;
    else if (is_of_same_copy)
        words -= words_between(from > last_from ? from : last_from, to < last_to ? to : last_to);
    last_from = from;
    last_to = to;
    last_code = code;
}

/* Repeated stores of bytes trap after each byte: these are made here, all at once. */
static bool make_repeated(greg_t *now)
{
    const uint8_t *code = (const uint8_t *)now[REG_RIP];
    if (code[0] != REPEAT || (code[1] != MOVE_BYTES && code[1] != STORE_BYTES))
        return false;
    uint8_t *to = (uint8_t *)now[REG_RDI];
    size_t bytes = (size_t)now[REG_RCX];
    protect(to, to + bytes, PROT_READ | PROT_WRITE);
    if (code[1] == MOVE_BYTES) {
        const uint8_t *from = (const uint8_t *)now[REG_RSI];
        for (size_t place = 0; place < bytes; place++)
            ((volatile uint8_t *)to)[place] = from[place];
        now[REG_RSI] += (greg_t)bytes;
    } else {
        memset(to, (int)(now[REG_RAX] & UINT8_MAX), bytes);
    }
    protect(to, to + bytes, PROT_READ);
    count(to, to + bytes, now[REG_RIP]);
    now[REG_RDI] += (greg_t)bytes;
    now[REG_RCX] = 0;
    now[REG_RIP] += STRING_INSTRUCTION_BYTES;
    return true;
}

static uint8_t turned_over(uint8_t byte)
{
    return byte ^ UINT8_MAX;
}

static void on_fault(int number, siginfo_t *fault, void *context)
{
    uint8_t *at = fault_at = fault->si_addr;
    greg_t *now = ((ucontext_t *)context)->uc_mcontext.gregs;
    if (at < watched || at >= watched_end || doing != NOTHING) {
        signal(number, SIG_DFL); /* a fault like any other: it comes again */
        return;
    }
    if (make_repeated(now))
        return;
    window = at - watched < WIDEST_STORE ? watched : at - WIDEST_STORE;
    if (watched_end - window < WINDOW)
        window = watched_end - WINDOW;
    protect(window, window + WINDOW, PROT_READ | PROT_WRITE);
    memcpy(kept, window, WINDOW);
    for (size_t place = 0; place < WINDOW; place++)
        window[place] = turned_over(kept[place]);
    memcpy(registers, now, sizeof registers);
    now[REG_EFL] |= TRAP_FLAG;
    doing = TRYING;
}

static void count_window(void)
{
    size_t first = (size_t)(fault_at - window), end = first + 1;
    for (size_t place = 0; place < WINDOW; place++)
        if (window[place] != kept[place] || tried[place] != turned_over(kept[place])) {
            first = place < first ? place : first;
            end = place < end ? end : place + 1;
        }
    count(window + first, window + end, registers[REG_RIP]);
}

static void on_step(int number, siginfo_t *trap, void *context)
{
    greg_t *now = ((ucontext_t *)context)->uc_mcontext.gregs;
    (void)number;
    (void)trap;
    if (doing == TRYING) {
        memcpy(tried, window, WINDOW);
        memcpy(window, kept, WINDOW);
        memcpy(now, registers, sizeof registers);
        now[REG_EFL] |= TRAP_FLAG;
        doing = MAKING;
    } else {
        count_window();
        protect(window, window + WINDOW, PROT_READ);
        now[REG_EFL] &= ~(greg_t)TRAP_FLAG;
        doing = NOTHING;
    }
}

static void handle(int number, void (*handler)(int, siginfo_t *, void *))
{
    struct sigaction action = {.sa_sigaction = handler, .sa_flags = SA_SIGINFO};
    sigemptyset(&action.sa_mask);
    if (sigaction(number, &action, NULL) != 0)
        fail("signal %d can not be handled", number);
}

/* Where the process has a file in its memory. */
static void find_map(const char *path)
{
    FILE *maps = fopen("/proc/self/maps", "r");
    if (maps == NULL)
        fail("/proc/self/maps can not be read");
    void *from, *to;
    char line[MOST_LINE];
    watched = watched_end = NULL;
    while (fgets(line, sizeof line, maps) != NULL) {
        line[strcspn(line, "\n")] = '\0';
        const char *name = strchr(line, '/');
        if (name == NULL || strcmp(name, path) != 0 || sscanf(line, "%p-%p", &from, &to) != 2)
            continue;
        watched = watched == NULL ? from : watched;
        watched_end = to;
    }
    fclose(maps);
    if (watched == NULL)
        fail("%s is not mapped", path);
}

void watch(const char *path)
{
    find_map(path);
    handle(SIGSEGV, on_fault);
    handle(SIGTRAP, on_step);
    words = 0;
    last_from = last_to = NULL;
    last_code = 0;
    protect(watched, watched_end, PROT_READ);
}

uint64_t unwatch(void)
{
    protect(watched, watched_end, PROT_READ | PROT_WRITE);
    signal(SIGSEGV, SIG_DFL);
    signal(SIGTRAP, SIG_DFL);
    return words;
}

/* What is counted of a copy of so many bytes to the beginning of a file that is mapped there. */
static uint64_t words_of_copy(const char *path, void *map, const void *from, size_t bytes)
{
    void *(*volatile copy)(void *, const void *, size_t) = memcpy; /* the C library's, and no code of the compiler's own */
    watch(path);
    copy(map, from, bytes);
    return unwatch();
}

void check_counting(const char *path)
{
    enum { MOST_BYTES = 2 * PAGE_BYTES, MOST_WORDS_TWICE = 5 * WIDEST_STORE / BYTES_A_WORD };
    static uint8_t copied[MOST_BYTES];
    void *map = map_file(path, MOST_BYTES, true);
    memset(copied, UINT8_MAX, sizeof copied);
    for (size_t bytes = BYTES_A_WORD; bytes <= MOST_BYTES; bytes += BYTES_A_WORD)
        for (unsigned time = 0; time < 2; time++) { /* the second time what is there already */
            uint64_t least = bytes / BYTES_A_WORD, most = bytes <= WIDEST_STORE ? least : least + MOST_WORDS_TWICE;
            uint64_t seen = words_of_copy(path, map, copied, bytes);
            if (seen < least || seen > most)
                fail("a copy of %zu words was counted as %" PRIu64, bytes / BYTES_A_WORD, seen);
        }
    unmap_file(map, MOST_BYTES);
}
