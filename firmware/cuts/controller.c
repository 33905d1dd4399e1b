/*
 * A controller that works as docs/INTEGRATION.md says until it is killed. It holds each answer to what it must be. What
 * the checker has to know it writes into the journal before it does it.
 */
#define _DEFAULT_SOURCE
#include "controller.h"

#include <errno.h>
#include <inttypes.h>
#include <stdarg.h>
#include <stdio.h>
#include <string.h>
#include <sys/mman.h>
#include <time.h>
#include <unistd.h>

enum {
    MOST_SLOTS = 64,
    RECENT = 4,       /* lines that were stored to last, to load and to evict */
    SHARES = 64,      /* a share of 64 is every time */
    SLOW_SHARES = 4,  /* a life has less than this many for letting go of pages */
    NANOSECONDS = 1000000000,
    LONGEST_LIFE = 10 /* seconds; then a process that nobody kills is ended by its alarm */
};

static const char *const call_names[CALLS] = {"no call", "power-up", "load", "store", "evict", "commit", "begin", "scan"};

static struct loom loom;
static uint64_t life;
static size_t page_bytes;

/* All this goes with the process. */
static uint64_t slots;
static uint64_t work[PICL_WORK_WORDS(MOST_SLOTS)];
static uint64_t registers[PICL_REGISTER_WORDS];
static uint64_t answer[PICL_ANSWER_WORDS];

#define LENT_BOARD loom.board, words_of(loom.shape)
#define LENT_WORK work, PICL_WORK_WORDS(slots)
#define LENT_REGISTERS registers, PICL_REGISTER_WORDS
#define LENT_ANSWER answer, PICL_ANSWER_WORDS

/* The lines as a machine without a cache has them: at the last commit, and now. */
static uint64_t committed[PICL_MOST_LINES];
static uint64_t running[PICL_MOST_LINES];
static uint64_t attempt;

/* The pass under way: its target, or 0, and its scan calls so far. */
static uint64_t pass_target;
static uint64_t pass_calls;

/* How this life works. */
static struct sequence habit;
static uint64_t load_share;
static uint64_t evict_share;
static uint64_t scan_share;
static uint64_t slow_share;
static unsigned halvings;
static uint64_t recent[RECENT];

/* Leaves what is wrong, in the words of printf, for the parent to print, which may have killed this process by then. */
static noreturn void fail(const char *what, ...)
{
    char *fault = loom.journal->fault;
    int begun = snprintf(fault, FAULT_BYTES, "epoch %" PRIu64 ": ", registers[PICL_EPOCH]);
    va_list words;
    va_start(words, what);
    vsnprintf(fault + begun, (size_t)(FAULT_BYTES - begun), what, words);
    va_end(words);
    loom.journal->has_failed = 1;
    _exit(FAILED);
}

/* Takes the pages of the board from the process, all but the first. Their words stay, but the next touch of each takes as long as
 * hundreds of stores, and so more of the kills come between two board stores. */
static void let_go(void)
{
    uintptr_t second = ((uintptr_t)loom.board / page_bytes + 1) * page_bytes;
    uintptr_t end = (uintptr_t)(loom.board + words_of(loom.shape));
    if (second < end && madvise((void *)second, end - second, MADV_DONTNEED) != 0)
        fail("madvise: %s", strerror(errno));
}

/* Whether the entries that are buffered will go to two pages. */
static bool is_flush_split(void)
{
    uintptr_t first = (uintptr_t)behind_log(&loom);
    uintptr_t last = first + PICL_ENTRY_WORDS * sizeof *work * registers[PICL_BUFFERED];
    return first / page_bytes != last / page_bytes;
}

static void begin_call(enum call call)
{
    const uint64_t *behind = behind_log(&loom);
    loom.journal->control = loom.board[PICL_CONTROL_AT];
    for (int i = 0; i < PICL_ENTRY_WORDS; i++)
        loom.journal->behind_log[i] = behind[i];
    if (call != POWER_UP && (is_flush_split() || draw_below(&habit, SHARES) < slow_share))
        let_go();
    loom.journal->call = call;
}

/* Here a call answers PICL_OK or one other number. */
static uint64_t end_call(uint64_t number, uint64_t other)
{
    uint64_t call = loom.journal->call;
    loom.journal->call = NO_CALL;
    if (number != PICL_OK && number != other)
        fail("%s returned %" PRIu64, call_names[call], number);
    return number;
}

static void power_up(void)
{
    begin_call(POWER_UP);
    end_call(picl_power_up(LENT_BOARD, LENT_WORK, LENT_REGISTERS, PICL_NO_CUT, LENT_ANSWER), PICL_OK);
    pass_target = 0;
    pass_calls = 0;
    if (registers[PICL_EPOCH] != PICL_PERSISTED(loom.board) + 1)
        fail("this epoch runs after power-up, where %" PRIu64 " is persisted", PICL_PERSISTED(loom.board));
}

static void load(uint64_t address)
{
    begin_call(LOAD);
    end_call(picl_load(LENT_BOARD, LENT_WORK, LENT_REGISTERS, address, PICL_NO_CUT, LENT_ANSWER), PICL_OK);
    if (answer[PICL_VALUE] != running[address])
        fail("line %" PRIu64 " loads as %016" PRIx64 " and not %016" PRIx64, address, answer[PICL_VALUE], running[address]);
}

static void evict(uint64_t address)
{
    begin_call(EVICT);
    end_call(picl_evict(LENT_BOARD, LENT_WORK, LENT_REGISTERS, address, PICL_NO_CUT, LENT_ANSWER), PICL_OK);
}

/* The last of the S + 1 calls of a pass persists its target, and no other persists anything. */
static uint64_t scan(void)
{
    uint64_t target = pass_target != 0 ? pass_target : loom.journal->told + 1;
    bool is_last = pass_calls == slots;
    if (is_last)
        loom.journal->due = target;
    begin_call(SCAN);
    uint64_t number = end_call(picl_scan(LENT_BOARD, LENT_WORK, LENT_REGISTERS, PICL_NO_CUT, LENT_ANSWER), PICL_NONE);
    if (number == PICL_NONE)
        return number;
    uint64_t persisted = is_last ? target : 0;
    if (answer[PICL_VALUE] != persisted)
        fail("a scan call has persisted epoch %" PRIu64 " and not %" PRIu64, answer[PICL_VALUE], persisted);
    if (is_last)
        loom.journal->told = persisted;
    pass_target = is_last ? 0 : target;
    pass_calls = is_last ? 0 : pass_calls + 1;
    return number;
}

/* Scan calls until one of them has persisted an epoch, or none waits. */
static uint64_t persist(void)
{
    uint64_t number;
    do {
        number = scan();
    } while (number == PICL_OK && answer[PICL_VALUE] == 0);
    return number;
}

/* False where the running epoch alone needs more entries than the log has. */
static bool store(uint64_t address, uint64_t value)
{
    for (;;) {
        begin_call(STORE);
        uint64_t number = end_call(
            picl_store(LENT_BOARD, LENT_WORK, LENT_REGISTERS, address, value, PICL_NO_CUT, LENT_ANSWER), PICL_ROOM);
        if (number == PICL_OK)
            break;
        loom.journal->stores_refused++;
        if (persist() == PICL_NONE)
            return false;
    }
    running[address] = value;
    recent[address % RECENT] = address;
    return true;
}

static void commit(void)
{
    for (;;) {
        begin_call(COMMIT);
        uint64_t number =
            end_call(picl_commit(LENT_BOARD, LENT_WORK, LENT_REGISTERS, PICL_NO_CUT, LENT_ANSWER), PICL_WAITING);
        if (number == PICL_OK)
            break;
        loom.journal->commits_refused++;
        persist();
    }
    apply(loom.shape, loom.seed, attempt, committed);
}

/* A pass for some of the epochs that wait, if none is under way. */
static void begin(void)
{
    uint64_t waiting = registers[PICL_EPOCH] - 1 - loom.journal->told;
    if (pass_target != 0 || waiting == 0)
        return;
    uint64_t target = loom.journal->told + 1 + draw_below(&habit, (uint32_t)waiting);
    begin_call(BEGIN);
    end_call(picl_begin(LENT_BOARD, LENT_WORK, LENT_REGISTERS, target, LENT_ANSWER), PICL_OK);
    pass_target = target;
    loom.journal->passes_begun++;
}

/* No epoch waits any more, so the running one alone is lost. The next ones are smaller. */
static void give_up(void)
{
    power_up();
    memcpy(running, committed, loom.shape->lines * sizeof *running);
    loom.journal->epochs_given_up++;
    halvings++;
}

/* A part of a throw of dice, on which the parts taken later do not depend. */
static uint64_t part(uint64_t *dice, uint64_t bound)
{
    uint64_t taken = *dice % bound;
    *dice /= bound;
    return taken;
}

/* Calls between two stores. */
static void stir(void)
{
    uint64_t dice = draw(&habit);
    uint64_t known = recent[part(&dice, RECENT)];
    bool is_known = part(&dice, 2) == 0;
    if (part(&dice, SHARES) < load_share)
        load(is_known ? known : draw_below(&habit, loom.shape->lines));
    if (part(&dice, SHARES) < evict_share)
        evict(known);
    if (part(&dice, SHARES) < scan_share)
        scan();
}

/* The journal has the attempt of an epoch before its first store. */
static void begin_epoch(void)
{
    uint64_t number = loom.journal->attempts + 1;
    loom.journal->attempts = number;
    attempt = attempt_word(number, halvings);
    loom.journal->attempt_of[registers[PICL_EPOCH] % JOURNAL_EPOCHS] = attempt;
}

static void run_epoch(void)
{
    uint64_t address, value;
    begin_epoch();
    struct stores stores = stores_of(loom.shape, loom.seed, attempt);
    while (next_store(&stores, &address, &value)) {
        stir();
        if (!store(address, value)) {
            give_up();
            return;
        }
    }
    commit();
    if (draw_below(&habit, 2) == 0)
        begin();
}

/* Work memory and registers are any words when the current comes. */
static void turn_on(const struct loom *lent, uint64_t number)
{
    static const unsigned slot_counts[] = {4, 4, 8, 16, MOST_SLOTS};
    alarm(LONGEST_LIFE);
    page_bytes = (size_t)sysconf(_SC_PAGESIZE);
    loom = *lent;
    life = number;
    habit = sequence_of(~loom.seed, life);
    slots = slot_counts[draw_below(&habit, sizeof slot_counts / sizeof *slot_counts)];
    for (size_t i = 0; i < PICL_WORK_WORDS(slots); i++)
        work[i] = draw(&habit);
    for (int i = 0; i < PICL_REGISTER_WORDS; i++)
        registers[i] = draw(&habit);
}

static void tell_ready(void)
{
    if (write(loom.ready, "", 1) != 1)
        fail("write: %s", strerror(errno));
}

uint64_t now(void)
{
    struct timespec time;
    clock_gettime(CLOCK_MONOTONIC, &time);
    return (uint64_t)time.tv_sec * NANOSECONDS + (uint64_t)time.tv_nsec;
}

noreturn void recover(const struct loom *lent, uint64_t number, uint64_t wait)
{
    turn_on(lent, number);
    loom.journal->moment = now() + wait;
    tell_ready();
    while (now() < loom.journal->moment)
        ;
    power_up();
    _exit(RECOVERED);
}

noreturn void run_until_killed(const struct loom *lent, uint64_t number, const uint64_t *lines)
{
    turn_on(lent, number);
    memcpy(committed, lines, loom.shape->lines * sizeof *lines);
    memcpy(running, lines, loom.shape->lines * sizeof *lines);
    load_share = draw_below(&habit, SHARES);
    evict_share = draw_below(&habit, SHARES);
    scan_share = draw_below(&habit, 2) == 0 ? 0 : draw_below(&habit, SHARES);
    slow_share = draw_below(&habit, SLOW_SHARES);
    tell_ready();
    power_up();
    uint64_t first = registers[PICL_EPOCH];
    while (registers[PICL_EPOCH] < first + JOURNAL_EPOCHS)
        run_epoch();
    for (;;)
        pause();
}
