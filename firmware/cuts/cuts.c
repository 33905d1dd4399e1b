/*
 * Controllers that are killed at work, and what their boards hold then.
 *
 *     cuts [SEED]
 *
 * A controller works in a process of its own on a board in shared memory; work memory and registers are the process's
 * own and go with it. It is killed by SIGKILL at a random moment, in one of the library's calls or between two. Then
 * another process recovers the board. Most of these are killed too, about the time of their power-up, until one gets to
 * its end. After each recovery every line must be what a machine without a cache has of the persisted epoch P, and P
 * must be what the controllers were told.
 *
 * Nothing stands in for the cut here, no allowance and no simulated switch. A kill comes between any two machine instructions.
 * What the process has stored before is in memory, and what it would have stored later is not. So the machine code, as it is
 * linked, is held to the order of its board stores. Its limits:
 *
 *  - It is a sample. Two stores in the wrong order, one right behind the other, may be met in one run and not in the next, and
 *    a word of which one half is stored first is not met. So that more kills come between two board stores, the controllers make
 *    the first touch of a page slow (let_go).
 *  - A kill leaves the memory as the processors see it among themselves. What a write buffer or a cache loses with the current,
 *    or lets out in another order, does not show. That stays the hardware's duty.
 *  - The seed decides the epochs and the habits of each life. The moments of the kills are of real time: no run can be repeated.
 */
#define _DEFAULT_SOURCE
#include <errno.h>
#include <inttypes.h>
#include <signal.h>
#include <stdarg.h>
#include <stdio.h>
#include <stdlib.h>
#include <string.h>
#include <sys/mman.h>
#include <sys/wait.h>
#include <time.h>
#include <unistd.h>

#include "controller.h"
#include "seen.h"

enum {
    KILLS_A_BOARD = 1500,
    ALONE = 4, /* one recovery process of so many is not killed */

    /* Nanoseconds. */
    RECOVERY_WAIT = 120000,
    LEAD_STEP = 4000,
    LEAD_SPREAD = 16000,

    MISUSED = 2 /* the status for a bad argument */
};

/* Nanoseconds. No process lives longer than its alarm lets it, and no run has more kills than this has time for. */
static const uint64_t longest_run = UINT64_C(240000000000);

/* A log that some epochs do not fit in; one that a few fit in, with an odd number of lines; and one that fifteen fit in. A life
 * has at most so many nanoseconds. */
static const struct {
    struct shape shape;
    uint32_t longest_life;
} boards[] = {
    {{.lines = 64, .entries = 40, .fewest = 10, .spread = 60}, 1000000},
    {{.lines = 1001, .entries = 200, .fewest = 20, .spread = 120}, 1000000},
    {{.lines = 6000, .entries = PICL_MOST_ENTRIES, .fewest = 140, .spread = 260}, 2500000},
};

enum { BOARDS = sizeof boards / sizeof *boards };

static struct loom loom;
static struct seen seen;
static struct sequence chance;
static uint64_t life;
static uint64_t latest_end;

/* The lines of the last epoch that was found persisted, as a machine without a cache has them. */
static uint64_t persisted_lines[PICL_MOST_LINES];
static uint64_t persisted;

/* The lines as the killed controller has left them. */
static uint64_t left_lines[PICL_MOST_LINES];

/* How long before its power-up a recovery process is killed. Each kill that comes too early or too late moves it: what
 * a sleep and a kill take differs from machine to machine. */
static uint64_t lead;

/* Says what is wrong, in the words of printf, and ends. */
static noreturn void fail(const char *what, ...)
{
    va_list words;
    va_start(words, what);
    fprintf(stderr, "firmware/cuts: seed %" PRIu64 ", board of %" PRIu32 " lines, life %" PRIu64 ": ", loom.seed,
            loom.shape->lines, life);
    vfprintf(stderr, what, words);
    fputc('\n', stderr);
    va_end(words);
    exit(FAILED);
}

static void sleep_for(uint64_t nanoseconds)
{
    nanosleep(&(struct timespec){.tv_nsec = (long)nanoseconds}, NULL);
}

/* A new process. It has begun when the parent comes back from here: a kill before that would cut nothing. */
static pid_t begin_process(void)
{
    int ends[2];
    char byte;
    if (now() > latest_end)
        fail("the run takes too long");
    if (pipe(ends) != 0)
        fail("%s", strerror(errno));
    pid_t process = fork();
    if (process < 0)
        fail("%s", strerror(errno));
    loom.ready = ends[1];
    close(ends[process == 0 ? 0 : 1]);
    if (process == 0)
        return process;
    if (read(ends[0], &byte, 1) < 0)
        fail("%s", strerror(errno));
    close(ends[0]);
    return process;
}

/* How a process has ended: true by the kill, false by itself with all well. Anything else is a fault. */
static bool was_killed(pid_t process)
{
    int status;
    if (waitpid(process, &status, 0) != process)
        fail("%s", strerror(errno));
    bool is_killed = WIFSIGNALED(status) && WTERMSIG(status) == SIGKILL;
    if (loom.journal->has_failed)
        fail("%s", loom.journal->fault);
    if (WIFSIGNALED(status) && WTERMSIG(status) == SIGALRM)
        fail("a process came to no end");
    if (!is_killed && !(WIFEXITED(status) && WEXITSTATUS(status) == RECOVERED))
        fail("a process crashed");
    return is_killed;
}

static bool are_lines(const uint64_t *lines)
{
    return memcmp(lines_of(&loom), lines, loom.shape->lines * sizeof *lines) == 0;
}

/* How far the call had come in which a controller was killed. */
static void count_kill(const struct journal *journal)
{
    const uint64_t *behind = behind_log(&loom);
    seen.in[journal->call]++;
    if (journal->call == NO_CALL)
        return;
    if (loom.board[PICL_CONTROL_AT] != journal->control)
        seen.behind_control++;
    else if (behind[0] != journal->behind_log[0] || behind[1] != journal->behind_log[1])
        seen.in_flush++;
}

static void kill_controller(uint32_t longest_life)
{
    loom.journal->call = NO_CALL;
    pid_t process = begin_process();
    if (process == 0)
        run_until_killed(&loom, life, persisted_lines);
    sleep_for(draw_below(&chance, longest_life));
    kill(process, SIGKILL);
    if (!was_killed(process))
        fail("a controller ended by itself");
    count_kill(loom.journal);
}

/* Whether a recovery process that is to be killed got to its end all the same. */
static bool is_recovered_before_kill(void)
{
    pid_t process = begin_process();
    if (process == 0)
        recover(&loom, life, RECOVERY_WAIT);
    uint64_t end = loom.journal->moment - lead + draw_below(&chance, LEAD_SPREAD);
    uint64_t here = now();
    if (end > here)
        sleep_for(end - here);
    kill(process, SIGKILL);
    if (!was_killed(process)) {
        lead += lead < RECOVERY_WAIT ? LEAD_STEP : 0;
        return true;
    }
    seen.recoveries_killed++;
    if (loom.journal->call != POWER_UP) {
        lead -= lead > 0 ? LEAD_STEP : 0;
        return false;
    }
    seen.in_power_up++;
    if (PICL_LOG_LENGTH(loom.board) != 0 && !are_lines(left_lines))
        seen.in_undo++;
    return false;
}

static bool is_recovered(void)
{
    loom.journal->call = NO_CALL;
    if (draw_below(&chance, ALONE) != 0)
        return is_recovered_before_kill();
    pid_t process = begin_process();
    if (process == 0)
        recover(&loom, life, 0);
    return !was_killed(process);
}

static void recover_board(void)
{
    memcpy(left_lines, lines_of(&loom), loom.shape->lines * sizeof *left_lines);
    seen.with_entries += PICL_LOG_LENGTH(loom.board) != 0;
    while (!is_recovered())
        ;
    seen.recoveries++;
    seen.with_lines += !are_lines(left_lines);
}

/* P is the epoch that the last scan call to persist one has named; or, where the controller was killed in the last call of a pass
 * or right behind it, its target. */
static void check_epoch(const struct journal *journal, uint64_t epoch)
{
    if (epoch != journal->told && epoch != journal->due)
        fail("persisted epoch %" PRIu64 ", where %" PRIu64 " was told and %" PRIu64 " due", epoch, journal->told, journal->due);
}

static void check_line(uint64_t line)
{
    uint64_t found = lines_of(&loom)[line];
    if (found != persisted_lines[line])
        fail("persisted epoch %" PRIu64 ": line %" PRIu64 " is %016" PRIx64 " and not %016" PRIx64, persisted, line, found,
             persisted_lines[line]);
}

/* A persisted epoch is final: no controller begins it again, so the journal has the attempt that was persisted. */
static void check_board(void)
{
    struct journal *journal = loom.journal;
    uint64_t epoch = PICL_PERSISTED(loom.board);
    if (PICL_LOG_LENGTH(loom.board) != 0)
        fail("a recovered board has entries in its log");
    check_epoch(journal, epoch);
    seen.epochs += epoch - persisted;
    while (persisted < epoch) {
        persisted++;
        apply(loom.shape, loom.seed, journal->attempt_of[persisted % JOURNAL_EPOCHS], persisted_lines);
    }
    for (uint64_t line = 0; line < loom.shape->lines; line++)
        check_line(line);
    journal->told = epoch;
    journal->due = epoch;
}

/* A new board in the shared memory, where the middle of its log begins a page: see let_go in controller.c. */
static void format_board(const struct shape *shape, uint64_t *memory, size_t page_words)
{
    uint64_t answer[PICL_ANSWER_WORDS];
    size_t before_middle = PICL_LOG_AT + PICL_ENTRY_WORDS * (size_t)(shape->entries / 2);
    loom.shape = shape;
    loom.board = memory + (page_words - before_middle % page_words);
    if (picl_format(loom.board, words_of(shape), shape->lines, shape->entries, answer, PICL_ANSWER_WORDS) != PICL_OK)
        fail("a board is not formatted");
    memset(persisted_lines, 0, sizeof persisted_lines);
    persisted = 0;
    loom.journal->told = 0;
    loom.journal->due = 0;
}

static void *shared(size_t bytes)
{
    void *memory = mmap(NULL, bytes, PROT_READ | PROT_WRITE, MAP_SHARED | MAP_ANONYMOUS, -1, 0);
    if (memory == MAP_FAILED)
        fail("%s", strerror(errno));
    return memory;
}

/* The seed that was asked for, or one of this moment. */
static uint64_t seed_of(int words, char **word)
{
    char *end = NULL;
    if (words == 1)
        return now();
    uint64_t seed = strtoull(word[1], &end, 10);
    if (words == 2 && end != word[1] && *end == '\0')
        return seed;
    fputs("firmware/cuts: the one argument is the seed, a number\n", stderr);
    exit(MISUSED);
}

int main(int words, char **word)
{
    size_t page_words = (size_t)sysconf(_SC_PAGESIZE) / sizeof(uint64_t);
    loom.shape = &boards[0].shape;
    latest_end = now() + longest_run;
    loom.seed = seed_of(words, word);
    chance = sequence_of(loom.seed, 0);
    loom.journal = shared(sizeof *loom.journal);
    uint64_t *memory = shared((words_of(&boards[BOARDS - 1].shape) + page_words) * sizeof *memory);
    printf("firmware/cuts: seed %" PRIu64 "\n", loom.seed);
    fflush(stdout);
    for (int i = 0; i < BOARDS; i++) {
        format_board(&boards[i].shape, memory, page_words);
        for (int kills = 0; kills < KILLS_A_BOARD; kills++) {
            life++;
            kill_controller(boards[i].longest_life);
            recover_board();
            check_board();
        }
    }
    print_seen(&seen, loom.journal);
    return is_enough(&seen, loom.journal) ? 0 : FAILED;
}
