/*
 * The PiCL cache log for loom controllers, for firmware in C.
 *
 * The library stands between the controller's one task and the board's nonvolatile memory. It keeps a write-back cache
 * whose lines carry epoch tags, an undo buffer and an undo log on the board, persists the committed epochs, one in a pass or
 * several, and after a cut of the mains brings every line back as of ONE epoch, the persisted one.
 *
 * It has no state of its own and allocates nothing: the caller lends it all memory, for the time of a call. Every
 * function answers every input: whatever words the memories hold, whatever the registers and arguments are, the answer
 * and all lent memory afterwards are fixed by what went in, and proved to be what the definitions in
 * crates/picl/specs/Calls.antt, crates/intel_hex/specs, crates/convert/specs and crates/capi/specs/Crossing.antt give.
 *
 * Most programs call it through picl_handle.h, where one struct holds all that is lent to a call. What is said here holds there.
 *
 * A refusal (1 to 11 and 13 to 20) leaves board and work memory, or the bytes of the record or the text, as they were.
 * Registers and reader too stay as they were, but a refused power-up leaves the registers zero. The answer is filled, refused or
 * not. Only PICL_TOO_SHORT (255) touches nothing at all.
 *
 *
 * THE BOARD MEMORY outlives the current. PICL_BOARD_WORDS(N, L) words of 64 bits, fields most significant bit first:
 *
 *     word 0                control   persisted epoch P 40 bits, log start 12, log length 12
 *     word 1                shape     the board's version 24, which is 1; N 20, L 20
 *     word 2 to 1 + 2L      log       L entries of two words: address 16, ValidTill 40, span 8; then the old data
 *     word 2 + 2L on        lines     N lines of one word
 *
 * N is the number of lines, from 1 to 65,536, and L the number of log entries, from 1 to 4,095. Epochs go up to 2^40 - 1. The
 * log is a ring: entry i, 0 the oldest, stands at place (start + i) mod L. The span is ValidTill - ValidFrom, so that ValidFrom
 * is ValidTill - span. An entry of the log is proper if its address is below N, its span is from 1 to 16 and not above its
 * ValidTill, P < ValidTill <= P + 16, and ValidTill is not below that of the next older entry. The library writes no other;
 * power-up refuses a log that has one (PICL_ENTRY), since the board's memory is then damaged.
 *
 * The processor addresses this memory directly: the library makes 64-bit loads and stores there, and calls nobody for it. FRAM,
 * MRAM or a RAM with a battery on the processor's bus will do. A chip behind a driver, on SPI or I2C, will not, nor flash, which
 * is erased by blocks. A copy of such a chip in RAM is no board either: what is copied to the chip, and when, would then decide
 * what a cut leaves.
 *
 * THE WORK MEMORY is lost with the current. PICL_WORK_WORDS(S) words; S, a multiple of 4 from 4 to 256, is read from its
 * length:
 *
 *     word 0 to 2S - 1      slots     S slots of two words: valid 1, dirty 1, address 16, tag 40, zero 6; then the data
 *     word 2S to 2S + 63    buffer    32 undo entries of two words, packed as in the log
 *     word 2S + 64 on       filter    64 words, 4,096 bits; bit 0 is the most significant bit of the first word
 *
 * Slots stand in sets of four: set g is slots 4g to 4g + 3. Line a belongs in any slot of set a mod (S / 4), and is held in one
 * at most. A line that is not held takes the first empty slot of its set, else the first clean one, else the dirty one with the
 * smallest tag, the lowest slot among equals.
 *
 * A buffered entry for line a has set bit a mod 4,096 of the filter and bit (a * 40503 mod 65,536) / 16, rounded down. A line
 * that is written out flushes the buffer first where b > 0 and both its bits are set: always where the buffer has an entry for
 * it, and now and then where the entries of other lines have set them (a false hit, which costs the stores of a flush and
 * nothing else). A flush clears the filter.
 *
 * A buffered entry is proper if its address is below N, its span is from 1 to 16 and not above its ValidTill, and ValidTill is not
 * above s.
 *
 * THE REGISTERS are PICL_REGISTER_WORDS words, lost with the current too. Power-up fills them. Each later call that takes
 * them reads them, and leaves the new ones in their place; picl_tally only reads them:
 *
 *     word 0                s         the running epoch
 *     word 1                b         how many undo entries are buffered, 0 to 31
 *     word 2                c         the scan's cursor, 0 to S
 *     word 3                d         how many slots are dirty, 0 to S
 *     word 4                target    the epoch that the pass under way persists, P + 1 to s - 1; 0 outside a pass, as c is
 *
 * A pass is S + 1 accepted scan calls. Each of the first S visits a slot, and writes out its line if that is dirty with a tag up
 * to the target; the last one makes the target P. A scan call outside a pass begins one with the target P + 1, and visits slot 0
 * at once. picl_begin begins one with any target from P + 1 to s - 1, and visits no slot. All other calls may be made in between:
 * what they store is of the running epoch, which the pass does not persist. A cut or a power-up breaks a pass off, and P stays.
 *
 * THE ANSWER is PICL_ANSWER_WORDS words that each call fills, and the number that it returns:
 *
 *     word 0                value     what the call gives back, 0 where its description and its number name nothing
 *     word 1                stores    how many board stores the call has made; 0 from format, convert and hex_in, which count none
 *
 * Registers, reader and answer may be longer than that; the words behind are not touched. The two memories may not: a board that
 * is one word longer is refused (PICL_SHAPE), and a work memory that is eight words longer has four slots more, or is refused
 * (PICL_WORK) where S was 256. Format fixes N and L. Power-up fixes S: until the next power-up, each call gets a work memory of
 * the same length.
 *
 *
 * AN OLD BOARD, of a library before version 9, has other layouts. picl_convert reads it; every other call answers PICL_SHAPE to it
 * and leaves it alone, as the older library does to a board of this one:
 *
 *     word 0                control   persisted epoch P 24 bits, log start 20, log length 20
 *     word 1                shape     zero 24, N 20, L 20: its version is 0
 *     word 2 to 1 + 2L      log       L entries of two words: address 16, ValidFrom 24, ValidTill 24; then the old data
 *     word 2 + 2L on        lines     N lines of one word
 *
 * N and L are from 1 to 65,536 each there. One whose L is above 4,095 cannot be converted; docs/INTEGRATION.md says what to do
 * with it, and how a fleet is converted.
 *
 *
 * A RECORD is PICL_RECORD_BYTES bytes in which a controller notes a call, for the bench program loomtrace to make it again.
 * Two words, most significant byte first, fields most significant bit first:
 *
 *     byte 0 to 7           head      kind 3 bits, address 16, zero 45
 *     byte 8 to 15          value     64
 *
 * Address and value are zero for kinds that take none. Power-up has no kind: a trace is what one controller did from its
 * board's first power-up until the current went. Nor has picl_begin, without which the scan calls behind it would do another
 * pass: a trace ends before it.
 *
 *
 * A HEX RECORD is another thing: a line of text in an Intel HEX file. As such a file a service laptop gets the lines of a board
 * (picl_hex_out), and a repaired board gets its lines from the laptop (picl_hex_in): line i at byte address 8 * i, its most
 * significant byte first. Digits are upper case, and one line feed ends each record:
 *
 *     :02000004bbbbcc       16 bytes  opens bank b, which is 65,536 byte addresses or 8,192 lines
 *     :10aaaa00d..dcc       44 bytes  two lines; aaaa is where in its bank the first of them stands
 *     :08aaaa00d..dcc       28 bytes  one line, the last of a board with odd N
 *     :00000001FF           12 bytes  closes the file
 *
 * The bytes of text are counted with the line feed. The last byte of a record, cc, makes the sum of all its bytes 0 modulo 256.
 * Every bank has its opener, the first too, and then its lines. A file has PICL_HEX_RECORDS(N) records, numbered from 0 on: for
 * 65,536 lines these are 32,777 records of 1,441,932 bytes.
 *
 * THE READER is PICL_READER_WORDS words that the calls for one file hand on. All zero before its first record:
 *
 *     word 0                upper     the upper address, which the last opener has set: data stand at upper * 65,536 + aaaa
 *     word 1                ended     whether the end record was read: 0 says no, and any other number yes
 *
 *
 * THE BYTE ORDER of words in memory is the processor's. The library loads and stores whole words, so that the fields above are
 * the same bits of a word on every processor, but not the same bytes of the memory. A dump that is read as bytes, on a service
 * laptop say, has the least significant byte of each word first where the processor is little-endian. A board that goes to a
 * processor of the other order needs the eight bytes of each of its words turned round first. Records and HEX records are bytes:
 * the most significant comes first on every processor.
 *
 *
 * WHAT IS NOT DETECTED. No call tests data: the words of the lines, the data of slots, the old data of entries. A bit that flips
 * there stays flipped: a load gives it, and power-up puts it back from old data. All else is tested where the numbers below say
 * so, and for being proper only: a flip that makes one proper word of another is not found either. Where memory may flip bits it
 * has to correct them itself (ECC), or the firmware keeps check sums in lines of its own.
 *
 *
 * THE CALLER'S DUTIES. The library cannot test these:
 *
 *  - No pointer is null, each to words is aligned for 64 bits, and each has as many words, or bytes, behind it as the length
 *    that follows it says. One to bytes, those of a record or of a text, needs no alignment. The arrays of one call do not
 *    overlap.
 *  - One task makes all calls, one after the other; nothing else writes the board memory, the work memory or the registers.
 *    Another board, with memories of its own, may have another task: the two share nothing.
 *  - An interrupt may come in mid-call, and take as long as it likes: the call goes on behind it. But its handler makes no call
 *    with these memories and writes to none of them. In mid-call it does not read them either: they are then as they never are
 *    between two calls. Where it knows that no call is under way it may, and finds what the last one left. But the word of a line
 *    on the board is not the line: newer data may be in the cache alone, and the word may be of an epoch that is not committed,
 *    which a cut takes back. So a handler and the task hand each other what they have to say in memory of their own.
 *  - Each call gets board, work memory and registers as the call before returned and left them. Only power-up may be
 *    given any work memory and any registers.
 *  - A commit is made only at a moment when the lines agree with each other (pattern card, pick count, beam tension). It
 *    makes the lines, as they stand, a state in which the loom may restart.
 *  - From the first HEX record of an export to its last neither format nor a call that takes an allowance is made. Otherwise a
 *    later epoch may be persisted in between, and the file has lines of both, which no answer tells. After a cut, too, the file
 *    begins again with record 0.
 *  - After HEX records that were loaded, a whole file or the first of one, picl_power_up comes before any call but the next
 *    picl_hex_in. Otherwise loads give what the cache still holds of the old lines, and a cut may bring some of them back.
 *  - The hardware makes 64-bit stores to the board in the order in which the program makes them, each wholly or not at
 *    all. Where a cache or a write buffer of the processor stands before the board's memory, map it write-through and in
 *    order (uncached, or as device memory).
 *  - A board is formatted once, when it is new. A cut in mid-format leaves a board that has to be formatted again, and that
 *    a power-up may accept all the same: the board is formatted once format has returned, and not before. So it is with a
 *    memory that a conversion fills: after a cut convert again, from the old board, which is as it was. A cut while a HEX file is
 *    loaded leaves some of its lines on the board: power up, and load it again from its first record, with a reader that is all
 *    zero.
 *
 *
 * WHAT TO DO AFTER A CUT, AND AFTER A REFUSAL AT WORK:
 *
 *  - After a cut: power up, and go on with the registers that it answers. The lines are those of epoch P; what was
 *    stored later is gone, and so are all of work memory and the registers. A cut in mid-power-up does no harm: power up again.
 *  - A power-up with the current on does the same: it gives up the running epoch and every committed one that still waits.
 *  - After PICL_ROOM (8): nothing was stored. Call picl_scan as long as it answers PICL_OK with value 0 (S + 1 calls at
 *    most). A value other than 0 says up to which epoch all are persisted, and that their entries are no longer in the log. Store
 *    again. If these epochs had no entries, the store is refused again. So repeat both, scan calls and store, until the store
 *    is accepted or picl_scan answers PICL_NONE (11).
 *  - After PICL_ROOM and then PICL_NONE: the log holds the running epoch alone, and this epoch needs more entries than L. It
 *    cannot be brought to its end. Do not commit in mid-epoch: that persists lines that do not agree. Give the epoch up: call
 *    picl_power_up, with the current on. All lines are then as of the last commit. What was stored since is gone, as after
 *    a cut. No other epoch is lost, since none waits. The same loads, stores and evictions would be refused again at the
 *    same store: from then on make the epochs smaller, or L larger, which takes a newly formatted board. More on this in
 *    docs/INTEGRATION.md; examples/c/controller.c does it (give_up_epoch).
 *  - After PICL_WAITING (9): nothing was committed, 15 epochs wait. Call picl_scan as long as it answers PICL_OK with value
 *    0. When its value is not 0, commit again.
 *  - After PICL_LAST (10): nothing was committed, and the running epoch never can be. The lines have to go to another board:
 *    docs/INTEGRATION.md says how.
 *  - After PICL_TARGET (15): no pass was begun. Where word 4 of the registers is not 0, one is under way: call picl_scan as long
 *    as it answers PICL_OK with value 0, and begin again. Where it is 0, the target is not from P + 1 to s - 1. With s = P + 1
 *    there is no such target, since no epoch waits.
 *  - After PICL_LOGHELD (18): no byte was written, or no line. The log has entries, since the board was not powered up after a
 *    cut or has worked since, and the lines on it may be of several epochs. A power-up empties the log: export or load right after
 *    it, before anything is stored. It gives up the running epoch and those that wait. To have them in an export, first commit, at
 *    a moment when the lines agree, and call picl_scan until it answers PICL_NONE (11).
 *  - After PICL_RECORD (19) or PICL_OUTSIDE (20): of this record nothing was stored, of the accepted ones before it all. Reader
 *    and board are as they were: the record may be sent again, and once it is accepted the file goes on. Do not leave it out:
 *    behind an opener that was refused the data would go to another bank. Where the file itself is wrong, power up: the lines are
 *    then some of the file's and some of the board's. Load a right file from its first record.
 */
#ifndef PICL_H
#define PICL_H

#include <stddef.h>
#include <stdint.h>

#ifdef __cplusplus
extern "C" {
#endif

/*
 * The version. Header and archive are used together only if they are of one version: the archive has no number in it, so nothing
 * can test that.
 *
 *     major    the number of the last change (docs/changes) that firmware has to follow: a layout, a length, arguments or what a
 *              number means are others, and programs have to be built anew or given other figures, or boards formatted anew.
 *              docs/changes/README.md says what a program does that was built before and is only linked anew
 *     minor    how many changes since have only added something: what was built with a smaller one needs nothing
 */
#define PICL_VERSION_MAJOR 9
#define PICL_VERSION_MINOR 1
#define PICL_VERSION (PICL_VERSION_MAJOR * 1000 + PICL_VERSION_MINOR)

/* A number as one of a type; a constant stays one. C++ adds it to a zero of that type, which no compiler takes for a cast of C's,
 * nor for a useless one. */
#ifdef __cplusplus
#define PICL_AS(type, number) (type() + (number))
#else
#define PICL_AS(type, number) ((type)(number))
#endif

/* The arrays of one call do not overlap (THE CALLER'S DUTIES): that promise, where compilers see it. It changes no instruction of
 * the caller's or of the archive's; GCC warns where a call that writes an array is given it twice (-Wrestrict, part of -Wall).
 * C++ has no word for it. */
#if !defined __cplusplus && defined __STDC_VERSION__ && __STDC_VERSION__ >= 199901L
#define PICL_RESTRICT restrict
#else
#define PICL_RESTRICT
#endif

/* Limits. */
#define PICL_MOST_LINES 65536
#define PICL_MOST_ENTRIES 4095
#define PICL_MOST_SLOTS 256
#define PICL_WAYS 4
#define PICL_BUFFER_ENTRIES 32
#define PICL_FILTER_WORDS 64
#define PICL_MOST_WAITING 15
#define PICL_LAST_EPOCH UINT64_C(0xFFFFFFFFFF)

/* The version that a board says in its shape word: of this library's boards, and of an old board (AN OLD BOARD). */
#define PICL_BOARD_VERSION 1
#define PICL_OLD_BOARD_VERSION 0

/* Where control word, shape word and log stand on a board. */
#define PICL_CONTROL_AT 0
#define PICL_SHAPE_AT 1
#define PICL_LOG_AT 2

/* The words of an entry and of a slot, and of each lent memory. */
#define PICL_ENTRY_WORDS 2
#define PICL_SLOT_WORDS 2
#define PICL_BOARD_WORDS(lines, entries) (PICL_LOG_AT + PICL_ENTRY_WORDS * PICL_AS(size_t, entries) + PICL_AS(size_t, lines))
#define PICL_WORK_WORDS(slots) \
    (PICL_SLOT_WORDS * PICL_AS(size_t, slots) + PICL_ENTRY_WORDS * PICL_BUFFER_ENTRIES + PICL_FILTER_WORDS)
#define PICL_REGISTER_WORDS 5
#define PICL_READER_WORDS 2
#define PICL_ANSWER_WORDS 2

/* The bytes of a record, of a text that has room for every name, and of one that has room for every HEX record. */
#define PICL_RECORD_BYTES 16
#define PICL_NAME_BYTES 8
#define PICL_HEX_BYTES 44

/* The lines of a bank, and the HEX records of a board: one for each bank, one for each two lines, and the last. */
#define PICL_HEX_BANK_LINES 8192
#define PICL_HEX_RECORDS(lines) \
    ((PICL_AS(uint64_t, lines) + PICL_HEX_BANK_LINES - 1) / PICL_HEX_BANK_LINES + (PICL_AS(uint64_t, lines) + 1) / 2 + 1)

/* Places in the registers, in the reader and in the answer. */
#define PICL_EPOCH 0
#define PICL_BUFFERED 1
#define PICL_CURSOR 2
#define PICL_DIRTY 3
#define PICL_PASS_TARGET 4
#define PICL_READER_UPPER 0
#define PICL_READER_ENDED 1
#define PICL_VALUE 0
#define PICL_STORES 1

/* What the first two words of a formatted board say: the persisted epoch P, where the log starts and how many entries it has; the
 * board's version, which an old board has in the same place, N and L. */
#define PICL_RING_BITS 12
#define PICL_RING_MASK 0xFFF
#define PICL_SIZE_BITS 20
#define PICL_SIZE_MASK 0xFFFFF
#define PICL_PERSISTED(board) ((board)[PICL_CONTROL_AT] >> 2 * PICL_RING_BITS)
#define PICL_LOG_START(board) ((board)[PICL_CONTROL_AT] >> PICL_RING_BITS & PICL_RING_MASK)
#define PICL_LOG_LENGTH(board) ((board)[PICL_CONTROL_AT] & PICL_RING_MASK)
#define PICL_BOARD_VERSION_OF(board) ((board)[PICL_SHAPE_AT] >> 2 * PICL_SIZE_BITS)
#define PICL_LINES(board) ((board)[PICL_SHAPE_AT] >> PICL_SIZE_BITS & PICL_SIZE_MASK)
#define PICL_ENTRIES(board) ((board)[PICL_SHAPE_AT] & PICL_SIZE_MASK)

/* The place of a line on a formatted board: its word is board[PICL_LINE_AT(board, line)]. Right after an accepted power-up that
 * is the line; at work newer data may be in the cache, and only picl_load gives the line. */
#define PICL_LINE_AT(board, line) (PICL_LOG_AT + PICL_ENTRY_WORDS * PICL_ENTRIES(board) + (line))

/* How many epochs are committed and wait to be persisted, 0 to PICL_MOST_WAITING, of a running board: s - 1 - P. */
#define PICL_EPOCHS_WAITING(board, registers) ((registers)[PICL_EPOCH] - 1 - PICL_PERSISTED(board))

/* The allowance of a call that the current is not to leave. */
#define PICL_NO_CUT UINT32_MAX

/*
 * The numbers that a call returns. PICL_TOO_SHORT comes before all others. Of those, the first that applies is returned, in this
 * order of tests, which is not everywhere that of the numbers:
 *
 *     format                1
 *     convert               1 3
 *     power-up              1 2 3 12
 *     load, evict           1 2 4 5 6 4 7 14 12
 *     store                 1 2 4 5 6 4 7 14 8 12
 *     commit                1 2 4 7 14 9 10
 *     begin                 1 2 4 7 14 15
 *     scan                  1 2 4 6 4 7 14 11 12
 *     tally                 1 2 4
 *     filter_bits           2
 *     hex_out               1 16 17 18
 *     hex_in                1 18 19 20
 *     trace_write           13
 *     name                  none: it refuses no number
 *
 * Load, store and evict visit the four slots of a set, and a scan the slot at its cursor. The second 4 holds the count to them:
 * d is 0 and one of them is dirty, or d is S and one is not. A scan with c = S visits no slot, and tests neither 6 nor that.
 */
enum {
    PICL_OK = 0,
    PICL_SHAPE = 1,      /* the board's first two words or its length are not those of a board; format: N, L or the length;
                            convert: those of the old board, L above 4,095, or the second memory's length */
    PICL_WORK = 2,       /* the work memory's length is not PICL_WORK_WORDS(S), S a multiple of 4 from 4 to 256 */
    PICL_ENTRY = 3,      /* power-up, convert: a log entry is not proper (see THE BOARD MEMORY; for an old board picl_convert);
                            value says which, the oldest counted 0 */
    PICL_REGS = 4,       /* the registers are not proper for this board and work memory, or d not for the slots visited */
    PICL_ADDRESS = 5,    /* there is no such line */
    PICL_SLOT = 6,       /* a slot that the call visits is not proper, or a line is held in two slots of the set */
    PICL_BUFFER = 7,     /* a buffered undo entry is not proper (see THE WORK MEMORY) */
    PICL_ROOM = 8,       /* store: the log has no place for the undo entry that is due */
    PICL_WAITING = 9,    /* commit: 15 epochs wait to be persisted */
    PICL_LAST = 10,      /* commit: the running epoch is the last that there is */
    PICL_NONE = 11,      /* scan: no epoch waits to be persisted */
    PICL_CUT = 12,       /* more stores were due than the allowance: the first of them are on the board */
    PICL_TRACE = 13,     /* trace_write: a kind, an address or a value that has no place in a record */
    PICL_FILTER = 14,    /* a buffered undo entry lacks a bit in the filter */
    PICL_TARGET = 15,    /* begin: a pass is under way, or the target is not from P + 1 to s - 1 */
    PICL_SHORT = 16,     /* hex_out: the text has fewer than PICL_HEX_BYTES bytes, whatever this record needs */
    PICL_PAST = 17,      /* hex_out: there is no record of that number; after the last one this is the file's end */
    PICL_LOGHELD = 18,   /* hex_out, hex_in: the log's length is not 0 */
    PICL_RECORD = 19,    /* hex_in: the text is not one HEX record of those that are read, its sum is wrong, or the end was read */
    PICL_OUTSIDE = 20,   /* hex_in: data that stand at no multiple of 8, run over the end of their bank or lie past the last line */
    PICL_TOO_SHORT = 255 /* too few words for registers, reader or answer, too few bytes for a record or a name; nothing was
                            touched */
};

/* The kinds of recorded calls. Load, store and evict take an address, and store alone a value. */
enum {
    PICL_RECORD_LOAD = 0,
    PICL_RECORD_STORE = 1,
    PICL_RECORD_COMMIT = 2,
    PICL_RECORD_SCAN = 3,
    PICL_RECORD_EVICT = 4
};

/*
 * All but format, convert, begin, tally, filter_bits, hex_out, hex_in, trace_write and name take an allowance: the number of board
 * stores that the call may make. It stands in for the mains switch on a test bench; a controller passes PICL_NO_CUT. At a cut the
 * first stores, as many as allowed, are on the board, and the work memory and the registers are zero.
 *
 * No call but format, convert and power-up makes more than 66 board stores; an accepted power-up makes one at least, and at most
 * one more than the log's length.
 */

/* A board of N lines, all zero, with an empty log of L entries. It is not protected against a cut, and answers 0 stores. */
uint64_t picl_format(uint64_t *PICL_RESTRICT board, size_t board_words, uint64_t lines, uint64_t entries,
                     uint64_t *PICL_RESTRICT answer, size_t answer_words);

/* An old board, recovered, in a second memory: the board memory of this library gets its lines as of its persisted epoch P, the
 * same P, N and L, and an empty log with start 0, all words of it zero. The old board is only read, so that it may be lent from a
 * memory that cannot be written, and stays as it is. The second memory has PICL_BOARD_WORDS(N, L) words, with the N and L of the
 * old board; what they held does not matter. The two do not overlap.
 *
 * PICL_SHAPE: the old board's first two words or its length are not those of an old board (version 0; N and L from 1 to 65,536;
 * 2 + 2L + N words; P below 2^24 - 1; log start below L; log length not above L), or L is above PICL_MOST_ENTRIES, or the second
 * memory has another length. PICL_ENTRY: an entry of the old log is not proper; value is its place, the oldest counted 0. It is
 * proper if its address is below N, ValidFrom < ValidTill, P < ValidTill <= P + 16, and ValidTill is not below that of the next
 * older entry. Otherwise value is 0. A refusal leaves the second memory as it was.
 *
 * It takes no allowance, answers 0 stores and is not protected against a cut: after one convert again. Power up the second memory
 * before any other call. */
uint64_t picl_convert(const uint64_t *PICL_RESTRICT old_board, size_t old_words, uint64_t *PICL_RESTRICT board, size_t board_words,
                      uint64_t *PICL_RESTRICT answer, size_t answer_words);

/* The board as of its persisted epoch P, an empty cache, and registers with running epoch P + 1. The epochs after P are
 * given up: those that wait, and the running one. A refusal leaves the registers zero.
 *
 * First lines get their old data back from the log, then the control word is stored, with an empty log. That last store is made
 * by every accepted power-up, and is the only one where the log was empty already: the control word, which wears most, wears by
 * one store each time the loom is switched on. */
uint64_t picl_power_up(uint64_t *PICL_RESTRICT board, size_t board_words, uint64_t *PICL_RESTRICT work, size_t work_words,
                       uint64_t *PICL_RESTRICT registers, size_t register_words, uint32_t allowance,
                       uint64_t *PICL_RESTRICT answer, size_t answer_words);

/* The data of the line at an address, as value. */
uint64_t picl_load(uint64_t *PICL_RESTRICT board, size_t board_words, uint64_t *PICL_RESTRICT work, size_t work_words,
                   uint64_t *PICL_RESTRICT registers, size_t register_words, uint64_t address, uint32_t allowance,
                   uint64_t *PICL_RESTRICT answer, size_t answer_words);

/* A store to the line at an address. */
uint64_t picl_store(uint64_t *PICL_RESTRICT board, size_t board_words, uint64_t *PICL_RESTRICT work, size_t work_words,
                    uint64_t *PICL_RESTRICT registers, size_t register_words, uint64_t address, uint64_t value,
                    uint32_t allowance, uint64_t *PICL_RESTRICT answer, size_t answer_words);

/* The line at an address out of the cache. Value 1 if it was held there, 0 if not. */
uint64_t picl_evict(uint64_t *PICL_RESTRICT board, size_t board_words, uint64_t *PICL_RESTRICT work, size_t work_words,
                    uint64_t *PICL_RESTRICT registers, size_t register_words, uint64_t address, uint32_t allowance,
                    uint64_t *PICL_RESTRICT answer, size_t answer_words);

/* The end of the running epoch, which from now on waits to be persisted. It makes no board store, so it never answers
 * PICL_CUT. */
uint64_t picl_commit(const uint64_t *PICL_RESTRICT board, size_t board_words, const uint64_t *PICL_RESTRICT work,
                     size_t work_words, uint64_t *PICL_RESTRICT registers, size_t register_words, uint32_t allowance,
                     uint64_t *PICL_RESTRICT answer, size_t answer_words);

/* The beginning of a pass that persists all epochs up to a target, which is from P + 1 to s - 1: the next S + 1 accepted scan
 * calls, with no cut or power-up between them, persist them. Before a loom is moved the target is s - 1: every committed epoch.
 * The target in the registers is all that changes. No slot is visited and no board store made, so it takes no allowance and never
 * answers PICL_CUT. It tests as commit does up to 14; then it answers PICL_TARGET inside a pass and for any other target, and so,
 * not by PICL_NONE, where no epoch waits. Value and stores are 0. */
uint64_t picl_begin(const uint64_t *PICL_RESTRICT board, size_t board_words, const uint64_t *PICL_RESTRICT work,
                    size_t work_words, uint64_t *PICL_RESTRICT registers, size_t register_words, uint64_t target,
                    uint64_t *PICL_RESTRICT answer, size_t answer_words);

/* One step of the pass under way, or else the first of one that persists the oldest epoch that waits. S + 1 accepted calls, with
 * no cut or power-up between them, persist that epoch; the first S + 1 after picl_begin persist all up to its target. Value is
 * the epoch that this call has persisted, with all before it, or 0: the last step of a pass gives its target. */
uint64_t picl_scan(uint64_t *PICL_RESTRICT board, size_t board_words, uint64_t *PICL_RESTRICT work, size_t work_words,
                   uint64_t *PICL_RESTRICT registers, size_t register_words, uint32_t allowance,
                   uint64_t *PICL_RESTRICT answer, size_t answer_words);

/* The number of dirty lines that the cache holds, for a display, as value. It is read from the registers, which it leaves as they
 * are: it costs the same for every S. Stores are 0. */
uint64_t picl_tally(const uint64_t *PICL_RESTRICT board, size_t board_words, const uint64_t *PICL_RESTRICT work,
                    size_t work_words, const uint64_t *PICL_RESTRICT registers, size_t register_words,
                    uint64_t *PICL_RESTRICT answer, size_t answer_words);

/* How many bits of the filter are set, 0 to 4,096, as value. Many set bits mean many false hits: with b entries there are at
 * most 2b of a controller's own. */
uint64_t picl_filter_bits(const uint64_t *PICL_RESTRICT work, size_t work_words, uint64_t *PICL_RESTRICT answer,
                          size_t answer_words);

/* The HEX record of a number, in the first bytes of the text, and how many they are as value; those behind are not touched, and
 * a refusal touches none. It is no string: no zero byte is put behind it. The text has PICL_HEX_BYTES bytes at least, for
 * every record. Ask for record 0, 1, 2 and so on until the answer is PICL_PAST: one behind the other they are the file. It reads
 * the board alone, no work memory and no registers, and leaves it as it is. Stores are 0.
 *
 * Ask right after a power-up that has answered PICL_OK, before anything is stored: the log is then empty, and the file has the
 * lines of the persisted epoch P, which are those that picl_load gives. At work it does not look at the cache. The answer is
 * then PICL_LOGHELD, or, where the log happens to be empty, still the lines of epoch P, without what was stored since. */
uint64_t picl_hex_out(const uint64_t *PICL_RESTRICT board, size_t board_words, uint8_t *PICL_RESTRICT text,
                      size_t text_bytes, uint64_t record, uint64_t *PICL_RESTRICT answer, size_t answer_words);

/* One HEX record into the lines of a board. Make a call for each record of a file, in order, with one reader that is all zero
 * before the first. The text is the record and its line feed, 44 bytes at most, and nothing else: no carriage return, no space, no
 * zero byte, no second record. Digits may be of either case. Lines and banks may come in any order, more than once or not at all:
 * files of other programs are read as exports are. These records are:
 *
 *     :02000004uuuucc       the upper address is uuuu from here on, also where the board has no such lines
 *     :10aaaa00d..dcc       two lines, from byte address upper * 65,536 + aaaa on, which is any multiple of 8
 *     :08aaaa00d..dcc       one line, at such a byte address
 *     :00000001FF           the end: the reader's ended becomes 1, its upper address stays
 *
 * Tests, in this order. PICL_SHAPE. PICL_LOGHELD. PICL_RECORD: any other text, another length or type, a wrong sum, and after the
 * end every text, an end record too. PICL_OUTSIDE: data whose byte address is no multiple of 8; two lines the second of which would
 * begin the next bank; a line that is not below N. The address is a whole number that does not wrap: with a huge upper address all
 * data are outside.
 *
 * A refusal leaves board and reader as they were, word for word: of two lines of which one is outside, none is stored. Value and
 * stores are 0, accepted or refused. It takes no work memory and no registers, tests none, and does not look at the cache: what is
 * dirty there is lost at the power-up that has to follow.
 *
 * It counts as formatting. It takes no allowance and is not protected against a cut: of two lines one may then be stored. Only the
 * lines change. P stays, and once a power-up has accepted the board, P and the lines as they then stand are what the next cut
 * brings back. A file is loaded when its end record was accepted; no call tells whether it had every line. */
uint64_t picl_hex_in(uint64_t *PICL_RESTRICT board, size_t board_words, uint64_t *PICL_RESTRICT reader, size_t reader_words,
                     const uint8_t *PICL_RESTRICT text, size_t text_bytes, uint64_t *PICL_RESTRICT answer, size_t answer_words);

/* A call as a record, in the first PICL_RECORD_BYTES bytes; those behind are not touched, and a refusal (PICL_TRACE) touches
 * none. Value and stores are 0. It makes no call and needs no board: a controller that records itself writes the record of each
 * call that it makes, accepted or refused, in the order in which it makes them. */
uint64_t picl_trace_write(uint8_t *PICL_RESTRICT bytes, size_t byte_count, uint64_t kind, uint64_t address, uint64_t value,
                          uint64_t *PICL_RESTRICT answer, size_t answer_words);

/* The name of a number that a call has returned, for a display: its letters at the start of the text, and how many they are as
 * value. It is no string: no zero byte is put behind it, and the bytes there are not touched. PICL_NAME_BYTES are enough for
 * every name; a text with too few for this one is PICL_TOO_SHORT. A number that has no name, as PICL_RECORD, PICL_OUTSIDE and
 * PICL_TOO_SHORT itself, has no letters: value 0. Stores are 0. */
uint64_t picl_name(uint8_t *PICL_RESTRICT text, size_t text_bytes, uint64_t number, uint64_t *PICL_RESTRICT answer,
                   size_t answer_words);

#ifdef __cplusplus
}
#endif

#endif
