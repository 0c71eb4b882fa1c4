/* cards.h: runs a script of calls on a machine of shared cards and lists the answers; and works out the levels of the tasks of a job sheet
 * (cards_levels, below).
 *
 *     static const char script[] = "call core card value\n"
 *                                  "setup 1 4 -\n"
 *                                  "release 0 7 100\n"
 *                                  "begin 0 - -\n"
 *                                  "write 0 2 30\n"
 *                                  "commit 0 - -\n";
 *     static uint8_t listing[CARDS_OUTPUT_ENOUGH(6)];
 *
 *     size_t length = cards_run((const uint8_t *)script, sizeof script - 1, listing, sizeof listing);
 *     uart_write(listing, length);
 *
 * sends
 *
 *     line answer value
 *     2 ready -
 *     3 running -
 *     4 begun 0
 *     5 written -
 *     6 committed 0
 *
 * The value of a line is the ticket begun, the value read, the core that is first in the way of a commit that waits ("10 waits 0": of all
 * earlier ones in conflict with it the one on core 0 began first), the setbacks of a commit, the job finished, the number of a refusal, or -.
 *
 * The archive is build/libcards.a (make lib), for x86-64 and its System V calling convention. It needs no heap, no threads and no
 * operating system, and of the C library at most memcpy, memmove, memset and memcmp. Script, sheet and listing stand in memory, whole.
 *
 *     gcc -std=c99 -Iinclude program.c build/libcards.a
 */
#ifndef CARDS_H
#define CARDS_H

#include <stddef.h>
#include <stdint.h>

#ifdef __cplusplus
extern "C" {
#endif

/* The version of this header and its archive. The first number rises when a caller has to change something, the second when something
 * is added. */
#define CARDS_VERSION_MAJOR 3
#define CARDS_VERSION_MINOR 0
#define CARDS_VERSION "3.0"

/* An output of so many bytes is always enough for a script of so many lines, whatever is in them: 18 bytes of heading, and 29 for each
 * line. That is proved. (The longest line that the test of host/ finds has 25, "1000000 value 4294967295\n".)
 *
 * Lines: one more than the newlines of the script is never too few; an empty script counts as one line. Most listings are shorter:
 * about 14 bytes a line in a script of a thousand lines, and 17 where line numbers have six digits. */
#define CARDS_OUTPUT_ENOUGH(lines) ((size_t)18 + (size_t)29 * (size_t)(lines))

/* The last line that gets an answer; no line after it is read. */
#define CARDS_LINES_MOST 1000001

/* So many bytes are therefore enough for every script, CARDS_OUTPUT_ENOUGH(CARDS_LINES_MOST). */
#define CARDS_OUTPUT_MOST 29000047

/* So many bytes of the caller's stack are enough for a call of any of the functions, 64 KiB. The need does not grow with the script or the
 * sheet. It is measured by the test of host/ (build/cards_host selftest prints it) and not proved: 33,120 bytes below the caller's frame
 * where a script is run once, 33,168 where it is run twice, 33,168 where the listing does not fit; 2,912 for the levels of a sheet. */
#define CARDS_STACK_ENOUGH 65536

/* Runs the script and writes its listing to the output.
 *
 * Lent for the call, and not kept after it:
 *   script, script_length   bytes to read; any bytes at all. No 0 byte need end them. They are not changed.
 *   output, output_length   bytes to write to.
 *
 * Returned: the length of the listing.
 *   More than 0: the listing is in the first bytes of the output. The bytes after it keep what they held. No 0 byte is put there.
 *   0: the listing is longer than output_length (refusal 12). No byte of the output was touched. No listing is empty, so 0 means
 *      nothing else. Call again and lend CARDS_OUTPUT_ENOUGH of one more than the script's newlines, or CARDS_OUTPUT_MOST: neither is
 *      ever refused. Or lend twice as much until the answer is not 0: every try runs the script.
 *
 * That the length and every byte of the output are as said here is proved, for every script and every output.
 *
 * README.md has the script's format. No script is refused as a whole: a line that is not a call is answered "refused 11" in the
 * listing, and the next one is read. Where line 1 is not a line of names, or there is no byte, the listing has one line below its
 * heading, "1 refused 11". Line 1,000,001 is answered "refused 11", and no line after it is read.
 *
 * Every call starts afresh, with no machine until the script's first setup. Nothing is left behind: no static variable, no heap. So
 * several tasks may call at the same time, each with an output and a stack of its own; they may share a script.
 *
 * The caller sees to it that
 *   - both pointers point to so many bytes; with a length of 0 the pointer is not read or written through, but must not be null;
 *   - script and output do not overlap, and nobody else writes to either during the call, no interrupt and no other task;
 *   - CARDS_STACK_ENOUGH bytes of stack are left.
 *
 * Interrupts. The code is ordinary System V code: it uses general registers and the vector registers of SSE2 (xmm), which must be
 * switched on, and no others (no x87, no AVX, no floating-point sum); and it keeps data in the red zone, the 128 bytes below the stack
 * pointer. So a handler that interrupts a call, or a switch from task to task, saves and restores the xmm registers if it or what it
 * calls changes them, and either runs on a stack of its own or steps over the red zone first. A handler may itself call cards_run, with
 * an output and CARDS_STACK_ENOUGH bytes of its own. A call may be left at any point and never resumed: what it wrote of the output is
 * then unknown, and nothing else is lost.
 *
 * Cost. The time grows with the script's length; nothing is waited for. Into an output that is CARDS_OUTPUT_ENOUGH for its lines the script
 * is run once; for a smaller one it is run to find the length of its listing and, if that fits, a second time to write it. The instructions
 * in this file were counted with an older toolchain, and are not counted again. A run costs about 24,000 at the least and, for a contended
 * script, 759 a line on 4 cores and 768 on 16 (docs/BENCHMARKS.md). The dearest lines that were tried: setup of 16 cores and 64 cards 5,800,
 * a commit of 64 cards that sets back 15 others 1,900, a refused setup 1,700; a byte of a line of more than 64 bytes about 10. */
size_t cards_run(const uint8_t *script, size_t script_length, uint8_t *output, size_t output_length);

/* ---- Job sheets
 *
 * A job sheet says of each task its number, its core, its deadline and the cards that its transaction uses; docs/MANUAL.md has its format.
 * Two tasks that use a common card are in one group, and so on through chains; no others are. A task's level is how many different
 * deadlines of the sheet are at least its own, so the shortest deadline has the highest level; its transaction's level is the highest
 * task level in its group, 0 for a task without cards.
 *
 *     static const char sheet[] = "task core deadline cards\n"
 *                                 "1 0 50 3\n"
 *                                 "2 1 100 1\n"
 *                                 "3 2 80 1,2\n"
 *                                 "4 3 70 2\n"
 *                                 "5 4 120 3\n"
 *                                 "6 5 60 -\n";
 *     uint32_t levels[CARDS_LEVELS_WORDS];
 *
 *     size_t tasks = cards_levels((const uint8_t *)sheet, sizeof sheet - 1, levels, CARDS_LEVELS_WORDS);
 *     for (size_t n = 0; n < tasks; n++) set_levels(levels[3 * n], levels[3 * n + 1], levels[3 * n + 2]);
 *
 * sets, as task, task level and transaction level,
 *
 *     1 6 6
 *     2 2 4
 *     3 3 4
 *     4 4 4
 *     5 1 6
 *     6 5 0
 *
 * Tasks 2, 3 and 4 are one group, by cards 1 and 2, and tasks 1 and 5 another, by card 3. This is table 6.1 of source document 002, and the
 * sheet that the kit ships with. */

/* A sheet has at most so many tasks. */
#define CARDS_TASKS_MOST 32

/* So many words are therefore enough for the levels of every sheet, three for each task. */
#define CARDS_LEVELS_WORDS 96

/* Works out the levels of a sheet's tasks.
 *
 * Lent for the call, and not kept after it:
 *   sheet, sheet_length   bytes to read; any bytes at all. No 0 byte need end them. They are not changed.
 *   levels, words         words to write to, and how many there are.
 *
 * Returned: how many tasks the sheet has.
 *   1 to 32: the first words are task, task level and transaction level of the sheet's first task, then of its second, and so on in the
 *      sheet's order. The words after them keep what they held.
 *   0: refusal 13. The bytes break a rule of the sheet anywhere, or there are fewer than three words for each task. No word was touched. No
 *      sheet is without tasks, so 0 means nothing else; CARDS_LEVELS_WORDS words are never too few.
 *
 * That the answer and every word are as said here is proved, for all bytes and any number of words.
 *
 * What is said at cards_run of tasks that call at the same time, of interrupts and of calls that are left holds here too. The caller sees to
 * it that
 *   - both pointers point to so much; with a length of 0 the pointer is not read or written through, but must not be null;
 *   - levels is aligned as a uint32_t is; the sheet may stand anywhere;
 *   - sheet and levels do not overlap, and nobody else writes to either during the call;
 *   - CARDS_STACK_ENOUGH bytes of stack are left.
 *
 * Cost. The time grows with the sheet's length; nothing is waited for. A call costs about 7,400 instructions for the six tasks of table
 * 6.1, 54,000 to 68,000 for 32 tasks with up to 3 cards each, and 249,000 for 32 tasks with all 64 cards (docs/BENCHMARKS.md). */
size_t cards_levels(const uint8_t *sheet, size_t sheet_length, uint32_t *levels, size_t words);

/* ---- The shipped sheet: table 6.1 of source document 002, tasks 1 to 6 on cores 0 to 5, for firmware that has no sheet to read */

/* How many bytes it has. */
#define CARDS_SHIPPED_BYTES 83

/* Writes the shipped sheet, the bytes of examples/table-6.1.sheet, to the first bytes of the output and returns how many they are. Where
 * output_length is less than that, 0 is returned and no byte is touched. The bytes after the sheet keep what they held. The caller sees to it
 * that output points to so many bytes and is not null. */
size_t cards_shipped_sheet(uint8_t *output, size_t output_length);

/* Its levels, from a table that is proved to be what is worked out from its bytes; nothing is worked out in the call. */

/* How many tasks it has, 6. */
size_t cards_shipped_tasks(void);

/* The number of the task at a place of the sheet, its task level and its transaction level. Places are 0 to 5; past them all three are 0. */
uint32_t cards_shipped_task(size_t place);
uint32_t cards_shipped_task_level(size_t place);
uint32_t cards_shipped_transaction_level(size_t place);

#ifdef __cplusplus
}
#endif

#endif
