#include "selftest.h"

#include "cards.h"
#include "lent.h"
#include "sheets.h"
#include "stack.h"
#include "tasks.h"

#include <stdint.h>
#include <stdio.h>
#include <stdlib.h>
#include <string.h>

// Case A of document 01, and its listing.
static const char case_a[] = "call core card value\nsetup 2 2 -\nrelease 0 7 100\nrelease 1 8 90\nbegin 0 - -\nbegin 1 - -\n"
                             "read 1 0 -\nwrite 0 0 30\nwrite 1 1 4\ncommit 1 - -\ncommit 0 - -\ncommit 1 - -\nread 1 0 -\n"
                             "commit 1 - -\n";
static const char listing_a[] = "line answer value\n2 ready -\n3 running -\n4 running -\n5 begun 0\n6 begun 1\n7 value 0\n"
                                "8 written -\n9 written -\n10 waits 0\n11 committed 0\n12 setback -\n13 value 30\n"
                                "14 committed 1\n";
// A line of every call on the largest machine, and a line that is none.
static const char all_calls[] = "call core card value\nsetup 16 64 -\nrelease 15 65535 4294967295\nbegin 15 - -\nread 15 63 -\n"
                                "write 15 63 4294967295\nread 15 63 -\ncommit 15 - -\nbegin 15 - -\ngiveup 15 - -\n"
                                "finish 15 - -\nno call\n";
static const char refused_names[] = "line answer value\n1 refused 11\n";

// Table 6.1 of source 002, the shipped sheet, and its levels.
static const char table_sheet[] = "task core deadline cards\n1 0 50 3\n2 1 100 1\n3 2 80 1,2\n4 3 70 2\n5 4 120 3\n6 5 60 -\n";
static const char table_levels[] = "1 6 6\n2 2 4\n3 3 4\n4 4 4\n5 1 6\n6 5 0\n";
static const char refused_sheet[] = "refused 13\n";

static int checks, failures;

static void check(int good, const char *name, const char *why) {
  checks++;
  if (good) return;
  failures++;
  printf("failed: %s: %s\n", name, why);
}

// The listing in every way of lending, if it is known.
static void listed(const char *name, const void *script, size_t length, const char *expected) {
  struct outcome outcome = run_all_ways(script, length);
  check(!outcome.fault, name, outcome.fault ? outcome.fault : "");
  if (outcome.fault || !expected) return;
  int same = outcome.length == strlen(expected) && !memcmp(outcome.written, expected, outcome.length);
  check(same, name, "other listing");
}

// The levels of a sheet with every number of words lent, and as text, if they are known.
static void levelled(const char *name, const void *sheet, size_t length, const char *expected) {
  struct outcome outcome = levels_all_ways(sheet, length);
  check(!outcome.fault, name, outcome.fault ? outcome.fault : "");
  char text[LEVELS_TEXT];
  size_t written = levels_text(sheet, length, text);
  if (expected) check(written == strlen(expected) && !memcmp(text, expected, written), name, "other levels");
}

// Every output length from none to a few more than the listing has.
static void every_length(void) {
  size_t exact = strlen(listing_a);
  for (size_t lent = 0; lent < exact + 20; lent++) {
    struct outcome outcome = run_lent((const uint8_t *)case_a, strlen(case_a), lent);
    size_t expected = lent < exact ? 0 : exact;
    check(!outcome.fault, "case A, every length", outcome.fault ? outcome.fault : "");
    check(outcome.length == expected, "case A, every length", "other length");
  }
}

// The script cut off at every place: each is a script of its own.
static void every_cut(void) {
  for (size_t length = 0; length < strlen(case_a); length++) listed("case A, cut off", case_a, length, NULL);
}

// 64 KiB of garbage, as it is and below a names line.
static void garbage(uint64_t seed) {
  enum { SIZE = 1 << 16 };
  static const char names[] = "call core card value\n";
  uint8_t *bytes = malloc(SIZE);
  if (!bytes) exit(2);
  for (size_t at = 0; at < SIZE; at++) {
    seed = seed * 6364136223846793005u + 1442695040888963407u;
    bytes[at] = (uint8_t)(seed >> 56);
  }
  listed("garbage", bytes, SIZE, refused_names);
  levelled("garbage", bytes, SIZE, refused_sheet);
  memcpy(bytes, names, strlen(names));
  listed("garbage below names", bytes, SIZE, NULL);
  memset(bytes, 0, SIZE);
  listed("null bytes", bytes, SIZE, refused_names);
  memcpy(bytes, names, strlen(names));
  listed("null bytes below names", bytes, SIZE, "line answer value\n2 refused 11\n");
  memset(bytes, '\n', SIZE);
  memcpy(bytes, names, strlen(names));
  listed("empty lines below names", bytes, SIZE, NULL);
  free(bytes);
}

// Short scripts whose listings are plain.
static void known(void) {
  static const char nulls[] = "call core card value\nsetup 1 1 -\0\n\0\nsetup 1 1 -";
  static const char names[] = "core value card call\n";
  listed("case A", case_a, strlen(case_a), listing_a);
  listed("case A without its last newline", case_a, strlen(case_a) - 1, listing_a);
  listed("every call", all_calls, strlen(all_calls),
         "line answer value\n2 ready -\n3 running -\n4 begun 0\n5 value 0\n6 written -\n7 value 4294967295\n8 committed 0\n"
         "9 begun 1\n10 ended -\n11 finished 65535\n12 refused 11\n");
  listed("empty script", "", 0, refused_names);
  listed("one newline", "\n", 1, refused_names);
  listed("names alone", names, strlen(names), "line answer value\n");
  listed("null bytes in lines", nulls, sizeof nulls - 1, "line answer value\n2 refused 11\n3 refused 11\n4 ready -\n");
}

// Calls while others are under way.
static void together(void) {
  const char *fault = in_threads(case_a, listing_a);
  check(!fault, "several tasks", fault);
  fault = in_handler(case_a, listing_a);
  check(!fault, "interrupts", fault);
}

// Calls stay within the stack of the header.
static void levels_stack_of(const char *name, const char *sheet) {
  size_t need = levels_stack((const uint8_t *)sheet, strlen(sheet));
  printf("stack, %s: %zu bytes\n", name, need);
  check(need <= CARDS_STACK_ENOUGH, name, "levels take more stack than cards.h says");
}

static void stack_of(const char *name, const char *script) {
  struct stack_need need = stack_need((const uint8_t *)script, strlen(script));
  printf("stack, %s: one pass %zu, two passes %zu, refused %zu bytes\n", name, need.one_pass, need.two_passes, need.refused);
  check(need.one_pass <= CARDS_STACK_ENOUGH, name, "one pass takes more stack than cards.h says");
  check(need.two_passes <= CARDS_STACK_ENOUGH, name, "two passes take more stack than cards.h says");
  check(need.refused <= CARDS_STACK_ENOUGH, name, "a refused call takes more stack than cards.h says");
}

// The longest line of a listing is a value in line 1,000,000, and has the 25 bytes of the header; so many lines, and no more, fit.
static void longest_line(void) {
  static const char start[] = "call core card value\nsetup 1 1 -\nrelease 0 7 1\nbegin 0 - -\nwrite 0 0 4294967295\n";
  static const char line[] = "read 0 0 -\n", last[] = "1000000 value 4294967295\n1000001 refused 11\n";
  const size_t lines = CARDS_LINES_MOST + 4, room = strlen(start) + lines * strlen(line);
  char *script = malloc(room + 1), *end = script;
  if (!script) exit(2);
  end += sprintf(end, "%s", start);
  for (size_t n = 5; n < lines; n++) end += sprintf(end, "%s", line);
  struct outcome outcome = run_lent((const uint8_t *)script, (size_t)(end - script), CARDS_OUTPUT_MOST);
  check(!outcome.fault, "a million lines", outcome.fault ? outcome.fault : "");
  size_t longest = 0, from = 0;
  for (size_t at = 0; at < outcome.length; at++) {
    if (outcome.written[at] != '\n') continue;
    if (longest < at + 1 - from) longest = at + 1 - from;
    from = at + 1;
  }
  check(longest == 25, "a million lines", "the longest line has not 25 bytes");
  check(outcome.length > strlen(last) && !memcmp(outcome.written + outcome.length - strlen(last), last, strlen(last)),
        "a million lines", "other last lines");
  free(script);
}

// Short sheets whose levels are plain.
static void sheets(void) {
  static const char nulls[] = "task core deadline cards\n1 0 50 3\0\n";
  static const char names[] = "cards task deadline core\n";
  levelled("table 6.1", table_sheet, strlen(table_sheet), table_levels);
  levelled("table 6.1 without its last newline", table_sheet, strlen(table_sheet) - 1, table_levels);
  levelled("one task, names in another order", "cards task deadline core\n0,63 65535 0 15\n", 41, "65535 1 1\n");
  levelled("no byte of a sheet", "", 0, refused_sheet);
  levelled("names of a sheet alone", names, strlen(names), refused_sheet);
  levelled("a null byte in a sheet", nulls, sizeof nulls - 1, refused_sheet);
  for (size_t length = 0; length < strlen(table_sheet); length++) levelled("table 6.1, cut off", table_sheet, length, NULL);
}

// Sheets of 32 tasks and of 33, all in one group: the last task has the lowest level, and its transaction the first one's.
static void most_tasks(void) {
  char sheet[1024], last[32], text[LEVELS_TEXT];
  int length = sprintf(sheet, "task core deadline cards\n");
  for (int n = 0; n < CARDS_TASKS_MOST; n++) length += sprintf(sheet + length, "%d %d %d %d,63\n", n, n % 16, n, n);
  levelled("32 tasks", sheet, (size_t)length, NULL);
  size_t written = levels_text((const uint8_t *)sheet, (size_t)length, text);
  size_t expected = (size_t)sprintf(last, "\n%d 1 %d\n", CARDS_TASKS_MOST - 1, CARDS_TASKS_MOST);
  check(written > expected && !memcmp(text + written - expected, last, expected), "32 tasks", "other levels");
  levels_stack_of("levels of 32 tasks", sheet);
  length += sprintf(sheet + length, "32 0 0 -\n");
  levelled("33 tasks", sheet, (size_t)length, refused_sheet);
}

// The shipped sheet into outputs of every length, and its constant table, which is what is worked out from its bytes.
static void shipped(void) {
  size_t exact = strlen(table_sheet);
  check(exact == CARDS_SHIPPED_BYTES, "cards.h", "CARDS_SHIPPED_BYTES is another number");
  for (size_t lent = 0; lent < exact + 9; lent++) {
    struct outcome outcome = lend(shipped_call, NULL, 0, lent);
    check(!outcome.fault, "shipped sheet, every length", outcome.fault ? outcome.fault : "");
    size_t expected = lent < exact ? 0 : exact;
    check(outcome.length == expected && !memcmp(outcome.written, table_sheet, expected), "shipped sheet, every length", "other bytes");
  }
  char table[LEVELS_TEXT], worked[LEVELS_TEXT];
  size_t length = shipped_text(table);
  printf("shipped table:\n%.*s", (int)length, table);
  check(length == strlen(table_levels) && !memcmp(table, table_levels, length), "shipped table", "other levels");
  check(length == levels_text((const uint8_t *)table_sheet, exact, worked) && !memcmp(table, worked, length), "shipped table",
        "cards_levels gives others");
  const size_t past[] = {cards_shipped_tasks(), cards_shipped_tasks() + 1, 64, SIZE_MAX};
  for (size_t n = 0; n < sizeof past / sizeof *past; n++)
    check(!cards_shipped_task(past[n]) && !cards_shipped_task_level(past[n]) && !cards_shipped_transaction_level(past[n]),
          "shipped table", "past the last task there is one");
}

// The header's version as text is its version in numbers, and its largest output is enough for its lines.
static void header(void) {
  char version[32];
  snprintf(version, sizeof version, "%d.%d", CARDS_VERSION_MAJOR, CARDS_VERSION_MINOR);
  check(!strcmp(version, CARDS_VERSION), "cards.h", "CARDS_VERSION is not its numbers");
  check(CARDS_OUTPUT_MOST == CARDS_OUTPUT_ENOUGH(CARDS_LINES_MOST), "cards.h", "CARDS_OUTPUT_MOST is another number");
  check(CARDS_LEVELS_WORDS == 3 * CARDS_TASKS_MOST, "cards.h", "CARDS_LEVELS_WORDS is another number");
}

int selftest(void) {
  known();
  every_length();
  every_cut();
  garbage(1);
  garbage(2);
  together();
  longest_line();
  sheets();
  most_tasks();
  shipped();
  header();
  stack_of("case A", case_a);
  stack_of("every call", all_calls);
  levels_stack_of("levels of table 6.1", table_sheet);
  levels_stack_of("levels refused", case_a);
  printf("host: %d checks, %d failures\n", checks, failures);
  return failures;
}
