#define _DEFAULT_SOURCE
#include "lent.h"

#include "cards.h"

#include <stdio.h>
#include <stdlib.h>
#include <string.h>
#include <sys/mman.h>
#include <unistd.h>

enum { CANARY = 64 };

// Bytes in front of a page that nobody may touch.
struct area {
  uint8_t *start;
  size_t room;
};

static struct area input_area, output_area;

// Room for so many bytes; they end where the forbidden page begins, and canaries fit in front of them.
static uint8_t *place(struct area *area, size_t length) {
  size_t page = (size_t)sysconf(_SC_PAGESIZE);
  if (!area->start || area->room < length + CANARY) {
    if (area->start) munmap(area->start, area->room + page);
    area->room = ((length + CANARY) * 2 + page - 1) / page * page;
    void *start = mmap(NULL, area->room + page, PROT_READ | PROT_WRITE, MAP_PRIVATE | MAP_ANONYMOUS, -1, 0);
    if (start == MAP_FAILED || mprotect((uint8_t *)start + area->room, page, PROT_NONE)) {
      perror("cards_host: memory");
      exit(2);
    }
    area->start = start;
  }
  return area->start + area->room - length;
}

// What a byte holds before a call: another value at each place and in each call.
static uint8_t pattern(size_t at, unsigned call) { return (uint8_t)(at * 167 + (at >> 8) * 13 + call * 59 + 1); }

// Whether the bytes from..to of the area still hold what they held before the call.
static int kept(const uint8_t *bytes, size_t from, size_t to, unsigned call) {
  for (size_t at = from; at < to; at++)
    if (bytes[at] != pattern(at, call)) return 0;
  return 1;
}

size_t lines_of(const uint8_t *script, size_t length) {
  size_t lines = 1;
  for (size_t at = 0; at < length && lines < CARDS_LINES_MOST; at++) lines += script[at] == '\n';
  return lines;
}

struct outcome lend(lent_call *entry, const uint8_t *input, size_t input_length, size_t output_length) {
  static unsigned call;
  call++;
  uint8_t *lent_input = place(&input_area, input_length);
  if (input_length) memcpy(lent_input, input, input_length);
  size_t whole = CANARY + output_length + CANARY;
  uint8_t *front = place(&output_area, whole);
  for (size_t at = 0; at < whole; at++) front[at] = pattern(at, call);
  uint8_t *output = front + CANARY;

  size_t length = entry(lent_input, input_length, output, output_length);

  struct outcome outcome = {output, length, NULL};
  if (length > output_length)
    outcome.fault = "the length is more than was lent";
  else if (!kept(front, 0, CANARY, call))
    outcome.fault = "a byte before the output is changed";
  else if (!kept(front, CANARY + output_length, whole, call))
    outcome.fault = "a byte after the output is changed";
  else if (!kept(front, CANARY + length, CANARY + output_length, call))
    outcome.fault = length ? "a byte past the length is changed" : "the length is 0, but the output is touched";
  else if (input_length && memcmp(lent_input, input, input_length))
    outcome.fault = "the input is changed";
  return outcome;
}

struct outcome run_lent(const uint8_t *script, size_t script_length, size_t output_length) {
  return lend(cards_run, script, script_length, output_length);
}

static uint8_t *listing;

// A copy of the listing that outlives the next call.
static void keep(struct outcome outcome) {
  listing = realloc(listing, outcome.length + 1);
  if (!listing) {
    perror("cards_host: memory");
    exit(2);
  }
  memcpy(listing, outcome.written, outcome.length);
}

struct outcome run_all_ways(const uint8_t *script, size_t script_length) {
  struct outcome first = run_lent(script, script_length, CARDS_OUTPUT_ENOUGH(lines_of(script, script_length)));
  if (first.fault) return first;
  if (!first.length) return first.fault = "an output that is always enough is refused", first;
  keep(first);
  first.written = listing;
  const size_t lent[] = {first.length, first.length + 1, first.length - 1, 0};
  const char *const name[] = {"exact output: other listing", "larger output: other listing",
                              "output one byte too small: not refused", "empty output: not refused"};
  for (int way = 0; way < 4 && !first.fault; way++) {
    struct outcome next = run_lent(script, script_length, lent[way]);
    size_t expected = way < 2 ? first.length : 0;
    if (next.fault)
      first.fault = next.fault;
    else if (next.length != expected || memcmp(next.written, listing, expected))
      first.fault = name[way];
  }
  return first;
}
