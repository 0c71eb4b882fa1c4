#include "sheets.h"

#include "cards.h"

#include <stdio.h>
#include <stdlib.h>
#include <string.h>

// One task a line.
static size_t line(char *text, uint32_t task, uint32_t task_level, uint32_t transaction_level) {
  return (size_t)sprintf(text, "%u %u %u\n", (unsigned)task, (unsigned)task_level, (unsigned)transaction_level);
}

size_t levels_text(const uint8_t *sheet, size_t sheet_length, char text[LEVELS_TEXT]) {
  uint32_t words[CARDS_LEVELS_WORDS];
  size_t tasks = cards_levels(sheet, sheet_length, words, CARDS_LEVELS_WORDS), length = 0;
  if (!tasks) return (size_t)sprintf(text, "refused 13\n");
  for (size_t n = 0; n < tasks; n++) length += line(text + length, words[3 * n], words[3 * n + 1], words[3 * n + 2]);
  return length;
}

size_t shipped_text(char text[LEVELS_TEXT]) {
  size_t length = 0;
  for (size_t n = 0; n < cards_shipped_tasks(); n++)
    length += line(text + length, cards_shipped_task(n), cards_shipped_task_level(n), cards_shipped_transaction_level(n));
  return length;
}

size_t shipped_call(const uint8_t *input, size_t input_length, uint8_t *output, size_t output_length) {
  (void)input, (void)input_length;
  return cards_shipped_sheet(output, output_length);
}

// cards_levels, its words counted in bytes
static size_t levels_call(const uint8_t *sheet, size_t sheet_length, uint8_t *output, size_t output_length) {
  uint32_t *words = (uint32_t *)(void *)output;
  return 3 * sizeof *words * cards_levels(sheet, sheet_length, words, output_length / sizeof *words);
}

struct outcome levels_all_ways(const uint8_t *sheet, size_t sheet_length) {
  static uint8_t kept[CARDS_LEVELS_WORDS * sizeof(uint32_t)];
  struct outcome first = lend(levels_call, sheet, sheet_length, sizeof kept);
  if (first.fault) return first;
  memcpy(kept, first.written, first.length);
  first.written = kept;
  for (size_t words = 0; words <= CARDS_LEVELS_WORDS + 4 && !first.fault; words++) {
    struct outcome next = lend(levels_call, sheet, sheet_length, words * sizeof(uint32_t));
    size_t expected = words * sizeof(uint32_t) < first.length ? 0 : first.length;
    if (next.fault)
      first.fault = next.fault;
    else if (next.length != expected)
      first.fault = expected ? "enough words: refused" : "words too few: not refused";
    else if (memcmp(next.written, kept, expected))
      first.fault = "other levels";
  }
  return first;
}
