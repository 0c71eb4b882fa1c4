// sheet WHICH COUNT: works out the levels of the sheet on standard input COUNT times, and prints those of the last. WHICH is cards or
// reference.
#include "cards.h"
#include <stdio.h>
#include <stdlib.h>
#include <string.h>

typedef size_t entry(const uint8_t *sheet, size_t sheet_length, uint32_t *levels, size_t levels_length);
entry bench_levels_reference;

static uint8_t sheet[1 << 16];
static uint32_t levels[3 * 32];

int main(int argc, char **argv) {
  if (argc != 3) return fprintf(stderr, "usage: sheet WHICH COUNT\n"), 2;
  entry *work_out = !strcmp(argv[1], "cards") ? cards_levels : bench_levels_reference;
  size_t length = fread(sheet, 1, sizeof sheet, stdin), tasks = 0;
  for (long turn = atol(argv[2]); turn > 0; turn--) tasks = work_out(sheet, length, levels, sizeof levels / sizeof *levels);
  for (size_t task = 0; task < tasks; task++) printf("%u %u %u\n", levels[3 * task], levels[3 * task + 1], levels[3 * task + 2]);
  return tasks == 0;
}
