// cards_host run FILE [OUTPUT_LENGTH]: prints the listing of the script in FILE; with an output of OUTPUT_LENGTH bytes, or of what is
//   always enough. A refusal is status 1.
// cards_host frames: takes scripts on standard input and answers each with its listing, both as a length in four bytes, the lowest
//   first, and the bytes. Each script is run with outputs of several sizes among canaries; a breach is a line and status 1.
// cards_host stack FILE: prints how many bytes of stack the script takes in one pass, in two and where the output is too small.
// cards_host levels [FILE]: prints the levels of the tasks of the sheet in FILE, or of standard input: what `levels` prints.
// cards_host shipped: prints the shipped sheet.
// cards_host table: prints the constant table of its levels.
// cards_host selftest: calls whose results are known.
#include "cards.h"
#include "lent.h"
#include "selftest.h"
#include "sheets.h"
#include "stack.h"

#include <errno.h>
#include <stdint.h>
#include <stdio.h>
#include <stdlib.h>
#include <string.h>

static void *memory(void *old, size_t size) {
  void *new = realloc(old, size ? size : 1);
  if (!new) {
    fprintf(stderr, "cards_host: no memory for %zu bytes\n", size);
    exit(2);
  }
  return new;
}

// The bytes of a file.
static uint8_t *file_bytes(const char *name, size_t *length) {
  FILE *file = fopen(name, "rb");
  uint8_t *bytes = memory(NULL, 0);
  size_t room = 0, got;
  *length = 0;
  while (file) {
    if (*length == room) bytes = memory(bytes, room = 2 * room + 4096);
    got = fread(bytes + *length, 1, room - *length, file);
    if (!got) break;
    *length += got;
  }
  if (!file || ferror(file)) {
    fprintf(stderr, "cards_host: %s: %s\n", name, strerror(errno));
    exit(2);
  }
  fclose(file);
  return bytes;
}

static int run(const char *name, const char *size) {
  size_t script_length;
  uint8_t *script = file_bytes(name, &script_length);
  size_t output_length = size ? strtoull(size, NULL, 10) : CARDS_OUTPUT_ENOUGH(lines_of(script, script_length));
  uint8_t *output = memory(NULL, output_length);

  size_t length = cards_run(script, script_length, output, output_length);
  if (!length) fprintf(stderr, "cards_host: refusal 12: the listing is longer than %zu bytes\n", output_length);
  int bad = !length || fwrite(output, 1, length, stdout) != length || fflush(stdout);

  free(output);
  free(script);
  return bad;
}

static int print(const void *bytes, size_t length) {
  if (fwrite(bytes, 1, length, stdout) == length && !fflush(stdout)) return 0;
  return perror("cards_host: standard output"), 2;
}

static uint32_t number(const uint8_t bytes[4]) {
  return bytes[0] | (uint32_t)bytes[1] << 8 | (uint32_t)bytes[2] << 16 | (uint32_t)bytes[3] << 24;
}

static int answer(struct outcome outcome) {
  size_t n = outcome.length;
  const uint8_t bytes[4] = {(uint8_t)n, (uint8_t)(n >> 8), (uint8_t)(n >> 16), (uint8_t)(n >> 24)};
  int bad = print(bytes, 4);
  return bad ? bad : print(outcome.written, n);
}

static int frames(void) {
  uint8_t head[4], *script = NULL;
  int status = 0;
  size_t got;
  while (!status && (got = fread(head, 1, 4, stdin)) == 4) {
    size_t length = number(head);
    script = memory(script, length);
    if (fread(script, 1, length, stdin) != length) {
      got = 1;
      break;
    }
    struct outcome outcome = run_all_ways(script, length);
    if (outcome.fault) {
      fprintf(stderr, "cards_host: script of %zu bytes: %s\n", length, outcome.fault);
      status = 1;
    } else {
      status = answer(outcome);
    }
  }
  free(script);
  if (status || !got) return status;
  return fprintf(stderr, "cards_host: a frame is cut off\n"), 2;
}

static int stack(const char *name) {
  size_t length;
  uint8_t *script = file_bytes(name, &length);
  struct stack_need need = stack_need(script, length);
  printf("one pass %zu, two passes %zu, refused %zu\n", need.one_pass, need.two_passes, need.refused);
  free(script);
  return 0;
}

static int levels(const char *name) {
  size_t length;
  uint8_t *sheet = file_bytes(name, &length);
  char text[LEVELS_TEXT];
  length = levels_text(sheet, length, text);
  free(sheet);
  return print(text, length);
}

static int shipped(void) {
  uint8_t sheet[CARDS_SHIPPED_BYTES];
  return print(sheet, cards_shipped_sheet(sheet, sizeof sheet));
}

static int table(void) {
  char text[LEVELS_TEXT];
  return print(text, shipped_text(text));
}

int main(int argc, char **argv) {
  const char *mode = argc > 1 ? argv[1] : "";
  if (!strcmp(mode, "run") && (argc == 3 || argc == 4)) return run(argv[2], argc == 4 ? argv[3] : NULL);
  if (!strcmp(mode, "frames") && argc == 2) return frames();
  if (!strcmp(mode, "stack") && argc == 3) return stack(argv[2]);
  if (!strcmp(mode, "levels") && argc <= 3) return levels(argc == 3 ? argv[2] : "/dev/stdin");
  if (!strcmp(mode, "shipped") && argc == 2) return shipped();
  if (!strcmp(mode, "table") && argc == 2) return table();
  if (!strcmp(mode, "selftest") && argc == 2) return selftest() ? 1 : 0;
  fprintf(stderr, "usage: cards_host run FILE [OUTPUT_LENGTH] | frames | stack FILE | levels [FILE] | shipped | table | selftest\n");
  return 2;
}
