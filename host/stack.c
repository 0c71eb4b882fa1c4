#define _DEFAULT_SOURCE
#include "stack.h"

#include "cards.h"
#include "lent.h"

#include <pthread.h>
#include <stdio.h>
#include <stdlib.h>
#include <string.h>

enum { STACK = 1 << 20 };

struct job {
  const uint8_t *input;
  size_t input_length;
  void *output;
  size_t output_length;
  const uint8_t *top; // where the caller's frame is
};

static void *call_run(void *argument) {
  struct job *job = argument;
  job->top = __builtin_frame_address(0);
  cards_run(job->input, job->input_length, job->output, job->output_length);
  return NULL;
}

static void *call_levels(void *argument) {
  struct job *job = argument;
  job->top = __builtin_frame_address(0);
  cards_levels(job->input, job->input_length, job->output, job->output_length / sizeof(uint32_t));
  return NULL;
}

// Bytes below the caller's frame that a call with an output of this length changes, on a stack filled with one byte.
static size_t changed(void *(*call)(void *), const uint8_t *input, size_t input_length, size_t output_length, uint8_t fill) {
  struct job job = {input, input_length, malloc(output_length + 1), output_length, NULL};
  pthread_attr_t attributes;
  pthread_t thread;
  uint8_t *stack = aligned_alloc(4096, STACK);
  if (!job.output || !stack) exit(2);
  memset(stack, fill, STACK);
  pthread_attr_init(&attributes);
  if (pthread_attr_setstack(&attributes, stack, STACK) || pthread_create(&thread, &attributes, call, &job) ||
      pthread_join(thread, NULL)) {
    fprintf(stderr, "cards_host: no thread\n");
    exit(2);
  }
  pthread_attr_destroy(&attributes);
  size_t untouched = 0;
  while (untouched < STACK && stack[untouched] == fill) untouched++;
  size_t used = (size_t)(job.top - (stack + untouched));
  free(stack);
  free(job.output);
  return used;
}

// The same, touched: a byte that holds the one filling is changed on the other.
static size_t touched(void *(*call)(void *), const uint8_t *input, size_t input_length, size_t output_length) {
  size_t one = changed(call, input, input_length, output_length, 0xa5);
  size_t other = changed(call, input, input_length, output_length, 0x5a);
  return one < other ? other : one;
}

struct stack_need stack_need(const uint8_t *script, size_t script_length) {
  size_t enough = CARDS_OUTPUT_ENOUGH(lines_of(script, script_length));
  uint8_t *output = malloc(enough);
  if (!output) exit(2);
  // this first call also binds what is bound when it is first called
  size_t exact = cards_run(script, script_length, output, enough);
  free(output);
  struct stack_need need = {touched(call_run, script, script_length, enough), touched(call_run, script, script_length, exact),
                            touched(call_run, script, script_length, exact - 1)};
  return need;
}

size_t levels_stack(const uint8_t *sheet, size_t sheet_length) {
  uint32_t words[CARDS_LEVELS_WORDS];
  cards_levels(sheet, sheet_length, words, CARDS_LEVELS_WORDS);
  return touched(call_levels, sheet, sheet_length, sizeof words);
}
