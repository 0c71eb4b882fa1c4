#define _DEFAULT_SOURCE
#include "tasks.h"

#include "cards.h"

#include <pthread.h>
#include <signal.h>
#include <stdint.h>
#include <stdlib.h>
#include <string.h>
#include <sys/time.h>
#include <time.h>

enum { THREADS = 4, RUNS = 2000, INTERRUPTS = 100, SECONDS = 20, ROOM = 4096, SYSTEM = 65536 };

struct task {
  const char *script, *expected;
  uint8_t output[ROOM];
  int wrong;
};

static void run_once(struct task *task) {
  memset(task->output, 0, ROOM);
  size_t length = cards_run((const uint8_t *)task->script, strlen(task->script), task->output, ROOM);
  if (length != strlen(task->expected) || memcmp(task->output, task->expected, length)) task->wrong = 1;
}

static void *run_often(void *argument) {
  for (int turn = 0; turn < RUNS; turn++) run_once(argument);
  return NULL;
}

const char *in_threads(const char *script, const char *expected) {
  static struct task tasks[THREADS];
  pthread_t threads[THREADS];
  const char *fault = NULL;
  for (int n = 0; n < THREADS; n++) {
    tasks[n].script = script;
    tasks[n].expected = expected;
    if (pthread_create(&threads[n], NULL, run_often, &tasks[n])) return "no thread";
  }
  for (int n = 0; n < THREADS; n++) {
    pthread_join(threads[n], NULL);
    if (tasks[n].wrong) fault = "other listing in a thread";
  }
  return fault;
}

static struct task handler_task;
static volatile sig_atomic_t interrupts;

static void handle(int signal) {
  (void)signal;
  run_once(&handler_task);
  interrupts++;
}

const char *in_handler(const char *script, const char *expected) {
  static struct task task;
  static uint8_t stack[CARDS_STACK_ENOUGH + SYSTEM];
  stack_t own = {.ss_sp = stack, .ss_size = sizeof stack}, before;
  struct sigaction action = {.sa_handler = handle, .sa_flags = SA_ONSTACK | SA_RESTART}, old;
  const struct itimerval often = {{0, 300}, {0, 300}}, never = {{0, 0}, {0, 0}};
  task.script = handler_task.script = script;
  task.expected = handler_task.expected = expected;
  sigemptyset(&action.sa_mask);
  if (sigaltstack(&own, &before) || sigaction(SIGALRM, &action, &old) || setitimer(ITIMER_REAL, &often, NULL)) return "no signal";
  time_t end = time(NULL) + SECONDS;
  while (interrupts < INTERRUPTS && time(NULL) < end)
    for (int turn = 0; turn < 100; turn++) run_once(&task);
  setitimer(ITIMER_REAL, &never, NULL);
  sigaction(SIGALRM, &old, NULL);
  sigaltstack(&before, NULL);
  if (interrupts < INTERRUPTS) return "too few interrupts";
  return task.wrong ? "other listing in a call that was interrupted" : handler_task.wrong ? "other listing in a handler" : NULL;
}
