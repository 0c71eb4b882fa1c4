// calls WHICH CORES CALL COUNT: makes one call COUNT times on a machine of CORES cores and 64 cards at work, and prints a number for
// the last answer. WHICH is door, inside or reference. Before each call the same record is put back, so that each starts from the
// same one; the call `none` puts it back alone, and `test` and `test-idle` make the soundness test, with a transaction on core 0
// and without; `commit-read-only` is a commit where core 0 has only read. Each core has four jobs; each but core 0 has a transaction that read
// one card and wrote one, and so has core 0 for the calls that need one. Every call is core 0's.
// The list is run at DEPTHS places of the stack, 16 bytes apart: a copy costs a few instructions more or less by where it lies, and the
// words of the command and the frames above would decide that. So a figure is the mean over the places.
#include <alloca.h>
#include <stdint.h>
#include <stdio.h>
#include <stdlib.h>
#include <string.h>

enum { SAVE, RESTORE, SETUP, RELEASE, BEGIN, READ, WRITE, COMMIT, GIVE_UP, FINISH, TEST, TEST_IDLE, COMMIT_READ_ONLY, CALLS };
static const char *const names[CALLS] = {"save",   "none",    "setup",  "release", "begin",     "read",          "write",
                                         "commit", "give-up", "finish", "test",    "test-idle", "commit-read-only"};

typedef uint32_t entry(uint32_t cores, uint32_t cards, const uint32_t *list, size_t list_len, uint32_t *committed, size_t committed_len,
                       uint32_t *pending, size_t pending_len);
entry bench_calls_door, bench_calls_inside, bench_calls_reference;

enum { DEPTHS = 4 };

static uint32_t committed[64], pending[16 * 64];

// Runs the list with the stack that many bytes lower.
static uint32_t run_at(size_t depth, entry *run, uint32_t cores, const uint32_t *list, size_t n) {
  volatile char *lower = alloca(depth);
  lower[0] = 0;
  return run(cores, 64, list, n, committed, 64, pending, cores * 64);
}

int main(int argc, char **argv) {
  _Alignas(4096) volatile char page_start = 0; // the frames below start at the same place of a page, whatever the words are
  (void)page_start;
  if (argc != 5) return fprintf(stderr, "usage: calls WHICH CORES CALL COUNT\n"), 2;
  entry *run = !strcmp(argv[1], "door") ? bench_calls_door : !strcmp(argv[1], "inside") ? bench_calls_inside : bench_calls_reference;
  uint32_t cores = (uint32_t)atoi(argv[2]);
  size_t count = (size_t)atol(argv[4]);
  uint32_t call = 0;
  while (call < CALLS && strcmp(argv[3], names[call])) call++;
  if (call == CALLS || cores < 1 || 16 < cores) return fprintf(stderr, "calls: no such call or cores\n"), 2;
  int open = call != RELEASE && call != BEGIN && call != FINISH && call != TEST_IDLE;
  int read_only = call == COMMIT_READ_ONLY;
  if (read_only) call = COMMIT;

  uint32_t *list = malloc((16 * 8 + 2 * count + 1) * sizeof *list);
  if (!list) return 2;
  size_t n = 0;
  for (uint32_t core = 0; core < cores; core++) {
    for (int job = 0; job < 4; job++) list[n++] = RELEASE + 16 * core;
    if (core == 0 && !open) continue;
    list[n++] = BEGIN + 16 * core;
    list[n++] = READ + 16 * core;
    if (core == 0 && read_only) continue;
    list[n++] = WRITE + 16 * core;
  }
  list[n++] = SAVE;
  for (size_t i = 0; i < count; i++) {
    list[n++] = RESTORE;
    if (call != RESTORE) list[n++] = call;
  }
  for (size_t i = 1; i <= DEPTHS; i++) printf("%u\n", run_at(16 * i, run, cores, list, n));
  free(list);
  return 0;
}
