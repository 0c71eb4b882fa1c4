// peer < SCRIPT: the program `cards` once more, in C and tuned by hand, for `make bench` to measure `cards` beside. Written from
// documents 01 and 02 alone. It takes a script on standard input, in pieces of any size, and prints its listing on standard output, in
// constant memory. The machine is changed in place and its record is never tested. A line is read in one pass, where it lies; in
// another order of columns than call, core, card, value its fields are put in that order first. Of the record it keeps what a
// listing can show, and the versions: not whose job a transaction is, nor how many were committed and given up. A read or write
// that fails is a line on standard error and status 1.
#define _DEFAULT_SOURCE
#include <stdbool.h>
#include <stdint.h>
#include <stdio.h>
#include <string.h>
#include <unistd.h>

enum { CORES_MOST = 16, OBJECTS_MOST = 64, JOBS_MOST = 8, JOB_NUMBER_MOST = 65535 };
enum { DIGITS_MOST = 10, LINE_MOST = 64, ANSWER_MOST = sizeof "1000000 value 4294967295\n" - 1 };
// Bytes read at a time; bytes of the listing that are enough to be written; how far a copy of fixed size may go too far.
enum { CHUNK = 1 << 14, ENOUGH = 1 << 16, SLACK = 32 };

// Everything that a line needs becomes one function, without calls.
#define INLINE static inline __attribute__((always_inline))

// ---- the listing: what is put goes to `out`, and the place after it comes back

INLINE uint8_t *put(uint8_t *out, const char text[16]) {
  memcpy(out, text, 16);
  return out + strlen(text);
}

INLINE uint8_t *refused(uint8_t *out, int number) {
  static const char text[12][16] = {"",            "refused 1\n", "refused 2\n", "refused 3\n", "refused 4\n",  "refused 5\n",
                                    "refused 6\n", "refused 7\n", "refused 8\n", "refused 9\n", "refused 10\n", "refused 11\n"};
  memcpy(out, text[number], 16);
  return out + sizeof "refused 1\n" - 1 + (number > 9);
}

INLINE uint8_t *waits(uint8_t *out, uint32_t core) {
  static const char text[CORES_MOST][16] = {"waits 0\n",  "waits 1\n",  "waits 2\n",  "waits 3\n",
                                            "waits 4\n",  "waits 5\n",  "waits 6\n",  "waits 7\n",
                                            "waits 8\n",  "waits 9\n",  "waits 10\n", "waits 11\n",
                                            "waits 12\n", "waits 13\n", "waits 14\n", "waits 15\n"};
  memcpy(out, text[core], 16);
  return out + sizeof "waits 0\n" - 1 + (core > 9);
}

// The eight digits of a number below 100,000,000, the first one in the lowest byte: by halves, by pairs, one by one.
INLINE uint64_t eight_digits(uint32_t number) {
  uint64_t halves = number / 10000 | (uint64_t)(number % 10000) << 32;
  uint64_t hundreds = halves * 10486 >> 20 & 0x7f0000007f;
  uint64_t pairs = hundreds | (halves - 100 * hundreds) << 16;
  uint64_t tens = pairs * 103 >> 10 & 0xf000f000f000f;
  return tens | (pairs - 10 * tens) << 8;
}

INLINE uint8_t *put_number(uint8_t *out, uint32_t number) {
  if (number < 10) {
    *out++ = (uint8_t)('0' + number);
  } else {
    uint32_t front = number / 100000000;
    uint64_t digits = eight_digits(number % 100000000);
    int skipped = 0;
    if (front > 9) *out++ = (uint8_t)('0' + front / 10);
    if (front > 0)
      *out++ = (uint8_t)('0' + front % 10);
    else
      skipped = __builtin_ctzll(digits) / 8;
    digits = (digits | 0x3030303030303030) >> 8 * skipped;
    memcpy(out, &digits, 8);
    out += 8 - skipped;
  }
  *out++ = '\n';
  return out;
}

// A number of at most seven digits, counted up as it is listed: its digits and the byte that ends it, in the highest bytes of a
// word, above zeros.
struct count {
  uint64_t text;
  unsigned zeros, length; // digits of the word below the text; bytes of the text
};

#define BYTE(byte, place) ((uint64_t)(byte) << 8 * (place))
#define COUNT(digit, end) {BYTE(digit, 6) | BYTE(end, 7), 48, 2}

INLINE uint8_t *put_count(uint8_t *out, struct count count) {
  uint64_t text = count.text >> count.zeros;
  memcpy(out, &text, 8);
  return out + count.length;
}

// The last digit is one more than nine.
static struct count carried(struct count count) {
  int place = 6;
  while ((count.text >> 8 * place & 0xff) == '9' + 1) {
    count.text -= BYTE(10, place);
    place--;
    count.text += BYTE(1, place);
  }
  if ((count.text >> 8 * place & 0xff) > 1) return count;
  return (struct count){count.text + BYTE('0', place), count.zeros - 8, count.length + 1};
}

INLINE struct count next(struct count count, char end) {
  count.text += BYTE(1, 6);
  return count.text < (BYTE('9' + 1, 6) | BYTE(end, 7)) ? count : carried(count);
}

// ---- the machine

// A core's transaction (document 01: none in progress; in progress; marked).
enum status { NONE, ACTIVE, ZOMBIE };

struct core {
  uint32_t aborts; // setbacks
  uint8_t status, jobs;
  uint8_t urgent; // the place of the job of least deadline, the first released among equals: with no transaction, the running one
  struct {
    uint32_t deadline, number;
  } job[JOBS_MOST];
};

// The machine's record and tables; all zeros is the blank record.
static struct {
  uint32_t cores, objects;       // objects (document 01: cards)
  struct count tickets;          // tickets given
  unsigned queued;               // transactions in progress
  uint8_t queue[2 * CORES_MOST]; // their cores, the smallest ticket first; the rest says nothing
  uint64_t data_set[CORES_MOST]; // read set and write set together
  uint64_t write_set[CORES_MOST];
  struct core core[CORES_MOST];
  struct {
    uint32_t value, version;
  } object[OBJECTS_MOST]; // as committed
  uint32_t pending[CORES_MOST][OBJECTS_MOST];
} machine;

// The eight calls, each with the refusals that can apply. Number 10 cannot: a script has too few lines.

INLINE uint8_t *no_such_core(uint8_t *out) { return refused(out, machine.cores ? 4 : 2); }

// The answer where no attempt is in progress: there is no transaction, or it was set back and is told so now.
INLINE uint8_t *no_attempt(uint8_t *out, struct core *core) {
  static const char setback[16] = "setback -\n";
  if (core->status == NONE) return refused(out, 9);
  core->status = ACTIVE;
  return put(out, setback);
}

static uint8_t *setup(uint8_t *out, uint32_t cores, uint32_t objects) {
  static const char ready[16] = "ready -\n";
  memset(&machine, 0, sizeof machine);
  if (cores - 1 >= CORES_MOST || objects - 1 >= OBJECTS_MOST) return refused(out, 1);
  machine.cores = cores;
  machine.objects = objects;
  machine.tickets = (struct count)COUNT('0', '\n');
  return put(out, ready);
}

INLINE uint8_t *release(uint8_t *out, uint32_t c, uint32_t number, uint32_t deadline) {
  static const char running[16] = "running -\n", queued[16] = "queued -\n";
  if (c >= machine.cores) return no_such_core(out);
  struct core *core = &machine.core[c];
  if (core->jobs == JOBS_MOST) return refused(out, 6);
  uint8_t place = core->jobs++;
  core->job[place].number = number;
  core->job[place].deadline = deadline;
  if (place && deadline >= core->job[core->urgent].deadline) return put(out, queued);
  core->urgent = place;
  return core->status == NONE ? put(out, running) : put(out, queued);
}

INLINE uint8_t *begin(uint8_t *out, uint32_t c) {
  static const char begun[16] = "begun ";
  if (c >= machine.cores) return no_such_core(out);
  struct core *core = &machine.core[c];
  if (!core->jobs) return refused(out, 7);
  if (core->status != NONE) return refused(out, 8);
  core->status = ACTIVE;
  core->aborts = 0;
  machine.queue[machine.queued++] = (uint8_t)c;
  out = put_count(put(out, begun), machine.tickets);
  machine.tickets = next(machine.tickets, '\n');
  return out;
}

INLINE uint8_t *read_object(uint8_t *out, uint32_t c, uint32_t d) {
  static const char value[16] = "value ";
  if (c >= machine.cores) return no_such_core(out);
  if (d >= machine.objects) return refused(out, 5);
  if (machine.core[c].status != ACTIVE) return no_attempt(out, &machine.core[c]);
  machine.data_set[c] |= 1ull << d;
  return put_number(put(out, value), machine.write_set[c] >> d & 1 ? machine.pending[c][d] : machine.object[d].value);
}

INLINE uint8_t *write_object(uint8_t *out, uint32_t c, uint32_t d, uint32_t value) {
  static const char written[16] = "written -\n";
  if (c >= machine.cores) return no_such_core(out);
  if (d >= machine.objects) return refused(out, 5);
  if (machine.core[c].status != ACTIVE) return no_attempt(out, &machine.core[c]);
  machine.data_set[c] |= 1ull << d;
  machine.write_set[c] |= 1ull << d;
  machine.pending[c][d] = value;
  return put(out, written);
}

// Ends the transaction on core c, which stands at this place of the queue.
INLINE void end(uint32_t c, unsigned place) {
  machine.core[c].status = NONE;
  machine.data_set[c] = machine.write_set[c] = 0;
  memmove(machine.queue + place, machine.queue + place + 1, CORES_MOST);
  machine.queued--;
}

// Core c's place in the queue.
INLINE unsigned place_of(uint32_t c) {
  unsigned place = 0;
  while (machine.queue[place] != c) place++;
  return place;
}

// The place in the queue of the first core in conflict with core c's transaction; if no such one is before it, core c's place.
INLINE unsigned first_in_the_way(uint32_t c) {
  const uint64_t data_set = machine.data_set[c], write_set = machine.write_set[c];
  unsigned place = 0;
  for (unsigned other; (other = machine.queue[place]) != c; place++)
    if ((machine.data_set[other] & write_set) | (machine.write_set[other] & data_set)) break;
  return place;
}

// Sets back every transaction that has touched an object of the set.
INLINE void strike(uint64_t write_set) {
  for (uint32_t c = 0; c < machine.cores; c++) {
    if (!(machine.data_set[c] & write_set)) continue;
    machine.data_set[c] = machine.write_set[c] = 0;
    machine.core[c].aborts++;
    machine.core[c].status = ZOMBIE;
  }
}

INLINE uint8_t *commit(uint8_t *out, uint32_t c) {
  static const char committed[16] = "committed ";
  if (c >= machine.cores) return no_such_core(out);
  if (machine.core[c].status != ACTIVE) return no_attempt(out, &machine.core[c]);
  // A read-only one, its write set empty, waits for nobody.
  const uint64_t write_set = machine.write_set[c];
  const unsigned place = write_set ? first_in_the_way(c) : place_of(c), first = machine.queue[place];
  if (first != c) return waits(out, first);
  end(c, place);
  if (write_set) {
    for (uint64_t left = write_set; left; left &= left - 1) {
      int d = __builtin_ctzll(left);
      machine.object[d].value = machine.pending[c][d];
      machine.object[d].version++;
    }
    strike(write_set);
  }
  return put_number(put(out, committed), machine.core[c].aborts);
}

INLINE uint8_t *give_up(uint8_t *out, uint32_t c) {
  static const char ended[16] = "ended -\n";
  if (c >= machine.cores) return no_such_core(out);
  if (machine.core[c].status == NONE) return refused(out, 9);
  end(c, place_of(c));
  return put(out, ended);
}

INLINE uint8_t *finish(uint8_t *out, uint32_t c) {
  static const char finished[16] = "finished ";
  if (c >= machine.cores) return no_such_core(out);
  struct core *core = &machine.core[c];
  if (!core->jobs) return refused(out, 7);
  if (core->status != NONE) return refused(out, 8);
  uint32_t number = core->job[core->urgent].number;
  core->jobs--;
  for (int place = core->urgent; place < core->jobs; place++) core->job[place] = core->job[place + 1];
  core->urgent = 0;
  for (uint8_t place = 1; place < core->jobs; place++)
    if (core->job[place].deadline < core->job[core->urgent].deadline) core->urgent = place;
  return put_number(put(out, finished), number);
}

// ---- lines: each ends in a newline, so nothing is read past it but by a copy of fixed size

INLINE bool spells(const uint8_t *at, const char *text) { return !memcmp(at, text, strlen(text)); }

// Takes the digits of a number from its third on, and the byte that ends it; `two` are the digits before them.
INLINE const uint8_t *take_long(const uint8_t *at, uint32_t two, uint32_t *number, char end) {
  uint64_t n = two;
  int digits = 2;
  for (unsigned digit; (digit = *at - '0') <= 9; at++, digits++) n = 10 * n + digit;
  *number = (uint32_t)n;
  return digits <= DIGITS_MOST && n <= UINT32_MAX && *at == end ? at + 1 : NULL;
}

// Takes a number and the byte that ends it. Returns the place after them, or NULL where something else stands.
INLINE const uint8_t *take(const uint8_t *at, uint32_t *number, char end) {
  unsigned first = at[0] - '0', second = at[1] - '0';
  if (first > 9) return NULL;
  *number = first;
  if (at[1] == end) return at + 2;
  if (second > 9 || !first) return NULL;
  *number = 10 * first + second;
  return at[2] == end ? at + 3 : take_long(at + 2, *number, number, end);
}

// Where the next line starts, and where its answer goes.
struct places {
  const uint8_t *at;
  uint8_t *out;
};

INLINE const uint8_t *core_alone(const uint8_t *at, uint32_t *core) {
  return (at = take(at, core, ' ')) && spells(at, "- -\n") ? at + 4 : NULL;
}

INLINE const uint8_t *core_and_card(const uint8_t *at, uint32_t *core, uint32_t *card) {
  return (at = take(at, core, ' ')) && (at = take(at, card, ' ')) && spells(at, "-\n") ? at + 2 : NULL;
}

INLINE const uint8_t *all_three(const uint8_t *at, uint32_t *core, uint32_t *card, uint32_t *value) {
  return (at = take(at, core, ' ')) && (at = take(at, card, ' ')) ? take(at, value, '\n') : NULL;
}

// Makes the call of a line whose fields are call, core, card, value. The third letters of the calls differ in their four lowest
// binary digits.
INLINE struct places answer(const uint8_t *at, uint8_t *out) {
  const struct places malformed = {NULL, out};
  uint32_t core, card, value;
  switch (at[2] & 15) {
  case 'a' & 15:
    if (!spells(at, "read ") || !(at = core_and_card(at + 5, &core, &card))) return malformed;
    return (struct places){at, read_object(out, core, card)};
  case 'm' & 15:
    if (!spells(at, "commit ") || !(at = core_alone(at + 7, &core))) return malformed;
    return (struct places){at, commit(out, core)};
  case 'g' & 15:
    if (!spells(at, "begin ") || !(at = core_alone(at + 6, &core))) return malformed;
    return (struct places){at, begin(out, core)};
  case 'i' & 15:
    if (!spells(at, "write ") || !(at = all_three(at + 6, &core, &card, &value))) return malformed;
    return (struct places){at, write_object(out, core, card, value)};
  case 'n' & 15:
    if (!spells(at, "finish ") || !(at = core_alone(at + 7, &core))) return malformed;
    return (struct places){at, finish(out, core)};
  case 'l' & 15:
    if (!spells(at, "release ") || !(at = all_three(at + 8, &core, &card, &value)) || card > JOB_NUMBER_MOST) return malformed;
    return (struct places){at, release(out, core, card, value)};
  case 'v' & 15:
    if (!spells(at, "giveup ") || !(at = core_alone(at + 7, &core))) return malformed;
    return (struct places){at, give_up(out, core)};
  case 't' & 15:
    if (!spells(at, "setup ") || !(at = core_and_card(at + 6, &core, &card))) return malformed;
    return (struct places){at, setup(out, core, card)};
  }
  return malformed;
}

// ---- the script

enum name { CALL, CORE, CARD, VALUE, NAMES };
static const char *const names[NAMES] = {"call", "core", "card", "value"};

// What is kept between two chunks.
static struct {
  uint8_t name[NAMES]; // of each column
  bool named, usual;   // the names are known; they stand in the order above
  bool over;           // no line is read any more
  struct count line;   // the next line's number
} script = {.line = COUNT('1', ' ')};

// The number of the line that ends the run: 1000001.
static const uint64_t too_many = BYTE('1', 0) | BYTE('0', 1) | BYTE('0', 2) | BYTE('0', 3) |
                                 BYTE('0', 4) | BYTE('0', 5) | BYTE('1', 6) | BYTE(' ', 7);

// Whether a line is the line of names, which are kept.
static bool take_names(const uint8_t *at) {
  unsigned seen = 0;
  script.usual = true;
  for (int place = 0; place < NAMES; place++) {
    uint8_t name = 0;
    while (name < NAMES && !spells(at, names[name])) name++;
    if (name == NAMES || seen >> name & 1) return false;
    seen |= 1u << name;
    script.name[place] = name;
    script.usual &= name == place;
    at += strlen(names[name]);
    if (*at++ != (place < NAMES - 1 ? ' ' : '\n')) return false;
  }
  return true;
}

// A line in the usual order: the four fields, and what a copy of FIELD_MOST bytes of the last one may add.
enum { FIELD_MOST = 16, USUAL_MOST = NAMES * (FIELD_MOST + 1) + SLACK };

// Puts the fields of a line in the usual order and returns the place after it; or NULL, with an empty line, where they are not four
// or one is longer than any word or number.
static const uint8_t *in_usual_order(const uint8_t *at, uint8_t line[USUAL_MOST]) {
  const uint8_t *field[NAMES];
  size_t length[NAMES];
  line[0] = '\n';
  for (int place = 0; place < NAMES; place++) {
    const uint8_t *start = at;
    while (*at > ' ') at++;
    field[script.name[place]] = start;
    length[script.name[place]] = (size_t)(at - start);
    if (at - start > FIELD_MOST || *at++ != (place < NAMES - 1 ? ' ' : '\n')) return NULL;
  }
  for (int name = 0; name < NAMES; name++) {
    memcpy(line, field[name], FIELD_MOST);
    line += length[name];
    *line++ = name < VALUE ? ' ' : '\n';
  }
  return at;
}

INLINE const uint8_t *after_line(const uint8_t *at, const uint8_t *end) {
  return (const uint8_t *)memchr(at, '\n', (size_t)(end - at)) + 1;
}

// Runs the lines after the names line that stand from `at` to `end`.
INLINE uint8_t *run(const uint8_t *at, const uint8_t *end, uint8_t *out, bool usual) {
  struct count count = script.line;
  uint8_t line[USUAL_MOST] = {0};
  while (at < end && count.text != too_many) {
    const uint8_t *after = usual ? at : in_usual_order(at, line);
    out = put_count(out, count);
    count = next(count, ' ');
    struct places places = answer(usual ? at : line, out);
    out = places.at ? places.out : refused(out, 11);
    at = places.at ? (usual ? places.at : after) : after_line(at, end);
  }
  script.line = count;
  script.over = at < end;
  return script.over ? refused(put_count(out, count), 11) : out;
}

// Runs the lines from `at` to `end`, the first one of the script too.
static uint8_t *run_lines(const uint8_t *at, const uint8_t *end, uint8_t *out) {
  if (!script.named) {
    script.named = take_names(at);
    script.over = !script.named;
    if (script.over) return refused(put_count(out, script.line), 11);
    script.line = next(script.line, ' ');
    at = after_line(at, end);
  }
  return script.usual ? run(at, end, out, true) : run(at, end, out, false);
}

// ---- input and output

// An unfinished line may stand before a chunk. A chunk has no more lines than bytes, and one more line may end without a newline.
static uint8_t input[LINE_MOST + 1 + CHUNK + SLACK], output[ENOUGH + ANSWER_MOST * (CHUNK + 1) + SLACK];

static bool flush(const uint8_t *end) {
  for (const uint8_t *at = output; at < end;) {
    ssize_t put = write(STDOUT_FILENO, at, (size_t)(end - at));
    if (put < 0) return perror("peer: standard output"), false;
    at += put;
  }
  return true;
}

// Runs the lines that a chunk ends; it stands behind the `kept` bytes of an unfinished line. Returns how many bytes are kept now:
// of a line that is too long, one byte too many.
static size_t take_chunk(size_t kept, size_t got, uint8_t **out) {
  size_t length = kept + got, whole = length;
  while (whole > kept && input[whole - 1] != '\n') whole--;
  if (whole == kept) whole = 0;
  if (whole) *out = run_lines(input, input + whole, *out);
  kept = length - whole > LINE_MOST ? LINE_MOST + 1 : length - whole;
  memmove(input, input + whole, kept);
  return kept;
}

// Whether an unfinished line ends the run, whatever follows: it is the names line and too long, or line 1,000,001.
static bool decided(size_t kept) { return script.named ? kept && script.line.text == too_many : kept > LINE_MOST; }

int main(void) {
  static const char heading[] = "line answer value\n";
  uint8_t *out = output + sizeof heading - 1;
  size_t kept = 0;
  ssize_t got = 1;
  memcpy(output, heading, sizeof heading - 1);
  while (!script.over && !decided(kept) && (got = read(STDIN_FILENO, input + kept, CHUNK)) > 0) {
    kept = take_chunk(kept, (size_t)got, &out);
    if (out - output < ENOUGH) continue;
    if (!flush(out)) return 1;
    out = output;
  }
  if (got < 0) return perror("peer: standard input"), 1;
  if (!script.over && (kept || !script.named)) {
    input[kept] = '\n';
    out = run_lines(input, input + kept + 1, out);
  }
  return !flush(out);
}
