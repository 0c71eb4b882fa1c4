// Calls the functions of cards.h on lent bytes and looks at everything round them.
#ifndef LENT_H
#define LENT_H

#include <stddef.h>
#include <stdint.h>

// What a call did: the bytes it wrote, or in words what it did and must not do.
struct outcome {
  const uint8_t *written; // until the next call
  size_t length;
  const char *fault; // null: none
};

// The number of lines for which the output is measured: one more than the newlines, and no more than are read.
size_t lines_of(const uint8_t *script, size_t length);

// A function of cards.h that reads lent bytes and writes to lent ones. Returns how many bytes it says that it wrote.
typedef size_t lent_call(const uint8_t *input, size_t input_length, uint8_t *output, size_t output_length);

// One call. The input ends at a page that nobody may read; the output stands between canaries, with such a page behind them. A
// fault is: more said to be written than was lent, a canary or a byte past what was written changed, the input changed.
struct outcome lend(lent_call *call, const uint8_t *input, size_t input_length, size_t output_length);

// One call of cards_run.
struct outcome run_lent(const uint8_t *script, size_t script_length, size_t output_length);

// Calls with an output that is always enough, then exact, one byte larger, one byte smaller and empty ones, and holds all to what
// cards.h says. The bytes are kept until the next call.
struct outcome run_all_ways(const uint8_t *script, size_t script_length);

#endif
