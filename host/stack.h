// Stack that calls of the functions of cards.h take.
#ifndef STACK_H
#define STACK_H

#include <stddef.h>
#include <stdint.h>

// Bytes below the caller's frame that a call touches: into an output that is always enough, into one of the listing's length, and into
// one that is a byte too small.
struct stack_need {
  size_t one_pass, two_passes, refused;
};

struct stack_need stack_need(const uint8_t *script, size_t script_length);

// The same for cards_levels, into CARDS_LEVELS_WORDS words.
size_t levels_stack(const uint8_t *sheet, size_t sheet_length);

#endif
