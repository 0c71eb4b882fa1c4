// The functions of cards.h on sheets.
#ifndef SHEETS_H
#define SHEETS_H

#include "lent.h"

// So many bytes are enough for the text of a sheet's levels: a line is at most "65535 32 32\n".
enum { LEVELS_TEXT = 400 };

// The levels of a sheet as text, one task a line, or the line of its refusal. Returns how many bytes that is.
size_t levels_text(const uint8_t *sheet, size_t sheet_length, char text[LEVELS_TEXT]);

// The constant table of the shipped sheet, as text.
size_t shipped_text(char text[LEVELS_TEXT]);

// The shipped sheet into lent bytes; the input is not used.
lent_call shipped_call;

// cards_levels with no word lent, one, and so on to some more than any sheet needs, each held to what cards.h says. The words are kept
// until the next call.
struct outcome levels_all_ways(const uint8_t *sheet, size_t sheet_length);

#endif
