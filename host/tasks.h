// Calls of cards_run while another is under way.
#ifndef TASKS_H
#define TASKS_H

// Both run the script many times and hold each listing to the expected one. Null: all were the same; else what went wrong.

// From several threads at once, each with an output of its own.
const char *in_threads(const char *script, const char *expected);

// From a signal handler, on a stack of CARDS_STACK_ENOUGH bytes and what the system needs, that interrupts calls and makes one of its own.
const char *in_handler(const char *script, const char *expected);

#endif
