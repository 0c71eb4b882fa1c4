// Calls of the functions of cards.h whose results are known.
#ifndef SELFTEST_H
#define SELFTEST_H

// Prints a line for each check that fails, and how many there were. Returns how many failed.
int selftest(void);

#endif
