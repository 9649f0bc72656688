/* For a machine with no C headers: what the programs in C here use of stdlib.h. */
#ifndef TESTS_STDLIB_H
#define TESTS_STDLIB_H

unsigned long strtoul(const char *text, char **end, int base);

#endif
