/* For a machine with no C headers: what the programs in C here use of string.h. */
#ifndef TESTS_STRING_H
#define TESTS_STRING_H

#include <stddef.h>

void *memcpy(void *to, const void *from, size_t length);
void *memset(void *to, int byte, size_t length);
int memcmp(const void *one, const void *other, size_t length);

#endif
