/* For a machine with no C headers: what tests/driver/library.c uses of sys/mman.h, by the numbers of Linux on x86-64. */
#ifndef TESTS_MMAN_H
#define TESTS_MMAN_H

#include <stddef.h>

#define PROT_NONE 0
#define PROT_READ 1
#define PROT_WRITE 2
#define MAP_PRIVATE 0x02
#define MAP_ANONYMOUS 0x20
#define MAP_FAILED ((void *)-1)

void *mmap(void *at, size_t length, int protection, int flags, int file, long offset);
int mprotect(void *at, size_t length, int protection);

#endif
