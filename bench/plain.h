/*
 * What the plain programs use of C's library: from the system's headers where there are any, else declared here.
 * The Rattle kit's compiler brings a C library for x86-64 to link and no headers (bench/run builds with it).
 */
#ifndef PLAIN_H
#define PLAIN_H

#if __has_include(<unistd.h>)

#include <errno.h>
#include <stdbool.h>
#include <stddef.h>
#include <stdint.h>
#include <stdio.h>
#include <string.h>
#include <unistd.h>

#else

typedef __UINT8_TYPE__ uint8_t;
typedef __UINT16_TYPE__ uint16_t;
typedef __UINT32_TYPE__ uint32_t;
typedef __UINT64_TYPE__ uint64_t;
typedef __INT32_TYPE__ int32_t;
typedef __INT64_TYPE__ int64_t;
typedef __SIZE_TYPE__ size_t;
typedef __INTPTR_TYPE__ ssize_t;

#define NULL ((void *)0)
#define bool _Bool
#define true 1
#define false 0
#define STDIN_FILENO 0
#define STDOUT_FILENO 1
#define EINTR 4
#define errno (*__errno_location())

typedef struct _IO_FILE FILE;
extern FILE *stdin, *stdout;

int *__errno_location(void);
ssize_t read(int file, void *block, size_t length);
ssize_t write(int file, const void *block, size_t length);
void *memcpy(void *to, const void *from, size_t length);
void *memmove(void *to, const void *from, size_t length);
void *memset(void *to, int byte, size_t length);
int memcmp(const void *one, const void *other, size_t length);
size_t fread(void *to, size_t size, size_t count, FILE *file);
size_t fwrite(const void *from, size_t size, size_t count, FILE *file);
int fflush(FILE *file);

#endif

#endif
