/* For a machine with no C headers: what include/bagtag.h and the programs in C here use of stddef.h. */
#ifndef TESTS_STDDEF_H
#define TESTS_STDDEF_H

typedef __SIZE_TYPE__ size_t;

#ifdef __cplusplus
#define NULL __null
#else
#define NULL ((void *)0)
#endif

#endif
