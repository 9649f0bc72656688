/* For a machine with no C headers: what the programs in C here use of stdbool.h. */
#ifndef TESTS_STDBOOL_H
#define TESTS_STDBOOL_H

#define bool _Bool
#define true 1
#define false 0

#endif
