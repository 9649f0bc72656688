/*
 * What the library needs of a C library, for a firmware that has none: chip/build lists the names. Plain loops over bytes. Each is weak,
 * so that one of the same name in the firmware, or in a part of a C library, takes its place.
 *
 * Built with -fno-builtin: else the compiler makes calls of these very functions out of the loops.
 */
#include <stddef.h>
#include <stdint.h>

#define WEAK __attribute__((weak))

WEAK void *memcpy(void *to, const void *from, size_t length)
{
    uint8_t *bytes = to;
    const uint8_t *others = from;

    for (size_t i = 0; i < length; i++)
        bytes[i] = others[i];
    return to;
}

WEAK void *memmove(void *to, const void *from, size_t length)
{
    uint8_t *bytes = to;
    const uint8_t *others = from;

    if (bytes < others)
        return memcpy(to, from, length);
    for (size_t i = length; i > 0; i--)
        bytes[i - 1] = others[i - 1];
    return to;
}

WEAK void *memset(void *to, int byte, size_t length)
{
    uint8_t *bytes = to;

    for (size_t i = 0; i < length; i++)
        bytes[i] = (uint8_t)byte;
    return to;
}

#ifdef __ARM_EABI__

/* The run-time ABI of 32-bit Arm has names of its own, by the alignment that the compiler knows, and another order of arguments. */
#define FOR_ALIGNMENT(ending)                                                                       \
    WEAK void __aeabi_memcpy##ending(void *to, const void *from, size_t length)                     \
    {                                                                                               \
        memcpy(to, from, length);                                                                   \
    }                                                                                               \
    WEAK void __aeabi_memmove##ending(void *to, const void *from, size_t length)                    \
    {                                                                                               \
        memmove(to, from, length);                                                                  \
    }                                                                                               \
    WEAK void __aeabi_memset##ending(void *to, size_t length, int byte)                             \
    {                                                                                               \
        memset(to, byte, length);                                                                   \
    }                                                                                               \
    WEAK void __aeabi_memclr##ending(void *to, size_t length)                                       \
    {                                                                                               \
        memset(to, 0, length);                                                                      \
    }

FOR_ALIGNMENT()
FOR_ALIGNMENT(4)
FOR_ALIGNMENT(8)

#endif
