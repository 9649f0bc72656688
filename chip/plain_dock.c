/*
 * The plain C program's listing of a dump as a function, without the program's input and output: what chip/size holds the library
 * against. It keeps the dump's data bytes in a variable of its own, the library keeps them on the stack.
 */
#define main static __attribute__((unused)) main_of_the_program
#include "../bench/plain_list.c"

uint8_t plain_list(const char *dump, size_t length, struct mission *mission, int32_t *temperatures, size_t lent)
{
    return read_dump(dump, length, mission, temperatures, lent);
}
