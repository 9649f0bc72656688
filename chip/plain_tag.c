/*
 * The plain C program's tag as functions for a firmware, without the program's input and output: what chip/size holds the library
 * against. It checks what the library checks, and packs nothing: its record is a struct.
 */
#define plain_main static __attribute__((unused)) main_of_the_program
#define in_lists static __attribute__((unused)) lists_of_the_program
#include "../bench/plain_lists.c"

uint8_t plain_new(struct tag *made, uint8_t *lent, size_t size, const uint8_t *rom, uint8_t code)
{
    return new_tag(made, lent, size, rom, code);
}

uint8_t plain_event(struct tag *made, uint8_t *lent, size_t size, uint8_t code, uint16_t reading, unsigned *line)
{
    return play_event(made, lent, size, code, reading, line);
}

/* To the one tag that plain_lists.c has. */
uint8_t plain_events(uint8_t *lent, size_t size, const uint16_t *words, size_t count, uint8_t *replies, size_t room,
                     uint32_t *done)
{
    return play_list(lent, size, words, count, replies, room, done);
}
