/*
 * Plays events to a new line of tags, by the function on_a_line of line.rattle or apart.rattle beside it.
 *
 * Standard input is that of shed: the count; for each tag eight ROM bytes and the code; then four bytes an event.
 * Standard output: the number of the first refusal, 0 if there is none; a byte for each event, its line bit; the block, which is 55h
 * before.
 */
#include "plain.h"

#define IMAGE 8832
#define TAGS_MOST 7
#define EVENTS_MOST (1 << 20)
#define UNUSED_BLOCK 0x55

uint8_t on_a_line(uint8_t *block, size_t block_length, const uint64_t *numbers, size_t numbers_length, const uint8_t *codes,
                  size_t codes_length, const uint8_t *events, size_t events_length, uint8_t *replies, size_t replies_length);

static uint8_t block[TAGS_MOST * IMAGE], events[4 * EVENTS_MOST], replies[EVENTS_MOST];

int main(void)
{
    uint64_t numbers[TAGS_MOST];
    uint8_t codes[TAGS_MOST], count, answer;
    size_t length, played;

    if (fread(&count, 1, 1, stdin) != 1 || count > TAGS_MOST)
        return 2;
    for (size_t place = 0; place < count; place++)
        if (fread(&numbers[place], 1, 8, stdin) != 8 || fread(&codes[place], 1, 1, stdin) != 1)
            return 2;
    length = count * (size_t)IMAGE;
    memset(block, UNUSED_BLOCK, length);
    played = fread(events, 4, EVENTS_MOST, stdin);
    answer = on_a_line(block, length, numbers, count, codes, count, events, 4 * played, replies, played);
    return fwrite(&answer, 1, 1, stdout) == 1 && fwrite(replies, 1, played, stdout) == played &&
           fwrite(block, 1, length, stdout) == length && fflush(stdout) == 0 ? 0 : 2;
}
