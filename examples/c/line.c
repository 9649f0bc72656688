/*
 * line.c - several tags on one line, driven by a session: a board in a shed that carries them.
 *
 * Standard input and output are those of the program shed: the count; for each tag eight ROM bytes, low first, and the code; then
 * four bytes an event, its code, the place of its tag and the reading, high byte first; 0 or 1 and a line feed for each event, or
 * R, a refusal's number in two digits and a line feed, and the end. Exit status: 0 done, 1 refused.
 */
#include <stdbool.h>
#include <stdio.h>

#include "bagtag.h"

/* Room for one tag too many, which is refused. */
static uint8_t block[BAGTAG_IMAGE * (BAGTAG_LINE_TAGS + 1)], records[BAGTAG_RECORD * (BAGTAG_LINE_TAGS + 1)];
static uint8_t count;

/* Whether all of it is there; what is missing stays as it was. */
static bool take(void *to, size_t length)
{
    return fread(to, 1, length, stdin) == length;
}

static uint8_t make_line(void)
{
    uint64_t numbers[BAGTAG_LINE_TAGS + 1] = {0};
    uint8_t codes[BAGTAG_LINE_TAGS + 1] = {0};

    take(&count, sizeof count);
    if (count > BAGTAG_LINE_TAGS)
        count = BAGTAG_LINE_TAGS + 1;
    for (uint8_t place = 0; place < count; place++) {
        uint8_t head[9] = {0};

        take(head, sizeof head);
        for (int i = 0; i < 8; i++)
            numbers[place] |= (uint64_t)head[i] << 8 * i;
        codes[place] = head[8];
    }
    return bagtag_line_new(block, BAGTAG_IMAGE * count, records, BAGTAG_RECORD * count, numbers, count, codes, count);
}

static uint8_t play_event(const uint8_t *event, uint8_t *line)
{
    return bagtag_line_event(block, BAGTAG_IMAGE * count, records, BAGTAG_RECORD * count, count, event[0], event[1],
                             (uint16_t)(event[2] << 8 | event[3]), line);
}

int main(void)
{
    uint8_t answer = make_line(), event[4], line;

    while (answer == BAGTAG_OK && take(event, sizeof event)) {
        answer = play_event(event, &line);
        if (answer == BAGTAG_OK)
            printf("%d\n", line);
    }
    if (answer != BAGTAG_OK)
        printf("R%02d\n", answer);
    return answer != BAGTAG_OK;
}
