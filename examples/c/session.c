/*
 * session.c - a tag driven by a session, by bagtag_event, or by bagtag_events in lists of so many words.
 *
 *     session [WORDS]
 *
 * Standard input and output are those of the program play: eight ROM bytes, low first, and the code, then three bytes an event,
 * its code and the reading, high byte first; 0 or 1 and a line feed for each event, or R, a refusal's number in two digits and
 * a line feed, and the end. Exit status: 0 done, 1 refused, 2 used wrongly.
 */
#include <stdbool.h>
#include <stdio.h>
#include <stdlib.h>

#include "bagtag.h"

#define MOST_WORDS 4096
#define WORD_OF_TICK 4096 /* and its reading */
#define LARGEST_READING 2047

struct event {
    uint8_t code;
    uint16_t reading;
};

static uint8_t image[BAGTAG_IMAGE], record[BAGTAG_RECORD];

static void print_refusal(uint8_t answer)
{
    printf("R%02d\n", answer);
}

static bool take_event(struct event *event)
{
    uint8_t bytes[3];

    if (fread(bytes, 1, sizeof bytes, stdin) != sizeof bytes)
        return false;
    event->code = bytes[0];
    event->reading = (uint16_t)(bytes[1] << 8 | bytes[2]);
    return true;
}

static uint8_t make_tag(void)
{
    uint8_t head[9] = {0}; /* missing bytes stay 0 */
    uint64_t number = 0;
    size_t taken = fread(head, 1, sizeof head, stdin);

    while (taken > 0)
        if (--taken < 8)
            number |= (uint64_t)head[taken] << 8 * taken;
    return bagtag_new(image, sizeof image, record, sizeof record, number, head[8]);
}

/* One event; its bit or its refusal is printed. Answers as the call does. */
static uint8_t play_event(struct event event)
{
    uint8_t line;
    uint8_t answer = bagtag_event(image, sizeof image, record, sizeof record, event.code, event.reading, &line);

    if (answer == BAGTAG_OK)
        printf("%d\n", line);
    else
        print_refusal(answer);
    return answer;
}

static uint8_t play_singly(void)
{
    struct event event;
    uint8_t answer = BAGTAG_OK;

    while (answer == BAGTAG_OK && take_event(&event))
        answer = play_event(event);
    return answer;
}

/* An event that is refused becomes a word that is, and never another event: 4096 and a large reading would not fit. */
static uint16_t word_of(struct event event)
{
    if (event.code != BAGTAG_TICK)
        return event.code;
    return event.reading <= LARGEST_READING ? (uint16_t)(WORD_OF_TICK + event.reading) : BAGTAG_TICK;
}

/* One list. A list ends at a word that is no event with 1, whatever is wrong with it: bagtag_event has the number. */
static uint8_t play_list(const struct event *events, size_t count)
{
    static uint16_t words[MOST_WORDS];
    static uint8_t replies[MOST_WORDS];
    size_t done;
    uint8_t answer;

    for (size_t i = 0; i < count; i++)
        words[i] = word_of(events[i]);
    answer = bagtag_events(image, sizeof image, record, sizeof record, words, count, replies, count, &done);
    for (size_t i = 0; i < done; i++)
        printf("%d\n", replies[i]);
    return answer == BAGTAG_BAD_EVENT ? play_event(events[done]) : answer;
}

static uint8_t play_in_lists(size_t most)
{
    static struct event events[MOST_WORDS];
    uint8_t answer = BAGTAG_OK;
    size_t count = most;

    while (answer == BAGTAG_OK && count == most) {
        for (count = 0; count < most && take_event(&events[count]);)
            count++;
        answer = play_list(events, count);
    }
    return answer;
}

int main(int count, char **words)
{
    size_t most = count == 2 ? strtoul(words[1], NULL, 10) : 0;
    uint8_t answer;

    if (count > 2 || most > MOST_WORDS || (count == 2 && most == 0)) {
        fprintf(stderr, "usage: session [WORDS] < SESSION, with at most %d words in a list\n", MOST_WORDS);
        return 2;
    }
    answer = make_tag();
    if (answer != BAGTAG_OK)
        print_refusal(answer);
    else
        answer = most > 0 ? play_in_lists(most) : play_singly();
    return answer != BAGTAG_OK;
}
