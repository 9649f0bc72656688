/*
 * host.c - a board for firmware.c that is no chip: its line and its seconds are a session on standard input, and its power can
 * fail.
 *
 *     firmware [EVERY BYTES]
 *
 * Standard input is what the program play takes: eight ROM bytes, low first, and the code, then three bytes an event, its code
 * and the reading, high byte first. Standard output is what play prints: 0 or 1 and a line feed for each event; for a refusal
 * R, its number in two digits and a line feed, and the end.
 *
 * With EVERY and BYTES the power fails in the making of the tag and in each EVERY-th event, when the board has stored so many
 * bytes of it. From 0, right after the call, to 80, with the mark not yet turned, the event is lost, and comes again when the
 * power is back; with 81 or more the power fails after the event, and nothing is lost.
 *
 * Exit status: 0 done, 1 refused, 2 used wrongly, 3 the edge of a slot found another bit ready than the tag's, a short reset
 * another speed, or what was locked was locked again.
 */
#include "board.h"

#include <stdio.h>
#include <stdlib.h>

/* The event that came last, and how far it is. */
static struct {
    uint8_t code;
    uint16_t reading;
    unsigned long number; /* from 1 on; 0 while the tag is made */
    uint8_t ready;        /* what its edge found */
    bool overdrive;       /* and at which speed */
    bool is_given;        /* the firmware has it, and it is not printed yet */
    bool is_answered;
    uint8_t answer, line;
} event;

static uint8_t head[9];
static bool powered, locked, at_fault, is_refused;
static uint8_t ready;
static bool ready_overdrive;

/* Which events the power fails in, and where; how many bytes of this one are stored, and whether the power has failed in it. */
static unsigned long every, at, stored;
static bool has_failed;

struct kept board_kept;

/* ---- power and kept memory */

static bool fails_here(void)
{
    return every > 0 && event.number % every == 0 && !has_failed;
}

static void fail(void)
{
    has_failed = true;
    powered = event.is_answered = false;
}

/* Without power nothing is stored. What the firmware goes on to do has no effect: it runs on to board_sleep, which ends it. */
void board_store(void *to, const void *from, size_t length)
{
    uint8_t *byte = to;
    const uint8_t *source = from;

    for (size_t i = 0; i < length; i++) {
        if (powered && fails_here() && stored == at)
            fail();
        if (!powered)
            return;
        byte[i] = source[i];
        stored++;
    }
}

/* ---- the line, the timer and the sensor */

uint64_t board_number(void)
{
    uint64_t number = 0;

    for (int i = 7; i >= 0; i--)
        number = number << 8 | head[i];
    return number;
}

uint8_t board_code(void)
{
    return head[8];
}

uint16_t board_reading(void)
{
    return event.reading;
}

void board_ready(uint8_t bit, bool overdrive)
{
    ready = bit;
    ready_overdrive = overdrive;
}

void board_answer(uint8_t answer, uint8_t line)
{
    event.is_answered = true;
    event.answer = answer;
    event.line = line;
}

void board_lock(void)
{
    at_fault |= locked;
    locked = true;
}

void board_unlock(void)
{
    at_fault |= !locked;
    locked = false;
}

/* ---- events */

/* Missing bytes are 0, as they are for play. */
static void take_head(void)
{
    size_t taken = fread(head, 1, sizeof head, stdin);

    while (taken < sizeof head)
        head[taken++] = 0;
}

static bool take_event(void)
{
    uint8_t bytes[3];

    if (fread(bytes, 1, sizeof bytes, stdin) != sizeof bytes)
        return false;
    event.code = bytes[0];
    event.reading = (uint16_t)(bytes[1] << 8 | bytes[2]);
    event.number++;
    has_failed = false;
    return true;
}

/* By the interrupt that it comes from: the timer's for a tick, the line's for the others. */
static void give_event(void)
{
    event.is_given = true;
    event.is_answered = false;
    event.ready = ready;
    event.overdrive = ready_overdrive;
    stored = 0;
    at_fault |= locked;
    if (event.code == BAGTAG_TICK)
        tag_on_second();
    else
        tag_on_line(event.code);
}

/* Of a slot by its bit; of a short reset by the presence, which there is at overdrive alone. */
static bool is_as_readied(void)
{
    switch (event.code) {
    case BAGTAG_SLOT_LOW:
    case BAGTAG_SLOT_FREE:
        return event.line == (event.ready & event.code);
    case BAGTAG_SHORT_RESET:
        return event.line == !event.overdrive;
    default:
        return true;
    }
}

static void end_event(void)
{
    if (event.answer == BAGTAG_OK)
        printf("%d\n", event.line);
    else
        printf("R%02d\n", event.answer);
    is_refused = event.answer != BAGTAG_OK;
    at_fault |= !is_refused && !is_as_readied();
    event.is_given = false;
    if (fails_here())
        fail();
}

/* An event that the power failed in is still given, and comes again. */
bool board_sleep(void)
{
    if (powered && event.is_given && event.is_answered)
        end_event();
    if (!powered || is_refused || at_fault || (!event.is_given && !take_event()))
        return false;
    give_event();
    return true;
}

int main(int count, char **words)
{
    uint8_t answer;

    if (count == 3) {
        every = strtoul(words[1], NULL, 10);
        at = strtoul(words[2], NULL, 10);
    }
    if (count != 1 && every == 0) {
        fprintf(stderr, "usage: firmware [EVERY BYTES] < SESSION\n");
        return 2;
    }
    take_head();
    do {
        powered = true;
        answer = tag_main();
    } while (answer == BAGTAG_OK && !powered);
    if (answer != BAGTAG_OK)
        printf("R%02d\n", answer);
    return at_fault ? 3 : is_refused || answer != BAGTAG_OK;
}
