/*
 * firmware.c - a tag as firmware has it: an interrupt for the line, one for each second, a main loop, and memory that outlives
 * a power failure. board.h has what it needs of a board.
 *
 * THE RECORD OVER A POWER FAILURE. Refusal 6 asks a record's ranges alone, so that one half overwritten may pass for another.
 * So kept memory has two of them and a mark that says which one counts. After an event the other is written, and then the mark,
 * a single byte, turns. Wherever the power fails, the mark leads to a record that was written whole: the one before the event,
 * or the one after it.
 *
 * THE IMAGE OVER A POWER FAILURE. There is one image, and a call changes it in place, in no order that is promised. A power
 * failure within a call may leave any part of what the call changes: a clock whose seconds are 00 again and whose minutes are
 * not one more; a page half stored by a Copy, perhaps with half of a new password; an entry of the log without its count, or
 * counted and not there; a mission's flags in part. Nothing notices it, as 6 looks at the record alone. A failure after the
 * call and before the mark turns leaves the image after the event with the record before it: a tick has moved the clock and
 * not the wait for the next conversion; and one that converted does so again a second later, with an entry too many.
 *
 * Where that is too much, keep two images as well. Give each event to the idle image and record, turn the mark, and give the
 * same event to the other two: a call keeps nothing and leaves nothing to chance, so they stay alike. At power-up copy the
 * image and record that count over the others.
 *
 * WHAT IS LOST ANYWAY. Seconds without power don't count, and the clock goes slow by them. A slot that the master saw may be
 * forgotten: the tag is then a slot behind until the next reset, which is what every master begins with.
 *
 * TIME, by the makers' sheet. A 0 that the tag sends must be on the line while the master still holds it low, for tRL, which
 * may be as short as 5 microseconds, at overdrive 1; a call takes longer (chip/README.md counts its instructions). So each slot
 * is worked out after the one before it, while nothing waits, and the edge only takes what is ready (look_ahead). What comes
 * after a slot, two calls and 81 bytes to store, must be over when the next begins, and so must a tick, when a master is at
 * work: from one slot's edge to the next it is tSLOT, 65 microseconds or more, at overdrive 9.5 or more, as the master likes.
 * Where the tag sends, one call can be saved: the record that look_ahead made is the one that the slot leaves, whatever the
 * master did.
 */
#include "board.h"

#include <string.h>

/* The record that counts, as it goes into a call and comes back. */
static uint8_t record[BAGTAG_RECORD];

/* Seconds that have passed and were not yet given to the tag. */
static volatile uint8_t seconds;

static void keep_record(void)
{
    uint8_t idle = !board_kept.turn;

    board_store(board_kept.records[idle], record, sizeof record);
    board_store(&board_kept.turn, &idle, sizeof idle);
}

/* The speed in a record's part MODE. */
enum { OVERDRIVE = 2 };

/* Makes the next slot's answer ready. A slot in which the tag sends leaves the image as it is; one that it hears may change it,
 * and is not worked out ahead. */
static void look_ahead(void)
{
    uint8_t ahead[BAGTAG_RECORD], bit = 1;

    if (BAGTAG_SENDS(record)) {
        memcpy(ahead, record, sizeof ahead);
        bagtag_event(board_kept.image, sizeof board_kept.image, ahead, sizeof ahead, BAGTAG_SLOT_FREE, 0, &bit);
    }
    board_ready(bit, record[BAGTAG_AT_MODE] & OVERDRIVE);
}

/* An event, and all that belongs to it. No two may run at once, since they are lent the same bytes: it is called by the line's
 * interrupt, and elsewhere between board_lock and board_unlock. The answer goes out first, because the master waits for it. */
static void happen(uint8_t code, uint16_t reading)
{
    uint8_t line;
    uint8_t answer = bagtag_event(board_kept.image, sizeof board_kept.image, record, sizeof record, code, reading, &line);

    board_answer(answer, line);
    if (answer == BAGTAG_OK) {
        keep_record();
        look_ahead();
    }
}

/* The mark that there is a tag comes last: a power failure before it, and the tag is made anew. */
static uint8_t make_tag(void)
{
    const uint8_t made = 1;
    uint8_t answer = bagtag_new(board_kept.image, sizeof board_kept.image, record, sizeof record, board_number(), board_code());

    if (answer == BAGTAG_OK) {
        keep_record();
        board_store(&board_kept.made, &made, sizeof made);
    }
    return answer;
}

static uint8_t power_up(void)
{
    uint8_t answer = BAGTAG_OK;

    board_lock();
    seconds = 0;
    if (board_kept.made)
        memcpy(record, board_kept.records[board_kept.turn], sizeof record);
    else
        answer = make_tag();
    look_ahead();
    board_unlock();
    return answer;
}

/* The sensor may take long, so it is read before the lock. */
static void do_seconds(void)
{
    while (seconds) {
        uint16_t reading = board_reading();

        board_lock();
        seconds--;
        happen(BAGTAG_TICK, reading);
        board_unlock();
    }
}

void tag_on_line(uint8_t code)
{
    happen(code, 0);
}

void tag_on_second(void)
{
    seconds++;
}

uint8_t tag_main(void)
{
    uint8_t answer = power_up();

    while (answer == BAGTAG_OK && board_sleep())
        do_seconds();
    return answer;
}
