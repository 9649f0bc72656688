/*
 * board.h - the line between firmware.c and the board that it runs on. What begins with board_ is the board's: host.c has it
 * for a session on standard input, and on a chip it is yours. What begins with tag_ is the firmware's, and the board calls it.
 *
 * Times on the line, as tMSR and tRSTL, are the makers' sheet's, by its names and with its numbers for the DS1922L and DS1922T.
 */
#ifndef BOARD_H
#define BOARD_H

#include <stdbool.h>

#include "bagtag.h"

/* Memory that outlives a power failure, RAM behind a battery or FRAM, and is read and written as RAM is: the library itself
 * stores into the image. It is all zeros on a board that never ran. */
struct kept {
    uint8_t image[BAGTAG_IMAGE];
    uint8_t records[2][BAGTAG_RECORD];
    uint8_t turn; /* which of the two records counts, 0 or 1 */
    uint8_t made; /* 1 once there is a tag */
};

extern struct kept board_kept;

/* Stores bytes into kept memory. It returns when they are there, so that what is stored later is never there without them. A
 * single byte is there or not: nothing is asked of more than one. */
void board_store(void *to, const void *from, size_t length);

/* Which tag this is: the registration number and the code that it was made with. */
uint64_t board_number(void);
uint8_t board_code(void);

/* The sensor's reading, as bagtag_event takes it. */
uint16_t board_reading(void);

/* How the next slot is to be answered, from its first edge on: 0 holds the line low until the master has sampled it, which is
 * within tMSR, 15 microseconds, at overdrive 1.95; 1 lets it go. And whether the tag is at overdrive from now on, by which the
 * board takes its times. */
void board_ready(uint8_t bit, bool overdrive);

/* What an event gave. After a reset with line 0 the board sends the presence pulse, tPDH after the line was let go: 15 to 60
 * microseconds, at overdrive 2 to 7. It need not wait for this call: every reset gives 0, and a short one does at overdrive. Of
 * a slot board_ready has said all, and an answer that is not BAGTAG_OK is for whoever looks for faults. */
void board_answer(uint8_t answer, uint8_t line);

/* Between the two, no interrupt calls tag_on_line or tag_on_second. An edge or a second that comes meanwhile is answered and
 * served afterwards. */
void board_lock(void);
void board_unlock(void);

/* Sleeps until an interrupt has been served since it was last called: one that came meanwhile counts, so that no second waits
 * for the next. On a chip it returns true; false ends tag_main. */
bool board_sleep(void);

/* From power-up on. Answers as bagtag_new does, if that refuses to make the tag. */
uint8_t tag_main(void);

/* For the line's interrupt: what has just ended there, by the codes of bagtag_event. The board tells a slot held low from one
 * let go by sampling the line, after tW1L and before tW0L: between 15 and 60 microseconds from its edge, at overdrive between
 * 1.95 and 6. It tells a reset by how long the line was low, tRSTL: 480 microseconds or more, and for a short one 48 to 80, at
 * overdrive; at standard speed a slot held low may be as long as that. Of a slot that the board itself holds low, either code
 * will do: the tag sends, and leaves the same after both. */
void tag_on_line(uint8_t code);

/* For the interrupt of a timer of one second. */
void tag_on_second(void);

#endif
