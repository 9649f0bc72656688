/*
 * bagtag.h - the temperature tag and the dock's listing, for C99 and C++.
 *
 * The library behind this header is compiled from proved code: every call answers whatever it is given, by a number of the table
 * below, returns, and touches no memory but what is lent to it. It keeps nothing between calls, has no globals, allocates nothing
 * and needs of a C library only memcpy and memset (on 32-bit Arm by the names of its run-time ABI, which chip/build lists). It can
 * be called from an interrupt, and for several tags at once, as long as no two calls that run at the same time are lent the same
 * bytes. A call of bagtag_list takes some 25,000 bytes of stack, one to a line of several tags 3,800, every other about a thousand;
 * chip/size tells it for each chip.
 *
 * WHO OWNS WHICH MEMORY. All memory is the caller's. A call uses what it is lent until it returns, and keeps no pointer. A pointer
 * goes with its length: that many elements must be there to be read, and to be written where the pointer is not const; with length
 * 0 any pointer but NULL will do. No two pointers of one call may lead to the same bytes. Bytes that a refusal leaves as they were
 * may be stored again all the same, with the value that they have. A tag is two pieces of memory:
 *
 *   the image     BAGTAG_IMAGE bytes: user memory, registers, calibration and the log
 *   the record    BAGTAG_RECORD bytes: everything else, packed as told below
 *
 * bagtag_new fills both. Any event may change both; keep them together, as they were left by the same call, over whatever may end
 * the power (examples/c/firmware.c shows how, and what a failure within a call can cost). Bytes need no alignment; words, numbers,
 * temperatures and done are aligned as their types ask.
 *
 * Several tags on one line are two pieces of memory too: a block, in which the images stand one behind the other, and the records
 * likewise. Places count from 0: the tag at place i has BAGTAG_IMAGE bytes of the block from BAGTAG_IMAGE * i on, and BAGTAG_RECORD
 * bytes of the records from BAGTAG_RECORD * i on, as the calls for one tag have them. bagtag_line_new fills both.
 *
 * LENGTHS are size_t, as everywhere in C. On a 32-bit chip the functions behind this header take 64 bits for each, and chip/ brings
 * a thin wrapper, compiled into the library there, that hides it: the declarations below hold on every machine that the library is
 * made for.
 */
#ifndef BAGTAG_H
#define BAGTAG_H

#include <stddef.h>
#include <stdint.h>

#ifdef __cplusplus
extern "C" {
#endif

/* ---- sizes */

#define BAGTAG_IMAGE 8832
#define BAGTAG_RECORD 80
#define BAGTAG_HEAD 28
/* The most entries that a log holds: with so many places, bagtag_list is never short of one. */
#define BAGTAG_PLACES 8192
/* A dump: 258 lines of 73 characters. */
#define BAGTAG_DUMP 18834
/* The most tags on one line. */
#define BAGTAG_LINE_TAGS 7

/* ---- answers: BAGTAG_OK, or why a call was refused */

#define BAGTAG_OK 0             /* done */
#define BAGTAG_BAD_EVENT 1      /* an event code above 4, or a list's word that is no event */
#define BAGTAG_BAD_READING 2    /* a tick with a reading above 2047 */
#define BAGTAG_BAD_IMAGE 3      /* an image of another length than BAGTAG_IMAGE, or a block than that for each tag of a line */
#define BAGTAG_BAD_NUMBER 4     /* a registration number whose low byte is not 41h, or whose CRC-8 is wrong */
#define BAGTAG_BAD_CODE 5       /* a configuration code that is not 40h or 60h */
#define BAGTAG_BAD_RECORD 6     /* a record of another length or version, coded as no record is, or out of its ranges */
#define BAGTAG_DUMP_FORM 7      /* a dump of another length, or a line that is not 72 digits and a line feed */
#define BAGTAG_DUMP_CRC 8       /* a dump's line whose CRC is wrong */
#define BAGTAG_DUMP_PAGE 9      /* a dump's line with another page than its place asks */
#define BAGTAG_DUMP_CLEARED 10  /* a dump in which MEMCLR is 1: nothing was logged since a Clear */
#define BAGTAG_DUMP_COUNTS 11   /* a dump whose registers can't be those of a mission */
#define BAGTAG_FEW_PLACES 12    /* fewer places than entries held, or a head that is too short */
#define BAGTAG_SAME_NUMBER 13   /* two tags of a line with the same number */
#define BAGTAG_BAD_PLACE 14     /* a line of no tag, or of more than BAGTAG_LINE_TAGS, or a tick for a place that has none */
#define BAGTAG_FEW_REPLIES 17   /* fewer reply bytes than words */

/* ---- events, for bagtag_event and bagtag_line_event */

#define BAGTAG_SLOT_LOW 0       /* a slot in which the master holds the line low */
#define BAGTAG_SLOT_FREE 1      /* a slot in which the master lets the line go */
#define BAGTAG_RESET 2          /* a reset pulse */
#define BAGTAG_TICK 3           /* a second has passed; the reading goes with it */
#define BAGTAG_SHORT_RESET 4    /* a short reset pulse: a reset at overdrive, nothing at standard speed */

/* The reading of a tick is the sensor's 11 bits, 0 to 2047, in sixteenths of a degree Celsius: temperature times 16, plus 656 for
 * code 40h (DS1922L), plus 16 for code 60h (DS1922T). */

/*
 * A new tag: clears the image, but for BOR, which is 1 (80h at 0214h), and packs a record that waits for a reset. `number` is the
 * registration number, with the first ROM byte, the family 41h, as its low byte and the CRC-8 as its high one; `code` is 40h
 * or 60h.
 *
 * Answers 0; or 3, 6 (for the record's length alone), 4, 5, the first that applies. A refusal leaves the image as it was. A record
 * of BAGTAG_RECORD bytes is then packed with that of all zeros, BAGTAG_VERSION and 79 zeros, which every event refuses with 6, or
 * with 3, which comes first.
 */
uint8_t bagtag_new(uint8_t *image, size_t image_len, uint8_t *record, size_t record_len, uint64_t number, uint8_t code);

/*
 * One event. `*line` becomes the bit on the line, 0 or 1: in a slot what the master and the tag make of it together, 0 for a
 * presence pulse after a reset, also a short one at overdrive, 1 for a short reset at standard speed and for a tick. `reading`
 * counts for BAGTAG_TICK alone. How the tag's bit of a slot is had in time, before it is known what the master does: BAGTAG_SENDS
 * below.
 *
 * Answers 0; or 3, 6, 1, 2, the first that applies. A refusal changes no byte of image and record, and `*line` is 1.
 */
uint8_t bagtag_event(uint8_t *image, size_t image_len, uint8_t *record, size_t record_len, uint8_t code, uint16_t reading,
                     uint8_t *line);

/*
 * Many events, as words: 0, 1, 2 and 4 for the events of these codes, 4096 plus a reading for a tick. Each leaves its line bit in
 * its reply byte, and `*done` becomes how many were done; reply bytes from there on stay as they were.
 *
 * Answers 0; or 17, 3, 6, the first that applies, with nothing changed and `*done` 0; or 1 at the first word that is no event: the
 * words before it are done, and count in `*done`.
 */
uint8_t bagtag_events(uint8_t *image, size_t image_len, uint8_t *record, size_t record_len, const uint16_t *words,
                      size_t words_len, uint8_t *replies, size_t replies_len, size_t *done);

/*
 * A new line: at each place a new tag, with a registration number and a code as bagtag_new takes them. `block_len` is BAGTAG_IMAGE
 * times `count`, `records_len` BAGTAG_RECORD times `count`, and there is a code for each number.
 *
 * Answers 0; or 14 (also for another number of codes), 3, 13, 6 (for the records' length alone), then 4 or 5 for the first place
 * whose number or code is bad; the first that applies. A refusal leaves the block as it was. Where `count` is 1 to BAGTAG_LINE_TAGS
 * and the records have their length, each becomes that of all zeros, which bagtag_new tells of; else they stay as they were. The
 * events of such a line are refused with 13, since its numbers are the same, those of a single tag with 6.
 */
uint8_t bagtag_line_new(uint8_t *block, size_t block_len, uint8_t *records, size_t records_len, const uint64_t *numbers,
                        size_t count, const uint8_t *codes, size_t codes_len);

/*
 * One event of a line of `count` tags. A slot or a reset goes to all of them, and `*line` becomes 0 if the master or one of them
 * holds the line low. A tick goes to the tag at `place`, and `*line` is 1; `place` and `reading` count for BAGTAG_TICK alone.
 *
 * Answers 0; or 14, 3, 13, 6, 1, 2, the first that applies. 13 compares the numbers as they stand in the records that are wholly
 * there, good or not; 6 is for the records' length, and for any of them that is none: so one broken record refuses every event, a
 * tick for another tag too. A refusal changes no byte of block and records, and `*line` is 1.
 */
uint8_t bagtag_line_event(uint8_t *block, size_t block_len, uint8_t *records, size_t records_len, uint8_t count, uint8_t code,
                          uint8_t place, uint16_t reading, uint8_t *line);

/*
 * The listing of a dump, which is a text of BAGTAG_DUMP characters. `temperatures` gets those of the entries that the log holds, in
 * sixteenths of a degree Celsius, oldest first; places past them stay as they were. `head` gets BAGTAG_HEAD bytes, by the offsets
 * below; bytes past them stay. Entry i of the listing was taken (seconds of the first entry) + i * (period) seconds from the stamp.
 *
 * Answers 0; or 7, 9 or 8 by the dump's lines, then 10, 11, 12, the first that applies. A refusal changes no place and no byte.
 */
uint8_t bagtag_list(const uint8_t *dump, size_t dump_len, int32_t *temperatures, size_t places, uint8_t *head, size_t head_len);

/* Where the parts of a head stand. Numbers are low byte first. */
#define BAGTAG_HEAD_CODE 0      /* 1 byte: 40h or 60h */
                                /* 1 byte: 0, for later */
#define BAGTAG_HEAD_STAMP 2     /* 6 bytes: the mission's stamp, as it stands in registers 0219h to 021Eh */
#define BAGTAG_HEAD_HELD 8      /* 4 bytes: how many entries the log holds */
#define BAGTAG_HEAD_FIRST 12    /* 4 bytes: which entry of the mission is the first of them, from 0 on */
#define BAGTAG_HEAD_SECONDS 16  /* 8 bytes, two's complement: seconds from the stamp to it */
#define BAGTAG_HEAD_PERIOD 24   /* 4 bytes: seconds from an entry to the next */

/*
 * ---- the record
 *
 * Where its parts stand, low byte first, for whoever looks into one; BAGTAG_SENDS does. Bytes that no record packs to, another
 * version among them, are refused with 6, and so is a record that breaks the ranges of docs/RANGES.md. Nothing else is asked of it:
 * bytes that were half overwritten may pass for another record.
 */
#define BAGTAG_VERSION 1
#define BAGTAG_AT_VERSION 0     /* 1 byte: BAGTAG_VERSION */
#define BAGTAG_AT_CODE 1        /* 1 byte: the configuration code */
#define BAGTAG_AT_MINUTE 2      /* 1 byte: seconds into the minute of a start delay */
#define BAGTAG_AT_MODE 3        /* 1 byte: 0, Resume mark 1, overdrive 2, both 3 */
#define BAGTAG_AT_CHOOSING 4    /* 3 bytes: how far a ROM command is. The first: 0 silent, 1 command, 2 Read, 3 Match, */
                                /* 4 to 6 Search, 7 chosen. The second: what is heard of the command, at its high end, or */
                                /* 1 for an overdrive Match. The third: how many bits are heard, or the number's next bit */
#define BAGTAG_AT_STAGE 7       /* 3 bytes: how far a memory command is. The first: 0 over, 1 hears, 2 password field, */
                                /* 3 sends, 4 Copy done. The second: what it hears, guards or sends, in the order of */
                                /* crates/bus/src/lib.rt, from 0. The third: for which command, at which place of the */
                                /* scratchpad, or what follows a CRC-16 */
#define BAGTAG_AT_BYTE 10       /* 1 byte: the byte of a memory command under way; what is heard of it stands at its high end */
#define BAGTAG_AT_BITS 11       /* 1 byte: how many bits of it, or of a password field, are past; after a Copy the next bit */
#define BAGTAG_AT_STATUS 12     /* 1 byte: the E/S that a Copy was given */
#define BAGTAG_AT_ENDING 13     /* 1 byte: the ending offset of E/S */
#define BAGTAG_AT_PF 14         /* 1 byte: PF of E/S, 0 or 1 */
#define BAGTAG_AT_AA 15         /* 1 byte: AA of E/S, 0 or 1 */
#define BAGTAG_AT_READING 16    /* 2 bytes: the latest tick's reading */
#define BAGTAG_AT_TA 18         /* 2 bytes: TA */
#define BAGTAG_AT_CRC 20        /* 2 bytes: the CRC-16 under way */
#define BAGTAG_AT_ADDRESS 22    /* 2 bytes: the address under way */
#define BAGTAG_AT_NUMBER 24     /* 8 bytes: the registration number */
#define BAGTAG_AT_WAIT 32       /* 8 bytes: seconds that pass before the one that converts */
#define BAGTAG_AT_FIELD 40      /* 8 bytes: the password field under way; what is heard of it stands at its high end */
#define BAGTAG_AT_SCRATCHPAD 48 /* 32 bytes: the scratchpad */

/*
 * Does the tag send in the next slot? `record`, which is evaluated more than once, is that of a tag, as bagtag_new and the calls
 * since have left it.
 *
 * In a slot the tag has to hold the line low, or not, before anybody can know what the master does, and bagtag_event wants to be
 * told that. If the tag sends, call bagtag_event ahead of the slot, with BAGTAG_SLOT_FREE: `*line` is the tag's bit, and image and
 * record are then what the slot leaves, whatever the master does in it. If it doesn't, the tag lets the line go: call bagtag_event
 * once the master's bit is known.
 *
 * A reset or a tick may come before the slot, and is for image and record as they were: so make the call ahead on a copy of the
 * record, as examples/c/firmware.c does. The image needs none, since a slot in which the tag sends changes no byte of it.
 */
#define BAGTAG_SENDS(record) \
    ((record)[BAGTAG_AT_CHOOSING] == 2 || (record)[BAGTAG_AT_CHOOSING] == 4 || (record)[BAGTAG_AT_CHOOSING] == 5 || \
     ((record)[BAGTAG_AT_CHOOSING] == 7 && ((record)[BAGTAG_AT_STAGE] == 3 || (record)[BAGTAG_AT_STAGE] == 4)))

#ifdef __cplusplus
}
#endif

#endif
