/*
 * Makes the calls of include/bagtag.h, for tests/library. Each piece of memory that a call is lent ends right before a page
 * that must not be touched, or begins right behind one: a call that reads or writes past it there ends this program. At its
 * other end, bytes are marked before the call and looked at after it; under an address sanitizer they are poisoned instead.
 * Which end it is, is chosen for each call by a number, the program's word.
 *
 * Standard input: commands, each a letter and what stands beside it; numbers are little-endian.
 *   i  a length in four bytes, and so many bytes: the image from now on
 *   r  the same for the record
 *   l  a length in four bytes: so many bytes of the image are lent from now on
 *   n  a registration number and a code: bagtag_new
 *   e  a count in four bytes, and for each event its code and the reading, high byte first: bagtag_event
 *   w  counts of words and of reply bytes, four bytes each, and the words: bagtag_events
 *   d  a length, the number of places and the length of the head, four bytes each, and the dump: bagtag_list
 *   L  counts of registration numbers and of codes, four bytes each, the numbers and the codes: bagtag_line_new; image and record
 *      are the line's block and its records
 *   E  how many tags, a byte; a count in four bytes, and for each event its code, its place and the reading, high byte first:
 *      bagtag_line_event
 *   I  the image is given out as far as it is lent, R: the record
 *
 * Standard output: of each call the answer, and by their bits which pieces it changed (enum piece, and BESIDE); for an event
 * then the line and whether what the header says by BAGTAG_SENDS did not hold of the slot, or whether the tags of a line would
 * have been left otherwise one by one; for a list of events `done` in eight bytes and all reply bytes; for a dump all places and
 * the whole head. What a call must fill has UNUSED bytes before it.
 */
#include <stdbool.h>
#include <stdio.h>
#include <stdlib.h>
#include <string.h>
#include <sys/mman.h>

#include "bagtag.h"

#define GUARD 65536 /* a page or more, on every machine that a program for x86-64 is run on */
#define ROOM (2 * GUARD)
#define MARKED 256
#define LONGEST (ROOM - MARKED)
#define BESIDE 128
#define MARK 0xA5
#define UNUSED 0x77

/* `RESULT` is a line or a `done`. A line's numbers are in `WORDS`, its codes in `DUMP`. */
enum piece { IMAGE, RECORD, WORDS, REPLIES, DUMP, PLACES, HEAD, RESULT, PIECES };

static struct {
    uint8_t kept[ROOM]; /* what the caller has */
    size_t length;
    uint8_t *room, *lent;
} pieces[PIECES];

/* Whether this call's pieces stand at the ends of their rooms, or at the starts; and what that is chosen by. */
static bool at_end;
static uint32_t row;

static bool take(void *to, size_t length)
{
    return fread(to, 1, length, stdin) == length;
}

static void give(const void *from, size_t length)
{
    fwrite(from, 1, length, stdout);
}

/* ---- lending */

static bool make_rooms(void)
{
    for (int p = 0; p < PIECES; p++) {
        uint8_t *map = mmap(NULL, ROOM + 2 * GUARD, PROT_NONE, MAP_PRIVATE | MAP_ANONYMOUS, -1, 0);

        if (map == MAP_FAILED || mprotect(map + GUARD, ROOM, PROT_READ | PROT_WRITE) != 0)
            return false;
        pieces[p].room = map + GUARD;
    }
    return true;
}

#ifdef SANITIZED

#include <sanitizer/asan_interface.h>

/* Looking for memory that was not freed asks for more than some machines allow, and here is none to free. */
const char *__asan_default_options(void)
{
    return "detect_leaks=0";
}

static void mark(enum piece p)
{
    ASAN_POISON_MEMORY_REGION(pieces[p].room, ROOM);
    ASAN_UNPOISON_MEMORY_REGION(pieces[p].lent, pieces[p].length);
}

/* Or the sanitizer has ended this program. */
static bool is_marked(enum piece p)
{
    (void)p;
    return true;
}

#else

static uint8_t *marks_of(enum piece p)
{
    return at_end ? pieces[p].lent - MARKED : pieces[p].lent + pieces[p].length;
}

static void mark(enum piece p)
{
    memset(marks_of(p), MARK, MARKED);
}

static bool is_marked(enum piece p)
{
    for (size_t i = 0; i < MARKED; i++)
        if (marks_of(p)[i] != MARK)
            return false;
    return true;
}

#endif

/* The choice looks like chance, and is the same whenever the program is given the same number. */
static void begin_call(void)
{
    row = row * 1664525 + 1013904223;
    at_end = row >> 31;
}

static void *lend(enum piece p)
{
    pieces[p].lent = at_end ? pieces[p].room + ROOM - pieces[p].length : pieces[p].room;
    mark(p);
    return memcpy(pieces[p].lent, pieces[p].kept, pieces[p].length);
}

static void *lend_unused(enum piece p, size_t length)
{
    memset(pieces[p].kept, UNUSED, length);
    pieces[p].length = length;
    return lend(p);
}

/* What was lent, as the call has left it. Answers by a bit whether that has changed, and by another whether what is beside it
 * has. */
static uint8_t take_back(enum piece p)
{
    bool is_changed = memcmp(pieces[p].kept, pieces[p].lent, pieces[p].length) != 0;

    memcpy(pieces[p].kept, pieces[p].lent, pieces[p].length);
    return (uint8_t)((is_changed && p != RESULT ? 1 << p : 0) | (is_marked(p) ? 0 : BESIDE));
}

/* ---- the calls */

static bool make_tag(void)
{
    uint64_t number;
    uint8_t code, gave[2];

    if (!take(&number, sizeof number) || !take(&code, sizeof code))
        return false;
    begin_call();
    gave[0] = bagtag_new(lend(IMAGE), pieces[IMAGE].length, lend(RECORD), pieces[RECORD].length, number, code);
    gave[1] = take_back(IMAGE) | take_back(RECORD);
    give(gave, sizeof gave);
    return true;
}

/* Whether it holds what the header says by BAGTAG_SENDS of the next slot: a tag that sends leaves the same whatever the master
 * does, and the image as it is; another lets the line go. */
static bool is_ahead_right(void)
{
    static uint8_t image[BAGTAG_IMAGE];
    uint8_t low[BAGTAG_RECORD], let_go[BAGTAG_RECORD], line;

    memcpy(image, pieces[IMAGE].kept, sizeof image);
    memcpy(low, pieces[RECORD].kept, sizeof low);
    memcpy(let_go, pieces[RECORD].kept, sizeof let_go);
    bagtag_event(image, sizeof image, let_go, sizeof let_go, BAGTAG_SLOT_FREE, 0, &line);
    if (!BAGTAG_SENDS(pieces[RECORD].kept))
        return line == 1;
    bagtag_event(image, sizeof image, low, sizeof low, BAGTAG_SLOT_LOW, 0, &line);
    return memcmp(low, let_go, sizeof low) == 0 && memcmp(image, pieces[IMAGE].kept, sizeof image) == 0;
}

static void play_event(uint8_t code, uint16_t reading)
{
    bool is_slot = code <= BAGTAG_SLOT_FREE && pieces[IMAGE].length == BAGTAG_IMAGE && pieces[RECORD].length == BAGTAG_RECORD;
    uint8_t gave[4];

    begin_call();
    gave[3] = is_slot && !is_ahead_right();
    gave[0] = bagtag_event(lend(IMAGE), pieces[IMAGE].length, lend(RECORD), pieces[RECORD].length, code, reading,
                           lend_unused(RESULT, 1));
    gave[1] = take_back(IMAGE) | take_back(RECORD) | take_back(RESULT);
    gave[2] = pieces[RESULT].kept[0];
    give(gave, sizeof gave);
}

static bool play_events(void)
{
    uint32_t count;
    uint8_t event[3];

    if (!take(&count, sizeof count))
        return false;
    for (; count > 0; count--) {
        if (!take(event, sizeof event))
            return false;
        play_event(event[0], (uint16_t)(event[1] << 8 | event[2]));
    }
    return true;
}

static bool play_words(void)
{
    uint32_t counts[2];
    uint8_t gave[2];

    if (!take(counts, sizeof counts) || counts[0] > LONGEST / 2 || counts[1] > LONGEST ||
        !take(pieces[WORDS].kept, 2 * counts[0]))
        return false;
    begin_call();
    pieces[WORDS].length = 2 * counts[0];
    gave[0] = bagtag_events(lend(IMAGE), pieces[IMAGE].length, lend(RECORD), pieces[RECORD].length, lend(WORDS), counts[0],
                            lend_unused(REPLIES, counts[1]), counts[1], lend_unused(RESULT, sizeof(size_t)));
    gave[1] = take_back(IMAGE) | take_back(RECORD) | take_back(WORDS) | take_back(REPLIES) | take_back(RESULT);
    give(gave, sizeof gave);
    give(pieces[RESULT].kept, sizeof(size_t));
    give(pieces[REPLIES].kept, counts[1]);
    return true;
}

static bool list_dump(void)
{
    uint32_t counts[3];
    uint8_t gave[2];

    if (!take(counts, sizeof counts) || counts[0] > LONGEST || counts[1] > LONGEST / 4 || counts[2] > LONGEST ||
        !take(pieces[DUMP].kept, counts[0]))
        return false;
    begin_call();
    pieces[DUMP].length = counts[0];
    gave[0] = bagtag_list(lend(DUMP), counts[0], lend_unused(PLACES, 4 * counts[1]), counts[1], lend_unused(HEAD, counts[2]),
                          counts[2]);
    gave[1] = take_back(DUMP) | take_back(PLACES) | take_back(HEAD);
    give(gave, sizeof gave);
    give(pieces[PLACES].kept, pieces[PLACES].length);
    give(pieces[HEAD].kept, pieces[HEAD].length);
    return true;
}

/* ---- the calls to a line */

static bool make_line(void)
{
    uint32_t counts[2];
    uint8_t gave[2];

    if (!take(counts, sizeof counts) || counts[0] > LONGEST / 8 || counts[1] > LONGEST ||
        !take(pieces[WORDS].kept, 8 * counts[0]) || !take(pieces[DUMP].kept, counts[1]))
        return false;
    begin_call();
    pieces[WORDS].length = 8 * counts[0];
    pieces[DUMP].length = counts[1];
    gave[0] = bagtag_line_new(lend(IMAGE), pieces[IMAGE].length, lend(RECORD), pieces[RECORD].length, lend(WORDS), counts[0],
                              lend(DUMP), counts[1]);
    gave[1] = take_back(IMAGE) | take_back(RECORD) | take_back(WORDS) | take_back(DUMP);
    give(gave, sizeof gave);
    return true;
}

/* What a line is before an event, and what its tags make of it one by one. */
static uint8_t alone_images[ROOM], alone_records[ROOM];

static void keep_line(void)
{
    memcpy(alone_images, pieces[IMAGE].kept, pieces[IMAGE].length);
    memcpy(alone_records, pieces[RECORD].kept, pieces[RECORD].length);
}

/* Whether an accepted event has left what it leaves of each tag alone, and the bit that they make together. */
static bool is_alone_right(uint8_t tags, const uint8_t *event, uint8_t line)
{
    uint8_t together = 1, own;

    for (uint8_t place = 0; place < tags; place++) {
        if (event[0] == BAGTAG_TICK && place != event[1])
            continue;
        if (bagtag_event(alone_images + BAGTAG_IMAGE * place, BAGTAG_IMAGE, alone_records + BAGTAG_RECORD * place, BAGTAG_RECORD,
                         event[0], (uint16_t)(event[2] << 8 | event[3]), &own) != BAGTAG_OK)
            return false;
        together &= own;
    }
    return line == together && memcmp(alone_images, pieces[IMAGE].kept, pieces[IMAGE].length) == 0 &&
           memcmp(alone_records, pieces[RECORD].kept, pieces[RECORD].length) == 0;
}

static void play_to_line(uint8_t tags, const uint8_t *event)
{
    uint8_t gave[4];

    begin_call();
    keep_line();
    gave[0] = bagtag_line_event(lend(IMAGE), pieces[IMAGE].length, lend(RECORD), pieces[RECORD].length, tags, event[0], event[1],
                                (uint16_t)(event[2] << 8 | event[3]), lend_unused(RESULT, 1));
    gave[1] = take_back(IMAGE) | take_back(RECORD) | take_back(RESULT);
    gave[2] = pieces[RESULT].kept[0];
    gave[3] = gave[0] == BAGTAG_OK && !is_alone_right(tags, event, gave[2]);
    give(gave, sizeof gave);
}

static bool play_line(void)
{
    uint32_t count;
    uint8_t tags, event[4];

    if (!take(&tags, sizeof tags) || !take(&count, sizeof count))
        return false;
    for (; count > 0; count--) {
        if (!take(event, sizeof event))
            return false;
        play_to_line(tags, event);
    }
    return true;
}

/* ---- commands */

static bool take_length(enum piece p)
{
    uint32_t length;

    if (!take(&length, sizeof length) || length > LONGEST)
        return false;
    pieces[p].length = length;
    return true;
}

static bool take_piece(enum piece p)
{
    return take_length(p) && take(pieces[p].kept, pieces[p].length);
}

static bool give_piece(enum piece p)
{
    give(pieces[p].kept, pieces[p].length);
    return true;
}

static bool command(char letter)
{
    switch (letter) {
    case 'i': return take_piece(IMAGE);
    case 'r': return take_piece(RECORD);
    case 'l': return take_length(IMAGE);
    case 'n': return make_tag();
    case 'e': return play_events();
    case 'w': return play_words();
    case 'd': return list_dump();
    case 'L': return make_line();
    case 'E': return play_line();
    case 'I': return give_piece(IMAGE);
    case 'R': return give_piece(RECORD);
    default: return false;
    }
}

int main(int count, char **words)
{
    char letter;

    if (count != 2 || !make_rooms())
        return 2;
    row = (uint32_t)strtoul(words[1], NULL, 10);
    while (take(&letter, 1))
        if (!command(letter))
            return 2;
    return fflush(stdout) == 0 ? 0 : 2;
}
