/*
 * Calls a chip's library from a program for Linux with no C library, so that an emulator can run it. Its one argument says what it does:
 *
 *   play      what the program play does, by bagtag_new and bagtag_event
 *   lists     the same, the events in lists, by bagtag_events; each list has twice as many as the one before, up to MOST_WORDS
 *   shed      what the program shed does, by bagtag_line_new and bagtag_line_event
 *   list      what the program list does, by bagtag_list
 *   refused   with a dump on standard input: calls whose lengths or numbers are wrong, and a right one of each; a line for each call,
 *             its answer in two digits, and the line bit or how many are done or held, where the call tells that
 */
#include "bagtag.h"

#define BLOCK 65536
#define HEAD 9
#define GROUP 3
#define LINE_GROUP 4
#define MOST_WORDS 1024
#define MOST_READING 2047
#define TICK_WORD 4096

/* ---- The system ---- */

#if defined __arm__

enum { EXIT = 1, READ = 3, WRITE = 4 };
__asm__(".globl _start\n.type _start, %function\n.thumb_func\n_start: mov r0, sp\nbl begin\n");
#define CALLED "svc 0"
#define NUMBER "r7"
#define FIRST "r0"
#define SECOND "r1"
#define THIRD "r2"

#elif defined __riscv

enum { EXIT = 93, READ = 63, WRITE = 64 };
__asm__(".globl _start\n_start: mv a0, sp\ncall begin\n");
#define CALLED "ecall"
#define NUMBER "a7"
#define FIRST "a0"
#define SECOND "a1"
#define THIRD "a2"

#elif defined __aarch64__

enum { EXIT = 93, READ = 63, WRITE = 64 };
__asm__(".globl _start\n_start: mov x0, sp\nbl begin\n");
#define CALLED "svc 0"
#define NUMBER "x8"
#define FIRST "x0"
#define SECOND "x1"
#define THIRD "x2"

#endif

static long system_call(long which, long one, const void *two, size_t three)
{
    register long number __asm__(NUMBER) = which;
    register long first __asm__(FIRST) = one;
    register const void *second __asm__(SECOND) = two;
    register size_t third __asm__(THIRD) = three;

    __asm__ volatile(CALLED : "+r"(first) : "r"(number), "r"(second), "r"(third) : "memory");
    return first;
}

static void end(int status)
{
    for (;;)
        system_call(EXIT, status, 0, 0);
}

/* As many bytes as there are at once, 0 at the end. */
static size_t take_some(uint8_t *to, size_t length)
{
    long got = system_call(READ, 0, to, length);

    if (got < 0)
        end(2);
    return (size_t)got;
}

/* As many bytes, or fewer at the end. */
static size_t take(uint8_t *to, size_t length)
{
    size_t all = 0, got;

    do {
        got = take_some(to + all, length - all);
        all += got;
    } while (got > 0 && all < length);
    return all;
}

/* ---- What is printed ---- */

static uint8_t printed[2 * BLOCK];
static size_t printed_length;

static void print_out(void)
{
    for (size_t at = 0; at < printed_length;) {
        long put = system_call(WRITE, 1, printed + at, printed_length - at);

        if (put <= 0)
            end(2);
        at += (size_t)put;
    }
    printed_length = 0;
}

static void put(uint8_t character)
{
    if (printed_length == sizeof printed)
        print_out();
    printed[printed_length++] = character;
}

static void put_hex(uint64_t number, int digits)
{
    for (int k = digits - 1; k >= 0; k--)
        put("0123456789ABCDEF"[number >> 4 * k & 0xF]);
}

static void put_number(uint8_t number)
{
    put((uint8_t)('0' + number / 10));
    put((uint8_t)('0' + number % 10));
}

static void put_refusal(uint8_t number)
{
    put('R');
    put_number(number);
    put('\n');
}

static void put_bit(uint8_t bit)
{
    put((uint8_t)('0' + bit));
    put('\n');
}

/* ---- Playing ---- */

/* Room for lengths that are too long by one. */
static uint8_t image[BAGTAG_IMAGE + 1], record[BAGTAG_RECORD + 1];
static uint8_t block[BLOCK];

static uint64_t number_at(const uint8_t *bytes, int length)
{
    uint64_t number = 0;

    for (int i = length - 1; i >= 0; i--)
        number = number << 8 | bytes[i];
    return number;
}

static uint16_t reading_of(const uint8_t *group)
{
    return (uint16_t)(group[1] << 8 | group[2]);
}

static uint8_t play_one(const uint8_t *group)
{
    uint8_t line;
    uint8_t answer = bagtag_event(image, BAGTAG_IMAGE, record, BAGTAG_RECORD, group[0], reading_of(group), &line);

    if (answer == BAGTAG_OK)
        put_bit(line);
    else
        put_refusal(answer);
    return answer;
}

/* Whether a list's word has another answer than the event: a reading is refused by another number there. */
static int is_unsaid(const uint8_t *group)
{
    return group[0] == BAGTAG_TICK && reading_of(group) > MOST_READING;
}

/* No word of a list is the tick's own code, which is refused as a word. */
static uint16_t word_of(const uint8_t *group)
{
    return group[0] == BAGTAG_TICK ? (uint16_t)(TICK_WORD + reading_of(group)) : group[0];
}

/* Up to `most` groups as one list. Returns the answer, and in `played` how many groups are past. */
static uint8_t play_list(const uint8_t *groups, size_t count, size_t most, size_t *played)
{
    static uint16_t words[MOST_WORDS];
    static uint8_t replies[MOST_WORDS];
    size_t length = 0, done;
    uint8_t answer;

    while (length < count && length < most && !is_unsaid(groups + GROUP * length)) {
        words[length] = word_of(groups + GROUP * length);
        length++;
    }
    answer = bagtag_events(image, BAGTAG_IMAGE, record, BAGTAG_RECORD, words, length, replies, length, &done);
    for (size_t i = 0; i < done; i++)
        put_bit(replies[i]);
    if (answer != BAGTAG_OK)
        put_refusal(answer);
    *played = done;
    return answer;
}

/* The groups one by one, or in lists, until one is refused. */
static uint8_t play_groups(const uint8_t *groups, size_t count, int in_lists)
{
    static size_t most = 1;
    uint8_t answer = BAGTAG_OK;
    size_t played;

    for (size_t i = 0; i < count && answer == BAGTAG_OK; i += played) {
        const uint8_t *group = groups + GROUP * i;

        played = 1;
        if (in_lists && !is_unsaid(group)) {
            answer = play_list(group, count - i, most, &played);
            most = most == MOST_WORDS ? 1 : 2 * most;
        } else {
            answer = play_one(group);
        }
    }
    return answer;
}

/* The groups of all that comes, until one is refused; each whole group is answered before the next read. */
static void play_all(size_t size, uint8_t (*play)(const uint8_t *groups, size_t count, int how), int how)
{
    uint8_t answer = BAGTAG_OK;
    size_t held = 0, got;

    while (answer == BAGTAG_OK && (got = take_some(block + held, BLOCK - held)) > 0) {
        size_t whole;

        held += got;
        whole = held / size * size;
        answer = play(block, held / size, how);
        print_out();
        for (size_t i = whole; i < held; i++)
            block[i - whole] = block[i];
        held -= whole;
    }
}

static void play(int in_lists)
{
    uint8_t answer;

    take(block, HEAD);
    answer = bagtag_new(image, BAGTAG_IMAGE, record, BAGTAG_RECORD, number_at(block, 8), block[8]);
    if (answer == BAGTAG_OK)
        play_all(GROUP, play_groups, in_lists);
    else
        put_refusal(answer);
    print_out();
}

/* ---- Playing to a line ---- */

/* Room for one tag too many. */
static uint8_t images[BAGTAG_IMAGE * (BAGTAG_LINE_TAGS + 1)], records[BAGTAG_RECORD * (BAGTAG_LINE_TAGS + 1)];

static uint8_t play_to_line(const uint8_t *groups, size_t count, int tags)
{
    uint8_t answer = BAGTAG_OK, line;

    for (size_t i = 0; i < count && answer == BAGTAG_OK; i++) {
        const uint8_t *group = groups + LINE_GROUP * i;

        answer = bagtag_line_event(images, BAGTAG_IMAGE * (size_t)tags, records, BAGTAG_RECORD * (size_t)tags, (uint8_t)tags,
                                   group[0], group[1], reading_of(group + 1), &line);
        if (answer == BAGTAG_OK)
            put_bit(line);
        else
            put_refusal(answer);
    }
    return answer;
}

/* Of more tags than a line has, one more is enough to be refused. */
static void shed(void)
{
    uint64_t numbers[BAGTAG_LINE_TAGS + 1];
    uint8_t codes[BAGTAG_LINE_TAGS + 1], tags = 0, answer;

    take(&tags, 1);
    if (tags > BAGTAG_LINE_TAGS)
        tags = BAGTAG_LINE_TAGS + 1;
    for (int place = 0; place < tags; place++) {
        for (int i = 0; i < HEAD; i++)
            block[i] = 0;
        take(block, HEAD);
        numbers[place] = number_at(block, 8);
        codes[place] = block[8];
    }
    answer = bagtag_line_new(images, BAGTAG_IMAGE * (size_t)tags, records, BAGTAG_RECORD * (size_t)tags, numbers, tags, codes, tags);
    if (answer == BAGTAG_OK)
        play_all(LINE_GROUP, play_to_line, tags);
    else
        put_refusal(answer);
    print_out();
}

/* ---- Listing ---- */

static int32_t temperatures[BAGTAG_PLACES];
static uint8_t head[BAGTAG_HEAD];

/* In the form of the program list. */
static void put_listing(void)
{
    uint64_t held = number_at(head + BAGTAG_HEAD_HELD, 4), first = number_at(head + BAGTAG_HEAD_FIRST, 4);
    uint64_t seconds = number_at(head + BAGTAG_HEAD_SECONDS, 8), period = number_at(head + BAGTAG_HEAD_PERIOD, 4);

    put_hex(head[BAGTAG_HEAD_CODE], 2);
    put_hex(held, 8);
    for (int i = 0; i < 6; i++)
        put_hex(head[BAGTAG_HEAD_STAMP + i], 2);
    put('\n');
    for (uint64_t i = 0; i < held; i++) {
        put_hex(first + i, 8);
        put_hex(seconds + i * period, 16);
        put_hex((uint64_t)temperatures[i], 4);
        put('\n');
    }
}

static void list(void)
{
    size_t length = take(block, BLOCK);
    uint8_t answer = bagtag_list(block, length, temperatures, BAGTAG_PLACES, head, BAGTAG_HEAD);

    if (answer == BAGTAG_OK)
        put_listing();
    else
        put_refusal(answer);
    print_out();
}

/* ---- Refusals ---- */

#define GOOD_NUMBER 0xA1000000FBC52B41
#define OTHER_NUMBER 0xCD00000000000141
#define GOOD_CODE 0x40
#define TWO_IMAGES (2 * BAGTAG_IMAGE)
#define TWO_RECORDS (2 * BAGTAG_RECORD)

static void put_answer(uint8_t answer, uint64_t told)
{
    put_number(answer);
    put(' ');
    put_hex(told, 4);
    put('\n');
}

static void answer_new(size_t image_len, size_t record_len, uint64_t number, uint8_t code)
{
    put_number(bagtag_new(image, image_len, record, record_len, number, code));
    put('\n');
}

static void answer_event(size_t image_len, size_t record_len, uint8_t code, uint16_t reading)
{
    uint8_t line = 7, answer = bagtag_event(image, image_len, record, record_len, code, reading, &line);

    put_answer(answer, line);
}

/* A reset, a tick, and a word that is no event. */
static void answer_events(size_t image_len, size_t record_len, size_t words_len, size_t replies_len)
{
    static const uint16_t words[] = {BAGTAG_RESET, TICK_WORD + 1000, 3};
    uint8_t replies[3];
    size_t done = 7;
    uint8_t answer = bagtag_events(image, image_len, record, record_len, words, words_len, replies, replies_len, &done);

    put_answer(answer, done);
}

static void answer_list(size_t dump_len, size_t places, size_t head_len)
{
    uint8_t answer = bagtag_list(block, dump_len, temperatures, places, head, head_len);

    put_answer(answer, number_at(head + BAGTAG_HEAD_HELD, 4));
}

/* A line of two, and more or less of what it is lent. */
static void answer_new_line(size_t block_len, size_t records_len, uint64_t second, size_t codes_len)
{
    const uint64_t numbers[] = {GOOD_NUMBER, second};
    static const uint8_t codes[] = {GOOD_CODE, GOOD_CODE, GOOD_CODE};

    put_number(bagtag_line_new(images, block_len, records, records_len, numbers, 2, codes, codes_len));
    put('\n');
}

static void answer_line_event(size_t block_len, size_t records_len, uint8_t tags, uint8_t code, uint8_t place, uint16_t reading)
{
    uint8_t line = 7, answer = bagtag_line_event(images, block_len, records, records_len, tags, code, place, reading, &line);

    put_answer(answer, line);
}

static void refused_by_line(void)
{
    answer_new_line(TWO_IMAGES - 1, TWO_RECORDS, GOOD_NUMBER, 3);
    answer_new_line(TWO_IMAGES - 1, TWO_RECORDS, GOOD_NUMBER, 2);
    answer_new_line(TWO_IMAGES, TWO_RECORDS - 1, GOOD_NUMBER, 2);
    answer_new_line(TWO_IMAGES, TWO_RECORDS - 1, 0, 2);
    answer_new_line(TWO_IMAGES, TWO_RECORDS, 0, 2);
    answer_line_event(TWO_IMAGES, TWO_RECORDS, 2, BAGTAG_RESET, 0, 0);
    answer_new_line(TWO_IMAGES, TWO_RECORDS, OTHER_NUMBER, 2);
    answer_line_event(TWO_IMAGES, TWO_RECORDS, 2, BAGTAG_TICK, 2, MOST_READING + 1);
    answer_line_event(TWO_IMAGES, TWO_RECORDS, 1, BAGTAG_RESET, 0, 0);
    answer_line_event(TWO_IMAGES, TWO_RECORDS - 1, 2, BAGTAG_SHORT_RESET + 1, 0, 0);
    answer_line_event(TWO_IMAGES, TWO_RECORDS, 2, BAGTAG_SHORT_RESET + 1, 9, MOST_READING + 1);
    answer_line_event(TWO_IMAGES, TWO_RECORDS, 2, BAGTAG_TICK, 1, MOST_READING + 1);
    answer_line_event(TWO_IMAGES, TWO_RECORDS, 2, BAGTAG_RESET, 9, MOST_READING + 1);
}

static void refused(void)
{
    take(block, BLOCK);
    answer_new(BAGTAG_IMAGE - 1, BAGTAG_RECORD - 1, GOOD_NUMBER, GOOD_CODE);
    answer_new(BAGTAG_IMAGE, BAGTAG_RECORD + 1, GOOD_NUMBER, GOOD_CODE);
    answer_new(BAGTAG_IMAGE, BAGTAG_RECORD, GOOD_NUMBER + 1, GOOD_CODE);
    answer_new(BAGTAG_IMAGE, BAGTAG_RECORD, GOOD_NUMBER, GOOD_CODE + 1);
    answer_event(BAGTAG_IMAGE, BAGTAG_RECORD, BAGTAG_RESET, 0);
    answer_new(BAGTAG_IMAGE, BAGTAG_RECORD, GOOD_NUMBER, GOOD_CODE);
    answer_event(BAGTAG_IMAGE + 1, BAGTAG_RECORD + 1, BAGTAG_SHORT_RESET + 1, 0);
    answer_event(BAGTAG_IMAGE, BAGTAG_RECORD - 1, BAGTAG_SHORT_RESET + 1, 0);
    answer_event(BAGTAG_IMAGE, BAGTAG_RECORD, BAGTAG_SHORT_RESET + 1, MOST_READING + 1);
    answer_event(BAGTAG_IMAGE, BAGTAG_RECORD, BAGTAG_TICK, MOST_READING + 1);
    answer_event(BAGTAG_IMAGE, BAGTAG_RECORD, BAGTAG_RESET, 0);
    answer_events(BAGTAG_IMAGE - 1, BAGTAG_RECORD, 2, 1);
    answer_events(BAGTAG_IMAGE - 1, BAGTAG_RECORD + 1, 2, 2);
    answer_events(BAGTAG_IMAGE, 0, 2, 3);
    answer_events(BAGTAG_IMAGE, BAGTAG_RECORD, 3, 3);
    answer_events(BAGTAG_IMAGE, BAGTAG_RECORD, 2, 2);
    answer_events(BAGTAG_IMAGE, BAGTAG_RECORD, 0, 0);
    refused_by_line();
    answer_list(BAGTAG_DUMP - 1, BAGTAG_PLACES, BAGTAG_HEAD);
    answer_list(BAGTAG_DUMP, 0, BAGTAG_HEAD);
    answer_list(BAGTAG_DUMP, BAGTAG_PLACES, BAGTAG_HEAD - 1);
    answer_list(BAGTAG_DUMP, BAGTAG_PLACES, BAGTAG_HEAD);
    print_out();
}

/* ---- The program ---- */

static int is(const char *word, const char *other)
{
    while (*word && *word == *other)
        word++, other++;
    return *word == *other;
}

/* The stack as the system leaves it: how many words there are, then a pointer to each; the second is the argument. */
__attribute__((used)) void begin(const char *const *stack)
{
    const char *what = stack[1] && stack[2] ? stack[2] : "";

    if (is(what, "play") || is(what, "lists"))
        play(is(what, "lists"));
    else if (is(what, "shed"))
        shed();
    else if (is(what, "list"))
        list();
    else if (is(what, "refused"))
        refused();
    else
        end(2);
    end(0);
}
