/*
 * Calls the tag, by the function in_calls of calls.rattle beside it, which has the kinds of calls. Numbers are little-endian.
 *
 * Standard input: the image's length in four bytes, and the image; then thirteen bytes a call, its kind, a number in eight and
 * one in four. A short last group is dropped.
 * Standard output: a line for each call, which is the answer in two digits, a space and the line bit, or -- if the kind has no
 * answer; then the image in hexadecimal, 32 bytes a line.
 */
#include "../../bench/plain.h"

#define IMAGE_MOST (1 << 17)
#define CALLS_MOST (1 << 20)
#define NO_ANSWER 0xFF
#define LINE 32

void in_calls(uint8_t *image, size_t image_length, const uint8_t *kinds, size_t calls, const uint64_t *numbers,
              size_t numbers_length, const uint32_t *others, size_t others_length, uint8_t *answers,
              size_t answers_length, uint8_t *bits, size_t bits_length);

static uint8_t image[IMAGE_MOST], kinds[CALLS_MOST], answers[CALLS_MOST], bits[CALLS_MOST];
static uint64_t numbers[CALLS_MOST];
static uint32_t others[CALLS_MOST];

static bool take(void *to, size_t length)
{
    return fread(to, 1, length, stdin) == length;
}

static void give(const char *text, size_t length)
{
    fwrite(text, 1, length, stdout);
}

static void give_answer(uint8_t answer, uint8_t bit)
{
    char text[] = {'0' + answer / 10, '0' + answer % 10, ' ', '0' + bit, '\n'};

    if (answer == NO_ANSWER)
        give("--\n", 3);
    else
        give(text, sizeof text);
}

static void give_image(size_t length)
{
    static const char digits[] = "0123456789ABCDEF";

    for (size_t at = 0; at < length; at++) {
        give(&digits[image[at] / 16], 1);
        give(&digits[image[at] % 16], 1);
        if (at % LINE == LINE - 1 || at == length - 1)
            give("\n", 1);
    }
}

int main(void)
{
    uint32_t length;
    size_t calls = 0;

    if (!take(&length, sizeof length) || length > IMAGE_MOST || !take(image, length))
        return 2;
    while (calls < CALLS_MOST && take(&kinds[calls], 1) && take(&numbers[calls], sizeof numbers[0]) &&
           take(&others[calls], sizeof others[0]))
        calls++;
    memset(answers, NO_ANSWER, calls);
    in_calls(image, length, kinds, calls, numbers, calls, others, calls, answers, calls, bits, calls);
    for (size_t k = 0; k < calls; k++)
        give_answer(answers[k], bits[k]);
    give_image(length);
    return fflush(stdout) == 0 ? 0 : 2;
}
