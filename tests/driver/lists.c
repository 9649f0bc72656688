/*
 * Plays lists of events to a new tag, by the function in_lists of lists.rattle beside it, bench/singly.rattle or bench/plain_lists.c.
 * Numbers are little-endian.
 *
 * Standard input: the image's length and the number of lists, four bytes each; eight ROM bytes and the code; for each list
 * its words and its reply bytes, four bytes each; then all words, two bytes each.
 * Standard output: the new tag's answer; for each list its answer and, in four bytes, how many words are done; all reply
 * bytes, which are 77h before; the image, which is 55h before.
 */
#include "../../bench/plain.h"

#define IMAGE_MOST 65536
#define LISTS_MOST (1 << 20)
#define WORDS_MOST (1 << 20)
#define UNUSED_REPLY 0x77
#define UNUSED_IMAGE 0x55

uint8_t in_lists(uint8_t *image, size_t image_length, uint64_t number, uint8_t code, const uint32_t *sizes,
                 size_t lists, const uint32_t *rooms, size_t rooms_length, const uint16_t *words,
                 size_t words_length, uint8_t *replies, size_t replies_length, uint8_t *answers,
                 size_t answers_length, uint32_t *done, size_t done_length);

static uint8_t image[IMAGE_MOST];
static uint32_t sizes[LISTS_MOST], rooms[LISTS_MOST], done[LISTS_MOST];
static uint8_t answers[LISTS_MOST], replies[WORDS_MOST];
static uint16_t words[WORDS_MOST];

static bool take(void *to, size_t length)
{
    return fread(to, 1, length, stdin) == length;
}

static bool give(const void *from, size_t length)
{
    return fwrite(from, 1, length, stdout) == length;
}

/* Takes each list's two numbers, and adds them up. */
static bool take_lists(size_t lists, size_t *words_length, size_t *replies_length)
{
    *words_length = *replies_length = 0;
    for (size_t k = 0; k < lists; k++) {
        if (!take(&sizes[k], sizeof sizes[k]) || !take(&rooms[k], sizeof rooms[k]))
            return false;
        *words_length += sizes[k];
        *replies_length += rooms[k];
    }
    return *words_length <= WORDS_MOST && *replies_length <= WORDS_MOST;
}

int main(void)
{
    uint32_t image_length, lists;
    uint64_t number;
    uint8_t code, answer;
    size_t words_length, replies_length;

    if (!take(&image_length, sizeof image_length) || !take(&lists, sizeof lists) || !take(&number, sizeof number) ||
        !take(&code, sizeof code) || image_length > IMAGE_MOST || lists > LISTS_MOST ||
        !take_lists(lists, &words_length, &replies_length) || !take(words, words_length * sizeof words[0]))
        return 2;
    memset(image, UNUSED_IMAGE, image_length);
    memset(replies, UNUSED_REPLY, replies_length);
    answer = in_lists(image, image_length, number, code, sizes, lists, rooms, lists, words, words_length,
                      replies, replies_length, answers, lists, done, lists);
    give(&answer, 1);
    for (size_t k = 0; k < lists; k++) {
        give(&answers[k], 1);
        give(&done[k], sizeof done[k]);
    }
    return give(replies, replies_length) && give(image, image_length) && fflush(stdout) == 0 ? 0 : 2;
}
