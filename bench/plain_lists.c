/*
 * Lists of events to the plain program's tag, in a loop of its own: what tests/driver/lists.rattle is measured against. Each word is
 * an event by play_event, which checks image, record, code and reading; with -DUNCHECKED nothing is checked at an event.
 */
#define main plain_main
#include "plain_play.c"
#undef main

#define FEW_REPLIES 17
#define TICK_WORD 4096

/* The event code of a word that is no tick: for a word that is no event, one that is refused. */
static uint8_t code_of(uint16_t word)
{
    return word == TICK || word > SHORT_RESET ? SHORT_RESET + 1 : word;
}

/*
 * The words one by one, until one is refused; returns how many are done. It stays a function of its own: within in_lists the
 * compiler has fewer registers for it, and a slot without checks counts 4 more.
 */
__attribute__((noinline)) static size_t play_words(uint8_t *lent, size_t size, const uint16_t *words, size_t count,
                                                   uint8_t *replies, enum refusal *refusal)
{
    size_t i = 0;
    unsigned line;

    *refusal = ACCEPTED;
    for (; i < count; i++) {
        uint16_t word = words[i];

        *refusal = word >= TICK_WORD
                       ? play_event(&tag, lent, size, TICK, word - TICK_WORD, &line)
                       : play_event(&tag, lent, size, code_of(word), 0, &line);
        if (*refusal != ACCEPTED)
            break;
        replies[i] = line;
    }
    return i;
}

/* The number of a list: 17, 3 and 6 before its first word, an empty list's also. */
static uint8_t play_list(uint8_t *lent, size_t size, const uint16_t *words, size_t count, uint8_t *replies,
                         size_t room, uint32_t *done)
{
    enum refusal refusal;

    *done = 0;
    if (room < count)
        return FEW_REPLIES;
    if (size != IMAGE_SIZE)
        return BAD_IMAGE;
    if (!ranges_hold(&tag))
        return BAD_RECORD;
    *done = play_words(lent, size, words, count, replies, &refusal);
    return refusal == BAD_READING ? BAD_EVENT : refusal;
}

/* As in tests/driver/lists.rattle: of a longer image the new tag is lent the first bytes, and the lists all of it. */
uint8_t in_lists(uint8_t *lent, size_t size, uint64_t number, uint8_t code, const uint32_t *sizes, size_t lists,
                 const uint32_t *rooms, size_t rooms_length, const uint16_t *words, size_t words_length,
                 uint8_t *replies, size_t replies_length, uint8_t *answers, size_t answers_length, uint32_t *done,
                 size_t done_length)
{
    uint8_t rom[8];

    (void)rooms_length, (void)words_length, (void)replies_length, (void)answers_length, (void)done_length;
    for (unsigned i = 0; i < sizeof rom; i++)
        rom[i] = number >> 8 * i;
    uint8_t answer = new_tag(&tag, lent, size < IMAGE_SIZE ? size : IMAGE_SIZE, rom, code);
    for (size_t k = 0; k < lists; k++) {
        answers[k] = play_list(lent, size, words, sizes[k], replies, rooms[k], &done[k]);
        words += sizes[k];
        replies += rooms[k];
    }
    return answer;
}
