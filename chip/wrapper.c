/*
 * The header's functions on a chip whose size_t has 32 bits. The library's code has 64 bits for each length, on every processor; on
 * such a chip its functions have names that end in _64, and these call them. A function that is added to the library is added here:
 * chip/build names one that is missing.
 *
 * The answer of an inner function is the low byte of a register, of which no other bit counts: so it is taken as 32 bits and cut.
 */
#include "bagtag.h"

uint32_t bagtag_new_64(uint8_t *image, uint64_t image_len, uint8_t *record, uint64_t record_len, uint64_t number, uint8_t code);
uint32_t bagtag_event_64(uint8_t *image, uint64_t image_len, uint8_t *record, uint64_t record_len, uint8_t code,
                         uint16_t reading, uint8_t *line);
uint32_t bagtag_events_64(uint8_t *image, uint64_t image_len, uint8_t *record, uint64_t record_len, const uint16_t *words,
                          uint64_t words_len, uint8_t *replies, uint64_t replies_len, uint64_t *done);
uint32_t bagtag_line_new_64(uint8_t *block, uint64_t block_len, uint8_t *records, uint64_t records_len, const uint64_t *numbers,
                            uint64_t count, const uint8_t *codes, uint64_t codes_len);
uint32_t bagtag_line_event_64(uint8_t *block, uint64_t block_len, uint8_t *records, uint64_t records_len, uint8_t count,
                              uint8_t code, uint8_t place, uint16_t reading, uint8_t *line);
uint32_t bagtag_list_64(const uint8_t *dump, uint64_t dump_len, int32_t *temperatures, uint64_t places, uint8_t *head,
                        uint64_t head_len);

uint8_t bagtag_new(uint8_t *image, size_t image_len, uint8_t *record, size_t record_len, uint64_t number, uint8_t code)
{
    return (uint8_t)bagtag_new_64(image, image_len, record, record_len, number, code);
}

uint8_t bagtag_event(uint8_t *image, size_t image_len, uint8_t *record, size_t record_len, uint8_t code, uint16_t reading,
                     uint8_t *line)
{
    return (uint8_t)bagtag_event_64(image, image_len, record, record_len, code, reading, line);
}

uint8_t bagtag_events(uint8_t *image, size_t image_len, uint8_t *record, size_t record_len, const uint16_t *words,
                      size_t words_len, uint8_t *replies, size_t replies_len, size_t *done)
{
    uint64_t all_done;
    uint8_t answer = (uint8_t)bagtag_events_64(image, image_len, record, record_len, words, words_len, replies, replies_len,
                                               &all_done);

    *done = (size_t)all_done;
    return answer;
}

uint8_t bagtag_line_new(uint8_t *block, size_t block_len, uint8_t *records, size_t records_len, const uint64_t *numbers,
                        size_t count, const uint8_t *codes, size_t codes_len)
{
    return (uint8_t)bagtag_line_new_64(block, block_len, records, records_len, numbers, count, codes, codes_len);
}

uint8_t bagtag_line_event(uint8_t *block, size_t block_len, uint8_t *records, size_t records_len, uint8_t count, uint8_t code,
                          uint8_t place, uint16_t reading, uint8_t *line)
{
    return (uint8_t)bagtag_line_event_64(block, block_len, records, records_len, count, code, place, reading, line);
}

uint8_t bagtag_list(const uint8_t *dump, size_t dump_len, int32_t *temperatures, size_t places, uint8_t *head, size_t head_len)
{
    return (uint8_t)bagtag_list_64(dump, dump_len, temperatures, places, head, head_len);
}
