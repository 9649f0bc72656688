/*
 * listing.c - lists a dump, by bagtag_list.
 *
 * Standard input is a dump; standard output what the program list prints of it. The first line is the code, how many entries
 * the log holds and the mission's stamp; then comes a line for each entry: which of the mission's it is, its seconds from the
 * stamp and its temperature in sixteenths of a degree Celsius, all in hexadecimal. Of a dump that is refused, R and the
 * refusal's number in two digits. Exit status: 0 done, 1 refused.
 */
#include <stdio.h>

#include "bagtag.h"

/* A number of so many bytes in a head, low byte first. */
static uint64_t number_at(const uint8_t *head, size_t at, size_t bytes)
{
    uint64_t number = 0;

    while (bytes-- > 0)
        number = number << 8 | head[at + bytes];
    return number;
}

static void print_listing(const uint8_t *head, const int32_t *temperatures)
{
    uint32_t held = (uint32_t)number_at(head, BAGTAG_HEAD_HELD, 4);
    uint32_t first = (uint32_t)number_at(head, BAGTAG_HEAD_FIRST, 4);
    uint64_t seconds = number_at(head, BAGTAG_HEAD_SECONDS, 8); /* two's complement, as it is printed */
    uint64_t period = number_at(head, BAGTAG_HEAD_PERIOD, 4);

    printf("%02X%08lX", head[BAGTAG_HEAD_CODE], (unsigned long)held);
    for (size_t i = 0; i < 6; i++)
        printf("%02X", head[BAGTAG_HEAD_STAMP + i]);
    printf("\n");
    for (uint32_t i = 0; i < held; i++)
        printf("%08lX%016llX%04X\n", (unsigned long)(first + i), (unsigned long long)(seconds + i * period),
               (unsigned)temperatures[i] & 0xFFFF);
}

int main(void)
{
    static uint8_t dump[BAGTAG_DUMP + 1]; /* a byte more, so that a dump that is too long is noticed */
    static int32_t temperatures[BAGTAG_PLACES];
    uint8_t head[BAGTAG_HEAD];
    size_t length = fread(dump, 1, sizeof dump, stdin);
    uint8_t answer = bagtag_list(dump, length, temperatures, BAGTAG_PLACES, head, sizeof head);

    if (answer == BAGTAG_OK)
        print_listing(head, temperatures);
    else
        printf("R%02d\n", answer);
    return answer != BAGTAG_OK;
}
