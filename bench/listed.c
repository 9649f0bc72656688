/*
 * Lists the dump of standard input many times, by the function of listed.rattle, and prints the listing once. On standard error: the
 * processor time of a listing in nanoseconds, the least over the rounds, each of some listings.
 */
#define _POSIX_C_SOURCE 200809L
#include "plain.h"

#if __has_include(<time.h>)
#include <time.h>
#else
#define CLOCK_PROCESS_CPUTIME_ID 2
struct timespec {
    int64_t tv_sec;
    int64_t tv_nsec;
};
int clock_gettime(int clock, struct timespec *now);
int dprintf(int file, const char *form, ...);
#endif

#define DUMP_MOST 32768
#define PLACES 8192
#define TEXT_MOST 262144
#define ROUNDS 100
#define LISTINGS 5

size_t listed(const uint8_t *dump, size_t dump_length, int32_t *temperatures, size_t places, uint8_t *text,
              size_t text_length);

static uint8_t dump[DUMP_MOST], text[TEXT_MOST];
static int32_t temperatures[PLACES];

static int64_t nanoseconds(void)
{
    struct timespec now;

    clock_gettime(CLOCK_PROCESS_CPUTIME_ID, &now);
    return 1000000000 * now.tv_sec + now.tv_nsec;
}

int main(void)
{
    size_t dump_length = fread(dump, 1, sizeof dump, stdin), length = 0;
    int64_t least = -1;

    for (int round = 0; round < ROUNDS; round++) {
        int64_t begun = nanoseconds(), taken;

        for (int k = 0; k < LISTINGS; k++)
            length = listed(dump, dump_length, temperatures, PLACES, text, sizeof text);
        taken = (nanoseconds() - begun) / LISTINGS;
        if (least < 0 || taken < least)
            least = taken;
    }
    dprintf(2, "%lld\n", (long long)least);
    return length == 0 || fwrite(text, 1, length, stdout) != length;
}
