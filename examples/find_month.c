/* Finds the lunar month that has a date: find_month ALMANAC YEAR MONTH DAY. The almanac file is what `./hazomekyu build` writes.

   Prints the sui's year, the month's number, whether it is a leap month, and the day of the month. Exit status: 0 found, 1 not found or refused, 2 it could not run.

   What a phone takes from here: read the file once, check it, and read its months into an array; a day is then found among them by halves. */
#include <stdio.h>
#include <stdlib.h>

#include "hazomekyu.h"

/* The largest almanac: 64 leap entries, 128 suis of 13 months. */
#define MOST_BYTES 16140
#define MOST_LEAP_WORDS (2 * 64)
#define MOST_SUI_WORDS (2 * 128)
#define MOST_MONTH_WORDS (3 * 128 * 13)

static uint8_t file[MOST_BYTES + 1]; /* one byte more, so that a longer file is seen to be longer */
static int64_t leap[MOST_LEAP_WORDS], suis[MOST_SUI_WORDS], months[MOST_MONTH_WORDS];

/* A month is three words: handle, first day, length. */
static int64_t handle(size_t i) { return months[3 * i]; }
static int64_t first_day(size_t i) { return months[3 * i + 1]; }
static int64_t length(size_t i) { return months[3 * i + 2]; }

int main(int argc, char **argv) {
    if (argc != 5) {
        fprintf(stderr, "usage: find_month ALMANAC YEAR MONTH DAY\n");
        return 2;
    }

    /* The file into memory. */
    FILE *f = fopen(argv[1], "rb");
    if (f == NULL) {
        fprintf(stderr, "find_month: cannot open %s\n", argv[1]);
        return 2;
    }
    size_t bytes = fread(file, 1, sizeof file, f);
    if (ferror(f)) {
        fprintf(stderr, "find_month: cannot read %s\n", argv[1]);
        return 2;
    }
    fclose(f);

    /* Its lists. Everything is checked before a word is written: 13 where this is no lawful almanac. 12 cannot happen, the lists being as long as the largest. */
    hzk_answer answer;
    int64_t refused = hzk_read_file(file, bytes, leap, MOST_LEAP_WORDS, suis, MOST_SUI_WORDS, months, MOST_MONTH_WORDS, &answer);
    if (refused) {
        fprintf(stderr, "find_month: %s is not an almanac file (refused by %lld)\n", argv[1], (long long)refused);
        return 1;
    }
    size_t count = (size_t)answer.value[2]; /* leap entries, suis, months */

    /* The day number of the date. Where there is no such date, it is refused by 6. */
    refused = hzk_day_of(strtoll(argv[2], NULL, 10), strtoll(argv[3], NULL, 10), strtoll(argv[4], NULL, 10), &answer);
    if (refused) {
        fprintf(stderr, "find_month: %s-%s-%s is not a date (refused by %lld)\n", argv[2], argv[3], argv[4], (long long)refused);
        return 1;
    }
    int64_t day = answer.value[0];

    /* The months of a lawful file meet: each begins on the day behind the last one's end. So a day between the first and the end has exactly one. */
    if (day < first_day(0) || first_day(count - 1) + length(count - 1) <= day) {
        fprintf(stderr, "find_month: %s has no month for %s-%s-%s\n", argv[1], argv[2], argv[3], argv[4]);
        return 1;
    }
    size_t low = 0, behind = count; /* the month is one from low on and before behind */
    while (behind - low > 1) {
        size_t middle = low + (behind - low) / 2;
        if (first_day(middle) <= day) low = middle;
        else behind = middle;
    }

    /* A handle is 32 x year + 2 x number + 1 for a leap month. */
    int64_t h = handle(low);
    printf("sui %lld, month %lld%s, day %lld of %lld\n", (long long)(h / 32), (long long)(h % 32 / 2), h % 2 ? " leap" : "", (long long)(day - first_day(low) + 1), (long long)length(low));
    return 0;
}
