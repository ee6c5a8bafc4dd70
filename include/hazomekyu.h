/* Hazomekyu: solar terms, moon phases, lunar months and the almanac file. Every function here is proved against its contract (docs/PROMISES.md).

   Every function takes any numbers and any lists, ends, and returns a number: 0 where it answered, else the number of the refusal (docs/RULES.md):

     1 the leap table breaks its rule                      8 year or count out of range, a solstice or new moon missing
     2 a series' coefficients do not fit, or its start       or doubled, or day lists break their rule
     3 a coefficient out of range                          9 a sui has neither 12 nor 13 months
     4 a segment rises too slowly                         10 a month has not 29 or 30 days
     5 a joint between segments outside its range         11 withdrawn: it is never returned
     6 a second, a day, a date or a segment out of range  12 lent room too small
     7 an instant before the first leap entry             13 a file, or lists to be written, break their layout, or old inputs give another file
                                                          15 zone out of range
                                                          18 neither of two series covers the second

   The answer record is written whole by every call: the number again, the segment that a refusal by 3 to 5 names (counted from 0; else 0), and the numbers
   of the answer, in the order that the function's comment gives; what it does not name is 0, and after a refusal all are. A lent list or file (the pointers
   without const, each followed by its room) is written only where the number is 0, and only as many places as the comment says: the others stay as they were.

   A list is a pointer to its first word, never NULL, and how many words it has. What is written must not overlap what is read, nor another lent place.
   No function allocates, keeps anything from one call to the next, or calls anything outside of this library but the C library's memory functions.

   Days count from 2000-01-01, seconds from 2000-01-01 00:00:00 TDB, milliseconds from 2000-01-01 00:00 in the zone. A zone is minutes east of UTC, -720 to 840:
   China's calendar is kept in 480, Vietnam's in 420. Every function that takes one judges it first, by 15. A leap table is two words an entry: UTC day and TAI-UTC. A series is its start second and 14 words a segment. A sui of a file is two words: year and number of months. A month is three: handle
   (32 x year + 2 x number + 1 for a leap month), first day, length. */
#ifndef HAZOMEKYU_H
#define HAZOMEKYU_H

#include <stdbool.h>
#include <stddef.h>
#include <stdint.h>

#ifdef __cplusplus
extern "C" {
#endif

typedef struct hzk_answer {
    int64_t number;
    int64_t segment;
    int64_t value[7];
} hzk_answer;

/* The zone of UTC+8. */
#define HZK_UTC8 480

/* Which body a series is of. */
#define HZK_SUN false
#define HZK_MOON true

/* Which of two series serves. */
#define HZK_NEAR 0
#define HZK_LONG 1

/* ---- days and dates */

/* The date of a day: year, month, day. 6 for a day outside -150,000 to 200,000. */
int64_t hzk_date_of(int64_t day, hzk_answer *answer);

/* The day of a date: day. 6 where there is no such date, or its day is out of range. */
int64_t hzk_day_of(int64_t year, int64_t month, int64_t day, hzk_answer *answer);

/* ---- time */

/* Whether a leap table keeps its rule. 1. */
int64_t hzk_judge_leap_table(const int64_t *leap, size_t leap_words, hzk_answer *answer);

/* The zone's millisecond of a TDB second: milliseconds. The count cannot say an inserted leap second: it is that of the second after it. 15, 1, 6, 7. */
int64_t hzk_milli_of(const int64_t *leap, size_t leap_words, int64_t second, int64_t zone, hzk_answer *answer);

/* The zone's day of a TDB second: day. In zone 0 an inserted leap second belongs to the day that it ends. 15, 1, 6, 7. */
int64_t hzk_day_of_second(const int64_t *leap, size_t leap_words, int64_t second, int64_t zone, hzk_answer *answer);

/* The day that a zone's millisecond lies in: day. Answers for every number. */
int64_t hzk_day_of_milli(int64_t milli, hzk_answer *answer);

/* The zone's date and time of a TDB second: year, month, day, hour, minute, second, millisecond. Inside an inserted leap second the second is 60. 15, 1, 6, 7. */
int64_t hzk_shown(const int64_t *leap, size_t leap_words, int64_t second, int64_t zone, hzk_answer *answer);

/* ---- series and marks */

/* Whether a series is accepted. 2; 3, 4, 5 with the segment. */
int64_t hzk_accept(bool moon, int64_t start, const int64_t *coefs, size_t coef_words, hzk_answer *answer);

/* The value of a series at a second: units of 0.1 milliarcsecond. 2 to 5, 6 outside the span. */
int64_t hzk_value_at(bool moon, int64_t start, const int64_t *coefs, size_t coef_words, int64_t second, hzk_answer *answer);

/* Which of two series of one kind serves a second, the near one if that covers it and otherwise the long one: HZK_NEAR or HZK_LONG, and the segment that has the
   second, counted from 0. Its coefficients are the 14 words of that series from word 14 x segment on. 2 to 5 for the near one, then for the long one; 18. */
int64_t hzk_serves(bool moon, int64_t near_start, const int64_t *near_coefs, size_t near_words, int64_t long_start, const int64_t *long_coefs, size_t long_words,
                   int64_t second, hzk_answer *answer);

/* Replaces segment `number` (counted from 0) of a series by the 14 words of part, and judges the whole new series. 6 where there is no such segment; then 2; 3, 4,
   5 with the segment. Writes 14 words; while the call runs they stand in coefs, and after a refusal those that stood there do again. */
int64_t hzk_replace_segment(bool moon, int64_t start, int64_t *coefs, size_t coef_words, size_t number, const int64_t part[14], hzk_answer *answer);

/* How many marks a series lists: marks. 2 to 5. */
int64_t hzk_count_marks(bool moon, int64_t start, const int64_t *coefs, size_t coef_words, hzk_answer *answer);

/* Every mark of a series: marks. Writes two words a mark, index and second, in order. 2 to 5, 12. */
int64_t hzk_list_marks(bool moon, int64_t start, const int64_t *coefs, size_t coef_words, int64_t *marks, size_t mark_room, hzk_answer *answer);

/* The same list by another way, for tests: every second of the series is visited and compared with the one before, and nothing is searched. What it answers and writes
   is what hzk_list_marks does, for every input; a whole series takes minutes. 2 to 5, 12. */
int64_t hzk_walk_marks(bool moon, int64_t start, const int64_t *coefs, size_t coef_words, int64_t *marks, size_t mark_room, hzk_answer *answer);

/* Whether a build takes its inputs. 1; Sun 2 to 5; Moon 2 to 5; 7. */
int64_t hzk_judge_inputs(const int64_t *leap, size_t leap_words, int64_t sun_start, const int64_t *sun, size_t sun_words, int64_t moon_start, const int64_t *moon,
                         size_t moon_words, hzk_answer *answer);

/* ---- months */

/* The months of a sui by the days of new moons and of its 13 zhongqi: months, 12 or 13. Writes three words a month. 8 to 10, 12. */
int64_t hzk_months_of(int64_t year, const int64_t *new_moons, size_t new_moon_words, const int64_t *zhongqi, size_t zhongqi_words, int64_t *months,
                      size_t month_room, hzk_answer *answer);

/* The months of the sui of a year, from leap table and series, by the days of a zone: months, 12 or 13. Writes three words a month. 15; 1; Sun 2 to 5; Moon 2 to 5;
   7 to 10; 12. */
int64_t hzk_sui(const int64_t *leap, size_t leap_words, int64_t sun_start, const int64_t *sun, size_t sun_words, int64_t moon_start, const int64_t *moon,
                size_t moon_words, int64_t zone, int64_t year, int64_t *months, size_t month_room, hzk_answer *answer);

/* ---- the almanac file */

/* Checks a file: leap entries, suis, months. 13. */
int64_t hzk_check_file(const uint8_t *file, size_t file_bytes, hzk_answer *answer);

/* Reads a file: leap entries, suis, months. Writes two words an entry, two a sui, three a month. 13, 12. */
int64_t hzk_read_file(const uint8_t *file, size_t file_bytes, int64_t *leap, size_t leap_room, int64_t *suis, size_t sui_room, int64_t *months,
                      size_t month_room, hzk_answer *answer);

/* Writes a file from the lists that hzk_read_file gives: bytes. 13, 12. */
int64_t hzk_write_file(const int64_t *leap, size_t leap_words, const int64_t *suis, size_t sui_words, const int64_t *months, size_t month_words, uint8_t *file,
                       size_t file_room, hzk_answer *answer);

/* Builds a file of count suis (1 to 128) from year first on, by the days of a zone, which the file does not say: bytes; 16,140 are enough for any. 15; 1; Sun 2 to 5;
   Moon 2 to 5; 7; 8 for the count; each sui in turn 8 to 10; 12. */
int64_t hzk_build(const int64_t *leap, size_t leap_words, int64_t sun_start, const int64_t *sun, size_t sun_words, int64_t moon_start, const int64_t *moon,
                  size_t moon_words, int64_t zone, int64_t first, int64_t count, uint8_t *file, size_t file_room, hzk_answer *answer);

/* Rebuilds old_file, which the old inputs must give in the zone, from the new ones: bytes, years. Writes the file that hzk_build gives for the same years and zone from
   the new inputs (16,140 bytes are enough for any), and, in rising order, the years of the suis whose new-moon and zhongqi days are the same by both (128 words are
   enough). 15; 13 where the old inputs do not give old_file in this zone; then as hzk_build refuses; 12 for the years too. */
int64_t hzk_rebuild(const uint8_t *old_file, size_t old_file_bytes, const int64_t *old_leap, size_t old_leap_words, int64_t old_sun_start, const int64_t *old_sun,
                    size_t old_sun_words, int64_t old_moon_start, const int64_t *old_moon, size_t old_moon_words, const int64_t *leap, size_t leap_words,
                    int64_t sun_start, const int64_t *sun, size_t sun_words, int64_t moon_start, const int64_t *moon, size_t moon_words, int64_t zone,
                    uint8_t *file, size_t file_room, int64_t *years, size_t year_room, hzk_answer *answer);

#ifdef __cplusplus
}
#endif

#endif
