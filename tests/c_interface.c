/* Calls every function of include/hazomekyu.h from C and compares the number, the whole record and every lent place with what is written down here: document 01's
   examples, both sides of its bounds, and real series, reckoned by bench/reference.py, tests/sui_real.py and tests/build_cases.py, which share no code with the
   library. Prints what differs and a last line "N checks, M failed". Arguments: the folder of the series (crates/build_cases/data), and the almanac file that
   tests/build_cases.py made of samples/real_1995_2024.in. tests/c_interface builds and runs it. */
#include <stdio.h>
#include <string.h>

#include "hazomekyu.h"

#define COUNT(array) (sizeof(array) / sizeof(array)[0])
/* a list as two arguments: pointer and number of words */
#define LIST(...) (const int64_t[]){__VA_ARGS__}, COUNT(((const int64_t[]){__VA_ARGS__}))
#define NO_WORDS (const int64_t[]){0}, 0
#define SEGMENT(c0, c1, c2) c0, c1, c2, 0, 0, 0, 0, 0, 0, 0, 0, 0, 0, 0

static int checks, failed;

static void check(const char *what, bool holds) {
    checks++;
    if (holds) return;
    failed++;
    printf("differs: %s\n", what);
}

/* ---- the record, between two words that no call may touch; before a call all of it holds what no call may leave there */
#define UNTOUCHED 0x5A5A5A5A5A5A5A5A

static struct { int64_t before; hzk_answer answer; int64_t behind; } told;
static bool seen[19];

static hzk_answer *fresh(void) {
    told.before = told.behind = told.answer.number = told.answer.segment = UNTOUCHED;
    for (size_t i = 0; i < COUNT(told.answer.value); i++) told.answer.value[i] = UNTOUCHED;
    return &told.answer;
}

#define ANSWERED(...) ((hzk_answer){0, 0, {__VA_ARGS__}})
#define ACCEPTED ANSWERED(0)
#define REFUSED(number) REFUSED_AT(number, 0)
#define REFUSED_AT(number, segment) ((hzk_answer){number, segment, {0}})

static void expect(const char *what, int64_t returned, hzk_answer wanted) {
    bool same = returned == wanted.number && told.answer.number == wanted.number && told.answer.segment == wanted.segment;
    for (size_t i = 0; i < COUNT(wanted.value); i++) same = same && told.answer.value[i] == wanted.value[i];
    check(what, same && told.before == UNTOUCHED && told.behind == UNTOUCHED);
    seen[wanted.number] = true;
}

/* ---- lent lists, and a lent file: what lies outside of what is to be written must stay as it was, the word or byte before the room and those behind it too */
typedef struct { int64_t words[400]; } list;
static list first_list, second_list, third_list;

static int64_t *lend(list *l) {
    for (size_t i = 0; i < COUNT(l->words); i++) l->words[i] = UNTOUCHED;
    return l->words + 1;
}

/* with words to begin with */
static int64_t *lend_words(list *l, const int64_t *words, size_t n) {
    return memcpy(lend(l), words, n * sizeof words[0]);
}

static void holds(const char *what, const list *l, const int64_t *wanted, size_t n) {
    bool same = true;
    for (size_t i = 0; i < COUNT(l->words); i++) same = same && l->words[i] == (0 < i && i <= n ? wanted[i - 1] : UNTOUCHED);
    check(what, same);
}

static void untouched(const char *what, const list *l) {
    holds(what, l, NULL, 0);
}

static uint8_t file[16200];

static uint8_t *lend_file(void) {
    memset(file, 0x5A, sizeof file);
    return file + 1;
}

static void file_holds(const char *what, const uint8_t *wanted, size_t n) {
    bool same = true;
    for (size_t i = 0; i < sizeof file; i++) same = same && file[i] == (0 < i && i <= n ? wanted[i - 1] : 0x5A);
    check(what, same);
}

/* ---- days and dates */
static void dates(void) {
    expect("date of -10227", hzk_date_of(-10227, fresh()), ANSWERED(1972, 1, 1));
    expect("date of 59", hzk_date_of(59, fresh()), ANSWERED(2000, 2, 29));
    expect("date of 8846", hzk_date_of(8846, fresh()), ANSWERED(2024, 3, 21));
    expect("date of -1", hzk_date_of(-1, fresh()), ANSWERED(1999, 12, 31));
    expect("date of the first day", hzk_date_of(-150000, fresh()), ANSWERED(1589, 4, 25));
    expect("date of the last day", hzk_date_of(200000, fresh()), ANSWERED(2547, 8, 1));
    expect("date before the first day", hzk_date_of(-150001, fresh()), REFUSED(6));
    expect("date behind the last day", hzk_date_of(200001, fresh()), REFUSED(6));
    expect("date of the least number", hzk_date_of(INT64_MIN, fresh()), REFUSED(6));
    expect("date of the largest number", hzk_date_of(INT64_MAX, fresh()), REFUSED(6));

    expect("day of 1972-01-01", hzk_day_of(1972, 1, 1, fresh()), ANSWERED(-10227));
    expect("day of 2000-02-29", hzk_day_of(2000, 2, 29, fresh()), ANSWERED(59));
    expect("day of 2024-03-21", hzk_day_of(2024, 3, 21, fresh()), ANSWERED(8846));
    expect("day of 1589-04-25", hzk_day_of(1589, 4, 25, fresh()), ANSWERED(-150000));
    expect("day of 2547-08-01", hzk_day_of(2547, 8, 1, fresh()), ANSWERED(200000));
    expect("day of 1589-04-24", hzk_day_of(1589, 4, 24, fresh()), REFUSED(6));
    expect("day of 2547-08-02", hzk_day_of(2547, 8, 2, fresh()), REFUSED(6));
    expect("day of 1900-02-29", hzk_day_of(1900, 2, 29, fresh()), REFUSED(6));
    expect("day of a month 13", hzk_day_of(2000, 13, 1, fresh()), REFUSED(6));
    expect("day of a day 0", hzk_day_of(2000, 1, 0, fresh()), REFUSED(6));
    expect("day of the least year", hzk_day_of(INT64_MIN, 1, 1, fresh()), REFUSED(6));
    expect("day of the largest numbers", hzk_day_of(INT64_MAX, INT64_MAX, INT64_MAX, fresh()), REFUSED(6));
}

/* ---- the clock: document 01's solstice, and a table that begins 365 days before day 0, at 86,400 x -365 + 32 s of TAI */
static void clocks(void) {
    static int64_t table[130];
    for (int64_t i = 0; i < 65; i++) table[2 * i] = 100 * i, table[2 * i + 1] = 10 + i;
    expect("leap table of one entry", hzk_judge_leap_table(LIST(-365, 32), fresh()), ACCEPTED);
    expect("leap table of 64 entries", hzk_judge_leap_table(table, 128, fresh()), ACCEPTED);
    expect("leap table of 65 entries", hzk_judge_leap_table(table, 130, fresh()), REFUSED(1));
    expect("leap table of no entry", hzk_judge_leap_table(NO_WORDS, fresh()), REFUSED(1));
    expect("leap table of three words", hzk_judge_leap_table(LIST(-365, 32, 0), fresh()), REFUSED(1));
    expect("leap table with an offset again", hzk_judge_leap_table(LIST(-365, 32, 0, 32), fresh()), REFUSED(1));
    expect("leap table with a day again", hzk_judge_leap_table(LIST(-365, 32, -365, 33), fresh()), REFUSED(1));
    expect("leap table of the first day", hzk_judge_leap_table(LIST(-120000, 0), fresh()), ACCEPTED);
    expect("leap table before the first day", hzk_judge_leap_table(LIST(-120001, 0), fresh()), REFUSED(1));
    expect("leap table of offset 1000", hzk_judge_leap_table(LIST(0, 1000), fresh()), ACCEPTED);
    expect("leap table of offset 1001", hzk_judge_leap_table(LIST(0, 1001), fresh()), REFUSED(1));

    expect("millisecond of the solstice", hzk_milli_of(LIST(-365, 32), -836107, HZK_UTC8, fresh()), ANSWERED(-807371184));
    expect("millisecond of the first second", hzk_milli_of(LIST(-365, 32), -31535935, HZK_UTC8, fresh()), ANSWERED(-31507199184));
    expect("millisecond before the first entry", hzk_milli_of(LIST(-365, 32), -31535936, HZK_UTC8, fresh()), REFUSED(7));
    expect("millisecond of the last second", hzk_milli_of(LIST(-365, 32), 16000000000, HZK_UTC8, fresh()), ANSWERED(16000028735816));
    expect("millisecond behind the last second", hzk_milli_of(LIST(-365, 32), 16000000001, HZK_UTC8, fresh()), REFUSED(6));
    expect("millisecond before the range, 6 before 7", hzk_milli_of(LIST(-365, 32), -10000000001, HZK_UTC8, fresh()), REFUSED(6));
    expect("millisecond by no table, 1 before 6", hzk_milli_of(NO_WORDS, INT64_MIN, HZK_UTC8, fresh()), REFUSED(1));

    expect("day of the solstice", hzk_day_of_second(LIST(-365, 32), -836107, HZK_UTC8, fresh()), ANSWERED(-10));
    expect("day before the first entry", hzk_day_of_second(LIST(-365, 32), -31535936, HZK_UTC8, fresh()), REFUSED(7));
    expect("day of the largest second", hzk_day_of_second(LIST(-365, 32), INT64_MAX, HZK_UTC8, fresh()), REFUSED(6));
    expect("day by three words", hzk_day_of_second(LIST(-365, 32, 1), 0, HZK_UTC8, fresh()), REFUSED(1));

    expect("day of millisecond 0", hzk_day_of_milli(0, fresh()), ANSWERED(0));
    expect("day of millisecond -1", hzk_day_of_milli(-1, fresh()), ANSWERED(-1));
    expect("day of the last millisecond of a day", hzk_day_of_milli(86399999, fresh()), ANSWERED(0));
    expect("day of the next", hzk_day_of_milli(86400000, fresh()), ANSWERED(1));
    expect("day of the least millisecond", hzk_day_of_milli(INT64_MIN, fresh()), ANSWERED(-106751991168));
    expect("day of the largest millisecond", hzk_day_of_milli(INT64_MAX, fresh()), ANSWERED(106751991167));

    expect("the solstice shown", hzk_shown(LIST(-365, 32), -836107, HZK_UTC8, fresh()), ANSWERED(1999, 12, 22, 15, 43, 48, 816));
    expect("a mark of the worked listing shown", hzk_shown(LIST(-365, 32), 2700000, HZK_UTC8, fresh()), ANSWERED(2000, 2, 1, 13, 58, 55, 816));
    expect("shown before the first entry", hzk_shown(LIST(-365, 32), -31535936, HZK_UTC8, fresh()), REFUSED(7));
    expect("shown behind the last second", hzk_shown(LIST(-365, 32), 16000000001, HZK_UTC8, fresh()), REFUSED(6));
    expect("shown by no table", hzk_shown(NO_WORDS, 0, HZK_UTC8, fresh()), REFUSED(1));
}

/* ---- inserted seconds: 2016-12-31 23:59:60 UTC, and both sides of it */
#define REAL_LEAP -365, 32, 2192, 33, 3288, 34, 4565, 35, 5660, 36, 6210, 37

/* A clock that ticks: whether every second of four days and a minute is shown in a zone as the tick after the one before. An entry begins on the UTC days 0, 1, 2, 4, 5, 6,
   8, .., and each but the first inserts a second before it, at the end of a minute of UTC and so of every zone. */
static bool ticks(int64_t zone) {
    static int64_t table[128];
    for (int64_t i = 0; i < 64; i++) table[2 * i] = i + i / 3, table[2 * i + 1] = 32 + i;
    int64_t minutes = 0, second = 0;
    for (int64_t tdb = 65; tdb < 65 + 4 * 86400 + 60; tdb++) {
        hzk_answer date, shown, of;
        int64_t day = (minutes + zone + 1440) / 1440 - 1, minute = (minutes + zone + 1440) % 1440;
        hzk_date_of(day, &date);
        if (hzk_shown(table, 128, tdb, zone, &shown) != 0 || hzk_day_of_second(table, 128, tdb, zone, &of) != 0) return false;
        const int64_t wanted[] = {date.value[0], date.value[1], date.value[2], minute / 60, minute % 60, second, 816};
        if (memcmp(shown.value, wanted, sizeof wanted) != 0 || of.value[0] != day) return false;
        int64_t last = minutes % 1440 == 1439 && minutes / 1440 % 4 != 2 ? 60 : 59;
        if (second++ == last) second = 0, minutes++;
    }
    return true;
}

static void inserted(void) {
    expect("shown before an inserted second", hzk_shown(LIST(REAL_LEAP), 536544068, HZK_UTC8, fresh()), ANSWERED(2017, 1, 1, 7, 59, 59, 816));
    expect("shown inside it", hzk_shown(LIST(REAL_LEAP), 536544069, HZK_UTC8, fresh()), ANSWERED(2017, 1, 1, 7, 59, 60, 816));
    expect("shown after it", hzk_shown(LIST(REAL_LEAP), 536544070, HZK_UTC8, fresh()), ANSWERED(2017, 1, 1, 8, 0, 0, 816));
    expect("millisecond before an inserted second", hzk_milli_of(LIST(REAL_LEAP), 536544068, HZK_UTC8, fresh()), ANSWERED(536572799816));
    expect("millisecond inside it", hzk_milli_of(LIST(REAL_LEAP), 536544069, HZK_UTC8, fresh()), ANSWERED(536572800816));
    expect("millisecond after it", hzk_milli_of(LIST(REAL_LEAP), 536544070, HZK_UTC8, fresh()), ANSWERED(536572800816));
    expect("day inside an inserted second", hzk_day_of_second(LIST(REAL_LEAP), 536544069, HZK_UTC8, fresh()), ANSWERED(6210));
    expect("shown in the second before the first entry", hzk_shown(LIST(6210, 37), 536544069, HZK_UTC8, fresh()), REFUSED(7));
    expect("shown in the first second of the first entry", hzk_shown(LIST(6210, 37), 536544070, HZK_UTC8, fresh()), ANSWERED(2017, 1, 1, 8, 0, 0, 816));
    const int64_t zones[] = {-720, -210, -1, 0, 1, 345, 420, HZK_UTC8, 840};
    for (size_t i = 0; i < COUNT(zones); i++) check("every second of four days and a minute, as a clock ticks", ticks(zones[i]));
}

/* ---- series and marks: document 01's Sun and Moon */
#define SUN SEGMENT(552960000, 552960000, 0)
#define MOON SEGMENT(4103999999, 864000000, 0)
#define SECOND SEGMENT(1658880000, 552960000, 0) /* behind that Sun: it joins by 400 */
#define PART(...) (const int64_t[14]){__VA_ARGS__}

static void series(void) {
    expect("the worked Sun", hzk_accept(HZK_SUN, 0, LIST(SUN), fresh()), ACCEPTED);
    expect("the worked Moon", hzk_accept(HZK_MOON, 0, LIST(MOON), fresh()), ACCEPTED);
    expect("no segment", hzk_accept(HZK_SUN, 0, NO_WORDS, fresh()), REFUSED(2));
    expect("a word more", hzk_accept(HZK_SUN, 0, LIST(SUN, 0), fresh()), REFUSED(2));
    expect("the last start", hzk_accept(HZK_SUN, 10000000000, LIST(SUN), fresh()), ACCEPTED);
    expect("behind the last start", hzk_accept(HZK_SUN, 10000000001, LIST(SUN), fresh()), REFUSED(2));
    expect("the least start", hzk_accept(HZK_MOON, INT64_MIN, LIST(MOON), fresh()), REFUSED(2));
    expect("a coefficient out of range", hzk_accept(HZK_SUN, 0, LIST(SEGMENT(0, 4000000001, 0)), fresh()), REFUSED(3));
    expect("the least coefficient", hzk_accept(HZK_MOON, 0, LIST(MOON, SEGMENT(0, 20000000, INT64_MIN)), fresh()), REFUSED_AT(3, 1));
    expect("just fast enough", hzk_accept(HZK_SUN, 0, LIST(SEGMENT(0, 138240000, 0)), fresh()), ACCEPTED);
    expect("too slow", hzk_accept(HZK_SUN, 0, LIST(SEGMENT(0, 138239999, 0)), fresh()), REFUSED(4));
    expect("the Moon just fast enough", hzk_accept(HZK_MOON, 0, LIST(SEGMENT(0, 17280000, 0)), fresh()), ACCEPTED);
    expect("the Moon too slow", hzk_accept(HZK_MOON, 0, LIST(SEGMENT(0, 17279999, 0)), fresh()), REFUSED(4));
    expect("the second too slow", hzk_accept(HZK_SUN, 0, LIST(SUN, SEGMENT(1658880000, 138239999, 0)), fresh()), REFUSED_AT(4, 1));
    expect("3 of a later one before 4", hzk_accept(HZK_SUN, 0, LIST(SEGMENT(0, 1, 0), SEGMENT(0, 4000000001, 0)), fresh()), REFUSED_AT(3, 1));
    expect("a joint of 400", hzk_accept(HZK_SUN, 0, LIST(SUN, SEGMENT(1658880000, 552960000, 0)), fresh()), ACCEPTED);
    expect("a joint of 200", hzk_accept(HZK_SUN, 0, LIST(SUN, SEGMENT(1658879800, 552960000, 0)), fresh()), ACCEPTED);
    expect("a joint of 199", hzk_accept(HZK_SUN, 0, LIST(SUN, SEGMENT(1658879799, 552960000, 0)), fresh()), REFUSED_AT(5, 1));

    expect("a segment by itself", hzk_replace_segment(HZK_SUN, 0, lend_words(&first_list, LIST(SUN, SECOND)), 28, 1, PART(SECOND), fresh()), ACCEPTED);
    holds("the series as it was", &first_list, LIST(SUN, SECOND));
    expect("the last segment by another", hzk_replace_segment(HZK_SUN, 0, lend_words(&first_list, LIST(SUN, SECOND)), 28, 1, PART(SEGMENT(1658879800, 552960000, 0)), fresh()), ACCEPTED);
    holds("the new series", &first_list, LIST(SUN, SEGMENT(1658879800, 552960000, 0)));
    expect("the first segment by another", hzk_replace_segment(HZK_SUN, 0, lend_words(&first_list, LIST(SUN, SECOND)), 28, 0, PART(SEGMENT(552960200, 552960000, 0)), fresh()), ACCEPTED);
    holds("the new series", &first_list, LIST(SEGMENT(552960200, 552960000, 0), SECOND));
    expect("the Moon's segment by another", hzk_replace_segment(HZK_MOON, 0, lend_words(&first_list, LIST(MOON)), 14, 0, PART(1, 17280001, 0, 0, 0, 0, 0, 0, 0, 0, 0, 0, 0, 0), fresh()), ACCEPTED);
    holds("the new series", &first_list, LIST(1, 17280001, 0, 0, 0, 0, 0, 0, 0, 0, 0, 0, 0, 0));
    expect("a series mended", hzk_replace_segment(HZK_SUN, 0, lend_words(&first_list, LIST(SUN, SUN)), 28, 1, PART(SECOND), fresh()), ACCEPTED);
    holds("the new series", &first_list, LIST(SUN, SECOND));
    expect("a segment behind the last", hzk_replace_segment(HZK_SUN, 0, lend_words(&first_list, LIST(SUN, SECOND)), 28, 2, PART(SECOND), fresh()), REFUSED(6));
    holds("the series as it was", &first_list, LIST(SUN, SECOND));
    expect("the largest number", hzk_replace_segment(HZK_SUN, 0, lend_words(&first_list, LIST(SUN, SECOND)), 28, (size_t)-1, PART(SECOND), fresh()), REFUSED(6));
    holds("the series as it was", &first_list, LIST(SUN, SECOND));
    expect("a segment of none", hzk_replace_segment(HZK_SUN, 0, lend(&first_list), 0, 0, PART(SUN), fresh()), REFUSED(6));
    untouched("nothing replaced", &first_list);
    expect("a word too many", hzk_replace_segment(HZK_SUN, 0, lend_words(&first_list, LIST(SUN, 7)), 15, 0, PART(SECOND), fresh()), REFUSED(2));
    holds("the series as it was", &first_list, LIST(SUN, 7));
    expect("a word too many, 6 before 2", hzk_replace_segment(HZK_SUN, 0, lend_words(&first_list, LIST(SUN, 7)), 15, 1, PART(SECOND), fresh()), REFUSED(6));
    holds("the series as it was", &first_list, LIST(SUN, 7));
    expect("a bad coefficient", hzk_replace_segment(HZK_SUN, 0, lend_words(&first_list, LIST(SUN, SECOND)), 28, 1, PART(1658880000, 552960000, 1, 2, 3, 4, 5, 6, 7, 8, 9, 10, 11, INT64_MIN), fresh()), REFUSED_AT(3, 1));
    holds("the series as it was", &first_list, LIST(SUN, SECOND));
    expect("a slow segment", hzk_replace_segment(HZK_SUN, 0, lend_words(&first_list, LIST(SUN, SECOND)), 28, 0, PART(SEGMENT(0, 138239999, 0)), fresh()), REFUSED(4));
    holds("the series as it was", &first_list, LIST(SUN, SECOND));
    expect("a joint of 199 with the one before", hzk_replace_segment(HZK_SUN, 0, lend_words(&first_list, LIST(SUN, SECOND)), 28, 1, PART(SEGMENT(1658879799, 552960000, 0)), fresh()), REFUSED_AT(5, 1));
    holds("the series as it was", &first_list, LIST(SUN, SECOND));
    expect("a joint of 199 with the one behind", hzk_replace_segment(HZK_SUN, 0, lend_words(&first_list, LIST(SUN, SECOND)), 28, 0, PART(SEGMENT(552960201, 552960000, 0)), fresh()), REFUSED_AT(5, 1));
    holds("the series as it was", &first_list, LIST(SUN, SECOND));

    expect("value at 0", hzk_value_at(HZK_SUN, 0, LIST(SUN), 0, fresh()), ANSWERED(0));
    expect("value at 1350000", hzk_value_at(HZK_SUN, 0, LIST(SUN), 1350000, fresh()), ANSWERED(540000000));
    expect("value with c2 at 0", hzk_value_at(HZK_SUN, 0, LIST(SEGMENT(552960000, 552960000, 1000)), 0, fresh()), ANSWERED(1000));
    expect("value with c2 in the middle", hzk_value_at(HZK_SUN, 0, LIST(SEGMENT(552960000, 552960000, 1000)), 1382400, fresh()), ANSWERED(552959000));
    expect("value of the Moon in the middle", hzk_value_at(HZK_MOON, 0, LIST(MOON), 172800, fresh()), ANSWERED(4103999999));
    expect("value at the last second", hzk_value_at(HZK_SUN, 0, LIST(SUN), 2764799, fresh()), ANSWERED(1105919600));
    expect("value behind it", hzk_value_at(HZK_SUN, 0, LIST(SUN), 2764800, fresh()), REFUSED(6));
    expect("value before the start", hzk_value_at(HZK_SUN, 0, LIST(SUN), -1, fresh()), REFUSED(6));
    expect("value of a bad series, 4 before 6", hzk_value_at(HZK_SUN, 0, LIST(SEGMENT(0, 138239999, 0)), -1, fresh()), REFUSED(4));

    /* near from 1,000,000 to 3,764,799, long from 0 to 5,529,599 */
#define BOTH(second) HZK_SUN, 1000000, LIST(SUN), 0, LIST(SUN, SECOND), second, fresh()
    expect("near at its first second", hzk_serves(BOTH(1000000)), ANSWERED(HZK_NEAR, 0));
    expect("long before it", hzk_serves(BOTH(999999)), ANSWERED(HZK_LONG, 0));
    expect("near at its last second", hzk_serves(BOTH(3764799)), ANSWERED(HZK_NEAR, 0));
    expect("long behind it", hzk_serves(BOTH(3764800)), ANSWERED(HZK_LONG, 1));
    expect("long at its first second", hzk_serves(BOTH(0)), ANSWERED(HZK_LONG, 0));
    expect("long at its last second", hzk_serves(BOTH(5529599)), ANSWERED(HZK_LONG, 1));
    expect("neither before both", hzk_serves(BOTH(-1)), REFUSED(18));
    expect("neither behind both", hzk_serves(BOTH(5529600)), REFUSED(18));
    expect("neither at the least second", hzk_serves(BOTH(INT64_MIN)), REFUSED(18));
    expect("neither at the largest", hzk_serves(BOTH(INT64_MAX)), REFUSED(18));
    expect("near by its second segment", hzk_serves(HZK_SUN, 0, LIST(SUN, SECOND), 0, LIST(SUN), 2764800, fresh()), ANSWERED(HZK_NEAR, 1));
    expect("near where long has ended", hzk_serves(HZK_MOON, 0, LIST(MOON), -345600, LIST(MOON), 0, fresh()), ANSWERED(HZK_NEAR, 0));
    expect("a bad long series where near covers", hzk_serves(HZK_SUN, 0, LIST(SUN), 0, LIST(SUN, SUN), 0, fresh()), REFUSED_AT(5, 1));
    expect("a bad long series where neither does, 5 before 18", hzk_serves(HZK_SUN, 0, LIST(SUN), 0, LIST(SUN, SUN), -1, fresh()), REFUSED_AT(5, 1));
    expect("a bad near series first", hzk_serves(HZK_SUN, 0, LIST(SUN, SUN), 10000000001, LIST(SUN), 0, fresh()), REFUSED_AT(5, 1));
    expect("a near series that starts too late", hzk_serves(HZK_SUN, 10000000001, LIST(SUN), 0, LIST(SUN, SUN), 0, fresh()), REFUSED(2));
    expect("a long series of no segment", hzk_serves(HZK_SUN, 0, LIST(SUN), 0, NO_WORDS, 0, fresh()), REFUSED(2));

    expect("marks of the Sun", hzk_count_marks(HZK_SUN, 0, LIST(SUN), fresh()), ANSWERED(2));
    expect("marks of the Moon", hzk_count_marks(HZK_MOON, 0, LIST(MOON), fresh()), ANSWERED(1));
    expect("no mark", hzk_count_marks(HZK_SUN, 0, LIST(SEGMENT(200000000, 139000000, 0)), fresh()), ANSWERED(0));
    expect("marks of no segment", hzk_count_marks(HZK_SUN, 0, NO_WORDS, fresh()), REFUSED(2));
    expect("marks of a bad joint", hzk_count_marks(HZK_MOON, 0, LIST(SEGMENT(0, 20000000, 0), SEGMENT(39999883, 20000000, 0)), fresh()), REFUSED_AT(5, 1));

    expect("list of the Sun", hzk_list_marks(HZK_SUN, 0, LIST(SUN), lend(&first_list), 4, fresh()), ANSWERED(2));
    holds("its words", &first_list, LIST(1, 1350000, 2, 2700000));
    expect("list with more room", hzk_list_marks(HZK_SUN, 0, LIST(SUN), lend(&first_list), 7, fresh()), ANSWERED(2));
    holds("its words, and no more", &first_list, LIST(1, 1350000, 2, 2700000));
    expect("list of the Moon", hzk_list_marks(HZK_MOON, 0, LIST(MOON), lend(&first_list), 2, fresh()), ANSWERED(1));
    holds("its word", &first_list, LIST(1, 1));
    expect("an empty list in no room", hzk_list_marks(HZK_SUN, 0, LIST(SEGMENT(200000000, 139000000, 0)), lend(&first_list), 0, fresh()), ANSWERED(0));
    untouched("nothing of it", &first_list);
    expect("list in a word less", hzk_list_marks(HZK_SUN, 0, LIST(SUN), lend(&first_list), 3, fresh()), REFUSED(12));
    untouched("nothing listed", &first_list);
    expect("list of a bad series, 3 before 12", hzk_list_marks(HZK_SUN, 0, LIST(SUN, SEGMENT(0, 4000000001, 0)), lend(&first_list), 0, fresh()), REFUSED_AT(3, 1));
    untouched("nothing of a bad series", &first_list);

    expect("walk of the Sun", hzk_walk_marks(HZK_SUN, 0, LIST(SUN), lend(&first_list), 7, fresh()), ANSWERED(2));
    holds("its words, and no more", &first_list, LIST(1, 1350000, 2, 2700000));
    expect("walk of the Moon", hzk_walk_marks(HZK_MOON, 0, LIST(MOON), lend(&first_list), 2, fresh()), ANSWERED(1));
    holds("its word", &first_list, LIST(1, 1));
    expect("walk in a word less", hzk_walk_marks(HZK_SUN, 0, LIST(SUN), lend(&first_list), 3, fresh()), REFUSED(12));
    untouched("nothing listed", &first_list);
    expect("walk of a bad series, 3 before 12", hzk_walk_marks(HZK_SUN, 0, LIST(SUN, SEGMENT(0, 4000000001, 0)), lend(&first_list), 0, fresh()), REFUSED_AT(3, 1));
    untouched("nothing of a bad series", &first_list);

    expect("the worked inputs", hzk_judge_inputs(LIST(-365, 32), 0, LIST(SUN), 0, LIST(MOON), fresh()), ACCEPTED);
    expect("inputs without a table, 1 before 3", hzk_judge_inputs(NO_WORDS, 0, LIST(SEGMENT(0, 4000000001, 0)), 0, LIST(MOON), fresh()), REFUSED(1));
    expect("a slow Sun before a bad Moon", hzk_judge_inputs(LIST(-365, 32), 0, LIST(SEGMENT(0, 138239999, 0)), 0, NO_WORDS, fresh()), REFUSED(4));
    expect("a Moon without segments", hzk_judge_inputs(LIST(-365, 32), 0, LIST(SUN), 0, NO_WORDS, fresh()), REFUSED(2));
    expect("a Moon that starts too late", hzk_judge_inputs(LIST(-365, 32), 0, LIST(SUN), 10000000001, LIST(MOON), fresh()), REFUSED(2));
    expect("a bad joint of the Moon before 7", hzk_judge_inputs(LIST(20, 32), 0, LIST(SUN), 0, LIST(SEGMENT(0, 20000000, 0), SEGMENT(39999883, 20000000, 0)), fresh()), REFUSED_AT(5, 1));
    expect("the Sun's first mark too early", hzk_judge_inputs(LIST(20, 32), 0, LIST(SUN), 5000000, LIST(MOON), fresh()), REFUSED(7));
    expect("the Moon's first mark too early", hzk_judge_inputs(LIST(10, 32), 0, LIST(SUN), 0, LIST(MOON), fresh()), REFUSED(7));
}

/* ---- months by days: document 01's three lists; of thirteen months one has no zhongqi (`thirteen-months-one-without`). */
#define TWELVE_NEW_MOONS 0, 30, 59, 89, 118, 148, 177, 207, 236, 266, 295, 325
#define NEW_MOONS TWELVE_NEW_MOONS, 354, 384, 413
#define ZHONGQI_LEAP 20, 50, 81, 111, 142, 172, 203, 233, 264, 294, 324, 355, 385
#define ZHONGQI_PLAIN 2, 30, 58, 88, 119, 149, 180, 211, 242, 273, 303, 333, 363
/* of year 2001: the months that all three have in common, and those of the third */
#define FIRST_TEN 64054, 0, 30, 64056, 30, 29, 64034, 59, 30, 64036, 89, 29, 64038, 118, 30, 64040, 148, 29, 64042, 177, 30, 64044, 207, 29, 64046, 236, 30, 64048, 266, 29
#define PLAIN_MONTHS FIRST_TEN, 64050, 295, 30, 64052, 325, 29

static void months(void) {
    expect("leap 9", hzk_months_of(2001, LIST(NEW_MOONS), LIST(ZHONGQI_LEAP), lend(&first_list), 39, fresh()), ANSWERED(13));
    holds("its months", &first_list, LIST(FIRST_TEN, 64050, 295, 30, 64051, 325, 29, 64052, 354, 30));
    expect("leap 8", hzk_months_of(2001, LIST(NEW_MOONS), LIST(20, 50, 81, 111, 142, 172, 203, 233, 264, 294, 325, 355, 385), lend(&first_list), 60, fresh()), ANSWERED(13));
    holds("its months", &first_list, LIST(FIRST_TEN, 64049, 295, 30, 64050, 325, 29, 64052, 354, 30));
    expect("no leap", hzk_months_of(2001, LIST(NEW_MOONS), LIST(ZHONGQI_PLAIN), lend(&first_list), 36, fresh()), ANSWERED(12));
    holds("its months", &first_list, LIST(PLAIN_MONTHS));
    expect("a zhongqi on each of twelve new-moon days and on the last day of the thirteenth month", hzk_months_of(2001, LIST(NEW_MOONS), LIST(TWELVE_NEW_MOONS, 383), lend(&first_list), 39, fresh()), ANSWERED(12));
    holds("that month is the next sui's", &first_list, LIST(PLAIN_MONTHS));
    expect("a day later", hzk_months_of(2001, LIST(NEW_MOONS), LIST(TWELVE_NEW_MOONS, 384), lend(&first_list), 39, fresh()), ANSWERED(13));
    holds("it has none: leap 10", &first_list, LIST(PLAIN_MONTHS, 64053, 354, 30));
    expect("13 months in 38 words", hzk_months_of(2001, LIST(NEW_MOONS), LIST(ZHONGQI_LEAP), lend(&first_list), 38, fresh()), REFUSED(12));
    untouched("nothing stored", &first_list);
    expect("12 months in 35 words", hzk_months_of(2001, LIST(NEW_MOONS), LIST(ZHONGQI_PLAIN), lend(&first_list), 35, fresh()), REFUSED(12));
    untouched("nothing stored", &first_list);
    expect("the first year", hzk_months_of(1700, LIST(NEW_MOONS), LIST(ZHONGQI_PLAIN), lend(&first_list), 36, fresh()), ANSWERED(12));
    expect("the year before", hzk_months_of(1699, LIST(NEW_MOONS), LIST(ZHONGQI_PLAIN), lend(&first_list), 36, fresh()), REFUSED(8));
    untouched("nothing stored", &first_list);
    expect("the year 2501", hzk_months_of(2501, LIST(NEW_MOONS), LIST(ZHONGQI_PLAIN), lend(&first_list), 36, fresh()), REFUSED(8));
    expect("the least year", hzk_months_of(INT64_MIN, LIST(NEW_MOONS), LIST(ZHONGQI_PLAIN), lend(&first_list), 36, fresh()), REFUSED(8));
    expect("no new moon", hzk_months_of(2001, NO_WORDS, LIST(ZHONGQI_PLAIN), lend(&first_list), 36, fresh()), REFUSED(8));
    expect("no new moon behind the second solstice", hzk_months_of(2001, LIST(0, 30, 59, 89, 118, 148, 177, 207, 236, 266, 295, 325, 354), LIST(ZHONGQI_PLAIN), lend(&first_list), 36, fresh()), REFUSED(8));
    expect("new moons that do not rise", hzk_months_of(2001, LIST(0, 30, 30, 59), LIST(ZHONGQI_PLAIN), lend(&first_list), 36, fresh()), REFUSED(8));
    expect("twelve zhongqi", hzk_months_of(2001, LIST(NEW_MOONS), LIST(2, 30, 58, 88, 119, 149, 180, 211, 242, 273, 303, 333), lend(&first_list), 36, fresh()), REFUSED(8));
    expect("both solstices in one month, 9 before 12", hzk_months_of(2001, LIST(0, 30), LIST(1, 2, 3, 4, 5, 6, 7, 8, 9, 10, 11, 12, 13), lend(&first_list), 0, fresh()), REFUSED(9));
    expect("a month of 28 days", hzk_months_of(2001, LIST(0, 28, 59, 89, 118, 148, 177, 207, 236, 266, 295, 325, 354, 384), LIST(ZHONGQI_PLAIN), lend(&first_list), 36, fresh()), REFUSED(10));
    untouched("nothing stored", &first_list);
}

/* ---- the almanac file: one leap entry and the sui of 2001 without a leap month, 133 bytes */
#define LEAP -365, 32
static const uint8_t smallest[133] = {
    1, 0, 0, 0, 0x93, 0xFE, 0xFF, 0xFF, 32, 0, 0, 0, /* one entry: day -365, offset 32 */
    1, 0, 0, 0, 0xD1, 7, 0, 0, 12, /* one sui: 2001, 12 months */
    12, 0, 0, 0, /* twelve months: handle, first day, length */
    0x36, 0xFA, 0, 0, 0, 0, 0, 0, 30, 0x38, 0xFA, 0, 0, 30, 0, 0, 0, 29, 0x22, 0xFA, 0, 0, 59, 0, 0, 0, 30, 0x24, 0xFA, 0, 0, 89, 0, 0, 0, 29,
    0x26, 0xFA, 0, 0, 118, 0, 0, 0, 30, 0x28, 0xFA, 0, 0, 148, 0, 0, 0, 29, 0x2A, 0xFA, 0, 0, 177, 0, 0, 0, 30, 0x2C, 0xFA, 0, 0, 207, 0, 0, 0, 29,
    0x2E, 0xFA, 0, 0, 236, 0, 0, 0, 30, 0x30, 0xFA, 0, 0, 10, 1, 0, 0, 29, 0x32, 0xFA, 0, 0, 39, 1, 0, 0, 30, 0x34, 0xFA, 0, 0, 69, 1, 0, 0, 29,
};

static void spoilt(const char *what, size_t place, uint8_t byte) {
    uint8_t copy[133];
    memcpy(copy, smallest, sizeof copy);
    copy[place] = byte;
    expect(what, hzk_check_file(copy, sizeof copy, fresh()), REFUSED(13));
}

static void almanac(void) {
    expect("check the smallest file", hzk_check_file(smallest, 133, fresh()), ANSWERED(1, 1, 12));
    expect("check no byte", hzk_check_file(smallest, 0, fresh()), REFUSED(13));
    expect("check a byte less", hzk_check_file(smallest, 132, fresh()), REFUSED(13));
    spoilt("a file of two entries", 0, 2);
    spoilt("a count of months that would overflow", 24, 0xFF);
    spoilt("an offset past its range", 10, 1);
    spoilt("a year before 1700", 17, 5);
    spoilt("a sui of 13 months", 20, 13);
    spoilt("a month of 31 days", 33, 31);
    spoilt("a gap between months", 42, 30);
    spoilt("another handle", 34, 0x3A);

    expect("read it", hzk_read_file(smallest, 133, lend(&first_list), 2, lend(&second_list), 2, lend(&third_list), 36, fresh()), ANSWERED(1, 1, 12));
    holds("its leap table", &first_list, LIST(LEAP));
    holds("its suis", &second_list, LIST(2001, 12));
    holds("its months", &third_list, LIST(PLAIN_MONTHS));
    expect("read into more room", hzk_read_file(smallest, 133, lend(&first_list), 9, lend(&second_list), 9, lend(&third_list), 99, fresh()), ANSWERED(1, 1, 12));
    holds("its leap table, and no more", &first_list, LIST(LEAP));
    holds("its suis, and no more", &second_list, LIST(2001, 12));
    holds("its months, and no more", &third_list, LIST(PLAIN_MONTHS));
    static const size_t short_rooms[4][3] = {{1, 2, 36}, {2, 1, 36}, {2, 2, 35}, {0, 0, 0}};
    for (size_t i = 0; i < COUNT(short_rooms); i++) {
        const size_t *room = short_rooms[i];
        expect("read into less room", hzk_read_file(smallest, 133, lend(&first_list), room[0], lend(&second_list), room[1], lend(&third_list), room[2], fresh()), REFUSED(12));
        untouched("no leap table", &first_list);
        untouched("no sui", &second_list);
        untouched("no month", &third_list);
    }
    expect("read a byte less, 13 before 12", hzk_read_file(smallest, 132, lend(&first_list), 0, lend(&second_list), 0, lend(&third_list), 0, fresh()), REFUSED(13));
    untouched("nothing read", &third_list);

    expect("write it", hzk_write_file(LIST(LEAP), LIST(2001, 12), LIST(PLAIN_MONTHS), lend_file(), 133, fresh()), ANSWERED(133));
    file_holds("its bytes", smallest, 133);
    expect("write it into more room", hzk_write_file(LIST(LEAP), LIST(2001, 12), LIST(PLAIN_MONTHS), lend_file(), 200, fresh()), ANSWERED(133));
    file_holds("its bytes, and no more", smallest, 133);
    expect("write it into a byte less", hzk_write_file(LIST(LEAP), LIST(2001, 12), LIST(PLAIN_MONTHS), lend_file(), 132, fresh()), REFUSED(12));
    file_holds("nothing written", NULL, 0);
    expect("write without a leap table, 13 before 12", hzk_write_file(NO_WORDS, LIST(2001, 12), LIST(PLAIN_MONTHS), lend_file(), 0, fresh()), REFUSED(13));
    expect("write a sui of 13 months that has 12", hzk_write_file(LIST(LEAP), LIST(2001, 13), LIST(PLAIN_MONTHS), lend_file(), 200, fresh()), REFUSED(13));
    expect("write a year out of range", hzk_write_file(LIST(LEAP), LIST(INT64_MAX, 12), LIST(PLAIN_MONTHS), lend_file(), 200, fresh()), REFUSED(13));
    expect("write a word less", hzk_write_file(LIST(LEAP), LIST(2001, 12), LIST(FIRST_TEN, 64050, 295, 30, 64052, 325), lend_file(), 200, fresh()), REFUSED(13));
    file_holds("nothing written", NULL, 0);
}

/* ---- real series, and series made for a refusal: an input of the build program, taken apart */
static int64_t given[50000];
static struct { int64_t first, count, sun_start, moon_start; const int64_t *leap, *sun, *moon; size_t leap_words, sun_words, moon_words; } in;

static void take(const char *folder, const char *name) {
    char path[1000];
    snprintf(path, sizeof path, "%s/%s", folder, name);
    FILE *f = fopen(path, "rb");
    size_t words = f ? fread(given, sizeof given[0], COUNT(given), f) : 0;
    if (f) fclose(f);
    check(path, words > 5);
    if (words <= 5) return;
    in.first = given[0], in.count = given[1];
    in.leap = given + 3, in.leap_words = 2 * (size_t)given[2];
    const int64_t *at = in.leap + in.leap_words;
    in.sun_start = at[1], in.sun = at + 2, in.sun_words = 14 * (size_t)at[0];
    at = in.sun + in.sun_words;
    in.moon_start = at[1], in.moon = at + 2, in.moon_words = 14 * (size_t)at[0];
    check(path, in.moon + in.moon_words == given + words);
}

#define SERIES in.leap, in.leap_words, in.sun_start, in.sun, in.sun_words, in.moon_start, in.moon, in.moon_words

/* The list of marks: how many there are, the first, the last, and the sums of indices and seconds. */
static void listed(const char *what, size_t n, int64_t index, int64_t second, int64_t last_index, int64_t last_second, int64_t indices, int64_t seconds) {
    const int64_t *w = first_list.words + 1;
    for (size_t i = 0; i < n; i++) indices -= w[2 * i], seconds -= w[2 * i + 1];
    check(what, w[0] == index && w[1] == second && w[2 * n - 2] == last_index && w[2 * n - 1] == last_second && indices == 0 && seconds == 0);
    check(what, w[-1] == UNTOUCHED && w[2 * n] == UNTOUCHED);
}

/* ---- rebuilds of the thirty years: the inputs of the old file are in `in`, those of the new one are corrected copies */
#define CORRECTED(moon) in.leap, in.leap_words, in.sun_start, in.sun, in.sun_words, in.moon_start, moon, in.moon_words

static void rebuilds(uint8_t *old, size_t bytes) {
    static int64_t moon[COUNT(given)];
    static uint8_t built[16140];
    int64_t part[14], years[30], kept[26];
    for (int i = 0; i < 30; i++) years[i] = in.first + i;

    expect("rebuild from unchanged inputs", hzk_rebuild(old, bytes, SERIES, SERIES, HZK_UTC8, lend_file(), bytes, lend(&first_list), 30, fresh()), ANSWERED((int64_t)bytes, 30));
    file_holds("the old file", old, bytes);
    holds("all its years", &first_list, years, 30);
    expect("rebuild into more room", hzk_rebuild(old, bytes, SERIES, SERIES, HZK_UTC8, lend_file(), 16140, lend(&first_list), 128, fresh()), ANSWERED((int64_t)bytes, 30));
    file_holds("the old file, and no more", old, bytes);
    holds("all its years, and no more", &first_list, years, 30);

    expect("rebuild into a byte less", hzk_rebuild(old, bytes, SERIES, SERIES, HZK_UTC8, lend_file(), bytes - 1, lend(&first_list), 30, fresh()), REFUSED(12));
    file_holds("nothing rebuilt", NULL, 0);
    untouched("nothing listed", &first_list);
    expect("rebuild into a year less", hzk_rebuild(old, bytes, SERIES, SERIES, HZK_UTC8, lend_file(), bytes, lend(&first_list), 29, fresh()), REFUSED(12));
    file_holds("nothing rebuilt", NULL, 0);
    untouched("nothing listed", &first_list);

    /* a segment of the Moon in the middle of the years a unit higher: no mark moves to another day */
    memcpy(moon, in.moon, in.moon_words * sizeof moon[0]);
    memcpy(part, moon + 14 * 1380, sizeof part);
    part[0]++;
    expect("a Moon segment corrected", hzk_replace_segment(HZK_MOON, in.moon_start, moon, in.moon_words, 1380, part, fresh()), ACCEPTED);
    check("another Moon", memcmp(moon, in.moon, in.moon_words * sizeof moon[0]) != 0);
    expect("build from it", hzk_build(CORRECTED(moon), HZK_UTC8, in.first, in.count, built, sizeof built, fresh()), ANSWERED((int64_t)bytes));
    expect("rebuild from it", hzk_rebuild(old, bytes, SERIES, CORRECTED(moon), HZK_UTC8, lend_file(), 16140, lend(&first_list), 128, fresh()), ANSWERED((int64_t)bytes, 30));
    file_holds("the file that is built", built, bytes);
    holds("all its years", &first_list, years, 30);

    /* the whole Moon ten minutes ahead: new moons near midnight change their days, in four of the suis (so says tests/rebuild_cases.py) */
    for (size_t i = 0; i < in.moon_words; i += 14) moon[i] += 3000000;
    for (int i = 0, n = 0; i < 30; i++)
        if (years[i] != 2006 && years[i] != 2009 && years[i] != 2018 && years[i] != 2019) kept[n++] = years[i];
    expect("build from a Moon ahead", hzk_build(CORRECTED(moon), HZK_UTC8, in.first, in.count, built, sizeof built, fresh()), ANSWERED((int64_t)bytes));
    expect("rebuild from it", hzk_rebuild(old, bytes, SERIES, CORRECTED(moon), HZK_UTC8, lend_file(), 16140, lend(&first_list), 26, fresh()), ANSWERED((int64_t)bytes, 26));
    file_holds("the file that is built", built, bytes);
    holds("the other years", &first_list, kept, 26);
    expect("rebuild back", hzk_rebuild(built, bytes, CORRECTED(moon), SERIES, HZK_UTC8, lend_file(), 16140, lend(&first_list), 26, fresh()), ANSWERED((int64_t)bytes, 26));
    file_holds("the old file", old, bytes);
    holds("the same years", &first_list, kept, 26);
    expect("rebuild back into a year less", hzk_rebuild(built, bytes, CORRECTED(moon), SERIES, HZK_UTC8, lend_file(), 16140, lend(&first_list), 25, fresh()), REFUSED(12));
    file_holds("nothing rebuilt", NULL, 0);
    untouched("nothing listed", &first_list);

    /* 13 before all else; then as a build refuses */
    expect("rebuild another's file", hzk_rebuild(built, bytes, SERIES, SERIES, HZK_UTC8, lend_file(), 16140, lend(&first_list), 128, fresh()), REFUSED(13));
    old[bytes - 1] ^= 3;
    expect("rebuild a damaged file, 13 before 1 and 12", hzk_rebuild(old, bytes, SERIES, NO_WORDS, in.sun_start, in.sun, in.sun_words, in.moon_start, in.moon, in.moon_words, HZK_UTC8, lend_file(), 0, lend(&first_list), 0, fresh()), REFUSED(13));
    old[bytes - 1] ^= 3;
    expect("rebuild a file without its last byte", hzk_rebuild(old, bytes - 1, SERIES, SERIES, HZK_UTC8, lend_file(), 16140, lend(&first_list), 128, fresh()), REFUSED(13));
    expect("rebuild by an old Sun cut short", hzk_rebuild(old, bytes, in.leap, in.leap_words, in.sun_start, in.sun, in.sun_words - 1, in.moon_start, in.moon, in.moon_words, SERIES, HZK_UTC8, lend_file(), 16140, lend(&first_list), 128, fresh()), REFUSED(13));
    expect("rebuild from a Sun cut short", hzk_rebuild(old, bytes, SERIES, in.leap, in.leap_words, in.sun_start, in.sun, in.sun_words - 1, in.moon_start, in.moon, in.moon_words, HZK_UTC8, lend_file(), 16140, lend(&first_list), 128, fresh()), REFUSED(2));
    moon[14 * 1380] += 100000;
    expect("rebuild from a bad joint, 5 before 12", hzk_rebuild(old, bytes, SERIES, CORRECTED(moon), HZK_UTC8, lend_file(), 0, lend(&first_list), 0, fresh()), REFUSED_AT(5, 1380));
    file_holds("nothing rebuilt", NULL, 0);
    untouched("nothing listed", &first_list);
}

/* ---- zones: both ends, 15 before all else; an inserted second in zone 0; and the suis of 1985, whose new year China kept on 1985-02-20 and Vietnam on 1985-01-21 */
static void zones(const char *folder) {
    expect("millisecond in UTC", hzk_milli_of(LIST(-365, 32), 0, 0, fresh()), ANSWERED(-64184));
    expect("millisecond in the last zone", hzk_milli_of(LIST(-365, 32), 0, 840, fresh()), ANSWERED(50335816));
    expect("millisecond behind it", hzk_milli_of(LIST(-365, 32), 0, 841, fresh()), REFUSED(15));
    expect("millisecond in the first zone", hzk_milli_of(LIST(-365, 32), 0, -720, fresh()), ANSWERED(-43264184));
    expect("millisecond before it", hzk_milli_of(LIST(-365, 32), 0, -721, fresh()), REFUSED(15));
    expect("millisecond in the largest number, 15 before 1", hzk_milli_of(NO_WORDS, 0, INT64_MAX, fresh()), REFUSED(15));
    expect("day of the last second of 1999 in UTC+7", hzk_day_of_second(LIST(-365, 32), -25136, 420, fresh()), ANSWERED(-1));
    expect("day of the next second", hzk_day_of_second(LIST(-365, 32), -25135, 420, fresh()), ANSWERED(0));
    expect("day of that second in UTC+8", hzk_day_of_second(LIST(-365, 32), -25136, HZK_UTC8, fresh()), ANSWERED(0));
    expect("day behind the last zone, 15 before 6", hzk_day_of_second(LIST(-365, 32), INT64_MAX, 841, fresh()), REFUSED(15));
    expect("shown in the first zone", hzk_shown(LIST(-365, 32), 0, -720, fresh()), ANSWERED(1999, 12, 31, 11, 58, 55, 816));
    expect("shown before it, 15 before 7", hzk_shown(LIST(-365, 32), -31535936, -721, fresh()), REFUSED(15));

    expect("shown inside an inserted second in UTC", hzk_shown(LIST(REAL_LEAP), 536544069, 0, fresh()), ANSWERED(2016, 12, 31, 23, 59, 60, 816));
    expect("shown after it", hzk_shown(LIST(REAL_LEAP), 536544070, 0, fresh()), ANSWERED(2017, 1, 1, 0, 0, 0, 816));
    expect("its day in UTC", hzk_day_of_second(LIST(REAL_LEAP), 536544069, 0, fresh()), ANSWERED(6209));
    expect("the day after it", hzk_day_of_second(LIST(REAL_LEAP), 536544070, 0, fresh()), ANSWERED(6210));

    static uint8_t built[2][16140];
    int64_t bytes[2];
    take(folder, "real_1985");
    expect("sui 1985 in UTC+8", hzk_sui(SERIES, HZK_UTC8, 1985, lend(&first_list), 39, fresh()), ANSWERED(12));
    holds("China's months", &first_list, LIST(63542, -5488, 30, 63544, -5458, 30, 63522, -5428, 29, 63524, -5399, 30, 63526, -5369, 30, 63528, -5339, 29, 63530, -5310, 30, 63532, -5280, 29, 63534, -5251, 30, 63536, -5221, 29, 63538, -5192, 29, 63540, -5163, 30));
    expect("sui 1985 in UTC+7", hzk_sui(SERIES, 420, 1985, lend(&first_list), 39, fresh()), ANSWERED(13));
    holds("Vietnam's months", &first_list, LIST(63542, -5517, 29, 63544, -5488, 30, 63522, -5458, 30, 63524, -5428, 29, 63525, -5399, 30, 63526, -5369, 30, 63528, -5339, 29, 63530, -5310, 30, 63532, -5280, 29, 63534, -5251, 30, 63536, -5221, 29, 63538, -5192, 29, 63540, -5163, 30));
    expect("sui 1985 behind the last zone, 15 before 12", hzk_sui(SERIES, 841, 1985, lend(&first_list), 0, fresh()), REFUSED(15));
    expect("sui of zone and year swapped", hzk_sui(SERIES, 1985, HZK_UTC8, lend(&first_list), 39, fresh()), REFUSED(15));
    untouched("nothing stored", &first_list);
    for (int i = 0; i < 2; i++) {
        check("built", hzk_build(SERIES, i ? 420 : HZK_UTC8, 1985, 3, built[i], sizeof built[i], fresh()) == 0);
        bytes[i] = told.answer.value[0];
    }
    check("China's file and Vietnam's differ", memcmp(built[0], built[1], sizeof built[0]) != 0);
    expect("build before the first zone, 15 before 8", hzk_build(SERIES, -721, 1985, 0, lend_file(), 16140, fresh()), REFUSED(15));
    file_holds("nothing built", NULL, 0);
    expect("rebuild Vietnam's file in UTC+7", hzk_rebuild(built[1], (size_t)bytes[1], SERIES, SERIES, 420, lend_file(), 16140, lend(&first_list), 128, fresh()), ANSWERED(bytes[1], 3));
    file_holds("Vietnam's file", built[1], (size_t)bytes[1]);
    holds("its years", &first_list, LIST(1985, 1986, 1987));
    expect("rebuild Vietnam's file in UTC+8", hzk_rebuild(built[1], (size_t)bytes[1], SERIES, SERIES, HZK_UTC8, lend_file(), 16140, lend(&first_list), 128, fresh()), REFUSED(13));
    expect("rebuild it behind the last zone, 15 before 13", hzk_rebuild(built[1], 1, SERIES, SERIES, 841, lend_file(), 16140, lend(&first_list), 128, fresh()), REFUSED(15));
    file_holds("nothing rebuilt", NULL, 0);
    untouched("nothing listed", &first_list);
}

static void real(const char *folder, const char *almanac_file) {
    take(folder, "real_2033");
    expect("the real inputs", hzk_judge_inputs(SERIES, fresh()), ACCEPTED);
    expect("value of the Sun before a mark", hzk_value_at(HZK_SUN, in.sun_start, in.sun, in.sun_words, 1044362564, fresh()), ANSWERED(439019999660));
    expect("value of the Sun at it", hzk_value_at(HZK_SUN, in.sun_start, in.sun, in.sun_words, 1044362565, fresh()), ANSWERED(439020000083));
    expect("value of the Moon before a mark", hzk_value_at(HZK_MOON, in.moon_start, in.moon, in.moon_words, 1040848824, fresh()), ANSWERED(5297399998176));
    expect("value of the Moon at it", hzk_value_at(HZK_MOON, in.moon_start, in.moon, in.moon_words, 1040848825, fresh()), ANSWERED(5297400002692));
    expect("value of the Moon at the end", hzk_value_at(HZK_MOON, in.moon_start, in.moon, in.moon_words, 1138060799, fresh()), ANSWERED(5791393138259));
    /* the same Moon, and a part of it as the near series: its segments 100 to 109 */
#define FROM_100 in.moon_start + 100 * 345600, in.moon + 14 * 100, 14 * 10, in.moon_start, in.moon, in.moon_words
    expect("the near Moon", hzk_serves(HZK_MOON, FROM_100, in.moon_start + 105 * 345600, fresh()), ANSWERED(HZK_NEAR, 5));
    expect("the long one before it", hzk_serves(HZK_MOON, FROM_100, in.moon_start + 100 * 345600 - 1, fresh()), ANSWERED(HZK_LONG, 99));
    expect("the long one behind it", hzk_serves(HZK_MOON, FROM_100, in.moon_start + 110 * 345600, fresh()), ANSWERED(HZK_LONG, 110));
    expect("neither", hzk_serves(HZK_MOON, FROM_100, in.moon_start + (int64_t)in.moon_words / 14 * 345600, fresh()), REFUSED(18));
    expect("that mark of the Sun shown", hzk_shown(in.leap, in.leap_words, 1044362565, HZK_UTC8, fresh()), ANSWERED(2033, 2, 3, 20, 41, 35, 816));
    expect("its millisecond", hzk_milli_of(in.leap, in.leap_words, 1044362565, HZK_UTC8, fresh()), ANSWERED(1044391295816));
    expect("its day", hzk_day_of_second(in.leap, in.leap_words, 1044362565, HZK_UTC8, fresh()), ANSWERED(12087));
    expect("marks of the real Sun", hzk_count_marks(HZK_SUN, in.sun_start, in.sun, in.sun_words, fresh()), ANSWERED(78));
    expect("list of the real Sun", hzk_list_marks(HZK_SUN, in.sun_start, in.sun, in.sun_words, lend(&first_list), 156, fresh()), ANSWERED(78));
    listed("its marks", 78, 808, 1037989942, 885, 1139034066, 66027, 84902922432);
    expect("list of the real Moon", hzk_list_marks(HZK_MOON, in.moon_start, in.moon, in.moon_words, lend(&first_list), 316, fresh()), ANSWERED(158));
    listed("its marks", 158, 1630, 1037601795, 1787, 1137739654, 269943, 171859228526);

    /* a segment in the middle of the real Sun: by itself, and 100,000 units too high, which its joint does not take */
    int64_t *sun = given + (in.sun - given), part[14];
    static int64_t before[COUNT(given)];
    memcpy(before, given, sizeof given);
    memcpy(part, sun + 14 * 5, sizeof part);
    expect("a real segment by itself", hzk_replace_segment(HZK_SUN, in.sun_start, sun, in.sun_words, 5, part, fresh()), ACCEPTED);
    check("the words as they were", memcmp(before, given, sizeof given) == 0);
    part[0] += 100000;
    expect("a real segment too high", hzk_replace_segment(HZK_SUN, in.sun_start, sun, in.sun_words, 5, part, fresh()), REFUSED_AT(5, 5));
    check("the words as they were", memcmp(before, given, sizeof given) == 0);

    /* the sui of 2033 has a month without a zhongqi and is not leap; that of 2034 has leap 11 */
    expect("sui 2033", hzk_sui(SERIES, HZK_UTC8, 2033, lend(&first_list), 36, fresh()), ANSWERED(12));
    holds("its months", &first_list, LIST(65078, 12025, 29, 65080, 12054, 30, 65058, 12084, 29, 65060, 12113, 30, 65062, 12143, 29, 65064, 12172, 29, 65066, 12201, 30, 65068, 12231, 29,
        65070, 12260, 30, 65072, 12290, 29, 65074, 12319, 30, 65076, 12349, 30));
    expect("sui 2034", hzk_sui(SERIES, HZK_UTC8, 2034, lend(&first_list), 50, fresh()), ANSWERED(13));
    holds("its months", &first_list, LIST(65110, 12379, 30, 65111, 12409, 29, 65112, 12438, 30, 65090, 12468, 29, 65092, 12497, 30, 65094, 12527, 29, 65096, 12556, 29, 65098, 12585, 30,
        65100, 12615, 29, 65102, 12644, 30, 65104, 12674, 29, 65106, 12703, 30, 65108, 12733, 30));
    expect("sui 2034 in 38 words", hzk_sui(SERIES, HZK_UTC8, 2034, lend(&first_list), 38, fresh()), REFUSED(12));
    untouched("nothing stored", &first_list);
    expect("a sui without its first solstice, 8 before 12", hzk_sui(SERIES, HZK_UTC8, 2032, lend(&first_list), 0, fresh()), REFUSED(8));
    expect("a sui out of range", hzk_sui(SERIES, HZK_UTC8, 2501, lend(&first_list), 39, fresh()), REFUSED(8));
    expect("a sui without a leap table", hzk_sui(NO_WORDS, in.sun_start, in.sun, in.sun_words, in.moon_start, in.moon, in.moon_words, HZK_UTC8, 2033, lend(&first_list), 39, fresh()), REFUSED(1));
    expect("a sui of a Sun cut short", hzk_sui(in.leap, in.leap_words, in.sun_start, in.sun, in.sun_words - 1, in.moon_start, in.moon, in.moon_words, HZK_UTC8, 2033, lend(&first_list), 39, fresh()), REFUSED(2));
    expect("a sui before the first leap entry", hzk_sui(LIST(20000, 37), in.sun_start, in.sun, in.sun_words, in.moon_start, in.moon, in.moon_words, HZK_UTC8, 2033, lend(&first_list), 39, fresh()), REFUSED(7));
    untouched("nothing stored", &first_list);

    expect("build three suis", hzk_build(SERIES, HZK_UTC8, 2033, 3, lend_file(), 584, fresh()), ANSWERED(584));
    expect("check them", hzk_check_file(file + 1, 584, fresh()), ANSWERED(28, 3, 37));
    expect("build them into a byte less", hzk_build(SERIES, HZK_UTC8, 2033, 3, lend_file(), 583, fresh()), REFUSED(12));
    file_holds("nothing built", NULL, 0);
    expect("build no sui", hzk_build(SERIES, HZK_UTC8, 2033, 0, lend_file(), 584, fresh()), REFUSED(8));
    expect("build 129 suis", hzk_build(SERIES, HZK_UTC8, 2033, 129, lend_file(), 16140, fresh()), REFUSED(8));
    expect("build a sui that has no solstice", hzk_build(SERIES, HZK_UTC8, 2033, 4, lend_file(), 16140, fresh()), REFUSED(8));
    expect("build from the largest year", hzk_build(SERIES, HZK_UTC8, INT64_MAX, 128, lend_file(), 16140, fresh()), REFUSED(8));
    expect("build without a leap table", hzk_build(NO_WORDS, in.sun_start, in.sun, in.sun_words, in.moon_start, in.moon, in.moon_words, HZK_UTC8, 2033, 3, lend_file(), 584, fresh()), REFUSED(1));
    expect("build with a bad joint", hzk_build(in.leap, in.leap_words, in.sun_start, in.sun, in.sun_words, 0, LIST(SEGMENT(0, 20000000, 0), SEGMENT(39999883, 20000000, 0)), HZK_UTC8, 2033, 3, lend_file(), 584, fresh()), REFUSED_AT(5, 1));
    file_holds("nothing built", NULL, 0);

    take(folder, "r9");
    expect("a sui of eleven months", hzk_sui(SERIES, HZK_UTC8, 2000, lend(&first_list), 39, fresh()), REFUSED(9));
    expect("build it", hzk_build(SERIES, HZK_UTC8, 2000, 1, lend_file(), 16140, fresh()), REFUSED(9));
    take(folder, "r10");
    expect("a sui with a month of 31 days", hzk_sui(SERIES, HZK_UTC8, 2000, lend(&first_list), 39, fresh()), REFUSED(10));
    expect("build it", hzk_build(SERIES, HZK_UTC8, 2000, 1, lend_file(), 16140, fresh()), REFUSED(10));
    untouched("nothing stored", &first_list);
    file_holds("nothing built", NULL, 0);

    /* thirty years, byte for byte what tests/build_cases.py made of them */
    static uint8_t wanted[16140];
    FILE *f = fopen(almanac_file, "rb");
    size_t bytes = f ? fread(wanted, 1, sizeof wanted, f) : 0;
    if (f) fclose(f);
    take("samples", "real_1995_2024.in");
    expect("2760 segments of the Moon", hzk_accept(HZK_MOON, in.moon_start, in.moon, in.moon_words, fresh()), ACCEPTED);
    expect("too many of the Sun", hzk_accept(HZK_SUN, in.moon_start, in.moon, in.moon_words, fresh()), REFUSED(2));
    expect("build thirty suis", hzk_build(SERIES, HZK_UTC8, in.first, in.count, lend_file(), 16140, fresh()), ANSWERED(3725));
    check("as many bytes as wanted", bytes == 3725);
    file_holds("the bytes that are wanted", wanted, bytes);
    expect("check them", hzk_check_file(wanted, bytes, fresh()), ANSWERED(28, 30, 371));
    rebuilds(wanted, bytes);
}

int main(int argc, char **argv) {
    if (argc != 3) {
        printf("usage: c_interface FOLDER ALMANAC\n");
        return 2;
    }
    dates();
    clocks();
    inserted();
    series();
    months();
    almanac();
    zones(argv[1]);
    real(argv[1], argv[2]);
    for (int n = 0; n < 19; n++)
        check("every number was given, but for 11, which is withdrawn, and 14, 16 and 17, which nothing is refused by", seen[n] == (n != 11 && n != 14 && n != 16 && n != 17));
    printf("%d checks, %d failed\n", checks, failed);
    return failed != 0;
}
