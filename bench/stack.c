/* How much stack each function of include/hazomekyu.h takes. A call runs in a child on a stack of its own: so many bytes, and below them only memory that must not
   be touched. The least number of bytes with which the child ends is found by halving. bench/stack builds and runs it and makes the table.
   With the word build or list it writes the longest input of that program instead, with the word file the almanac file that the library builds from the first. */
#include "../include/hazomekyu.h"

/* Declared here and not included, so that a compiler without a C library's headers takes it (x86-64 Linux). */
int printf(const char *, ...);
long write(int, const void *, size_t);
void *mmap(void *, size_t, int, int, int, long);
int mprotect(void *, size_t, int);
int fork(void);
int waitpid(int, int *, int);
void _exit(int);
#define PROT_NONE 0
#define PROT_READ_AND_WRITE 3
#define MAP_PRIVATE_ANONYMOUS 0x22
#define MAP_FAILED ((void *)-1)

#define LEAP 64
#define SUN 2000
#define MOON 16000
#define SUN_HALF 1382400
#define MOON_HALF 172800
#define MARKS 20000
#define FIRST 1900
#define SUIS 128

/* ---- the longest input: a Sun and a Moon that go evenly, from 1898 to 2073 */
static struct {
    int64_t first, count, entries, leap[2 * LEAP], suns, sun_start, sun[14 * SUN], moons, moon_start, moon[14 * MOON];
} in;

/* Of the listing program's 8,192 words: as many segments as they hold, and those of the Sun, which are longer. */
#define LISTED_SUN 574
#define LISTED_MOON 1

static void make_series(int64_t *coefs, int64_t segments, int64_t start, int64_t half, int64_t rise, int64_t second, int64_t value) {
    for (int64_t k = 0; k < segments; k++) {
        coefs[14 * k] = value + (start + half - second) * rise / half + 2 * k * rise;
        coefs[14 * k + 1] = rise;
    }
}

/* their last segments once more, to be put in their own places */
static int64_t last_sun[14], last_moon[14];

static void make_input(void) {
    in.first = FIRST, in.count = SUIS, in.entries = LEAP, in.suns = SUN, in.moons = MOON;
    in.sun_start = in.moon_start = -37000LL * 86400;
    for (int64_t i = 0; i < LEAP; i++) in.leap[2 * i] = i - 120000, in.leap[2 * i + 1] = i;
    /* a year of 365.2422 days from the solstice of 1999 on, a month of 29.530589 days from the new moon of 2000-01-06 on */
    make_series(in.sun, SUN, in.sun_start, SUN_HALF, 567736793, -836107, 18 * 540000000LL);
    make_series(in.moon, MOON, in.moon_start, MOON_HALF, 877739577, 497640, 0);
    for (int i = 0; i < 14; i++) last_sun[i] = in.sun[14 * (SUN - 1) + i], last_moon[i] = in.moon[14 * (MOON - 1) + i];
}

/* ---- the calls; each leaves the number that it was answered by */
static hzk_answer answer;
static int64_t marks[2 * MARKS], leap[2 * LEAP], suis[2 * SUIS], months[39 * SUIS], years[SUIS];
static uint8_t file[16140], written[16140];
static size_t bytes, entries, sui_count, month_count;

#define INPUTS in.leap, 2 * LEAP, in.sun_start, in.sun, 14 * SUN, in.moon_start, in.moon, 14 * MOON
#define SUN_SERIES HZK_SUN, in.sun_start, in.sun, 14 * SUN
#define MOON_SERIES HZK_MOON, in.moon_start, in.moon, 14 * MOON

static const int64_t new_moons[15] = {0, 30, 59, 89, 118, 148, 177, 207, 236, 266, 295, 325, 354, 384, 413};
static const int64_t zhongqi[13] = {20, 50, 81, 111, 142, 172, 203, 233, 264, 294, 324, 355, 385};

static int64_t date_of(void) { return hzk_date_of(8846, &answer); }
static int64_t day_of(void) { return hzk_day_of(2024, 3, 21, &answer); }
static int64_t judge_leap_table(void) { return hzk_judge_leap_table(in.leap, 2 * LEAP, &answer); }
static int64_t milli_of(void) { return hzk_milli_of(in.leap, 2 * LEAP, -836107, HZK_UTC8, &answer); }
static int64_t day_of_second(void) { return hzk_day_of_second(in.leap, 2 * LEAP, -836107, HZK_UTC8, &answer); }
static int64_t day_of_milli(void) { return hzk_day_of_milli(-1, &answer); }
static int64_t shown(void) { return hzk_shown(in.leap, 2 * LEAP, -836107, HZK_UTC8, &answer); }
static int64_t accept_sun(void) { return hzk_accept(SUN_SERIES, &answer); }
static int64_t accept_moon(void) { return hzk_accept(MOON_SERIES, &answer); }
static int64_t replace_in_sun(void) { return hzk_replace_segment(HZK_SUN, in.sun_start, in.sun, 14 * SUN, SUN - 1, last_sun, &answer); }
static int64_t replace_in_moon(void) { return hzk_replace_segment(HZK_MOON, in.moon_start, in.moon, 14 * MOON, MOON - 1, last_moon, &answer); }
static int64_t value_of_sun(void) { return hzk_value_at(HZK_SUN, in.sun_start, in.sun, 14, in.sun_start + 1000001, &answer); }
static int64_t value_of_moon(void) { return hzk_value_at(HZK_MOON, in.moon_start, in.moon, 14, in.moon_start + 100001, &answer); }
static int64_t serves_by_sun(void) { return hzk_serves(SUN_SERIES, in.sun_start, in.sun, 14 * SUN, in.sun_start + 1000001, &answer); }
static int64_t serves_by_moon(void) { return hzk_serves(MOON_SERIES, in.moon_start, in.moon, 14 * MOON, in.moon_start + 100001, &answer); }
static int64_t count_of_sun(void) { return hzk_count_marks(SUN_SERIES, &answer); }
static int64_t count_of_moon(void) { return hzk_count_marks(MOON_SERIES, &answer); }
static int64_t list_of_sun(void) { return hzk_list_marks(SUN_SERIES, marks, 2 * MARKS, &answer); }
static int64_t list_of_moon(void) { return hzk_list_marks(MOON_SERIES, marks, 2 * MARKS, &answer); }
static int64_t walk_of_moon(void) { return hzk_walk_marks(HZK_MOON, in.moon_start, in.moon, 14, marks, 2 * MARKS, &answer); } /* a whole series takes minutes */
static int64_t judge_inputs(void) { return hzk_judge_inputs(INPUTS, &answer); }
static int64_t months_of(void) { return hzk_months_of(2033, new_moons, 15, zhongqi, 13, months, 39, &answer); }
static int64_t sui(void) { return hzk_sui(INPUTS, HZK_UTC8, 2027, months, 39, &answer); }
static int64_t check_file(void) { return hzk_check_file(file, bytes, &answer); }
static int64_t read_file(void) { return hzk_read_file(file, bytes, leap, 2 * LEAP, suis, 2 * SUIS, months, 39 * SUIS, &answer); }
static int64_t write_file(void) { return hzk_write_file(leap, entries, suis, sui_count, months, month_count, written, sizeof written, &answer); }
static int64_t build(void) { return hzk_build(INPUTS, HZK_UTC8, FIRST, SUIS, file, sizeof file, &answer); }
static int64_t rebuild(void) { return hzk_rebuild(file, bytes, INPUTS, INPUTS, HZK_UTC8, written, sizeof written, years, SUIS, &answer); }

/* ---- a stack of its own */
#define ROOM (1L << 22)
static uint8_t *lowest; /* of the room that may be touched; as much again below it must not be */

/* Calls a function with the stack pointer at `top`, and comes back to the stack it was called on. */
static int64_t call_at(uint8_t *top, int64_t (*function)(void)) {
    int64_t number;
    __asm__ volatile("movq %%rsp, %%rbx\n\tmovq %1, %%rsp\n\tcall *%2\n\tmovq %%rbx, %%rsp"
                     : "=a"(number)
                     : "r"(top), "r"(function)
                     : "rbx", "rcx", "rdx", "rsi", "rdi", "r8", "r9", "r10", "r11", "xmm0", "xmm1", "xmm2", "xmm3", "xmm4", "xmm5", "xmm6", "xmm7", "xmm8",
                       "xmm9", "xmm10", "xmm11", "xmm12", "xmm13", "xmm14", "xmm15", "memory", "cc");
    return number;
}

/* Whether a call ends with so many bytes of stack, the first of them for its return address. */
static bool ends_with(long room, int64_t (*function)(void)) {
    int status = 0, child = fork();
    if (child == 0) _exit(call_at(lowest + room, function) ? 1 : 0);
    return child > 0 && waitpid(child, &status, 0) == child && status == 0;
}

static int measure(const char *name, int64_t (*function)(void)) {
    long enough = ROOM, less = 0;
    /* Once beforehand, so that what the loader does at the first call of a C function is not counted. */
    if (function()) {
        printf("%s is refused by %ld\n", name, answer.number);
        return 1;
    }
    if (!ends_with(enough, function)) {
        printf("%s does not end with %ld bytes\n", name, enough);
        return 1;
    }
    while (less + 16 < enough) {
        long middle = (less + enough) / 32 * 16;
        if (ends_with(middle, function)) enough = middle;
        else less = middle;
    }
    printf("%s|%ld\n", name, enough);
    return 0;
}

static int put(const void *from, size_t size) {
    for (const uint8_t *next = from; size;) {
        long n = write(1, next, size);
        if (n <= 0) return 1;
        next += n, size -= (size_t)n;
    }
    return 0;
}

static int put_listed(void) {
    in.suns = LISTED_SUN, in.moons = LISTED_MOON;
    return put(&in.entries, (1 + 2 * LEAP) * sizeof(int64_t)) || put(&in.suns, (2 + 14 * LISTED_SUN) * sizeof(int64_t)) ||
           put(&in.moons, (2 + 14 * LISTED_MOON) * sizeof(int64_t));
}

int main(int count, char **words) {
    char word = count == 2 ? words[1][0] : 0;
    make_input();
    if (word == 'b') return put(&in, sizeof in);
    if (word == 'l') return put_listed();
    if (word == 'f') return build() || put(file, (size_t)answer.value[0]);
    lowest = mmap(0, 2 * ROOM, PROT_NONE, MAP_PRIVATE_ANONYMOUS, -1, 0);
    if (lowest == MAP_FAILED) return 1;
    lowest += ROOM;
    if (mprotect(lowest, ROOM, PROT_READ_AND_WRITE)) return 1;
    int bad = 0;
#define MEASURE(NAME) bad |= measure(#NAME, NAME)
    MEASURE(date_of);
    MEASURE(day_of);
    MEASURE(judge_leap_table);
    MEASURE(milli_of);
    MEASURE(day_of_second);
    MEASURE(day_of_milli);
    MEASURE(shown);
    MEASURE(accept_sun);
    MEASURE(accept_moon);
    MEASURE(replace_in_sun);
    MEASURE(replace_in_moon);
    MEASURE(value_of_sun);
    MEASURE(value_of_moon);
    MEASURE(serves_by_sun);
    MEASURE(serves_by_moon);
    MEASURE(count_of_sun);
    MEASURE(count_of_moon);
    MEASURE(list_of_sun);
    MEASURE(list_of_moon);
    MEASURE(walk_of_moon);
    MEASURE(judge_inputs);
    MEASURE(months_of);
    MEASURE(sui);
    MEASURE(build);
    bytes = (size_t)answer.value[0];
    MEASURE(rebuild);
    MEASURE(check_file);
    MEASURE(read_file);
    entries = 2 * (size_t)answer.value[0], sui_count = 2 * (size_t)answer.value[1], month_count = 3 * (size_t)answer.value[2];
    MEASURE(write_file);
    return bad;
}
