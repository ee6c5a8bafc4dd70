/* Times the proved library beside C in one process on the same inputs, the versions taken in turn, and prints the best of each; first it compares every answer,
   every lent place and every refusal with theirs, and fails where one differs. bench/run builds and runs it and makes the table.
   Arguments: an input of the build program (first year, count of suis, leap table, Sun, Moon); the almanac file it must build, if there is one. */
#include "../include/hazomekyu.h"

/* Declared here and not included, so that a compiler without a C library's headers takes it (x86-64 Linux). */
struct timespec { long tv_sec, tv_nsec; };
int clock_gettime(int, struct timespec *);
int printf(const char *, ...);
int open(const char *, int, ...);
long read(int, void *, size_t);
int close(int);
#define CLOCK_MONOTONIC 1
#define CLOCK_PROCESS_CPUTIME_ID 2

#include "segments.h"
#include "marks.h"
#include "suis.h"

#define MOST_WORDS 252136
#define MOST_MARKS 40000
#define VALUES 20000
#define ROUNDS 40

static int64_t words[MOST_WORDS], spoilt_words[224000], lists[3][2 * MOST_MARKS], seconds[VALUES];
static volatile int64_t kept; /* so that no compiler leaves out what is timed */
static uint8_t files[5][MOST_BYTES + 60], spoilt_file[MOST_BYTES + 60];
static hzk_answer answer;

static uint64_t random_state = 1;
static size_t any(size_t below) {
    random_state = random_state * 6364136223846793005u + 1442695040888963407u;
    return (random_state >> 33) % below;
}

/* By the clock what is short, since processor time miscounts it where the core is taken away; by processor time what takes longer than a shared core is left alone. */
static double now(int clock) {
    struct timespec t;
    clock_gettime(clock, &t);
    return (double)t.tv_sec + (double)t.tv_nsec * 1e-9;
}

static const char *name_of(const series *s) {
    return s->moon ? "Moon" : "Sun";
}

/* A row of the table: what, then nanoseconds of the proved code, of the same in C, of plain C with our evaluator and of plain C; 0 where there is none. */
static void row(const char *what, const char *of, double proved, double same, double lent, double plain) {
    printf("row|%s%s|%.1f|%.1f|%.1f|%.1f\n", what, of, proved * 1e9, same * 1e9, lent * 1e9, plain * 1e9);
}

/* ---- values: of a series of one segment, which each call accepts anew */
typedef struct { int64_t number, value; } valued;

#define VALUED(NAME)                                                                                                                    \
    __attribute__((noinline)) static valued NAME##_valued(const series *s, int64_t second) {                                            \
        judged verdict = NAME##_accept(s);                                                                                              \
        if (verdict.number) return (valued){verdict.number, 0};                                                                         \
        if (second < s->start || last_second(s) < second) return (valued){6, 0};                                                        \
        return (valued){0, NAME##_value_at(s, second)};                                                                                 \
    }

VALUED(same)
VALUED(plain)

static int race_values(const series *given) {
    series s = {given->moon, given->start, given->coefs, 14};
    double best[3] = {1e9, 1e9, 1e9};
    for (size_t i = 0; i < VALUES; i++) seconds[i] = s.start + (int64_t)any(2 * half_length(s.moon));
    for (size_t i = 0; i < VALUES; i++) {
        int64_t second = i % 1000 ? seconds[i] : i % 2000 ? s.start - 1 : last_second(&s) + 1;
        valued same = same_valued(&s, second), plain = plain_valued(&s, second);
        int64_t number = hzk_value_at(s.moon, s.start, s.coefs, s.count, second, &answer);
        if (number != same.number || number != plain.number || answer.value[0] != same.value || answer.value[0] != plain.value) {
            printf("%s: the value at %ld differs\n", name_of(&s), second);
            return 1;
        }
    }
    for (int r = 0; r < ROUNDS; r++)
        for (int k = 0; k < 3; k++) {
            double t = now(CLOCK_MONOTONIC);
            for (size_t i = 0; k == 0 && i < VALUES; i++) {
                hzk_value_at(s.moon, s.start, s.coefs, s.count, seconds[i], &answer);
                kept = answer.value[0];
            }
            for (size_t i = 0; k == 1 && i < VALUES; i++) kept = same_valued(&s, seconds[i]).value;
            for (size_t i = 0; k == 2 && i < VALUES; i++) kept = plain_valued(&s, seconds[i]).value;
            t = now(CLOCK_MONOTONIC) - t;
            if (t < best[k]) best[k] = t;
        }
    row("a value, one segment accepted: ", name_of(&s), best[0] / VALUES, best[1] / VALUES, 0, best[2] / VALUES);
    return 0;
}

/* ---- who serves: a near series, the second of a long one's three segments, and that long one; each call accepts both anew */
typedef struct { int64_t number, side, segment; } served;

#define SERVED(NAME)                                                                                                                    \
    __attribute__((noinline)) static served NAME##_serves(const series *two, int64_t second) {                                          \
        for (int i = 0; i < 2; i++) {                                                                                                   \
            judged verdict = NAME##_accept(two + i);                                                                                    \
            if (verdict.number) return (served){verdict.number, 0, 0};                                                                  \
        }                                                                                                                               \
        for (int i = 0; i < 2; i++)                                                                                                     \
            if (two[i].start <= second && second <= last_second(two + i))                                                               \
                return (served){0, i, (second - two[i].start) / (int64_t)(2 * half_length(two[i].moon))};                               \
        return (served){18, 0, 0};                                                                                                      \
    }

SERVED(same)
SERVED(plain)

static served proved_serves(const series *two, int64_t second) {
    int64_t number = hzk_serves(two->moon, two->start, two->coefs, two->count, two[1].start, two[1].coefs, two[1].count, second, &answer);
    return (served){number, answer.value[0], answer.value[1]};
}

static int race_serves(const series *given) {
    int64_t length = (int64_t)(2 * half_length(given->moon));
    series two[2] = {{given->moon, given->start + length, given->coefs + 14, 14}, {given->moon, given->start, given->coefs, 42}};
    served (*const by[3])(const series *, int64_t) = {proved_serves, same_serves, plain_serves};
    double best[3] = {1e9, 1e9, 1e9};
    for (size_t i = 0; i < VALUES; i++) seconds[i] = given->start + (int64_t)any((size_t)(3 * length));
    for (size_t i = 0; i < VALUES; i++) {
        int64_t second = i % 10 ? seconds[i] : given->start + (int64_t)any(4) * length - (int64_t)any(2);
        served a = by[0](two, second);
        for (int k = 1; k < 3; k++) {
            served b = by[k](two, second);
            if (a.number == b.number && a.side == b.side && a.segment == b.segment) continue;
            printf("%s: who serves second %ld differs\n", name_of(given), second);
            return 1;
        }
    }
    for (int r = 0; r < ROUNDS; r++)
        for (int k = 0; k < 3; k++) {
            double t = now(CLOCK_MONOTONIC);
            for (size_t i = 0; i < VALUES; i++) kept = by[k](two, seconds[i]).segment;
            t = now(CLOCK_MONOTONIC) - t;
            if (t < best[k]) best[k] = t;
        }
    row("who serves, one segment and three accepted: ", name_of(given), best[0] / VALUES, best[1] / VALUES, 0, best[2] / VALUES);
    return 0;
}

/* ---- acceptance and lists */
static int64_t proved_list(const series *s, int64_t *out, size_t room) {
    int64_t number = hzk_list_marks(s->moon, s->start, s->coefs, s->count, out, room, &answer);
    return number ? -number : answer.value[0];
}

/* Spoils one to three words at a time, near the limits of 3, 4 and 5, and compares the verdicts. */
static int compare_spoilt(const series *given) {
    series s = *given;
    size_t refused[6] = {0};
    for (size_t i = 0; i < s.count; i++) spoilt_words[i] = given->coefs[i];
    s.coefs = spoilt_words;
    for (int round = 0; round < 3000; round++) {
        size_t at[3], changed = 1 + (size_t)(round % 3);
        int64_t was[3];
        for (size_t i = 0; i < changed; i++) {
            at[i] = any(s.count);
            was[i] = spoilt_words[at[i]];
            int64_t spoils[8] = {was[i] + 300, was[i] - 90000, was[i] + 3, 4000000001, -4000000001, 1000000000000001, 900000000, -9223372036854775807 - 1};
            spoilt_words[at[i]] = spoils[any(8)];
        }
        judged same = same_accept(&s), plain = plain_accept(&s);
        hzk_accept(s.moon, s.start, s.coefs, s.count, &answer);
        if (answer.number != plain.number || answer.segment != plain.segment || same.number != plain.number || same.segment != plain.segment) {
            printf("%s: spoilt, the verdicts differ: proved %ld at %ld, same in C %ld at %ld, plain C %ld at %ld\n", name_of(&s), answer.number, answer.segment,
                   same.number, same.segment, plain.number, plain.segment);
            return 1;
        }
        refused[plain.number]++;
        for (size_t i = changed; i-- > 0;) spoilt_words[at[i]] = was[i];
    }
    printf("%s, 3000 spoilt series: %lu accepted, refused by 3 %lu, by 4 %lu, by 5 %lu; all agree, segments too\n", name_of(&s), refused[0], refused[3],
           refused[4], refused[5]);
    return 0;
}

static int race_series(const series *s) {
    double best[3] = {1e9, 1e9, 1e9};
    int64_t n = proved_list(s, lists[0], 2 * MOST_MARKS);
    bool same = n > 0 && same_list(s, lists[1], 2 * MOST_MARKS) == n && plain_list(s, lists[2], 2 * MOST_MARKS) == n;
    for (size_t i = 0; same && i < 2 * (size_t)n; i++) same = lists[0][i] == lists[1][i] && lists[0][i] == lists[2][i];
    if (!same) {
        printf("%s: the lists differ\n", name_of(s));
        return 1;
    }
    for (int r = 0; r < ROUNDS; r++)
        for (int k = 0; k < 3; k++) {
            double t = now(CLOCK_MONOTONIC);
            if (k == 0) hzk_accept(s->moon, s->start, s->coefs, s->count, &answer);
            else if (k == 1) answer.number = same_accept(s).number;
            else answer.number = plain_accept(s).number;
            t = now(CLOCK_MONOTONIC) - t;
            if (answer.number) return 1;
            if (t < best[k]) best[k] = t;
        }
    double segments = (double)(s->count / 14);
    row("acceptance, a segment: ", name_of(s), best[0] / segments, best[1] / segments, 0, best[2] / segments);
    best[0] = best[1] = best[2] = 1e9;
    for (int r = 0; r < ROUNDS; r++)
        for (int k = 0; k < 3; k++) {
            double t = now(CLOCK_PROCESS_CPUTIME_ID);
            (k == 0 ? proved_list : k == 1 ? same_list : plain_list)(s, lists[k], 2 * MOST_MARKS);
            t = now(CLOCK_PROCESS_CPUTIME_ID) - t;
            if (t < best[k]) best[k] = t;
        }
    row("all marks, a mark: ", name_of(s), best[0] / (double)n, best[1] / (double)n, 0, best[2] / (double)n);
    return 0;
}

/* ---- a sui: one call a year; and year 1699, refused by 8 once the inputs are accepted, to take acceptance off */
static month found_months[4][13];

static int64_t proved_sui(inputs *in, int64_t year, month *out) {
    int64_t number = hzk_sui(in->leap, in->n, in->body[0].start, in->body[0].coefs, in->body[0].count, in->body[1].start, in->body[1].coefs, in->body[1].count,
                             HZK_UTC8, year, (int64_t *)out, 39, &answer);
    return number ? -number : answer.value[0];
}

static int64_t (*const sui_of[4])(inputs *, int64_t, month *) = {proved_sui, same_sui, lent_sui, plain_sui};

static int race_suis(inputs *in, int64_t first, int64_t count) {
    size_t answered = 0, leaps = 0;
    for (int64_t year = first - 25; year < first + count + 25; year++) {
        int64_t got = 0;
        for (int k = 0; k < 4; k++) {
            int64_t months = sui_of[k](in, year, found_months[k]);
            bool same = k == 0 || months == got;
            for (int64_t i = 0; same && i < months; i++)
                same = found_months[k][i].handle == found_months[0][i].handle && found_months[k][i].first == found_months[0][i].first &&
                       found_months[k][i].length == found_months[0][i].length;
            if (!same) {
                printf("sui %ld differs: proved %ld, C %ld, or a month\n", year, got, months);
                return 1;
            }
            got = months;
        }
        answered += got > 0;
        leaps += got == 13;
    }
    printf("suis %ld to %ld: %lu answered, %lu of 13 months; all agree, months too\n", first - 25, first + count + 24, answered, leaps);
    /* the best call of each year, and then the mean: where the machine is shared, a whole round without a stop is rare */
    static double best_of[MOST_SUIS][8];
    double best[8] = {0};
    for (int r = 0; r < ROUNDS / 4; r++)
        for (int64_t i = 0; i < count; i++)
            for (int k = 0; k < 8; k++) {
                double t = now(CLOCK_PROCESS_CPUTIME_ID);
                int64_t months = sui_of[k % 4](in, k < 4 ? first + i : 1699, found_months[k % 4]);
                t = now(CLOCK_PROCESS_CPUTIME_ID) - t;
                if ((k < 4) != (months > 0)) return 1;
                if (r == 0 || t < best_of[i][k]) best_of[i][k] = t;
            }
    for (int64_t i = 0; i < count; i++)
        for (int k = 0; k < 8; k++) best[k] += best_of[i][k] / (double)count;
    row("a sui", "", best[0], best[1], best[2], best[3]);
    row("a sui, acceptance taken off", "", best[0] - best[4], best[1] - best[5], best[2] - best[6], best[3] - best[7]);
    return 0;
}

/* ---- builds: proved, same, plain, plain with our evaluator, and that one sharing marks between suis */
static int64_t build_by(int k, inputs *in, int64_t first, int64_t count, size_t room) {
    if (k == 1) return same_build(in, first, count, files[1], room);
    if (k == 2) return lent_build(in, 0, first, count, files[2], room);
    if (k == 3) return plain_build(in, 0, first, count, files[3], room);
    if (k == 4) return lent_build(in, 1, first, count, files[4], room);
    int64_t number = hzk_build(in->leap, in->n, in->body[0].start, in->body[0].coefs, in->body[0].count, in->body[1].start, in->body[1].coefs, in->body[1].count,
                               HZK_UTC8, first, count, files[0], room, &answer);
    return number ? -number : answer.value[0];
}

/* The builds, compared to the last byte of the room: the answer, or 1 where they differ. */
static int64_t compared(inputs *in, int64_t first, int64_t count, size_t room) {
    int64_t got = 0;
    for (int k = 0; k < 5; k++) {
        for (size_t i = 0; i < sizeof files[k]; i++) files[k][i] = (uint8_t)(i * 7 + 1);
        int64_t bytes = build_by(k, in, first, count, room);
        bool same = k == 0 || bytes == got;
        for (size_t i = 0; i < sizeof files[k]; i++) same &= files[k][i] == files[0][i];
        if (!same) {
            printf("%ld suis from %ld in %lu bytes: proved %ld, C (%d) %ld, or the bytes differ\n", count, first, room, got, k, bytes);
            return 1;
        }
        got = bytes;
    }
    return got;
}

static int compare_builds(inputs *in, int64_t first, int64_t count) {
    size_t answered = 0, refused[14] = {0};
    for (int64_t year = first - 20; year <= first + count + 20; year++)
        for (int k = 0; k < 3; k++) {
            int64_t got = compared(in, year, k == 2 ? count : 1 + k, MOST_BYTES);
            if (got == 1) return 1;
            if (got < 0) refused[-got]++;
            else answered++;
        }
    printf("builds of 1, 2 and %ld suis from %ld to %ld on: %lu answered, refused by 8 %lu, by 9 and 10 %lu; all agree, bytes too\n", count, first - 20,
           first + count + 20, answered, refused[8], refused[9] + refused[10]);
    const int64_t out_of_range[][2] = {{first, 0}, {first, -1}, {first, 129}, {1699, 1}, {2501, 1}, {1699, 0}};
    for (size_t i = 0; i < sizeof out_of_range / sizeof *out_of_range; i++)
        if (compared(in, out_of_range[i][0], out_of_range[i][1], MOST_BYTES) != -8) return 1;
    int64_t size = compared(in, first, count, MOST_BYTES);
    if (size < 2 || compared(in, first, count, (size_t)size - 1) != -12 || compared(in, first, count, 0) != -12) return 1;
    return compared(in, first, count, (size_t)size) != size;
}

static int race_builds(inputs *in, int64_t first, int64_t count) {
    double best[10];
    for (int k = 0; k < 10; k++) best[k] = 1e9;
    for (int r = 0; r < ROUNDS; r++)
        for (int k = 0; k < 10; k++) {
            double t = now(CLOCK_PROCESS_CPUTIME_ID);
            int64_t got = build_by(k % 5, in, first, k < 5 ? count : 0, MOST_BYTES);
            t = now(CLOCK_PROCESS_CPUTIME_ID) - t;
            if ((k < 5) != (got > 0)) return 1;
            if (t < best[k]) best[k] = t;
        }
    row("a build", "", best[0], best[1], best[2], best[3]);
    row("its acceptance (a count of 0)", "", best[5], best[6], best[7], best[8]);
    row("a build, acceptance taken off", "", best[0] - best[5], best[1] - best[6], best[2] - best[7], best[3] - best[8]);
    row("a build, C sharing marks between suis", "", best[0], best[1], best[4], 0);
    return 0;
}

/* ---- rebuilds from a corrected Moon, beside a fresh build from it */
static int64_t kept_years[MOST_SUIS + 2];

static int64_t rebuild_by(const inputs *old, size_t size, const inputs *in, size_t room, size_t places) {
    const series *sun = in->body, *moon = in->body + 1, *old_sun = old->body, *old_moon = old->body + 1;
    int64_t number = hzk_rebuild(files[1], size, old->leap, old->n, old_sun->start, old_sun->coefs, old_sun->count, old_moon->start, old_moon->coefs, old_moon->count,
                                 in->leap, in->n, sun->start, sun->coefs, sun->count, moon->start, moon->coefs, moon->count, HZK_UTC8, files[0], room, kept_years,
                                 places, &answer);
    return number ? -number : answer.value[0];
}

/* Whether a sui has the same months by both inputs, reckoned in C. Where the Sun and the leap table are the same, they tell of all its days. */
static bool same_months(inputs *old, inputs *in, int64_t year) {
    int64_t months = same_sui(old, year, found_months[0]);
    bool same = months > 0 && same_sui(in, year, found_months[1]) == months;
    for (int64_t i = 0; same && i < months; i++) same = found_months[0][i].first == found_months[1][i].first && found_months[0][i].length == found_months[1][i].length;
    return same;
}

/* The rebuild and its refusals, to the last byte and the last year of the room: the years that were listed, or -1 where it is not what is wanted. */
static int64_t compare_rebuild(const char *what, inputs *old, inputs *in, int64_t first, int64_t count) {
    int64_t old_size = same_build(old, first, count, files[1], MOST_BYTES), listed = 0;
    for (size_t i = 0; i < sizeof files[0]; i++) files[0][i] = files[2][i] = (uint8_t)(i * 7 + 1);
    for (size_t i = 0; i < MOST_SUIS + 2; i++) kept_years[i] = lists[0][i] = (int64_t)i - 1000000;
    int64_t size = same_build(in, first, count, files[2], MOST_BYTES);
    for (int64_t i = 0; i < count; i++)
        if (same_months(old, in, first + i)) lists[0][listed++] = first + i;
    if (old_size <= 0 || size <= 0) return -1;
    size_t bytes = (size_t)old_size, room = (size_t)size, places = (size_t)listed;
    files[1][bytes - 1] ^= 1;
    bool right = rebuild_by(old, bytes, in, room, places) == -13;
    files[1][bytes - 1] ^= 1;
    right &= rebuild_by(old, bytes, in, room - 1, places) == -12 && (listed == 0 || rebuild_by(old, bytes, in, room, places - 1) == -12);
    for (size_t i = 0; i < sizeof files[0]; i++) right &= files[0][i] == (uint8_t)(i * 7 + 1);
    right &= rebuild_by(old, bytes, in, room, places) == size && answer.value[1] == listed;
    for (size_t i = 0; i < sizeof files[0]; i++) right &= files[0][i] == files[2][i];
    for (size_t i = 0; i < MOST_SUIS + 2; i++) right &= kept_years[i] == lists[0][i];
    if (right) printf("rebuilt, %s: %ld bytes, %ld of %ld years listed; all as a fresh build and C say, and refused by 13 and 12\n", what, size, listed, count);
    else printf("rebuilt, %s: not as a fresh build and C say\n", what);
    return right ? listed : -1;
}

/* A line of the second table: what, then nanoseconds of the rebuild, of the fresh build, and of the fresh build's acceptance (a count of 0). */
static int race_rebuild(const char *what, inputs *old, inputs *in, int64_t first, int64_t count) {
    if (compare_rebuild(what, old, in, first, count) < 0) return 1;
    size_t size = (size_t)same_build(old, first, count, files[1], MOST_BYTES);
    double best[3] = {1e9, 1e9, 1e9};
    for (int r = 0; r < ROUNDS; r++)
        for (int k = 0; k < 3; k++) {
            double t = now(CLOCK_PROCESS_CPUTIME_ID);
            int64_t got = k == 0 ? rebuild_by(old, size, in, MOST_BYTES, MOST_SUIS) : build_by(0, in, first, k == 1 ? count : 0, MOST_BYTES);
            t = now(CLOCK_PROCESS_CPUTIME_ID) - t;
            if ((k < 2) != (got > 0)) return 1;
            if (t < best[k]) best[k] = t;
        }
    printf("beside|%s|%.1f|%.1f|%.1f\n", what, best[0] * 1e9, best[1] * 1e9, best[2] * 1e9);
    return 0;
}

/* One segment in the middle of the years a unit higher, which moves a mark by a second at most; then every segment ten minutes ahead, so that new moons near
   midnight change their days. */
static int race_rebuilds(inputs *old, int64_t first, int64_t count) {
    inputs in = *old;
    const series *moon = old->body + 1;
    int64_t segment = ((january(first + count / 2) * 86400) - moon->start) / (2 * (int64_t)half_length(1));
    if (segment < 0 || (int64_t)moon->count <= 14 * segment) return 1;
    for (size_t i = 0; i < moon->count; i++) spoilt_words[i] = moon->coefs[i];
    in.body[1].coefs = spoilt_words;
    if (race_rebuild("nothing corrected", old, &in, first, count)) return 1;
    spoilt_words[14 * segment]++;
    if (race_rebuild("one Moon segment a unit higher", old, &in, first, count)) return 1;
    for (size_t i = 0; i < moon->count; i += 14) spoilt_words[i] += 3000000;
    return race_rebuild("the whole Moon ten minutes ahead", old, &in, first, count);
}

/* ---- judging a file */
static int64_t proved_check(const uint8_t *file, size_t size) {
    int64_t number = hzk_check_file(file, size, &answer);
    return number ? -number : answer.value[2];
}

static size_t counts_judged[2];
static bool alike(size_t size, const char *how) {
    int64_t proved = proved_check(spoilt_file, size), plain = plain_check(spoilt_file, size);
    counts_judged[proved > 0]++;
    if (proved == plain) return 1;
    printf("a file %s is judged otherwise: proved %ld, C %ld\n", how, proved, plain);
    return 0;
}

static void restored(size_t size) {
    for (size_t i = 0; i < size; i++) spoilt_file[i] = files[0][i];
}

static void told(const char *how) {
    printf("files %s: %lu judged, of which %lu lawful; both agree\n", how, counts_judged[0] + counts_judged[1], counts_judged[1]);
    counts_judged[0] = counts_judged[1] = 0;
}

static int compare_checks(size_t size) {
    restored(size + 60);
    if (proved_check(spoilt_file, size) <= 0 || !alike(size, "as built")) return 1;
    counts_judged[0] = counts_judged[1] = 0;
    for (size_t cut = 0; cut < size + 60; cut++)
        if (cut != size && !alike(cut, "cut or grown")) return 1;
    told("cut to each length, and grown by up to 59 bytes");
    static const uint8_t by[3] = {1, 255, 128};
    for (size_t i = 0; i < size; i++) {
        for (int k = 0; k < 3; k++) {
            spoilt_file[i] = (uint8_t)(files[0][i] + by[k]);
            if (!alike(size, "with a byte changed")) return 1;
        }
        spoilt_file[i] = files[0][i];
    }
    told("with one byte one more, one less, or 128 more, at each place");
    for (int round = 0; round < 5000; round++) {
        size_t at[3], changed = 1 + (size_t)(round % 3);
        for (size_t i = 0; i < changed; i++) {
            at[i] = any(size);
            spoilt_file[at[i]] = (uint8_t)any(256);
        }
        if (!alike(size, "with bytes changed at random")) return 1;
        for (size_t i = 0; i < changed; i++) spoilt_file[at[i]] = files[0][at[i]];
    }
    told("with one to three bytes at random");
    /* near the rules: a border between months moved by a day or two, a month made a leap month or an ordinary one, all days from a month on shifted */
    size_t third = 8 + 8 * pattern(spoilt_file) + 5 * pattern(spoilt_file + 4 + 8 * pattern(spoilt_file)), months = pattern(spoilt_file + third);
    for (int round = 0; round < 5000; round++) {
        uint8_t *record = spoilt_file + third + 4 + 9 * any(months - 1);
        int64_t by = (int64_t)any(5) - 2;
        switch (round % 3) {
        case 0: /* the border behind it */
            record[8] = (uint8_t)(record[8] + by);
            put4(record + 13, signed4(record + 13) + by);
            record[17] = (uint8_t)(record[17] - by);
            break;
        case 1: /* its handle and the next one's: the number, or the leap mark */
            put4(record, signed4(record) + by);
            put4(record + 9, signed4(record + 9) - by);
            break;
        default: /* every day from here on */
            for (uint8_t *r = record; r < spoilt_file + size; r += 9) put4(r + 4, signed4(r + 4) + by);
        }
        if (!alike(size, "changed near the rules")) return 1;
        restored(size);
    }
    told("with a border moved, two handles changed, or days shifted");
    return 0;
}

static int race_checks(size_t size) {
    double best[2] = {1e9, 1e9};
    for (int r = 0; r < 50 * ROUNDS; r++)
        for (int k = 0; k < 2; k++) {
            double t = now(CLOCK_MONOTONIC);
            int64_t got = k ? plain_check(files[0], size) : proved_check(files[0], size);
            t = now(CLOCK_MONOTONIC) - t;
            if (got <= 0) return 1;
            if (t < best[k]) best[k] = t;
        }
    row("a file judged", "", best[0], best[1], 0, 0);
    return 0;
}

/* ---- evaluations a mark and how deep the finder's calls nest, counted in the ports; on made series too, whose rates are as uneven as acceptance lets them be */
static int count_marks(const char *name, const series *s) {
    evaluations = deepest = 0;
    int64_t n = counted_list(s, lists[1], 2 * MOST_MARKS);
    size_t listing = evaluations, sum = 0, most = 0, by_halving = 0, most_halved = 0;
    if (n <= 0 || proved_list(s, lists[0], 2 * MOST_MARKS) != n) {
        printf("%s: the answers differ, or refuse\n", name);
        return 1;
    }
    for (size_t i = 0; i < (size_t)n; i++) {
        int64_t index = lists[0][2 * i], second = lists[0][2 * i + 1];
        evaluations = 0;
        int64_t at = counted_located(s, index);
        sum += evaluations;
        if (evaluations > most) most = evaluations;
        evaluations = 0;
        int64_t again = halved_mark(s, index);
        by_halving += evaluations;
        if (evaluations > most_halved) most_halved = evaluations;
        if (lists[1][2 * i] != index || lists[1][2 * i + 1] != second || at != second || again != second) {
            printf("%s: mark %ld differs\n", name, index);
            return 1;
        }
    }
    printf("%s, %ld marks: finder %.2f evaluations a mark, %lu deep; locator %.2f, at most %lu; halving %.2f, at most %lu\n", name, n, (double)listing / (double)n,
           deepest, (double)sum / (double)n, most, (double)by_halving / (double)n, most_halved);
    return 0;
}

enum { FAST_LAST, FAST_FIRST, FAST_AT_RANDOM, RATES_AT_RANDOM, SHAPES };
static const char *const shapes[2][SHAPES] = {
    {"made Sun, slow, then fast", "made Sun, fast, then slow", "made Sun, a fast one in a thousand", "made Sun, random rates"},
    {"made Moon, slow, then fast", "made Moon, fast, then slow", "made Moon, a fast one in a thousand", "made Moon, random rates"}};

/* Straight segments, slow or fast by the shape's rule, joined by the least rise. */
static int count_made(bool moon, int shape) {
    int64_t slow = 100 * (int64_t)half_length(moon), fast = 4000000000, rate = 0;
    size_t segments = moon ? 16000 : 2000;
    for (size_t k = 0; k < segments; k++) {
        int64_t *c = spoilt_words + 14 * k, first = k ? same_value(moon ? 66354816 : 66355152, c - 14) + 200 : -20000000000000;
        switch (shape) {
        case FAST_LAST: rate = k + 1 == segments ? fast : slow; break;
        case FAST_FIRST: rate = k == 0 ? fast : slow; break;
        case FAST_AT_RANDOM: rate = any(1000) == 0 ? fast : slow; break;
        default: rate = slow + (int64_t)any((size_t)(fast - slow));
        }
        c[0] = first + rate;
        c[1] = rate;
        for (size_t n = 2; n < 14; n++) c[n] = 0;
    }
    series s = {moon, 0, spoilt_words, 14 * segments};
    return count_marks(shapes[moon][shape], &s);
}

static void count_suis(inputs *in, int64_t first, int64_t count) {
    double n = (double)count;
    located = evaluations = 0;
    for (int64_t i = 0; i < count; i++) counted_sui(in, first + i, found_months[0]);
    printf("a sui: proved search %.1f marks, %.1f evaluations", (double)located / n, (double)evaluations / n);
    located = evaluations = 0;
    for (int64_t i = 0; i < count; i++) halved_sui(in, first + i, found_months[0]);
    printf("; plain C %.1f marks, %.1f evaluations\n", (double)located / n, (double)evaluations / n);
    located = evaluations = 0;
    counted_build(in, first, count, files[1], MOST_BYTES);
    printf("a sui of a build: proved search %.2f marks, %.1f evaluations", (double)located / n, (double)evaluations / n);
    for (int sharing = 0; sharing < 2; sharing++) {
        located = evaluations = 0;
        halved_build(in, sharing, first, count, files[2], MOST_BYTES);
        printf("; %s %.2f marks, %.1f evaluations", sharing ? "sharing C" : "plain C", (double)located / n, (double)evaluations / n);
    }
    printf("\n");
}

/* ---- */
static size_t taken(const char *path, void *place, size_t room) {
    int file = open(path, 0);
    size_t bytes = 0;
    for (long got; file >= 0 && bytes < room && (got = read(file, (char *)place + bytes, room - bytes)) > 0;) bytes += (size_t)got;
    if (file >= 0) close(file);
    return bytes;
}

/* A series at a place among the words: where the words behind it begin, or 0 where it does not fit. */
static size_t series_at(size_t at, size_t all, series *s) {
    if (at == 0 || all < at + 2 || words[at] < 0 || (int64_t)all < words[at]) return 0;
    s->start = words[at + 1];
    s->coefs = words + at + 2;
    s->count = 14 * (size_t)words[at];
    return at + 2 + s->count <= all ? at + 2 + s->count : 0;
}

int main(int arguments, char **argument) {
    if (arguments != 2 && arguments != 3) {
        printf("arguments: an input of the build program, and the file it must build, if there is one\n");
        return 2;
    }
    size_t all = taken(argument[1], words, sizeof words) / 8;
    int64_t first = words[0], count = words[1];
    inputs in = {words + 3, 2 * (size_t)words[2], {{HZK_SUN, 0, words, 0}, {HZK_MOON, 0, words, 0}}, {0}, {0}};
    size_t behind = 3 < all && 0 < words[2] && words[2] <= 64 ? series_at(series_at(3 + in.n, all, &in.body[0]), all, &in.body[1]) : 0;
    if (behind == 0 || behind != all) {
        printf("%s: no input of the build program\n", argument[1]);
        return 2;
    }
    for (int b = 0; b < 2; b++)
        if (compare_spoilt(&in.body[b])) return 1;
    if (compare_builds(&in, first, count)) return 1;
    size_t size = (size_t)build_by(0, &in, first, count, MOST_BYTES);
    if (arguments == 3) {
        bool same = taken(argument[2], spoilt_file, sizeof spoilt_file) == size;
        for (size_t i = 0; same && i < size; i++) same = spoilt_file[i] == files[0][i];
        if (!same) {
            printf("%s: other than the %lu bytes that were built\n", argument[2], size);
            return 1;
        }
        printf("%lu bytes, the same as in the file given\n", size);
    }
    if (compare_checks(size)) return 1;
    for (int b = 0; b < 2; b++)
        if (count_marks(b ? "Moon" : "Sun", &in.body[b])) return 1;
    for (int shape = 0; shape < 2 * SHAPES; shape++)
        if (count_made(shape % 2, shape / 2)) return 1;
    count_suis(&in, first, count);
    for (int b = 0; b < 2; b++)
        if (race_values(&in.body[b])) return 1;
    for (int b = 0; b < 2; b++)
        if (race_serves(&in.body[b])) return 1;
    for (int b = 0; b < 2; b++)
        if (race_series(&in.body[b])) return 1;
    if (race_suis(&in, first, count) || race_builds(&in, first, count) || race_rebuilds(&in, first, count)) return 1;
    build_by(0, &in, first, count, MOST_BYTES);
    return race_checks(size);
}
