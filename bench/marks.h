/* The finder and the locator in C. `same` are the proved algorithms step for step; `plain` finds as they do, with plain acceptance and evaluator and a division by
   the mark's size, which is no constant; `counted` are `same`, counting. */
static size_t evaluations, depth, deepest;
#define NOTHING
#define COUNTED evaluations++;

/* By a constant for each body. */
static inline int64_t same_index(const series *s, int64_t second) {
    int64_t value = same_value_at(s, second);
    return s->moon ? floor_div(value, 3240000000) : floor_div(value, 540000000);
}

static inline int64_t lent_index(const series *s, int64_t second) {
    return floor_div(same_value_at(s, second), mark_size(s->moon));
}

static inline int64_t plain_index(const series *s, int64_t second) {
    return floor_div(plain_value_at(s, second), mark_size(s->moon));
}

/* ---- the finder: how many marks, or minus the number of the refusal */
#define FINDER(NAME, ACCEPT, INDEX, IN, EVALUATION, OUT)                                                                                \
    static void NAME##_find(const series *s, int64_t lo, int64_t hi, int64_t lowest, int64_t highest, int64_t *out, size_t room) {      \
        if (lowest == highest) return;                                                                                                  \
        if (hi - lo == 1) {                                                                                                             \
            out[0] = highest;                                                                                                           \
            out[1] = hi;                                                                                                                \
            return;                                                                                                                     \
        }                                                                                                                               \
        int64_t middle = lo + (hi - lo) / 2;                                                                                            \
        EVALUATION int64_t between = INDEX(s, middle);                                                                                  \
        size_t k = 2 * (size_t)(between - lowest);                                                                                      \
        IN NAME##_find(s, lo, middle, lowest, between, out, k);                                                                         \
        NAME##_find(s, middle, hi, between, highest, out + k, room - k);                                                                \
        OUT                                                                                                                             \
    }                                                                                                                                   \
    __attribute__((noinline)) static int64_t NAME##_list(const series *s, int64_t *out, size_t room) {                                  \
        judged verdict = ACCEPT(s);                                                                                                     \
        if (verdict.number) return -verdict.number;                                                                                     \
        int64_t last = last_second(s);                                                                                                  \
        EVALUATION int64_t lowest = INDEX(s, s->start);                                                                                 \
        EVALUATION int64_t highest = INDEX(s, last);                                                                                    \
        size_t marks = (size_t)(highest - lowest);                                                                                      \
        if (room / 2 < marks) return -12;                                                                                               \
        IN NAME##_find(s, s->start, last, lowest, highest, out, 2 * marks);                                                             \
        OUT return (int64_t)marks;                                                                                                      \
    }

FINDER(same, same_accept, same_index, NOTHING, NOTHING, NOTHING)
FINDER(plain, plain_accept, plain_index, NOTHING, NOTHING, NOTHING)
FINDER(counted, same_accept, same_index, if (++depth > deepest) deepest = depth;, COUNTED, depth--;)

/* ---- the locator's guesses, as crate guess has them. Only `segment_near` and `between` are relied on; the rest says where to look */
static inline int64_t at_most(int64_t most, int64_t a) {
    return a < -most ? -most : most < a ? most : a;
}

static inline int64_t at_least(int64_t least, int64_t a) {
    return a < least ? least : a;
}

static inline int64_t between(int64_t first, int64_t last, int64_t a) {
    return a < first ? first : last < a ? last : a;
}

static inline size_t segment_near(int64_t number, size_t segments) {
    if (number < 0) return 0;
    return (size_t)number < segments ? (size_t)number : segments - 1;
}

static inline size_t hint(int64_t first, int64_t last, size_t segments, int64_t target) {
    int64_t all = at_least(1, (last - first) >> 8), part = ((target - first) >> 8) * (int64_t)(segments - 1);
    return segment_near(floor_div(2 * part + all, 2 * all), segments);
}

static inline size_t toward(int64_t c0, int64_t c1, size_t k, size_t segments, int64_t target) {
    int64_t rise = target - c0, half = at_least(1, c1);
    if (rise < half && -half <= rise) return k;
    return segment_near((int64_t)k + floor_div(rise + half, 2 * half), segments);
}

static inline size_t segment_for(const int64_t *coefs, size_t count, int64_t target) {
    size_t segments = count / 14, k = hint(coefs[0], coefs[14 * (segments - 1)], segments, target);
    for (size_t left = 8; left > 0; left--) {
        size_t next = toward(coefs[14 * k], coefs[14 * k + 1], k, segments, target);
        if (next == k) return k;
        k = next;
    }
    return k;
}

static inline int64_t times(int64_t a, int64_t place) {
    return a * place >> 20;
}

static inline int64_t ratio(int64_t a, int64_t b) {
    return at_most(1048576, floor_div(a * 1048576, b));
}

typedef struct { int64_t place, slope; } aimed;

static inline aimed aim(int64_t c0, int64_t c1, int64_t c2, int64_t c3, int64_t target) {
    int64_t goal = at_most(8000000000, target - c0) + c2, a1 = at_least(16777216, c1 - 3 * c3), a2 = 2 * c2, a3 = 4 * c3;
    int64_t place = ratio(goal, a1), cubic = times(a3, place), mean = a1 + times(a2 + cubic, place);
    int64_t slope = at_least(16777216, mean + times(a2 + 2 * cubic, place));
    aimed a = {place + ratio(goal - times(mean, place), slope), slope};
    return a;
}

static inline int64_t second_in(int64_t first, int64_t last, size_t k, size_t half, int64_t place) {
    return between(first, last, first + (int64_t)((2 * k + 1) * half) + times((int64_t)half, place));
}

static inline int64_t ahead(int64_t at, int64_t under, size_t half, int64_t slope) {
    return at + floor_div(at_most(1000000000000, under) * (int64_t)half - 1, slope) + 1;
}

static size_t proportional(size_t a, size_t b, size_t n) {
    size_t unit = b / 2147483648 + 1;
    size_t part = a / unit * n / (b / unit + 1);
    size_t near = part < n ? part : n - 1;
    size_t far = n - near;
    if (near < n / 16) return 2 * near + 1;
    if (far < n / 16) return n - 2 * far - 1;
    return near == 0 ? 1 : near;
}

typedef struct { int64_t lo, hi, under; } looked;
typedef struct { int64_t after, by; } enclosing;

/* ---- the locator */
#define LOCATOR(NAME, EVALUATION)                                                                                                       \
    static inline looked NAME##_look(const series *s, int64_t index, looked around, int64_t at) {                                       \
        if (at <= around.lo || around.hi <= at) return around;                                                                          \
        EVALUATION int64_t value = same_value_at(s, at);                                                                                \
        int64_t target = index * mark_size(s->moon), under = target - value;                                                            \
        looked later = {at, around.hi, under}, sooner = {around.lo, at, under};                                                         \
        return value < target ? later : sooner;                                                                                         \
    }                                                                                                                                   \
    static int64_t NAME##_between(const series *s, int64_t index, int64_t lo, int64_t hi, int64_t below, int64_t above) {               \
        int64_t target = index * mark_size(s->moon);                                                                                    \
        size_t left = (size_t)(hi - lo);                                                                                                \
        bool halve = 0;                                                                                                                 \
        while (left > 1) {                                                                                                              \
            size_t step = halve ? left / 2 : proportional((size_t)(target - below), (size_t)(above - below), left);                     \
            int64_t middle = lo + (int64_t)step;                                                                                        \
            EVALUATION int64_t value = same_value_at(s, middle);                                                                        \
            if (value < target) {                                                                                                       \
                lo = middle;                                                                                                            \
                below = value;                                                                                                          \
            } else {                                                                                                                    \
                hi = middle;                                                                                                            \
                above = value;                                                                                                          \
            }                                                                                                                           \
            size_t rest = (size_t)(hi - lo);                                                                                            \
            halve = !halve && left / 2 < rest;                                                                                          \
            left = rest;                                                                                                                \
        }                                                                                                                               \
        return hi;                                                                                                                      \
    }                                                                                                                                   \
    static inline int64_t NAME##_settle(const series *s, int64_t index, looked around) {                                                \
        if (around.hi - around.lo == 1) return around.hi;                                                                               \
        EVALUATION int64_t below = same_value_at(s, around.lo);                                                                         \
        EVALUATION int64_t above = same_value_at(s, around.hi);                                                                         \
        return NAME##_between(s, index, around.lo, around.hi, below, above);                                                            \
    }                                                                                                                                   \
    /* Two seconds that enclose the mark's, by one look: a second rises by 37 units at least. */                                        \
    static enclosing NAME##_enclosed(const series *s, int64_t index) {                                                                  \
        int64_t target = index * mark_size(s->moon), last = last_second(s);                                                             \
        size_t k = segment_for(s->coefs, s->count, target);                                                                             \
        const int64_t *c = s->coefs + 14 * k;                                                                                           \
        int64_t at = second_in(s->start, last, k, half_length(s->moon), aim(c[0], c[1], c[2], c[3], target).place);                     \
        EVALUATION int64_t value = same_value_at(s, at);                                                                                \
        int64_t on = at + floor_div(target - value, 37);                                                                                \
        if (target <= value) return (enclosing){on - 1, at};                                                                            \
        return (enclosing){at, last <= on ? last : on + 1};                                                                             \
    }                                                                                                                                   \
    static int64_t NAME##_located(const series *s, int64_t index) {                                                                     \
        int64_t target = index * mark_size(s->moon), last = last_second(s);                                                             \
        size_t k = segment_for(s->coefs, s->count, target), half = half_length(s->moon);                                                \
        const int64_t *c = s->coefs + 14 * k;                                                                                           \
        aimed a = aim(c[0], c[1], c[2], c[3], target);                                                                                  \
        int64_t at = second_in(s->start, last, k, half, a.place);                                                                       \
        looked span = {s->start, last, 0}, there = NAME##_look(s, index, span, at);                                                     \
        int64_t mark = ahead(at, there.under, half, a.slope);                                                                           \
        looked before = NAME##_look(s, index, there, mark - 1);                                                                         \
        looked both = NAME##_look(s, index, before, mark);                                                                              \
        return NAME##_settle(s, index, both);                                                                                           \
    }

LOCATOR(same, NOTHING)
LOCATOR(counted, COUNTED)

/* ---- a mark by halving the whole span, as one would write it first */
#define HALVING(NAME, VALUE_AT, EVALUATION)                                                                                             \
    static int64_t NAME##_mark(const series *s, int64_t index) {                                                                        \
        int64_t target = index * mark_size(s->moon), lo = s->start, hi = last_second(s);                                                \
        while (hi - lo > 1) {                                                                                                           \
            int64_t middle = lo + (hi - lo) / 2;                                                                                        \
            EVALUATION if (VALUE_AT(s, middle) < target) lo = middle;                                                                   \
            else hi = middle;                                                                                                           \
        }                                                                                                                               \
        return hi;                                                                                                                      \
    }

HALVING(plain, plain_value_at, NOTHING)
HALVING(lent, same_value_at, NOTHING)
HALVING(halved, same_value_at, COUNTED)
