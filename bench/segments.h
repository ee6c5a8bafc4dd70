/* A segment in C, and the acceptance of a series. `same` does what the proved code does, step for step, with the same divisions; `plain` is what one would write
   first: the evaluator divides by `/` and `%`, acceptance takes a pass for each rule, a remainder a coefficient and two evaluations a joint. `lent` is plain but
   for the evaluator, which is `same`'s. */
#define SCALE 66355200

typedef struct { bool moon; int64_t start; const int64_t *coefs; size_t count; } series;
typedef struct { int64_t number, segment; } judged;

static inline int64_t floor_div(int64_t a, int64_t m) {
    int64_t q = a / m, r = a % m;
    return r < 0 ? q - 1 : q;
}

static inline int64_t same_step(int64_t t) {
    return (int64_t)((uint64_t)(t + 17812088369971200) / SCALE) - 268435456;
}

static inline int64_t same_sum(int64_t t) {
    return (int64_t)((uint64_t)(t + 4611686400000000000) / SCALE) - 69500000000;
}

static inline int64_t plain_step(int64_t t) {
    return floor_div(t, SCALE);
}

static inline int64_t plain_sum(int64_t t) {
    return floor_div(t, SCALE);
}

#define EVALUATOR(NAME)                                                                                                                 \
    static inline int64_t NAME##_value(int64_t x, const int64_t *c) {                                                                   \
        int64_t before = SCALE, here = x, sum = c[1] * x;                                                                               \
        for (size_t n = 2; n < 14; n++) {                                                                                               \
            int64_t after = NAME##_step(2 * x * here) - before;                                                                         \
            before = here;                                                                                                              \
            here = after;                                                                                                               \
            sum += c[n] * here;                                                                                                         \
        }                                                                                                                               \
        return c[0] + NAME##_sum(sum);                                                                                                  \
    }                                                                                                                                   \
    static inline int64_t NAME##_value_at(const series *s, int64_t second) {                                                            \
        size_t seconds = (size_t)(second - s->start);                                                                                   \
        const int64_t *segment = s->coefs + 14 * (s->moon ? seconds / 345600 : seconds / 2764800);                                      \
        int64_t x = s->moon ? 384 * ((int64_t)(seconds % 345600) - 172800) : 48 * ((int64_t)(seconds % 2764800) - 1382400);             \
        return NAME##_value(x, segment);                                                                                                \
    }

EVALUATOR(same)
EVALUATOR(plain)

static inline uint64_t absolute(int64_t a) {
    return a < 0 ? (uint64_t)(-1 - a) + 1 : (uint64_t)a;
}

static inline int64_t slope(const int64_t *c) {
    int64_t left = c[1];
    for (size_t n = 2; n < 14; n++) left -= (int64_t)(n * n * absolute(c[n]));
    return left;
}

static inline size_t half_length(bool moon) {
    return moon ? 172800 : 1382400;
}

static inline int64_t mark_size(bool moon) {
    return moon ? 3240000000 : 540000000;
}

static inline int64_t last_second(const series *s) {
    return s->start + (int64_t)(2 * half_length(s->moon) * (s->count / 14)) - 1;
}

/* 2 */
static inline bool misshapen(const series *s) {
    if (s->count % 14 != 0 || s->count == 0) return 1;
    if ((s->moon ? 224000 : 28000) < s->count) return 1;
    return s->start < -10000000000 || 10000000000 < s->start;
}

/* ---- acceptance as the proved code judges it: one pass, a segment's first and last value by closed forms that share two sums */
static inline bool out_of_range(const int64_t *c) {
    for (size_t n = 0; n < 14; n++)
        if ((n == 0 ? 1000000000000000u : 4000000000u) < absolute(c[n])) return 1;
    return 0;
}

static inline int64_t even_sum(const int64_t *c) {
    int64_t sum = c[0];
    for (size_t i = 1; i < 7; i++) sum += c[2 * i];
    return sum;
}

static inline int64_t odd_sum(const int64_t *c) {
    int64_t sum = c[1];
    for (size_t i = 1; i < 7; i++) sum += c[2 * i + 1];
    return sum;
}

static inline int64_t square_sum(const int64_t *c) {
    int64_t sum = 0;
    for (size_t n = 1; n < 14; n++) sum += c[n] * (int64_t)(n * n);
    return sum;
}

static inline int64_t floor_by_half(bool moon, int64_t t) {
    if (moon) return (int64_t)((uint64_t)(t + 11596411699200) / 172800) - 67108864;
    return (int64_t)((uint64_t)(t + 11596411699200) / 1382400) - 8388608;
}

typedef struct { int64_t first, last; } ends;

static inline ends ends_of(bool moon, const int64_t *c) {
    int64_t even = even_sum(c), odd = odd_sum(c);
    return (ends){even - odd, even + odd + floor_by_half(moon, -square_sum(c))};
}

static inline size_t first_of(size_t kept, size_t count, bool bad, size_t k) {
    if (kept < count) return kept;
    return bad ? k : kept;
}

__attribute__((noinline)) static judged same_accept(const series *s) {
    if (misshapen(s)) return (judged){2, 0};
    size_t segments = s->count / 14, slow = segments, joint = segments;
    int64_t least = 100 * (int64_t)half_length(s->moon), last = 0;
    for (size_t k = 0; k < segments; k++) {
        const int64_t *c = s->coefs + 14 * k;
        if (out_of_range(c)) return (judged){3, (int64_t)k};
        slow = first_of(slow, segments, slope(c) < least, k);
        ends e = ends_of(s->moon, c);
        int64_t rise = e.first - last;
        joint = first_of(joint, segments, k != 0 && (rise < 200 || 100000 < rise), k);
        last = e.last;
    }
    return slow < segments ? (judged){4, (int64_t)slow} : joint < segments ? (judged){5, (int64_t)joint} : (judged){0, 0};
}

/* ---- and as one would write it first */
#define ACCEPTANCE(NAME, VALUE)                                                                                                         \
    __attribute__((noinline)) static judged NAME##_accept(const series *s) {                                                            \
        if (misshapen(s)) return (judged){2, 0};                                                                                        \
        for (size_t i = 0; i < s->count; i++)                                                                                           \
            if ((i % 14 == 0 ? 1000000000000000u : 4000000000u) < absolute(s->coefs[i])) return (judged){3, (int64_t)(i / 14)};         \
        int64_t least = 100 * (int64_t)half_length(s->moon);                                                                            \
        for (size_t k = 0; k < s->count / 14; k++)                                                                                      \
            if (slope(s->coefs + 14 * k) < least) return (judged){4, (int64_t)k};                                                       \
        for (size_t k = 1; k < s->count / 14; k++) {                                                                                    \
            int64_t last = VALUE(s->moon ? 66354816 : 66355152, s->coefs + 14 * (k - 1));                                               \
            int64_t rise = VALUE(-SCALE, s->coefs + 14 * k) - last;                                                                     \
            if (rise < 200 || 100000 < rise) return (judged){5, (int64_t)k};                                                            \
        }                                                                                                                               \
        return (judged){0, 0};                                                                                                          \
    }

ACCEPTANCE(plain, plain_value)
ACCEPTANCE(lent, same_value)
