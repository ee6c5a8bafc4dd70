/* Suis, builds and the check of a file in C. `same` searches as the proved code does. `plain` is what one would write first: every mark by halving the whole span,
   each sui by itself; which mark to look for it reads off the Sun's value at the first of January and the Moon's at a solstice, so it looks for no mark that it
   does not need. `lent` is plain with the evaluator of `same`. A build may share with the sui before it the solstice and the new moons that they have in common. */
#define MOST_SUIS 128
#define MOST_BYTES 16140

static size_t located;
#define LOCATED located++;

static inline int64_t halved_index(const series *s, int64_t second) {
    COUNTED return lent_index(s, second);
}

static inline int64_t counted_index(const series *s, int64_t second) {
    COUNTED return same_index(s, second);
}

#define halved_accept lent_accept
#define counted_accept same_accept

/* ---- leap table and days */
static int leap_refused(const int64_t *leap, size_t n) {
    if (n % 2 != 0 || n == 0 || 128 < n || leap[1] < 0 || 1000 < leap[1]) return 1;
    for (size_t i = 0; i < n; i += 2) {
        if (leap[i] < -120000 || 100000 < leap[i]) return 1;
        if (i > 0 && (leap[i] <= leap[i - 2] || leap[i + 1] != leap[i - 1] + 1)) return 1;
    }
    return 0;
}

static inline bool holds(const int64_t *entry, int64_t second) {
    return 1000 * (86400 * entry[0] + entry[1]) <= 1000 * second - 32184;
}

static int64_t milli_of(const int64_t *leap, size_t n, int64_t second) {
    size_t i = n - 2;
    while (i > 0 && !holds(leap + i, second)) i -= 2;
    return 1000 * second - 32184 - 1000 * leap[i + 1] + 28800000;
}

static int64_t day_of(const int64_t *leap, size_t n, int64_t second) {
    return floor_div(milli_of(leap, n, second), 86400000);
}

/* the day of the first of January */
static int64_t january(int64_t year) {
    int64_t before = year - 1;
    return 365 * year + before / 4 - before / 100 + before / 400 - 730484;
}

/* ---- months of a sui, by the days of its new moons and of its zhongqi: how many, or minus the number of the refusal */
typedef struct { int64_t handle, first, length; } month;

static int64_t numbered(int64_t year, int64_t months, const int64_t *days, const int64_t *zhongqi, month *out) {
    if (months != 12 && months != 13) return -9;
    for (int64_t i = 0; i < months; i++)
        if (days[i + 1] - days[i] < 29 || 30 < days[i + 1] - days[i]) return -10;
    int64_t without = months;
    for (int64_t i = months - 1; months == 13 && i >= 0; i--) {
        bool has = 0;
        for (int k = 0; k < 13; k++) has |= days[i] <= zhongqi[k] && zhongqi[k] < days[i + 1];
        if (!has) without = i;
    }
    for (int64_t i = 0; i < months; i++) {
        int64_t number = (i + (i < without ? 10 : 9)) % 12 + 1;
        out[i] = (month){32 * year + 2 * number + (i == without), days[i], days[i + 1] - days[i]};
    }
    return months;
}

/* ---- the bytes of a file: how many, or minus 12 */
static inline void put4(uint8_t *out, int64_t z) {
    for (int i = 0; i < 4; i++) out[i] = (uint8_t)((uint64_t)z >> 8 * i);
}

static inline size_t pattern(const uint8_t *in) {
    return in[0] | (size_t)in[1] << 8 | (size_t)in[2] << 16 | (size_t)in[3] << 24;
}

static inline int64_t signed4(const uint8_t *in) {
    return (int)(unsigned)pattern(in);
}

static int64_t written(const int64_t *leap, size_t n, int64_t first, size_t suis, const uint8_t *counts, const month *months, size_t all, uint8_t *file,
                       size_t room) {
    size_t entries = n / 2, size = 12 + 8 * entries + 5 * suis + 9 * all;
    if (room < size) return -12;
    put4(file, (int64_t)entries);
    file += 4;
    for (size_t i = 0; i < entries; i++, file += 8) {
        put4(file, leap[2 * i]);
        put4(file + 4, leap[2 * i + 1]);
    }
    put4(file, (int64_t)suis);
    file += 4;
    for (size_t i = 0; i < suis; i++, file += 5) {
        put4(file, first + (int64_t)i);
        file[4] = counts[i];
    }
    put4(file, (int64_t)all);
    file += 4;
    for (size_t i = 0; i < all; i++, file += 9) {
        put4(file, months[i].handle);
        put4(file + 4, months[i].first);
        file[8] = (uint8_t)months[i].length;
    }
    return (int64_t)size;
}

/* ---- inputs, judged: 0, or the number of the refusal; and the first and the last index that each body reaches */
typedef struct { const int64_t *leap; size_t n; series body[2]; int64_t lowest[2], highest[2]; } inputs;

#define JUDGE(NAME, MARK, COUNT)                                                                                                        \
    static int NAME##_judged(inputs *in) {                                                                                              \
        int refusal = leap_refused(in->leap, in->n);                                                                                    \
        if (refusal) return refusal;                                                                                                    \
        for (int b = 0; b < 2; b++) {                                                                                                   \
            judged verdict = NAME##_accept(&in->body[b]);                                                                               \
            if (verdict.number) return (int)verdict.number;                                                                             \
        }                                                                                                                               \
        for (int b = 0; b < 2; b++) {                                                                                                   \
            const series *s = &in->body[b];                                                                                             \
            in->lowest[b] = NAME##_index(s, s->start);                                                                                  \
            in->highest[b] = NAME##_index(s, last_second(s));                                                                           \
            COUNT if (in->lowest[b] < in->highest[b] && !holds(in->leap, MARK(s, in->lowest[b] + 1))) return 7;                         \
        }                                                                                                                               \
        return 0;                                                                                                                       \
    }

/* A sui's days: the index of its first solstice and the days of its zhongqi; the index of month 11's new moon, and the days of the new moons from there to the
   one behind the second solstice's day. */
typedef struct { int64_t sun, moon, zhongqi[13], moons[16], months; } found;

#define PLAIN(NAME, COUNT)                                                                                                              \
    JUDGE(NAME, NAME##_mark, COUNT)                                                                                                     \
    static int64_t NAME##_day(const inputs *in, int b, int64_t index) {                                                                 \
        COUNT return day_of(in->leap, in->n, NAME##_mark(&in->body[b], index));                                                         \
    }                                                                                                                                   \
    static int64_t NAME##_index_by(const series *s, int64_t second) {                                                                   \
        return NAME##_index(s, between(s->start, last_second(s), second));                                                              \
    }                                                                                                                                   \
    /* The first solstice of a year's sui, and its first two new moons: 0, or a refusal. */                                             \
    static int NAME##_begin(const inputs *in, int64_t year, found *f) {                                                                 \
        if (year < 1700 || 2500 < year) return 8;                                                                                       \
        f->sun = 24 * floor_div(NAME##_index_by(&in->body[0], 86400 * january(year - 1)) - 18, 24) + 42;                                \
        if (f->sun <= in->lowest[0] || in->highest[0] < f->sun) return 8;                                                               \
        COUNT int64_t solstice = NAME##_mark(&in->body[0], f->sun);                                                                     \
        f->zhongqi[0] = day_of(in->leap, in->n, solstice);                                                                              \
        f->moon = 4 * floor_div(NAME##_index_by(&in->body[1], solstice), 4);                                                            \
        if (in->highest[1] < f->moon + 4) return 8;                                                                                     \
        int64_t next = NAME##_day(in, 1, f->moon + 4);                                                                                  \
        bool same_day = next <= f->zhongqi[0];                                                                                          \
        if (same_day) f->moon += 4;                                                                                                     \
        if (f->moon <= in->lowest[1] || in->highest[1] < f->moon + 4) return 8;                                                         \
        f->moons[0] = same_day ? next : NAME##_day(in, 1, f->moon);                                                                     \
        f->moons[1] = same_day ? NAME##_day(in, 1, f->moon + 4) : next;                                                                 \
        return 0;                                                                                                                       \
    }                                                                                                                                   \
    /* The other zhongqi, and new moons until one lies behind the second solstice's day. */                                             \
    static int NAME##_rest(const inputs *in, int64_t year, found *f) {                                                                  \
        if (year < 1700 || 2500 < year || in->highest[0] < f->sun + 24) return 8;                                                       \
        for (int i = 1; i < 13; i++) f->zhongqi[i] = NAME##_day(in, 0, f->sun + 2 * i);                                                 \
        if (f->zhongqi[0] < january(year - 1) || january(year) <= f->zhongqi[0]) return 8;                                              \
        if (f->zhongqi[12] < january(year) || january(year + 1) <= f->zhongqi[12]) return 8;                                            \
        f->months = 0;                                                                                                                  \
        for (int64_t last = f->moons[1]; last <= f->zhongqi[12]; f->months++) {                                                         \
            int64_t k = f->months + 2;                                                                                                  \
            if (in->highest[1] < f->moon + 4 * k) return 8;                                                                             \
            last = NAME##_day(in, 1, f->moon + 4 * k);                                                                                  \
            if (k < 16) f->moons[k] = last;                                                                                             \
        }                                                                                                                               \
        return 0;                                                                                                                       \
    }                                                                                                                                   \
    __attribute__((noinline)) static int64_t NAME##_sui(inputs *in, int64_t year, month *out) {                                         \
        found f;                                                                                                                        \
        int refusal = NAME##_judged(in);                                                                                                \
        if (!refusal) refusal = NAME##_begin(in, year, &f);                                                                             \
        if (!refusal) refusal = NAME##_rest(in, year, &f);                                                                              \
        return refusal ? -refusal : numbered(year, f.months, f.moons, f.zhongqi, out);                                                  \
    }                                                                                                                                   \
    __attribute__((noinline)) static int64_t NAME##_build(inputs *in, bool sharing, int64_t first, int64_t count, uint8_t *file,        \
            size_t room) {                                                                                                              \
        month months[13 * MOST_SUIS];                                                                                                   \
        uint8_t counts[MOST_SUIS];                                                                                                      \
        size_t all = 0;                                                                                                                 \
        found f;                                                                                                                        \
        int refusal = NAME##_judged(in);                                                                                                \
        if (refusal) return -refusal;                                                                                                   \
        if (count < 1 || MOST_SUIS < count) return -8;                                                                                  \
        for (int64_t j = 0; j < count; j++) {                                                                                           \
            if (sharing && j > 0) {                                                                                                     \
                f.sun += 24;                                                                                                            \
                f.zhongqi[0] = f.zhongqi[12];                                                                                           \
                f.moon += 4 * f.months;                                                                                                 \
                f.moons[0] = f.moons[f.months];                                                                                         \
                f.moons[1] = f.moons[f.months + 1];                                                                                     \
            } else {                                                                                                                    \
                refusal = NAME##_begin(in, first + j, &f);                                                                              \
                if (refusal) return -refusal;                                                                                           \
            }                                                                                                                           \
            refusal = NAME##_rest(in, first + j, &f);                                                                                   \
            if (refusal) return -refusal;                                                                                               \
            int64_t answer = numbered(first + j, f.months, f.moons, f.zhongqi, months + all);                                           \
            if (answer < 0) return answer;                                                                                              \
            counts[j] = (uint8_t)answer;                                                                                                \
            all += (size_t)answer;                                                                                                      \
        }                                                                                                                               \
        return written(in->leap, in->n, first, (size_t)count, counts, months, all, file, room);                                         \
    }

PLAIN(plain, NOTHING)
PLAIN(lent, NOTHING)
PLAIN(halved, LOCATED)

/* ---- as the proved code searches: solstices and new moons by their place among those listed, by halvings over days */
typedef struct { int64_t first; size_t count; } turns;

#define SAME(NAME, COUNT)                                                                                                               \
    JUDGE(NAME, NAME##_located, COUNT)                                                                                                  \
    /* Most days by one look: where both seconds that enclose the mark's are of one day. */                                             \
    static int64_t NAME##_day(const inputs *in, int b, int64_t index) {                                                                 \
        COUNT enclosing near = NAME##_enclosed(&in->body[b], index);                                                                    \
        int64_t milli = milli_of(in->leap, in->n, near.by), day = floor_div(milli, 86400000);                                           \
        if (near.by - near.after <= (milli - 86400000 * day) / 1000) return day;                                                        \
        return day_of(in->leap, in->n, NAME##_located(&in->body[b], index));                                                            \
    }                                                                                                                                   \
    static turns NAME##_turns(const series *s) {                                                                                        \
        int64_t circle = s->moon ? 4 : 24, turn = s->moon ? 0 : 18, next = NAME##_index(s, s->start) + 1, gap = (turn - next) % circle; \
        int64_t first = next + (gap < 0 ? gap + circle : gap), highest = NAME##_index(s, last_second(s));                               \
        return (turns){first, highest < first ? 0 : (size_t)((highest - first) / circle + 1)};                                          \
    }                                                                                                                                   \
    /* How many turns lie on a day or before it. */                                                                                     \
    static size_t NAME##_by(const inputs *in, int b, turns t, int64_t day) {                                                            \
        size_t low = 0, high = t.count;                                                                                                 \
        while (low < high) {                                                                                                            \
            size_t middle = low + (high - low) / 2;                                                                                     \
            if (day < NAME##_day(in, b, t.first + (b ? 4 : 24) * (int64_t)middle)) high = middle;                                       \
            else low = middle + 1;                                                                                                      \
        }                                                                                                                               \
        return low;                                                                                                                     \
    }                                                                                                                                   \
    __attribute__((noinline)) static int64_t NAME##_sui(inputs *in, int64_t year, month *out) {                                         \
        int64_t zhongqi[13], days[15];                                                                                                  \
        int refusal = NAME##_judged(in);                                                                                                \
        if (refusal) return -refusal;                                                                                                   \
        if (year < 1700 || 2500 < year) return -8;                                                                                      \
        turns suns = NAME##_turns(&in->body[0]);                                                                                        \
        size_t k = NAME##_by(in, 0, suns, january(year - 1) - 1);                                                                       \
        int64_t index = suns.first + 24 * (int64_t)k;                                                                                   \
        for (size_t i = 0; i < 2; i++) {                                                                                                \
            if (suns.count <= k + i || january(year + (int64_t)i) <= NAME##_day(in, 0, index + 24 * (int64_t)i)) return -8;             \
            if (k + i + 1 < suns.count && NAME##_day(in, 0, index + 24 * (int64_t)(i + 1)) < january(year + (int64_t)i)) return -8;     \
        }                                                                                                                               \
        for (int i = 0; i < 13; i++) zhongqi[i] = NAME##_day(in, 0, index + 2 * i);                                                     \
        turns moons = NAME##_turns(&in->body[1]);                                                                                       \
        size_t first = NAME##_by(in, 1, moons, zhongqi[0]), second = NAME##_by(in, 1, moons, zhongqi[12]);                              \
        if (first == 0 || second == moons.count) return -8;                                                                             \
        size_t months = second - first;                                                                                                 \
        if (months != 12 && months != 13) return -9;                                                                                    \
        for (size_t i = 0; i <= months; i++) days[i] = NAME##_day(in, 1, moons.first + 4 * (int64_t)(first - 1 + i));                   \
        return numbered(year, (int64_t)months, days, zhongqi, out);                                                                     \
    }                                                                                                                                   \
    __attribute__((noinline)) static int64_t NAME##_build(inputs *in, int64_t first, int64_t count, uint8_t *file, size_t room) {       \
        month months[13 * MOST_SUIS];                                                                                                   \
        uint8_t counts[MOST_SUIS];                                                                                                      \
        int64_t solstices[MOST_SUIS + 2], newmoons[13 * MOST_SUIS + 2], zhongqi[13];                                                    \
        size_t all = 0, ahead[2], at = 0;                                                                                               \
        int refusal = NAME##_judged(in);                                                                                                \
        if (refusal) return -refusal;                                                                                                   \
        if (count < 1 || MOST_SUIS < count || first < 1700 || 2500 < first) return -8;                                                  \
        turns suns = NAME##_turns(&in->body[0]), moons = NAME##_turns(&in->body[1]);                                                    \
        size_t solstice = NAME##_by(in, 0, suns, january(first - 1) - 1);                                                               \
        if (solstice == suns.count) return -8;                                                                                          \
        int64_t index = suns.first + 24 * (int64_t)solstice;                                                                            \
        size_t newmoon = NAME##_by(in, 1, moons, NAME##_day(in, 0, index));                                                             \
        if (newmoon == 0) return -8;                                                                                                    \
        for (ahead[0] = 0; ahead[0] < (size_t)count + 2 && solstice + ahead[0] < suns.count; ahead[0]++)                                \
            solstices[ahead[0]] = NAME##_day(in, 0, index + 24 * (int64_t)ahead[0]);                                                    \
        for (ahead[1] = 0; ahead[1] < 13 * (size_t)count + 2 && newmoon - 1 + ahead[1] < moons.count; ahead[1]++)                       \
            newmoons[ahead[1]] = NAME##_day(in, 1, moons.first + 4 * (int64_t)(newmoon - 1 + ahead[1]));                                \
        for (size_t j = 0; j < (size_t)count; j++) {                                                                                    \
            int64_t year = first + (int64_t)j;                                                                                          \
            if (2500 < year || ahead[0] <= j + 1) return -8;                                                                            \
            if (solstices[j] < january(year - 1) || january(year) <= solstices[j]) return -8;                                           \
            if (solstices[j + 1] < january(year) || january(year + 1) <= solstices[j + 1]) return -8;                                   \
            if (j + 2 < ahead[0] && solstices[j + 2] < january(year + 1)) return -8;                                                    \
            zhongqi[0] = solstices[j];                                                                                                  \
            zhongqi[12] = solstices[j + 1];                                                                                             \
            for (int i = 1; i < 12; i++) zhongqi[i] = NAME##_day(in, 0, index + 24 * (int64_t)j + 2 * i);                               \
            size_t n = 0;                                                                                                               \
            while (n < 15 && at + n + 1 < ahead[1] && newmoons[at + n + 1] <= zhongqi[12]) n++;                                         \
            if (ahead[1] <= at + n + 1) return -8;                                                                                      \
            int64_t answer = numbered(year, (int64_t)n, newmoons + at, zhongqi, months + all);                                          \
            if (answer < 0) return answer;                                                                                              \
            counts[j] = (uint8_t)answer;                                                                                                \
            all += n;                                                                                                                   \
            at += n;                                                                                                                    \
        }                                                                                                                               \
        return written(in->leap, in->n, first, (size_t)count, counts, months, all, file, room);                                         \
    }

SAME(same, NOTHING)
SAME(counted, LOCATED)

/* ---- the check in C: one pass over the bytes. How many months, or minus 13 */
__attribute__((noinline)) static int64_t plain_check(const uint8_t *file, size_t size) {
    if (size < 4) return -13;
    size_t entries = pattern(file), second = 4 + 8 * entries;
    if (size < second + 4) return -13;
    size_t suis = pattern(file + second), third = second + 4 + 5 * suis;
    if (size < third + 4) return -13;
    size_t months = pattern(file + third);
    if (size != third + 4 + 9 * months || entries < 1 || 64 < entries || suis < 1 || 128 < suis) return -13;
    int64_t day = 0, offset = 0;
    for (size_t i = 0; i < entries; i++) {
        int64_t d = signed4(file + 4 + 8 * i), o = (int64_t)pattern(file + 8 + 8 * i);
        if (d < -120000 || 100000 < d) return -13;
        if (i == 0 ? 1000 < o : d <= day || o != offset + 1) return -13;
        day = d;
        offset = o;
    }
    const uint8_t *sui = file + second + 4, *record = file + third + 4;
    int64_t behind = 0;
    size_t at = 0;
    for (size_t i = 0; i < suis; i++, sui += 5) {
        int64_t year = signed4(sui), count = sui[4], leaps = 0;
        if (year < 1700 || 2500 < year || (i > 0 && year != signed4(sui - 5) + 1)) return -13;
        if (count != 12 && count != 13) return -13;
        if (months - at < (size_t)count) return -13;
        for (int64_t place = 0; place < count; place++, at++, record += 9) {
            int64_t handle = (int64_t)pattern(record), first = signed4(record + 4), length = record[8];
            if (handle != 32 * year + 2 * ((place - leaps + 10) % 12 + 1)) {
                if (count != 13 || leaps > 0 || place < 1 || handle != 32 * year + 2 * ((place + 9) % 12 + 1) + 1) return -13;
                leaps = 1;
            }
            if (at == 0 ? first < -150000 || 200000 < first : first != behind) return -13;
            behind = first + length;
            if (length < 29 || 30 < length || 200000 < behind - 1) return -13;
        }
        if (count != 12 + leaps) return -13;
    }
    return at == months ? (int64_t)months : -13;
}
