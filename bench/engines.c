/* engines FILE S|M [SEGMENTS]: the marks of a series by the finder and by the plain walk, both proved: compares what they answer and what they write, and says how long each
   took. FILE holds signed 64-bit little-endian words: segment count, start, fourteen coefficients a segment. */
#include <hazomekyu.h>
#include <stdio.h>
#include <stdlib.h>
#include <string.h>

struct timespec { long tv_sec, tv_nsec; };
int clock_gettime(int, struct timespec *);

enum { SEGMENTS = 16000, ROOM = 65536 };
static int64_t words[2 + 14 * SEGMENTS], found[ROOM], walked[ROOM];
typedef int64_t engine(bool, int64_t, const int64_t *, size_t, int64_t *, size_t, hzk_answer *);

static double now(void) {
    struct timespec t;
    clock_gettime(1, &t);
    return (double)t.tv_sec + 1e-9 * (double)t.tv_nsec;
}

static double timed(engine *list, bool moon, size_t segments, int64_t *marks, hzk_answer *answer) {
    memset(answer, 0, sizeof *answer);
    double before = now();
    list(moon, words[1], words + 2, 14 * segments, marks, ROOM, answer);
    return now() - before;
}

int main(int count, char **arguments) {
    int64_t asked = count > 3 ? strtoll(arguments[3], NULL, 10) : SEGMENTS;
    char body = count > 2 && arguments[2][0] && !arguments[2][1] ? arguments[2][0] : 0;
    bool moon = body == 'M';
    if ((body != 'S' && !moon) || count > 4 || asked < 1) return fprintf(stderr, "usage: engines FILE S|M [SEGMENTS]\n"), 2;
    FILE *file = fopen(arguments[1], "rb");
    size_t read = file ? fread(words, 8, sizeof words / 8, file) : 0;
    if (read < 2 || words[0] < 0 || words[0] > SEGMENTS || read < 2 + 14 * (size_t)words[0]) return fprintf(stderr, "engines: %s is no series\n", arguments[1]), 2;
    int64_t segments = asked < words[0] ? asked : words[0];
    hzk_answer by_finder, by_walk;
    double finding = timed(hzk_list_marks, moon, (size_t)segments, found, &by_finder);
    double walking = timed(hzk_walk_marks, moon, (size_t)segments, walked, &by_walk);
    bool same = memcmp(&by_finder, &by_walk, sizeof by_walk) == 0 && memcmp(found, walked, sizeof walked) == 0;
    double seconds = (double)segments * (moon ? 345600 : 2764800);
    printf("%s, %lld segment%s, %.0f seconds: refusal %lld, %lld marks, %s by both\n", moon ? "Moon" : "Sun", (long long)segments, segments == 1 ? "" : "s", seconds, (long long)by_walk.number,
        (long long)by_walk.value[0], same ? "the same" : "NOT THE SAME");
    if (!by_walk.number) printf("finder %.3f s; walk %.1f s, every second visited twice, %.1f ns a visit\n", finding, walking, 1e9 * walking / seconds / 2);
    return !same;
}
