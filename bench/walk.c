/* walk FILE BODY SEGMENTS [list]: the marks of the first segments of a series, by a plain walk that compares the values of neighbouring seconds.
   It shares no code with the proved finder: sums are taken in 128 bits, and every second is visited. FILE holds signed 64-bit
   little-endian words: segment count, start, fourteen coefficients a segment. BODY is S or M. It prints the count and a checksum, and before them, if asked, each mark's index and second. */
#include <stdint.h>
#include <stdio.h>
#include <stdlib.h>

typedef __int128 wide;
static const int64_t S = 66355200;

static wide floored(wide a, int64_t m) { wide q = a / m; return a % m < 0 ? q - 1 : q; }

static int64_t value(const int64_t *c, int64_t x) {
    wide before = S, here = x, sum = (wide)c[1] * here;
    for (int n = 2; n < 14; n++) {
        wide after = floored(2 * (wide)x * here, S) - before;
        before = here;
        here = after;
        sum += c[n] * here;
    }
    return (int64_t)(c[0] + floored(sum, S));
}

static uint64_t mixed(uint64_t sum, int64_t word) {
    int64_t rest = word % 1000003;
    if (rest < 0) rest += 1000003;
    return (sum * 31 + (uint64_t)rest) % 1000000007;
}

int main(int argc, char **argv) {
    if (argc != 4 && argc != 5) return fprintf(stderr, "usage: walk FILE S|M SEGMENTS [list]\n"), 2;
    FILE *f = fopen(argv[1], "rb");
    int64_t head[2];
    if (!f || fread(head, 8, 2, f) != 2) return 2;
    int64_t most = atoll(argv[3]), count = head[0] < most ? head[0] : most, start = head[1];
    int64_t *c = malloc((size_t)count * 14 * 8);
    if (fread(c, 8, (size_t)count * 14, f) != (size_t)count * 14) return 2;
    int64_t half = argv[2][0] == 'S' ? 1382400 : 172800, mark = argv[2][0] == 'S' ? 540000000 : 3240000000;
    uint64_t sum = 0, marks = 0;
    int64_t last = 0;
    for (int64_t k = 0; k < count; k++)
        for (int64_t i = 0; i < 2 * half; i++) {
            int64_t index = (int64_t)floored(value(c + 14 * k, S / half * (i - half)), mark);
            if ((k || i) && last < index) {
                marks++;
                if (argc == 5) printf("%lld %lld\n", (long long)index, (long long)(start + 2 * half * k + i));
                sum = mixed(mixed(sum, index), start + 2 * half * k + i);
            }
            last = index;
        }
    printf("%s %llu marks, checksum %llu\n", argv[2], (unsigned long long)marks, (unsigned long long)sum);
    return 0;
}
