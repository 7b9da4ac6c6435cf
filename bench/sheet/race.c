// The proved reader beside the C loop, in turn, in one process: nanoseconds of each for one sheet, the best and the median of many rounds.
#include <stdint.h>
#include <stdio.h>
#include <stdlib.h>
#include <string.h>
#include <time.h>

uint64_t c_read(const uint8_t *d, size_t len, uint16_t *hours, size_t jobs, uint16_t *list, size_t room);
uint64_t sheet_bench_read(const uint8_t *s, size_t len, uint16_t *hours, size_t jobs, uint16_t *list, size_t room);

typedef uint64_t reader(const uint8_t *, size_t, uint16_t *, size_t, uint16_t *, size_t);
enum { ROUNDS = 2000, LF = 0, CRLF = 1, EITHER = 2 };
static reader *const side[2] = {c_read, sheet_bench_read};
static uint8_t d[40000];
static uint16_t hours[2][128], list[2][8192];
static double times[2][ROUNDS];
static uint64_t r[2];

static int ascending(const void *a, const void *b) { double x = *(const double *)a, y = *(const double *)b; return (x > y) - (x < y); }

static double once(int i, size_t len) {
    struct timespec s, e;
    clock_gettime(CLOCK_MONOTONIC, &s);
    for (int k = 0; k < 4; k++) r[i] = side[i](d, len, hours[i], 128, list[i], 8192);
    clock_gettime(CLOCK_MONOTONIC, &e);
    return ((e.tv_sec - s.tv_sec) * 1e9 + (e.tv_nsec - s.tv_nsec)) / 4;
}

static const char *line_end(int ends) { return ends == CRLF || (ends == EITHER && rand() % 2) ? "\r\n" : "\n"; }

// numbers from low on, below 128, and ten times such a number for hours: order lines and hours lines each of one length, or of any
static void race(const char *name, int low, int spread, int ends) {
    size_t len = sprintf((char *)d, "128%s", line_end(ends));
    for (int i = 0; i < 128; i++) len += sprintf((char *)d + len, "%d%s", 10 * (low + rand() % spread), line_end(ends));
    for (int i = 0; i < 4096; i++) len += sprintf((char *)d + len, "%d %d%s", low + rand() % spread, low + rand() % spread, line_end(ends));
    for (int k = 0; k < ROUNDS; k++)
        for (int i = 0; i < 2; i++) times[(i + k) % 2][k] = once((i + k) % 2, len);
    int same = r[0] == r[1] && !memcmp(hours[0], hours[1], sizeof hours[0]) && !memcmp(list[0], list[1], sizeof list[0]);
    if (!same) { printf("%s: the two differ\n", name); exit(1); }
    for (int i = 0; i < 2; i++) qsort(times[i], ROUNDS, sizeof(double), ascending);
    printf("%-21s %6zu bytes  C %6.0f ns (median %6.0f)  proved %6.0f ns (median %6.0f)  ratio %.2f\n", name, len, times[0][0],
        times[0][ROUNDS / 2], times[1][0], times[1][ROUNDS / 2], times[1][0] / times[0][0]);
}

int main(void) {
    race("127 127", 127, 1, LF);
    race("three digits", 100, 28, LF);
    race("any below 128", 0, 128, LF);
    race("127 127, CR LF", 127, 1, CRLF);
    race("three digits, CR LF", 100, 28, CRLF);
    race("any below 128, CR LF", 0, 128, CRLF);
    race("three digits, either", 100, 28, EITHER);
    return 0;
}
