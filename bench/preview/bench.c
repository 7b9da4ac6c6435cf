// The preview of one more order (`ordersheet_preview`) beside the same by a copy of the list that is analysed, and beside a C program by two compilers: their
// answers are compared, then they run in turn. bench ROUNDS DIR NAME.. prints a line for each DIR/NAME.sheet: the orders of its list, the answer, and nanoseconds
// of each side, best and median. README.md says what is previewed; `run` runs it.
#include "preview.h"
#include <stdio.h>
#include <stdlib.h>
#include <string.h>
#include <time.h>

preview ordersheet_preview, preview_gcc, preview_clang;
pair_analysis ordersheet_test_pairs;

// The list with the order at its end into an array, and its analysis; no sequences.
static uint64_t by_copy(uint16_t count, const uint16_t *list, size_t list_length, const uint16_t *hours, size_t hours_length, uint16_t first, uint16_t second) {
    static uint16_t copy[2 * ORDERS + 2];
    static uint8_t record[464], reduced[2 * ORDERS];
    memcpy(copy, list, list_length * sizeof *list);
    copy[list_length] = first;
    copy[list_length + 1] = second;
    return ordersheet_test_pairs(count, copy, list_length + 2, hours, hours_length, record, sizeof record, reduced, sizeof reduced, 0, 0, 0, 0);
}

enum { SIDES = 4, SHEETS = 40, ROUNDS = 5000, ROUNDS_AT_ONCE = 50, SMALL = 200000 };
static preview *const side[SIDES] = {ordersheet_preview, by_copy, preview_gcc, preview_clang};

// many: how often one round calls each side, for times that the clock can tell
typedef struct {
    const char *name;
    uint16_t count, numbers[20000], *hours, *list, first, second;
    size_t hours_length, list_length;
    uint64_t answer;
    int many;
    double times[SIDES][ROUNDS];
} shape;
static shape shapes[SHEETS], small;

static double now(void) { struct timespec t; clock_gettime(CLOCK_MONOTONIC, &t); return t.tv_sec * 1e9 + t.tv_nsec; }
static int ascending(const void *a, const void *b) { double x = *(const double *)a, y = *(const double *)b; return (x > y) - (x < y); }
static unsigned below(unsigned n) {   // xorshift, from a fixed seed
    static uint64_t s = 20240607;
    s ^= s << 13; s ^= s >> 7; s ^= s << 17;
    return (s >> 33) % n;
}

static uint64_t call(const shape *s, int i) { return side[i](s->count, s->list, s->list_length, s->hours, s->hours_length, s->first, s->second); }

// The answer of every side, which has to be the same; list and hours stay.
static uint64_t same(const shape *s) {
    static uint16_t before[sizeof s->numbers / sizeof *s->numbers];
    memcpy(before, s->numbers, sizeof before);
    uint64_t answer = call(s, 0);
    for (int i = 0; i < SIDES; i++)
        if (call(s, i) != answer || memcmp(before, s->numbers, sizeof before)) {
            printf("%s, %u jobs, %zu orders: the answers differ, or the lists changed\n", s->name, s->count, s->list_length / 2);
            exit(1);
        }
    return answer;
}

// Few jobs, and lists of few orders, most of them from a smaller job to a greater one; some with each fault.
static void compare(void) {
    static int told[14];
    shape *s = &small;
    s->name = "small";
    for (int k = 0; k < SMALL; k++) {
        unsigned n = 1 + below(9);
        s->count = below(50) ? n : below(2) ? 0 : 129;
        s->hours = s->numbers;
        s->hours_length = below(50) ? n : n + 1 - 2 * below(2);
        for (unsigned i = 0; i <= n; i++) s->hours[i] = below(200) ? below(4096) : 4096 + below(61440);
        s->list = s->numbers + 16;
        s->list_length = 2 * below(13) + !below(50);
        for (size_t i = 0; i + 1 < s->list_length + 2; i += 2) {
            unsigned u = below(n), v = below(n);
            if (u > v && below(20)) { unsigned x = u; u = v; v = x; }
            if (u == v && below(20)) v = n > 1 ? (u + 1) % n : n;
            if (!below(300)) u = below(65536);
            s->list[i] = u;
            s->list[i + 1] = v;
        }
        s->first = s->list[s->list_length & ~1];
        s->second = s->list[(s->list_length & ~1) + 1];
        told[same(s) & 255]++;
    }
    fprintf(stderr, "%d small lists, the same from all: %d accepted", SMALL, told[0]);
    for (int i = 1; i < 14; i++) if (told[i]) fprintf(stderr, ", %d refused %d", told[i], i);
    fprintf(stderr, "\n");
}

// Nanoseconds for one call, over so many.
static double calls(const shape *s, int i, int many) {
    double start = now();
    for (int k = 0; k < many; k++) {
        uint64_t answer = call(s, i);
        __asm__ volatile("" ::"r"(answer) : "memory");
    }
    return (now() - start) / many;
}

// The numbers of the sheet; its last order is previewed after the others.
static void open_shape(shape *s, const char *dir, const char *name) {
    char path[4096];
    int full = !strcmp(name, "full"), closed = !strcmp(name, "series-closed"), less = !strcmp(name, "circle-less");
    snprintf(path, sizeof path, "%s/%s.sheet", dir, full ? "bipartite" : closed ? "series" : less ? "circle-last" : name);
    FILE *f = fopen(path, "rb");
    if (!f) { perror(path); exit(1); }
    unsigned x;
    size_t n = 0;
    while (n < sizeof s->numbers / sizeof *s->numbers && fscanf(f, "%u", &x) == 1) s->numbers[n++] = x;
    fclose(f);
    s->name = name;
    s->count = s->numbers[0];
    s->hours = s->numbers + 1;
    s->hours_length = s->count;
    s->list = s->hours + s->count;
    s->list_length = n - 1 - s->count - 2 * less;
    s->first = 0;
    s->second = s->count - 1;
    if (closed) s->first = s->count - 1, s->second = 0;
    else if (s->list_length && !full) {
        s->list_length -= 2;
        s->first = s->list[s->list_length];
        s->second = s->list[s->list_length + 1];
    }
    s->answer = same(s);
    s->many = 1 + 20000 / calls(s, 1, 3);
}

static void print(shape *s, int rounds) {
    char said[40];
    if (s->answer & 255) snprintf(said, sizeof said, "refused %u", (unsigned)(s->answer & 255));
    else snprintf(said, sizeof said, "accepted %u %u", (unsigned)(s->answer >> 8 & 0xffff), (unsigned)(s->answer >> 24 & 0xffff));
    printf("%-13s %6zu  %-17s", s->name, s->list_length / 2, said);
    for (int i = 0; i < SIDES; i++) {
        qsort(s->times[i], rounds, sizeof(double), ascending);
        printf(" %9.1f %9.1f", s->times[i][0], s->times[i][rounds / 2]);
    }
    putchar('\n');
}

int main(int argc, char **argv) {
    int rounds = argc > 1 ? atoi(argv[1]) : 0, n = argc - 3;
    if (n < 1 || n > SHEETS || rounds < 1 || rounds > ROUNDS) return 1;
    compare();
    for (int i = 0; i < n; i++) open_shape(&shapes[i], argv[2], argv[i + 3]);
    // some rounds of every shape, then some more: a busy moment of the machine falls on all of them
    for (int from = 0; from < rounds; from += ROUNDS_AT_ONCE)
        for (int i = 0; i < n; i++)
            for (int k = from; k < rounds && k < from + ROUNDS_AT_ONCE; k++)
                for (int j = 0; j < SIDES; j++) shapes[i].times[(j + k) % SIDES][k] = calls(&shapes[i], (j + k) % SIDES, shapes[i].many);
    for (int i = 0; i < n; i++) print(&shapes[i], rounds);
    return 0;
}
