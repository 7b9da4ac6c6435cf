// The closure of crate `closure` beside the same order of work in C, and beside its own passes, in one process, on the same arcs. README.md says how to run it.
#include <stdint.h>
#include <stdio.h>
#include <stdlib.h>
#include <string.h>
#include <time.h>

size_t bench_joins(const uint16_t *arcs, size_t numbers, uint16_t n, uint16_t again);
size_t bench_passes(const uint16_t *arcs, size_t numbers, uint16_t n, uint16_t again);

// a set as two words, or both at once to join rows
typedef uint64_t pair __attribute__((vector_size(16)));
typedef union { uint64_t w[2]; pair both; } set;
static inline void put(set *s, int i) { s->w[i >> 6] |= 1ull << (i & 63); }
static inline int low(uint64_t x) { return __builtin_ctzll(x); }
static inline int high(uint64_t lo, uint64_t hi) { return hi ? 127 - __builtin_clzll(hi) : 63 - __builtin_clzll(lo); }

// at most 128 jobs, and the arcs name them alone
static int fits(const uint16_t *arcs, size_t numbers, int n) {
    uint16_t top = 0;
    for (size_t i = 0; i < numbers / 2 * 2; i++) if (arcs[i] > top) top = arcs[i];
    return n <= 128 && (numbers < 2 || top < n);
}
static void make(const uint16_t *arcs, size_t numbers, set t[128]) {
    memset(t, 0, 128 * sizeof(set));
    for (size_t i = 0; i + 1 < numbers; i += 2) put(&t[arcs[i]], arcs[i + 1]);
}

// Warshall on two columns of words: where a word of the one has bit at, a goes into it and b into the one beside it; how many have it
static inline size_t spread(uint64_t *restrict col, uint64_t *restrict other, int at, uint64_t a, uint64_t b, int n) {
    uint64_t count = 0;
    for (int i = 0; i < n; i++) {
        uint64_t m = -(col[i] >> at & 1);
        col[i] |= a & m; other[i] |= b & m; count -= m;
    }
    return count;
}
static size_t passes(set t[128], int n) {
    uint64_t lo[128], hi[128], reached[2] = {0, 0};
    size_t count = 0;
    for (int i = 0; i < n; i++) { reached[0] |= lo[i] = t[i].w[0]; reached[1] |= hi[i] = t[i].w[1]; }
    for (int k = 0; k < n; k++) {
        if (!(lo[k] | hi[k]) || !(reached[k >> 6] >> (k & 63) & 1)) continue;
        count += k < 64 ? spread(lo, hi, k, lo[k], hi[k], n) : spread(hi, lo, k - 64, hi[k], lo[k], n);
    }
    for (int i = 0; i < n; i++) { t[i].w[0] = lo[i]; t[i].w[1] = hi[i]; }
    return count;
}

// The rows of the jobs in x, 64 at most, joined to row, and how many. Where there are many, the even and the odd ones in turn, each to a row of its own:
// to find the next job in a word takes longer than to join its row.
static inline __attribute__((always_inline)) size_t join(const set *from, uint64_t x, int many, pair *row, pair *other) {
    const uint64_t even = 0x5555555555555555ull;
    size_t count = 0;
    if (many) {
        uint64_t y = x & ~even;
        for (x &= even; x && y; x &= x - 1, y &= y - 1) { *row |= from[low(x)].both; *other |= from[low(y)].both; count += 2; }
        x |= y;
    }
    for (; x; x &= x - 1) { *row |= from[low(x)].both; count++; }
    return count;
}
// The search, from the largest job down. left: the jobs before others that are not finished; open: those that have been on the stack. A job's row is made
// as it is finished. Whether there is no circle.
static inline __attribute__((always_inline)) int search(set t[128], int n, int many, size_t *joins) {
    uint8_t stack[128];
    uint64_t left_lo = 0, left_hi = 0, open_lo = 0, open_hi = 0;
    size_t count = 0;
    int d = 0;
    for (int i = n - 1; i >= 64; i--) left_hi = 2 * left_hi + ((t[i].w[0] | t[i].w[1]) != 0);
    for (int i = (n < 64 ? n : 64) - 1; i >= 0; i--) left_lo = 2 * left_lo + ((t[i].w[0] | t[i].w[1]) != 0);
    while (left_lo | left_hi) for (int u = high(left_lo, left_hi);;) {
        uint64_t lo = t[u].w[0], hi = t[u].w[1], next_lo = lo & left_lo, next_hi = hi & left_hi, bit = 1ull << (u & 63);
        if (!(next_lo | next_hi)) {
            pair row = t[u].both, other = {0, 0};
            count += join(t, lo, many, &row, &other);
            count += join(t + 64, hi, many, &row, &other);
            t[u].both = row | other;
            if (u < 64) left_lo ^= bit; else left_hi ^= bit;
            if (!d) break;
            u = stack[--d];
        } else {
            if (u < 64) open_lo |= bit; else open_hi |= bit;
            if ((next_lo & open_lo) | (next_hi & open_hi)) return 0;
            stack[d++] = u;
            u = high(next_lo, next_hi);
        }
    }
    *joins = count;
    return 1;
}

static set given[128], joined[128], passed[128];
static inline __attribute__((always_inline)) size_t closing(const uint16_t *arcs, size_t numbers, int n, int again, int many) {
    size_t count = 0;
    if (!fits(arcs, numbers, n)) return 0;
    make(arcs, numbers, given);
    for (int i = 0; i <= again; i++) {
        memcpy(joined, given, sizeof joined);
        if (!(many ? search(joined, n, 1, &count) : search(joined, n, 0, &count))) { memcpy(joined, given, sizeof joined); count = passes(joined, n); }
        __asm__ volatile("" ::: "memory");
    }
    return count;
}
__attribute__((noinline)) static size_t c_plain(const uint16_t *arcs, size_t numbers, uint16_t n, uint16_t again) {
    return closing(arcs, numbers, n, again, 0);
}
// two rows at a time where there are more than eight arcs for each job
__attribute__((noinline)) static size_t c_tuned(const uint16_t *arcs, size_t numbers, uint16_t n, uint16_t again) {
    return closing(arcs, numbers, n, again, numbers / 16 > n);
}
__attribute__((noinline)) static size_t c_passes(const uint16_t *arcs, size_t numbers, uint16_t n, uint16_t again) {
    size_t count = 0;
    if (!fits(arcs, numbers, n)) return 0;
    make(arcs, numbers, given);
    for (int i = 0; i <= again; i++) {
        memcpy(passed, given, sizeof passed);
        count = passes(passed, n);
        __asm__ volatile("" ::: "memory");
    }
    return count;
}

static uint16_t arcs[8192]; static size_t numbers;
static void arc(int u, int v) {
    if (numbers == 8192) abort();
    arcs[numbers++] = u; arcs[numbers++] = v;
}

static double now(void) { struct timespec t; clock_gettime(CLOCK_MONOTONIC, &t); return t.tv_sec * 1e9 + t.tv_nsec; }
enum { PRODUCT, PLAIN, TUNED, PASSES, C_PASSES, SIDES };
typedef size_t closer(const uint16_t *, size_t, uint16_t, uint16_t);
static closer *const side[SIDES] = {bench_joins, c_plain, c_tuned, bench_passes, c_passes};
static size_t count[SIDES];
static double call(int i, int n, int again) {
    double s = now();
    count[i] = side[i](arcs, numbers, n, again);
    __asm__ volatile("" ::: "memory");
    return now() - s;
}
static void race(const char *name, int n) {
    double once[SIDES], more[SIDES], best[SIDES];
    enum { AGAIN = 20 };
    // the closed tables of both searches in C against that of the passes
    side[C_PASSES](arcs, numbers, n, 0);
    int differ = 0;
    for (int i = PLAIN; i <= TUNED; i++) { side[i](arcs, numbers, n, 0); differ |= memcmp(joined, passed, sizeof joined) != 0; }
    for (int i = 0; i < SIDES; i++) once[i] = more[i] = 1e18;
    for (int turn = 0; turn < 1000; turn++) for (int i = 0; i < SIDES; i++) {
        double s = call(i, n, 0), t = call(i, n, AGAIN);
        if (s < once[i]) once[i] = s;
        if (t < more[i]) more[i] = t;
    }
    for (int i = 0; i < SIDES; i++) best[i] = (more[i] - once[i]) / AGAIN;
    differ |= count[PRODUCT] != count[PLAIN] || count[PRODUCT] != count[TUNED] || count[PASSES] != count[C_PASSES];
    printf("%-38s %5zu %7.0f %7.0f %6.2f %7.0f %6.2f %7.0f %6.2f %7.0f %6zu%s\n", name, numbers / 2, best[PRODUCT], best[PLAIN], best[PRODUCT] / best[PLAIN],
        best[TUNED], best[PRODUCT] / best[TUNED], best[PASSES], best[PRODUCT] / best[PASSES], best[C_PASSES], count[PRODUCT], differ ? "   DIFFER" : "");
    numbers = 0;
}

// what all refuse: too many jobs, an arc outside
static void refused(const char *name, int n) {
    size_t said = 0;
    for (int i = 0; i < SIDES; i++) said |= side[i](arcs, numbers, n, 0);
    printf("%-38s %s\n", name, said ? "DIFFER" : "refused by all");
}

static uint64_t seed = 88172645463325252ull;
static int below(int k) { seed ^= seed << 13; seed ^= seed >> 7; seed ^= seed << 17; return (seed >> 11) % k; }
static uint8_t along[128], mixed[128];   // the jobs as they are numbered, and shuffled
static void dense(void) { for (int u = 0; u < 128; u++) for (int v = u + 1; v < 128 && v <= u + 32; v++) arc(u, v); }
// the first job before fewer ones leaves room for orders back
static void bipartite(int fewer) { for (int u = 0; u < 64; u++) for (int v = u ? 64 : 64 + fewer; v < 128; v++) arc(u, v); }
static void series(const uint8_t *job) { for (int i = 0; i < 127; i++) arc(job[i], job[i + 1]); }
static void orders(int many, const uint8_t *job, int both_ways) {
    while (many) {
        int a = below(128), b = below(128);
        if (a < b || (a > b && both_ways)) { arc(job[a], job[b]); many--; }
    }
}

int main(void) {
    for (int i = 0; i < 128; i++) along[i] = mixed[i] = i;
    for (int i = 127; i; i--) { int j = below(i + 1), job = mixed[i]; mixed[i] = mixed[j]; mixed[j] = job; }
    printf("%-38s %5s %7s %7s %6s %7s %6s %7s %6s %7s %6s\n", "shape", "arcs", "product", "C", "ratio", "C two", "ratio", "passes", "ratio", "C pass", "joins");
    dense(); race("dense", 128);
    bipartite(0); race("bipartite", 128);
    for (int i = 0; i < 31; i++) for (int j = 0; j < 31; j++) { arc(i, 93 + j); arc(31 + i, 62 + j); arc(62 + i, 93 + j); }
    arc(124, 126); arc(125, 126); arc(125, 127); race("an N on the last four jobs", 128);
    arc(0, 2); arc(1, 2); arc(1, 3); race("five jobs with an N", 5);
    series(along); race("series forwards", 128);
    for (int u = 127; u; u--) arc(u, u - 1);
    race("series backwards", 128);
    series(mixed); race("series shuffled", 128);
    orders(400, mixed, 0); race("400 random orders, shuffled", 128);
    orders(400, along, 0); race("400 random orders, forwards", 128);
    orders(3200, mixed, 0); race("3,200 random orders, shuffled", 128);
    for (int u = 0; u < 128; u += 2) for (int v = u + 1; v < 128; v++) arc(u, v);
    race("caterpillar", 128);
    for (int u = 0; u < 128; u += 2) arc(u, u + 1);
    race("64 pairs", 128);
    race("128 single jobs", 128);
    race("one job", 1);
    arc(0, 1); race("two jobs in series", 2);
    series(along); arc(127, 0); race("one circle of 128", 128);
    arc(0, 2); arc(1, 2); arc(1, 3); arc(3, 1); race("five jobs with a circle", 5);
    orders(400, along, 1); race("400 random orders with circles", 128);
    dense(); arc(1, 0); race("dense, 1 before 0 (found last)", 128);
    dense(); arc(127, 126); race("dense, 127 before 126 (found first)", 128);
    bipartite(1); arc(127, 63); race("bipartite, 127 before 63", 128);
    bipartite(2); arc(0, 1); arc(1, 0); race("bipartite, 0 and 1 before each other", 128);
    arc(0, 2); arc(1, 2); arc(1, 3);
    refused("129 jobs", 129);
    refused("an arc outside", 3);
}
