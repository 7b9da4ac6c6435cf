// The steps of crate `relation` beside the same algorithms in C, in one process, on the same arcs. README.md says how to run it.
#include <stdint.h>
#include <stdio.h>
#include <stdlib.h>
#include <string.h>
#include <time.h>

size_t bench_reduce(const uint16_t *arcs, size_t numbers, uint16_t n, uint8_t *area, size_t room);
uint64_t bench_first_n(const uint16_t *arcs, size_t numbers, uint16_t n);

typedef struct { uint64_t w[2]; } set;
static inline void put(set *s, int i) { s->w[i >> 6] |= 1ull << (i & 63); }
static inline void drop(set *s, int i) { s->w[i >> 6] &= ~(1ull << (i & 63)); }
static inline set and_(set a, set b) { return (set){{a.w[0] & b.w[0], a.w[1] & b.w[1]}}; }
static inline set or_(set a, set b) { return (set){{a.w[0] | b.w[0], a.w[1] | b.w[1]}}; }
static inline set but(set a, set b) { return (set){{a.w[0] & ~b.w[0], a.w[1] & ~b.w[1]}}; }
static inline int none(set a) { return !(a.w[0] | a.w[1]); }
static inline int same(set a, set b) { return !((a.w[0] ^ b.w[0]) | (a.w[1] ^ b.w[1])); }
static inline int low(set a) { return a.w[0] ? __builtin_ctzll(a.w[0]) : 64 + __builtin_ctzll(a.w[1]); }
static inline int high(set a) { return a.w[1] ? 127 - __builtin_clzll(a.w[1]) : 63 - __builtin_clzll(a.w[0]); }
#define EACH(j, s) for (int q_##j = 0, j; q_##j < 2; q_##j++) for (uint64_t x_##j = (s).w[q_##j]; x_##j && (j = 64 * q_##j + __builtin_ctzll(x_##j), 1); x_##j &= x_##j - 1)

// at most 128 jobs, and the arcs name them alone
static int fits(const uint16_t *arcs, size_t numbers, int n) {
    uint16_t top = 0;
    for (size_t i = 0; i < numbers / 2 * 2; i++) if (arcs[i] > top) top = arcs[i];
    return n <= 128 && (numbers < 2 || top < n);
}
// Warshall on two columns of words: where a word of the one has bit at, a goes into it and b into the one beside it
static void spread(uint64_t *restrict col, uint64_t *restrict other, int at, uint64_t a, uint64_t b, int n) {
    for (int i = 0; i < n; i++) {
        uint64_t m = -(col[i] >> at & 1);
        col[i] |= a & m; other[i] |= b & m;
    }
}
static void passes(set after[128], int n) {
    uint64_t lo[128], hi[128];
    set reached = {{0, 0}};
    for (int i = 0; i < n; i++) { lo[i] = after[i].w[0]; hi[i] = after[i].w[1]; reached = or_(reached, after[i]); }
    for (int k = 0; k < n; k++) {
        if (!(lo[k] | hi[k]) || !(reached.w[k >> 6] >> (k & 63) & 1)) continue;
        if (k < 64) spread(lo, hi, k, lo[k], hi[k], n); else spread(hi, lo, k - 64, hi[k], lo[k], n);
    }
    for (int i = 0; i < n; i++) after[i] = (set){{lo[i], hi[i]}};
}
// from the last jobs towards the first, as bench/closure has it; where there is a cycle the passes go on over the rows as they are
static void closed(const uint16_t *arcs, size_t numbers, int n, set after[128]) {
    uint8_t stack[128];
    set left = {{0, 0}}, met = {{0, 0}};
    int depth = 0;
    memset(after, 0, 128 * sizeof(set));
    // one arc of each quarter of the list at a time: arcs side by side are often of one row, and the second would wait for the first
    size_t quarter = (numbers / 2 + 1) / 4, last = numbers / 2 - 3 * quarter;
    for (size_t i = 0; i < last; i++)
        for (size_t k = 2 * i, j = 0; j < 4; j++, k += 2 * quarter) put(&after[arcs[k]], arcs[k + 1]);
    if (last < quarter)
        for (size_t k = 2 * last, j = 0; j < 3; j++, k += 2 * quarter) put(&after[arcs[k]], arcs[k + 1]);
    for (int i = 0; i < n && i < 64; i++) left.w[0] |= (uint64_t)!none(after[i]) << i;
    for (int i = 64; i < n; i++) left.w[1] |= (uint64_t)!none(after[i]) << (i - 64);
    while (!none(left)) for (int u = high(left);;) {
        set row = after[u], next = and_(row, left), one = u < 64 ? (set){{1ull << u, 0}} : (set){{0, 1ull << (u - 64)}};
        if (none(next)) {
            for (uint64_t x = after[u].w[0]; x; x &= x - 1) row = or_(row, after[__builtin_ctzll(x)]);
            for (uint64_t x = after[u].w[1]; x; x &= x - 1) row = or_(row, after[64 + __builtin_ctzll(x)]);
            after[u] = row;
            left = but(left, one);
            if (!depth) break;
            u = stack[--depth];
        } else {
            met = or_(met, one);
            if (!none(and_(next, met))) { passes(after, n); return; }
            stack[depth++] = u;
            u = high(next);
        }
    }
}
__attribute__((noinline)) static size_t c_reduce(const uint16_t *arcs, size_t numbers, uint16_t n, uint8_t *area, size_t room) {
    set after[128], covers[128], busy = {{0, 0}};
    size_t count = 0, k = 0;
    if (!fits(arcs, numbers, n)) return 0;
    closed(arcs, numbers, n, after);
    for (int i = 0; i < n; i++) if (after[i].w[i >> 6] >> (i & 63) & 1) return 0;
    for (int i = 0; i < n; i++) if (!none(after[i])) put(&busy, i);
    for (int i = 0; i < n; i++) {
        set far = {{0, 0}};
        for (set s = and_(after[i], busy); !none(s); s = but(s, far)) {
            int j = low(s);
            far = or_(far, or_(after[j], after[high(s)]));
            drop(&s, j);
        }
        covers[i] = but(after[i], far);
        count += __builtin_popcountll(covers[i].w[0]) + __builtin_popcountll(covers[i].w[1]);
    }
    if (room / 2 < count) return 0;
    for (int i = 0; i < n; i++) EACH(j, covers[i]) { area[k++] = i; area[k++] = j; }
    return count;
}

// Hacker's Delight, 7-3: a 64 by 64 bit matrix turned in place
static void turn64(uint64_t m[64]) {
    uint64_t k = 0x00000000ffffffffull;
    for (int j = 32; j; j >>= 1, k ^= k << j)
        for (int i = 0; i < 64; i = (i + j + 1) & ~j) { uint64_t t = ((m[i] >> j) ^ m[i + j]) & k; m[i] ^= t << j; m[i + j] ^= t; }
}
static void turn(set *to, const set *from, int n) {
    uint64_t m[64];
    memset(to, 0, 128 * sizeof(set));
    if (n <= 16) { for (int i = 0; i < n; i++) for (int j = 0; j < n; j++) to[j].w[0] |= (from[i].w[0] >> j & 1) << i; return; }
    int k = (n + 63) / 64;
    for (int r = 0; r < k; r++) for (int c = 0; c < k; c++) {
        for (int i = 0; i < 64; i++) m[i] = from[64 * r + i].w[c];
        turn64(m);
        for (int i = 0; i < 64; i++) to[64 * c + i].w[r] = m[i];
    }
}
__attribute__((noinline)) static uint64_t c_first_n(const uint16_t *arcs, size_t numbers, uint16_t n) {
    set after[128], under[128], all = {{0, 0}};
    if (!fits(arcs, numbers, n)) return 1ull << 32;
    closed(arcs, numbers, n, after);
    turn(under, after, n);
    for (int i = 0; i < n; i++) put(&all, i);
    for (int x = 0; x < n; x++) {
        // before and after the same jobs as the one just below it, which is the first of no N
        if (x && same(after[x], after[x - 1]) && same(under[x], under[x - 1])) continue;
        set ys = but(but(all, after[x]), under[x]);
        EACH(y, ys) {
            if (y == x) continue;
            set ds = but(but(after[y], after[x]), under[x]);
            if (none(ds)) continue;
            set cs = and_(after[x], after[y]);
            EACH(c, cs) {
                set e = but(but(ds, after[c]), under[c]);
                drop(&e, c); drop(&e, x);
                if (!none(e)) return x + 256ull * y + 65536ull * c + 16777216ull * low(e);
            }
        }
    }
    return 1ull << 32;
}

static uint16_t arcs[8192]; static size_t numbers;
static void arc(int u, int v) { if (numbers < 8192) { arcs[numbers++] = u; arcs[numbers++] = v; } }

static double now(void) { struct timespec t; clock_gettime(CLOCK_MONOTONIC, &t); return t.tv_sec * 1e9 + t.tv_nsec; }
typedef size_t reducer(const uint16_t *, size_t, uint16_t, uint8_t *, size_t);
static uint8_t mine[8192], theirs[8192]; static size_t my_count, their_count;
static double reduce_time(reducer *f, uint8_t *area, size_t *count, int rounds) {
    double s = now();
    for (int i = 0; i < rounds; i++) { *count = f(arcs, numbers, 128, area, 8192); __asm__ volatile("" ::: "memory"); }
    return (now() - s) / rounds;
}
static void race_reduce(const char *name) {
    double best_r = 1e18, best_c = 1e18;
    for (int turn = 0; turn < 1000; turn++) {
        double r = reduce_time(bench_reduce, mine, &my_count, 5), c = reduce_time(c_reduce, theirs, &their_count, 5);
        if (r < best_r) best_r = r;
        if (c < best_c) best_c = c;
    }
    const char *differ = my_count != their_count || memcmp(mine, theirs, 8192) ? "   DIFFER" : "";
    printf("%-34s rattle %8.0f ns   C %8.0f ns   ratio %.2f   (%zu arcs left)%s\n", name, best_r, best_c, best_r / best_c, my_count, differ);
}

typedef uint64_t searcher(const uint16_t *, size_t, uint16_t);
static uint64_t answer;
static double search_time(searcher *f, int n, int rounds) {
    double s = now();
    for (int i = 0; i < rounds; i++) { answer = f(arcs, numbers, n); __asm__ volatile("" ::: "memory"); }
    return (now() - s) / rounds;
}
static void race_first_n(const char *name, int n) {
    double best_r = 1e18, best_c = 1e18; uint64_t mine = 0, theirs = 0;
    int rounds = n < 16 ? 1000 : 2;
    for (int turn = 0; turn < 1000; turn++) {
        double r = search_time(bench_first_n, n, rounds);
        mine = answer;
        double c = search_time(c_first_n, n, rounds);
        theirs = answer;
        if (r < best_r) best_r = r;
        if (c < best_c) best_c = c;
    }
    const char *differ = mine != theirs ? "   DIFFER" : "";
    printf("%-34s rattle %8.0f ns   C %8.0f ns   ratio %.2f   (N %08lx)%s\n", name, best_r, best_c, best_r / best_c, (unsigned long)mine, differ);
}

// what both sides refuse: too many jobs, an arc outside, a cycle, an area too small
static void refused(const char *name, int n, size_t room) {
    memset(mine, 7, sizeof mine); memset(theirs, 7, sizeof theirs);
    size_t r = bench_reduce(arcs, numbers, n, mine, room), c = c_reduce(arcs, numbers, n, theirs, room);
    uint64_t rn = bench_first_n(arcs, numbers, n), cn = c_first_n(arcs, numbers, n);
    printf("%-34s %s\n", name, r || c || rn != cn || memcmp(mine, theirs, sizeof mine) || mine[0] != 7 ? "DIFFER" : "refused by both");
}

int main(void) {
    for (int u = 0; u < 128; u++) for (int v = u + 1; v < 128 && v <= u + 32; v++) arc(u, v);
    race_reduce("closure and reduction, dense");
    numbers = 0;
    for (int u = 0; u < 64; u++) for (int v = 64; v < 128; v++) arc(u, v);
    race_reduce("closure and reduction, bipartite");
    numbers = 0;
    // (A beside B then D) then C, and beside it all an N on the last four jobs: all that is tried before it fails late. The jobs of A, B, C
    // and D take turns in number, so that no job is passed over as the twin of the one ahead of it
    for (int i = 0; i < 124; i += 4) for (int j = 0; j < 124; j += 4) { arc(i, 3 + j); arc(1 + i, 2 + j); arc(2 + i, 3 + j); }
    arc(124, 126); arc(125, 126); arc(125, 127);
    race_first_n("first N, the last one", 128);
    numbers = 0;
    arc(0, 2); arc(1, 2); arc(1, 3);
    race_first_n("first N of five jobs", 5);
    refused("129 jobs", 129, 8192);
    refused("an arc outside", 3, 8192);
    refused("an area too small", 5, 5);
    arc(3, 1);
    refused("a cycle", 5, 8192);
}
