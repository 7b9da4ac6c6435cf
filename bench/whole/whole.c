// The papers' analysis of a sheet in C, to compare with: one pass over the sheet, sets of two 64-bit words, no work on jobs that the
// sheet does not have, and nothing read past the sheet's end. Compiled with -DNAME=, the name of its one function.
#include "whole.h"
#include <string.h>

enum { LONGEST = 37637, LINE = 9, COUNT = 999, HOURS = 4095 };   // the most bytes of a sheet, and of a line; the greatest count, and hours

typedef struct { uint64_t w[2]; } set;

static inline set both(set a, set b) { return (set){{a.w[0] & b.w[0], a.w[1] & b.w[1]}}; }
static inline set join(set a, set b) { return (set){{a.w[0] | b.w[0], a.w[1] | b.w[1]}}; }
static inline set less(set a, set b) { return (set){{a.w[0] & ~b.w[0], a.w[1] & ~b.w[1]}}; }
static inline int some(set a) { return (a.w[0] | a.w[1]) != 0; }
static inline int same(set a, set b) { return ((a.w[0] ^ b.w[0]) | (a.w[1] ^ b.w[1])) == 0; }
static inline unsigned low(set a) { return a.w[0] ? __builtin_ctzll(a.w[0]) : 64 + __builtin_ctzll(a.w[1]); }
static inline unsigned high(set a) { return a.w[1] ? 127 - __builtin_clzll(a.w[1]) : 63 - __builtin_clzll(a.w[0]); }
static inline set only(unsigned v) { return v < 64 ? (set){{1ull << v, 0}} : (set){{0, 1ull << (v - 64)}}; }
static inline set but_low(set a) { return a.w[0] ? (set){{a.w[0] & (a.w[0] - 1), a.w[1]}} : (set){{0, a.w[1] & (a.w[1] - 1)}}; }
// without the instruction for it, which the target x86-64 does not have, gcc would call a function
static inline unsigned ones(uint64_t x) {
    x -= x >> 1 & 0x5555555555555555ull;
    x = (x & 0x3333333333333333ull) + (x >> 2 & 0x3333333333333333ull);
    return ((x + (x >> 4)) & 0x0f0f0f0f0f0f0f0full) * 0x0101010101010101ull >> 56;
}
static inline set below(unsigned n) {
    return n < 64 ? (set){{(1ull << n) - 1, 0}} : (set){{~0ull, n < 128 ? (1ull << (n - 64)) - 1 : ~0ull}};
}

static inline uint64_t answer(uint64_t number, uint64_t a, uint64_t b, uint64_t c, uint64_t d) {
    return number | a << 8 | b << 24 | c << 40 | d << 48;
}

// What one pass over the lines finds. n: the count, or 0 above 128. times, any: the hours lines, and the bits that any of them has. far, own: one more than
// the first order with a job not below n, from a job to itself.
typedef struct { unsigned count, n, times, any, orders, far, own; const uint8_t *at; } scan;

// A number of one to three digits, or four, no leading zero: the place after it, or p where there is none. A byte is read only after digits.
static inline const uint8_t *number(const uint8_t *p, unsigned *x, int four) {
    unsigned a = p[0] - '0', b, c, d;
    if (a > 9) return p;
    *x = a;
    if (a == 0 || (b = p[1] - '0') > 9) return p + 1;
    *x = 10 * a + b;
    if ((c = p[2] - '0') > 9) return p + 2;
    *x = 100 * a + 10 * b + c;
    if (!four || (d = p[3] - '0') > 9) return p + 3;
    *x = 10 * *x + d;
    return p + 4;
}

// Whether a line ends at q, in a line feed or in a carriage return and a line feed. Then q goes to its last byte, else to the byte that breaks it.
// crlf: the second is expected, else the first. A branch that is predicted: a place computed from the byte would hold up the next line.
static inline int ends(const uint8_t **q, int crlf) {
    if (crlf) return __builtin_expect(**q == '\r', 1) ? *++*q == '\n' : **q == '\n';
    return __builtin_expect(**q == '\n', 1) || (**q == '\r' && *++*q == '\n');
}

// Hours lines from f->at on, each into the list, until stop or as many as the count says; whether the form holds. LINE bytes are there from every place ahead
// of stop. In line, so that there is a loop for each line end that is expected.
static inline __attribute__((always_inline)) int times(scan *f, const uint8_t *stop, uint16_t *hours, int crlf) {
    const uint8_t *p = f->at, *q;
    unsigned x, k = f->times, count = f->count, any = f->any;
    while (k < count && p < stop) {
        q = number(p, &x, 1);
        if (q == p || !ends(&q, crlf)) {
            f->at = q;
            return 0;
        }
        p = q + 1;
        hours[k++] = x;
        any |= x;
    }
    f->at = p;
    f->times = k;
    f->any = any;
    return 1;
}

// Order lines from f->at on, each into the table, until stop; the rest as above.
static inline __attribute__((always_inline)) int lines(scan *f, const uint8_t *stop, set *after, int crlf) {
    const uint8_t *p = f->at, *q;
    unsigned x, y, n = f->n, m = f->orders;
    while (p < stop) {
        q = number(p, &x, 0);
        if (q == p || *q != ' ') goto broken;
        p = q + 1;
        q = number(p, &y, 0);
        if (q == p || !ends(&q, crlf)) goto broken;
        p = q + 1;
        m++;
        if (x >= n || y >= n) {
            if (!f->far) f->far = m;
        } else {
            if (x == y && !f->own) f->own = m;
            after[x].w[y >> 6] |= 1ull << (y & 63);
        }
    }
    f->at = p;
    f->orders = m;
    return 1;
broken:
    f->at = q;
    return 0;
}

// Where a word of the one column has bit at, a goes into it, and b into the word beside it.
static inline void spread(uint64_t *restrict col, uint64_t *restrict other, unsigned at, uint64_t a, uint64_t b, unsigned n) {
    for (unsigned i = 0; i < n; i++) {
        uint64_t mask = col[i] >> at & 1 ? ~0ull : 0;
        col[i] |= a & mask;
        other[i] |= b & mask;
    }
}
// Warshall's closure on two columns of words, several rows at a time; not through a job that is before none or that none is before.
static void passes(set *after, unsigned n) {
    uint64_t lo[128], hi[128];
    set reached = {{0, 0}};
    for (unsigned i = 0; i < n; i++) {
        lo[i] = after[i].w[0], hi[i] = after[i].w[1];
        reached = join(reached, after[i]);
    }
    for (unsigned k = 0; k < n; k++) {
        if (!(lo[k] | hi[k]) || !(reached.w[k >> 6] >> (k & 63) & 1)) continue;
        if (k < 64) spread(lo, hi, k, lo[k], hi[k], n);
        else spread(hi, lo, k - 64, hi[k], lo[k], n);
    }
    for (unsigned i = 0; i < n; i++) after[i] = (set){{lo[i], hi[i]}};
}
static inline unsigned highest(uint64_t lo, uint64_t hi) { return hi ? 127 - __builtin_clzll(hi) : 63 - __builtin_clzll(lo); }
// The transitive closure from the last jobs towards the first: a search over a stack of jobs, from the largest job down. A job's row is made once all
// that its orders lead to are finished, of their rows. left: the jobs before others that are not finished; met: those that have been on the stack.
// Where an order leads to a job on the stack the passes are made, over the rows as they are.
static void close(set *after, unsigned n) {
    uint8_t stack[128];
    uint64_t left_lo = 0, left_hi = 0, met_lo = 0, met_hi = 0;
    unsigned depth = 0, few = n < 64 ? n : 64;
    for (unsigned i = 0; i < few; i++) left_lo |= (uint64_t)((after[i].w[0] | after[i].w[1]) != 0) << i;
    for (unsigned i = 64; i < n; i++) left_hi |= (uint64_t)((after[i].w[0] | after[i].w[1]) != 0) << (i - 64);
    while (left_lo | left_hi) for (unsigned u = highest(left_lo, left_hi);;) {
        uint64_t lo = after[u].w[0], hi = after[u].w[1], next_lo = lo & left_lo, next_hi = hi & left_hi, bit = 1ull << (u & 63);
        if (!(next_lo | next_hi)) {
            set row = after[u];
            for (; lo; lo &= lo - 1) row = join(row, after[__builtin_ctzll(lo)]);
            for (; hi; hi &= hi - 1) row = join(row, after[64 + __builtin_ctzll(hi)]);
            after[u] = row;
            if (u < 64) left_lo ^= bit; else left_hi ^= bit;
            if (!depth) break;
            u = stack[--depth];
        } else {
            if (u < 64) met_lo |= bit; else met_hi |= bit;
            if ((next_lo & met_lo) | (next_hi & met_hi)) {
                passes(after, n);
                return;
            }
            stack[depth++] = u;
            u = highest(next_lo, next_hi);
        }
    }
}

// Hacker's Delight, 7-3: a square of 64 by 64 bits turned in place.
static void turn64(uint64_t m[64]) {
    uint64_t k = 0x00000000ffffffffull;
    for (int j = 32; j; j >>= 1, k ^= k << j)
        for (int i = 0; i < 64; i = (i + j + 1) & ~j) {
            uint64_t t = ((m[i] >> j) ^ m[i + j]) & k;
            m[i] ^= t << j;
            m[i + j] ^= t;
        }
}

// The relation the other way round: few jobs one bit at a time, more by squares.
static void turn(set *under, const set *after, unsigned n) {
    memset(under, 0, n * sizeof *under);
    if (n <= 24) {
        for (unsigned i = 0; i < n; i++)
            for (uint64_t s = after[i].w[0]; s; s &= s - 1) under[__builtin_ctzll(s)].w[0] |= 1ull << i;
        return;
    }
    for (unsigned r = 0; 64 * r < n; r++)
        for (unsigned c = 0; 64 * c < n; c++) {
            uint64_t m[64];
            unsigned rows = n - 64 * r < 64 ? n - 64 * r : 64, columns = n - 64 * c < 64 ? n - 64 * c : 64;
            for (unsigned i = 0; i < rows; i++) m[i] = after[64 * r + i].w[c];
            for (unsigned i = rows; i < 64; i++) m[i] = 0;
            turn64(m);
            for (unsigned i = 0; i < columns; i++) under[64 * c + i].w[r] = m[i];
        }
}

// near: comparable jobs. jobs: how many jobs each of parts has. bytes, at, value, have: the record's bytes, four at a time, and up to 31 bits more.
typedef struct { set near[128], under[128], parts[256]; uint8_t jobs[256]; const uint16_t *hours; uint8_t bytes[464]; uint64_t value; unsigned at, have, groups; } tree;

static inline void put(tree *t, unsigned field, unsigned width) {
    t->value = t->value << width | field;
    t->have += width;
    if (t->have >= 32) {
        t->have -= 32;
        uint32_t four = __builtin_bswap32(t->value >> t->have);
        memcpy(t->bytes + t->at, &four, 4);
        t->at += 4;
    }
}
static inline void put_leaf(tree *t, unsigned job) { put(t, job << 12 | t->hours[job], 20); }
static inline void put_group(tree *t, unsigned side, unsigned children) {
    put(t, 2 << 7 | side << 7 | (children - 1), 9);
    t->groups++;
}

// What of s is not joined to x by a run of comparable jobs of s (side), or of free ones. If that is something, size is how many jobs are.
static inline set apart(const tree *t, set s, unsigned x, int side, unsigned *size) {
    set todo = only(x), rest = less(s, todo);
    for (*size = 0; some(todo) && some(rest); ++*size) {
        set near = t->near[low(todo)], found = side ? both(rest, near) : less(rest, near);
        todo = join(but_low(todo), found);
        rest = less(rest, found);
    }
    return rest;
}

// The children of s, which has so many jobs, as a group of this kind, from parts on, and how many jobs each has; how many. Side by side they are found by their
// smallest jobs, and each goes ahead of those that have fewer.
static inline unsigned split(const tree *t, set s, unsigned whole, int side, set *parts, uint8_t *jobs) {
    unsigned k = 0, j, size;
    while (some(s)) {
        unsigned x = low(s);
        if (!side)   // the first child has no job of the rest before it; from low to high, so that neither of two series takes long
            for (set u = both(t->under[x], s); some(u); u = both(t->under[x], s)) x = high(u);
        set rest = apart(t, s, x, side, &size);
        if (!some(rest)) size = whole;
        whole -= size;
        for (j = k++; side && j && jobs[j - 1] < size; j--) parts[j] = parts[j - 1], jobs[j] = jobs[j - 1];
        parts[j] = less(s, rest);
        jobs[j] = size;
        s = rest;
    }
    return k;
}

// Writes the k children of a group, parts[0] to parts[k - 1]; 0 where one of them is crossed.
static int children(tree *t, set *parts, uint8_t *jobs, unsigned k, int side) {
    put_group(t, side, k);
    for (unsigned i = 0; i < k; i++) {
        if (jobs[i] == 1) {
            put_leaf(t, low(parts[i]));
            continue;
        }
        unsigned j = split(t, parts[i], jobs[i], !side, parts + k, jobs + k);
        if (j == 1 || !children(t, parts + k, jobs + k, j, !side)) return 0;
    }
    return 1;
}

// The record of the order; 0 where it is crossed.
static int write_record(tree *t, unsigned n) {
    set all = below(n);
    t->at = t->groups = 0;
    t->value = n - 1;
    t->have = 7;
    if (n == 1) {
        put_leaf(t, 0);
    } else {
        int side = 1;
        unsigned k = split(t, all, n, 1, t->parts, t->jobs);
        if (k == 1) side = 0, k = split(t, all, n, 0, t->parts, t->jobs);
        if (k == 1 || !children(t, t->parts, t->jobs, k, side)) return 0;
    }
    for (t->value <<= 32 - t->have; t->have; t->have = t->have > 8 ? t->have - 8 : 0, t->value <<= 8) t->bytes[t->at++] = t->value >> 24;
    return 1;
}

// The first N: a before c, b before c and d, and a b, c d, a d free. A job that is before and after the same jobs as the one just below it is passed over:
// where that one is the first job of no N, neither is this one.
static uint64_t first_n(const set *after, const tree *t, unsigned n) {
    for (unsigned a = 0; a < n; a++) {
        if (!some(after[a]) || (a && same(after[a], after[a - 1]) && same(t->under[a], t->under[a - 1]))) continue;
        for (set bs = less(less(below(n), only(a)), t->near[a]); some(bs); bs = but_low(bs)) {
            unsigned b = low(bs);
            set ds = less(after[b], t->near[a]);
            if (!some(ds)) continue;
            for (set cs = both(after[a], after[b]); some(cs); cs = but_low(cs)) {
                unsigned c = low(cs);
                set d = less(ds, t->near[c]);
                if (some(d)) return answer(8, a, b, c, low(d));
            }
        }
    }
    return 0;
}

// The reduced orders as rows; how many. A job with nothing after it, or found already, has nothing to add. Taken from both ends: whichever way
// the jobs are numbered, a few have the rest after them.
static unsigned reduce(set *reduced, const set *after, unsigned n) {
    set busy = {{0, 0}};
    unsigned count = 0;
    for (unsigned i = 0; i < n; i++) busy.w[i >> 6] |= (uint64_t)some(after[i]) << (i & 63);
    for (unsigned i = 0; i < n; i++) {
        set far = {{0, 0}};
        for (set s = both(after[i], busy); some(s); s = less(but_low(s), far)) far = join(far, join(after[low(s)], after[high(s)]));
        reduced[i] = less(after[i], far);
        count += ones(reduced[i].w[0]) + ones(reduced[i].w[1]);
    }
    return count;
}

uint64_t NAME(const uint8_t *sheet, size_t len, uint8_t *record, size_t record_room, uint8_t *area, size_t area_room) {
    if (len > LONGEST) return 1;
    // the last bytes of the sheet, fewer than LINE, are read from here, with zeros after them
    uint8_t tail[2 * LINE - 2] = {0};
    const uint8_t *from = sheet;
    size_t start = 0;
    if (len < LINE) from = memcpy(tail, sheet, len);

    unsigned n = 0;
    set after[128];
    uint16_t hours[COUNT];
    const uint8_t *p = number(from, &n, 0);
    if (p == from || !ends(&p, 0)) return answer(2, p - from, 0, 0, 0);
    scan f = {n, n <= 128 ? n : 0, 0, 0, 0, 0, 0, p + 1};
    memset(after, 0, f.n * sizeof *after);
    if (len >= LINE) {
        const uint8_t *stop = sheet + (len - LINE + 1);
        if (!(p[-1] == '\r' ? times(&f, stop, hours, 1) && lines(&f, stop, after, 1) : times(&f, stop, hours, 0) && lines(&f, stop, after, 0)))
            return answer(2, f.at - sheet, 0, 0, 0);
        start = f.at - sheet;
        from = f.at = memcpy(tail, f.at, len - start);
    }
    const uint8_t *stop = from + (len - start);
    if (!times(&f, stop, hours, 0) || !lines(&f, stop, after, 0)) return answer(2, start + (f.at - from), 0, 0, 0);
    if (f.times < n) return answer(2, len, 0, 0, 0);

    if (f.n == 0) return 3;
    if (f.orders > 4096) return 4;
    if (f.any > HOURS)
        for (unsigned i = 0; i < n; i++)
            if (hours[i] > HOURS) return answer(13, i, 0, 0, 0);
    if (f.far) return answer(5, f.far - 1, 0, 0, 0);
    if (f.own) return answer(6, f.own - 1, 0, 0, 0);
    close(after, n);
    for (unsigned i = 0; i < n; i++)
        if (after[i].w[i >> 6] >> (i & 63) & 1) return answer(7, i, 0, 0, 0);

    tree t;
    t.hours = hours;
    turn(t.under, after, n);
    for (unsigned i = 0; i < n; i++) t.near[i] = join(after[i], t.under[i]);
    if (!write_record(&t, n)) return first_n(after, &t, n);
    set reduced[128];
    unsigned count = reduce(reduced, after, n);
    if (record_room < t.at) return 9;
    if (area_room < 2 * count) return 10;
    memcpy(record, t.bytes, t.at);
    for (unsigned i = 0; i < n; i++)
        for (set s = reduced[i]; some(s); s = but_low(s)) {
            *area++ = i;
            *area++ = low(s);
        }
    return answer(0, t.at, count, t.groups, 0);
}
