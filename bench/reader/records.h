// What reader/, longest/, gangs/ and reason/ read: records made from sheets, bytes that are none, damaged records. All from fixed seeds: each run has the same.
#include "../../include/ordersheet.h"
#include <stdio.h>
#include <stdlib.h>
#include <string.h>
#include <time.h>

typedef struct { uint64_t w[2]; } set;
static inline set or_(set a, set b) { return (set){{a.w[0] | b.w[0], a.w[1] | b.w[1]}}; }
static inline int some(set a) { return (a.w[0] | a.w[1]) != 0; }
static inline int has(set a, unsigned v) { return a.w[v >> 6] >> (v & 63) & 1; }
static inline unsigned low(set a) { return a.w[0] ? __builtin_ctzll(a.w[0]) : 64 + __builtin_ctzll(a.w[1]); }
static inline set rest(set a) { return a.w[0] ? (set){{a.w[0] & (a.w[0] - 1), a.w[1]}} : (set){{0, a.w[1] & (a.w[1] - 1)}}; }
static inline set only(unsigned v) { return v < 64 ? (set){{1ull << v, 0}} : (set){{0, 1ull << (v - 64)}}; }

enum { LONGEST = 464, GROUP = 9, LEAF = 20, NO_RECORD = 11, NO_ROOM = 10 };   // bytes of a record, bits of a node; a leaf's last twelve are its hours
enum { CHAIN, SIDE, NEITHER };
// Of a child of a side group, by its jobs and the smallest of them: these ascend. A leaf has a greater one than every chain, and none is 0.
static inline unsigned rank_of(unsigned jobs, unsigned least) { return (128 - jobs) << 7 | least; }
enum { ROWS = 64, DAMAGED = 200000 };
typedef struct { char name[48]; uint8_t bytes[ORDERSHEET_RECORD_AREA + 1]; size_t length; } named;
static named records[ROWS];
static int count, shapes;   // of the records; of the first of them, which are accepted

static double now(void) { struct timespec t; clock_gettime(CLOCK_MONOTONIC, &t); return t.tv_sec * 1e9 + t.tv_nsec; }
static unsigned drawn(uint64_t *s, unsigned n) {   // xorshift
    *s ^= *s << 13; *s ^= *s >> 7; *s ^= *s << 17;
    return (*s >> 33) % n;
}
// the hours from a seed of their own
static unsigned below(unsigned n) { static uint64_t s = 20240607; return drawn(&s, n); }
static unsigned hours(void) { static uint64_t s = 19720517; return drawn(&s, ORDERSHEET_HOURS + 1); }
static char text[ORDERSHEET_SHEET + 16]; static size_t chars;
static int name[128];   // the job that a position stands for
static void start(int n, int shuffled) {
    for (int i = 0; i < n; i++) name[i] = i;
    if (shuffled) for (int i = n - 1; i > 0; i--) { int j = below(i + 1), t = name[i]; name[i] = name[j]; name[j] = t; }
    chars = sprintf(text, "%d\n", n);
    for (int i = 0; i < n; i++) chars += sprintf(text + chars, "%u\n", hours());
}
static void arc(int u, int v) { if (chars + 8 <= ORDERSHEET_SHEET) chars += sprintf(text + chars, "%d %d\n", name[u], name[v]); }
static size_t record_of(uint8_t *record) {
    static uint8_t reduced[ORDERSHEET_REDUCED_AREA];
    uint64_t a = ordersheet_analyse((const uint8_t *)text, chars, record, ORDERSHEET_RECORD_AREA, reduced, sizeof reduced);
    if (ordersheet_number(a)) { printf("a sheet is refused with %u:\n%.*s", ordersheet_number(a), (int)chars, text); exit(1); }
    return ordersheet_first(a);
}
static void add(const char *name, const uint8_t *bytes, size_t length) {
    named *r = &records[count++];
    snprintf(r->name, sizeof r->name, "%s", name);
    memcpy(r->bytes, bytes, length);
    r->length = length;
}
static void shape(const char *name) {
    uint8_t record[ORDERSHEET_RECORD_AREA];
    size_t length = record_of(record);
    add(name, record, length);
    shapes = count;
}
static unsigned node_at(const uint8_t *b, unsigned at) { return (b[at >> 3] << 8 | b[(at >> 3) + 1]) << (at & 7) & 0xffff; }
static int is_group(const uint8_t *b, unsigned at) { return node_at(b, at) >> 15; }
// The last bit of a job number, of the first leaf that begins past the middle, or of the last leaf.
static int job_bit(const named *r) {
    unsigned n = (r->bytes[0] >> 1) + 1, k = 0, at = 7, leaf = 0;
    for (; k < n && leaf < 4 * r->length; at += is_group(r->bytes, at) ? GROUP : LEAF) if (!is_group(r->bytes, at)) leaf = at, k++;
    return leaf + 7;
}
static void damaged(const char *what, int i, int bit, int more) {
    uint8_t bytes[ORDERSHEET_RECORD_AREA + 1] = {0};
    char name[48];
    if (records[i].length + more > sizeof bytes) return;
    memcpy(bytes, records[i].bytes, records[i].length);
    if (bit >= 0) bytes[bit >> 3] ^= 128 >> (bit & 7);
    snprintf(name, sizeof name, "%.24s, %s", records[i].name, what);
    add(name, bytes, records[i].length + more);
}
// A random order on the positions from lo up to hi, its reduced orders as arcs. wide: the chance in 100 that a part is of its group's kind.
// The positions with none before them, and with none after them.
typedef struct { set sources, sinks; } outer;
static outer series_parallel(int lo, int hi, int wide, int series) {
    if (hi - lo < 2) return (outer){only(lo), only(lo)};
    int cut = lo + 1 + below(hi - lo - 1);
    outer a = series_parallel(lo, cut, wide, (int)below(100) < wide ? series : !series);
    outer b = series_parallel(cut, hi, wide, (int)below(100) < wide ? series : !series);
    if (!series) return (outer){or_(a.sources, b.sources), or_(a.sinks, b.sinks)};
    for (set s = a.sinks; some(s); s = rest(s)) for (set t = b.sources; some(t); t = rest(t)) arc(low(s), low(t));
    return (outer){a.sources, b.sinks};
}
// Groups in groups, of two children each and both kinds in turn, that never end: as many bytes as a record may have.
static void endless(void) {
    uint8_t bytes[ORDERSHEET_RECORD_AREA] = {0};
    unsigned at = 0;
    for (; at < 7; at++) bytes[0] |= 128 >> at;
    for (int kind = 0; at + 9 <= 8 * sizeof bytes; at += 9, kind = !kind)
        for (int i = 0; i < 9; i++) if (i == 0 || (i == 1 && kind) || i == 8) bytes[(at + i) >> 3] |= 128 >> ((at + i) & 7);
    add("groups that never end", bytes, sizeof bytes);
    for (size_t i = 0; i < sizeof bytes; i++) bytes[i] = i % 2 ? 0x80 : 0x81;
    add("81 80 81 80 ..", bytes, sizeof bytes);
}
static void make_records(void) {
    start(128, 0); for (int u = 0; u < 64; u++) for (int v = 64; v < 128; v++) arc(u, v);
    shape("64 before 64");
    start(128, 0); for (int u = 0; u < 127; u++) arc(u, u + 1);
    shape("one series");
    start(128, 1); for (int u = 0; u < 127; u++) arc(u, u + 1);
    shape("one series, shuffled");
    start(128, 0); shape("one parallel group");
    start(128, 1); series_parallel(0, 128, 85, 1); shape("mixed, wide groups");
    start(128, 1); series_parallel(0, 128, 25, 1); shape("mixed, small groups");
    start(128, 0);   // job 2i before all later ones, job 2i + 1 beside them
    for (int u = 0; u < 128; u += 2) for (int v = u + 1; v < 128; v++) arc(u, v);
    shape("as deep as they go");
    start(128, 1); for (int u = 0; u < 128; u += 2) for (int v = u + 1; v < 128; v++) arc(u, v);
    shape("as deep, shuffled");
    start(5, 0); arc(0, 1); arc(0, 2); arc(1, 3); arc(2, 3); arc(0, 3); shape("the paper's example");
    start(1, 0); shape("one job");
    for (int i = 0; i < shapes; i++) damaged("one bit", i, job_bit(&records[i]), 0);
    for (int i = 0; i < shapes; i++) damaged("a byte more", i, -1, 1);
    endless();
}

static void put(uint8_t *b, unsigned at, int width, unsigned value) {
    for (int i = 0; i < width; i++) {
        unsigned k = at + i, mask = 128 >> (k & 7);
        if (value >> (width - 1 - i) & 1) b[k >> 3] |= mask; else b[k >> 3] &= ~mask;
    }
}
// Where the leaves of a record begin; how many.
static unsigned leaves(const uint8_t *b, unsigned *leaf) {
    unsigned n = (b[0] >> 1) + 1, k = 0;
    for (unsigned at = 7; k < n; at += is_group(b, at) ? GROUP : LEAF) if (!is_group(b, at)) leaf[k++] = at;
    return n;
}
// Two leaves change their jobs: another record, or children out of order.
static void exchange(uint8_t *b) {
    unsigned leaf[128], n = leaves(b, leaf), x = leaf[below(n)], y = leaf[below(n)], i = node_at(b, x) >> 8, j = node_at(b, y) >> 8;
    put(b, x + 1, 7, j);
    put(b, y + 1, 7, i);
}
// The bit after the tree that begins here.
static unsigned past(const uint8_t *b, unsigned at) {
    for (unsigned trees = 1; trees; trees--) {
        if (is_group(b, at)) trees += 1 + (node_at(b, at) >> 7 & 127), at += GROUP;
        else at += LEAF;
    }
    return at;
}
// Two neighbours in a side group change places: children out of order.
static void change_places(uint8_t *b) {
    uint8_t old[ORDERSHEET_RECORD_AREA + 8];
    unsigned side[128], k = 0, x, y, z;
    for (unsigned at = 7, end = past(b, 7); at < end; at += is_group(b, at) ? GROUP : LEAF) if (node_at(b, at) >> 14 == 3) side[k++] = at;
    if (k == 0) return;
    x = side[below(k)], k = below(node_at(b, x) >> 7 & 127);
    for (x += GROUP; k; k--) x = past(b, x);
    y = past(b, x), z = past(b, y);
    memcpy(old, b, sizeof old);
    for (unsigned at = x; at < z; at++) {
        unsigned from = at < x + (z - y) ? at + (y - x) : at - (z - y);
        put(b, at, 1, old[from >> 3] >> (~from & 7) & 1);
    }
}
static size_t random_record(uint8_t *record, int n) {
    int wide = below(100);
    start(n, 1);
    series_parallel(0, n, wide, wide % 2);
    return record_of(record);
}
// The answer to bytes in an area of their own length: a checker of memory sees what is read past it.
typedef uint64_t answered(const uint8_t *, size_t);
static uint64_t apart(const uint8_t *bytes, size_t length, answered *same) {
    uint8_t *own = malloc(length ? length : 1);
    memcpy(own, bytes, length);
    uint64_t a = same(own, length);
    free(own);
    return a;
}
// Random records, damaged: all sides have to say the same of each, which `same` tests.
static void compare(answered *same) {
    size_t accepted = 0;
    uint8_t record[ORDERSHEET_RECORD_AREA + 8], b[ORDERSHEET_RECORD_AREA + 8];
    for (int i = 0; i < DAMAGED; i++) {
        static size_t length;
        if (i % 50 == 0) {
            int n = below(2) ? 1 + below(128) : 1 + below(12), k = below(2 * shapes);
            memset(record, 0, sizeof record);
            if (k < shapes) memcpy(record, records[k].bytes, length = records[k].length);
            else length = random_record(record, n);
        }
        size_t m = length, x = below(m), y = below(256);
        memcpy(b, record, sizeof b);
        switch (below(8)) {
        case 0: exchange(b); break;
        case 1: for (int k = 1 + below(3); k--; x = below(m)) b[x] ^= 1 << below(8); break;
        case 2: b[x] = y; break;
        case 3: m = x; break;
        case 4: for (int k = 1 + below(4); k--;) b[m++] = below(2) ? 0 : below(256); break;
        case 5: b[m - 1] ^= 1 << below(8); break;
        case 6: for (size_t k = x; k < m; k++) b[k] = below(4) ? below(256) : 0x80 | below(2); break;
        case 7: change_places(b); break;
        }
        accepted += ordersheet_number(apart(b, m, same)) == 0;
    }
    printf("%d damaged records: the same from all, %zu of them accepted\n\n", DAMAGED, accepted);
}
