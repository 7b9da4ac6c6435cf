// The reading of a record (`ordersheet_read`) beside the same work in C, in one process, on the same bytes. README.md says how to run it.
#include "records.h"

static inline set and_(set a, set b) { return (set){{a.w[0] & b.w[0], a.w[1] & b.w[1]}}; }
static inline set but(set a, set b) { return (set){{a.w[0] & ~b.w[0], a.w[1] & ~b.w[1]}}; }
static inline unsigned high(set a) { return a.w[1] ? 127 - __builtin_clzll(a.w[1]) : 63 - __builtin_clzll(a.w[0]); }
// without the instruction for it, which the target x86-64 does not have, gcc would call a function
static inline unsigned ones(uint64_t x) {
    x -= x >> 1 & 0x5555555555555555ull;
    x = (x & 0x3333333333333333ull) + (x >> 2 & 0x3333333333333333ull);
    return ((x + (x >> 4)) & 0x0f0f0f0f0f0f0f0full) * 0x0101010101010101ull >> 56;
}
static inline unsigned size(set a) { return ones(a.w[0]) + ones(a.w[1]); }

// A part of the tree. least: its smallest job. first, last: the ends of its part of the reverse sequence.
typedef struct { uint8_t least, first, last; } part;
// The jobs of a part with none of the part before them, after them, and how many these are.
typedef struct { set sources, sinks; unsigned source_count, sink_count; } ends;
// A group that is being read. more: the children left after the one that is read. begin: the leaves ahead of it. rank: of its last child so far, if it is a side
// group.
typedef struct { uint16_t rank; uint8_t kind, more, begin; part read; } group;
// ahead: for each job the one ahead of it in the reverse sequence. rows: the reduced orders, so many.
typedef struct { unsigned n, groups; part whole; ends ends; uint8_t forward[128], ahead[129]; set rows[128]; unsigned orders; } reading;
enum { NOTHING = 128 };
static inline group begin(unsigned kind, unsigned more, unsigned placed) { return (group){0, kind, more, placed, {NOTHING, NOTHING, NOTHING}}; }

// Whether the bytes are a record, and its tree. by_tree: the reduced orders as well, from the ends of neighbours in a chain; else both sequences.
static inline __attribute__((always_inline)) int read_tree(const uint8_t *record, size_t length, reading *r, int by_tree) {
    // zeros follow the bytes. What is read there is job 0, a second time at the latest in the second leaf, so reading ends
    uint8_t bytes[LONGEST + 8];
    if (length == 0 || length > LONGEST) return 0;
    memcpy(bytes, record, length);
    memset(bytes + length, 0, 8);

    group open[128], g = begin(NEITHER, 0, 0);   // the groups around g, which holds the tree at first; a tree has fewer groups than jobs
    ends of_open[128], *e = of_open, f;       // e: those of g
    unsigned n = (bytes[0] >> 1) + 1, at = 7, placed = 0, groups = 0, depth = 0, orders = 0;
    set seen = {{0, 0}};
    part p;
    if (by_tree) memset(e, 0, sizeof *e);
    for (;;) {
        unsigned bits = (bytes[at >> 3] << 8 | bytes[(at >> 3) + 1]) << (at & 7);
        if (bits & 0x8000) {
            unsigned kind = bits >> 14 & 1, more = bits >> 7 & 127;
            if (more == 0 || groups + 1 == n || g.kind == kind) return 0;
            open[depth++] = g;
            g = begin(kind, more, placed);
            e++;
            if (by_tree) memset(e, 0, sizeof *e);
            groups++;
            at += GROUP;
            continue;
        }
        unsigned job = bits >> 8 & 127;
        if (job >= n || has(seen, job)) return 0;
        seen.w[job >> 6] |= 1ull << (job & 63);
        unsigned from = placed;   // p's first leaf
        r->forward[placed++] = job;
        at += LEAF;
        p = (part){job, job, job};
        if (by_tree) f = (ends){only(job), only(job), 1, 1};
        // p is read whole: into its group, and that one too if it was the last child
        for (;;) {
            part *q = &g.read;
            int begun = q->first != NOTHING;
            if (p.least < q->least) q->least = p.least;
            if (g.kind == SIDE) {
                unsigned rank = rank_of(placed - from, p.least);
                if (rank <= g.rank) return 0;
                g.rank = rank;
                if (by_tree) {
                    e->sources = or_(e->sources, f.sources), e->source_count += f.source_count;
                    e->sinks = or_(e->sinks, f.sinks), e->sink_count += f.sink_count;
                } else r->ahead[q->first] = p.last;
                q->first = p.first;
                if (!begun) q->last = p.last;
            } else {
                if (by_tree) {
                    orders += e->sink_count * f.source_count;
                    for (set s = e->sinks; some(s); s = rest(s)) r->rows[low(s)] = f.sources;
                    if (!begun) e->sources = f.sources, e->source_count = f.source_count;
                    e->sinks = f.sinks, e->sink_count = f.sink_count;
                } else r->ahead[p.first] = q->last;
                if (!begun) q->first = p.first;
                q->last = p.last;
            }
            if (g.more-- > 0) break;
            p = g.read, from = g.begin;
            if (by_tree) f = *e;
            if (depth == 0) goto whole;
            g = open[--depth], e--;
        }
    }
whole:
    r->n = n, r->groups = groups, r->whole = p, r->orders = orders;
    if (by_tree) r->ends = f;
    // every job, and fewer than 8 bits left, all 0
    return placed == n && at <= 8 * length && 8 * length < at + 8 && (uint8_t)(bytes[at >> 3] << (at & 7)) == 0;
}

// The same by two functions that call each other, as the product reads: what is read so far, and a group's children.
typedef struct { const uint8_t *bytes; unsigned n, at, placed, groups; set seen; reading *r; } place;
static int children(place *s, unsigned kind, unsigned more, part *p);
static inline int child(place *s, unsigned kind, part *p) {
    unsigned bits = (s->bytes[s->at >> 3] << 8 | s->bytes[(s->at >> 3) + 1]) << (s->at & 7);
    if (bits & 0x8000) {
        unsigned other = bits >> 14 & 1, more = bits >> 7 & 127;
        if (more == 0 || s->groups + 1 == s->n || other == kind) return 0;
        s->groups++, s->at += GROUP;
        return children(s, other, more, p);
    }
    unsigned job = bits >> 8 & 127;
    if (job >= s->n || has(s->seen, job)) return 0;
    s->seen.w[job >> 6] |= 1ull << (job & 63);
    s->r->forward[s->placed++] = job;
    s->at += LEAF;
    *p = (part){job, job, job};
    return 1;
}
static int chain(place *s, unsigned more, part *p) {
    part q;
    if (!child(s, CHAIN, p)) return 0;
    while (more--) {
        if (!child(s, CHAIN, &q)) return 0;
        s->r->ahead[q.first] = p->last;
        *p = (part){q.least < p->least ? q.least : p->least, p->first, q.last};
    }
    return 1;
}
static int beside(place *s, unsigned more, part *p) {
    part q;
    unsigned from = s->placed, rank, before;
    if (!child(s, SIDE, p)) return 0;
    for (before = rank_of(s->placed - from, p->least); more--; before = rank) {
        from = s->placed;
        if (!child(s, SIDE, &q)) return 0;
        rank = rank_of(s->placed - from, q.least);
        if (rank <= before) return 0;
        s->r->ahead[p->first] = q.last;
        p->first = q.first;
        if (q.least < p->least) p->least = q.least;
    }
    return 1;
}
static int children(place *s, unsigned kind, unsigned more, part *p) { return kind == CHAIN ? chain(s, more, p) : beside(s, more, p); }
static int read_by_calls(const uint8_t *record, size_t length, reading *r) {
    uint8_t bytes[LONGEST + 8];
    if (length == 0 || length > LONGEST) return 0;
    memcpy(bytes, record, length);
    memset(bytes + length, 0, 8);
    place s = {bytes, (bytes[0] >> 1) + 1, 7, 0, 0, {{0, 0}}, r};
    if (!child(&s, NEITHER, &r->whole)) return 0;
    r->n = s.n, r->groups = s.groups;
    return s.placed == s.n && s.at <= 8 * length && 8 * length < s.at + 8 && (uint8_t)(bytes[s.at >> 3] << (s.at & 7)) == 0;
}

// The table of the order: one job is before another where it stands ahead of it in both sequences.
static inline void order(const reading *r, set *after) {
    set passed = {{0, 0}};
    for (unsigned i = r->n; i--;) {
        after[r->forward[i]] = passed;
        passed = or_(passed, only(r->forward[i]));
    }
    passed = (set){{0, 0}};
    for (unsigned i = r->n, job = r->whole.last; i--; job = r->ahead[job]) {
        after[job] = and_(after[job], passed);
        passed = or_(passed, only(job));
    }
}

// The reduced orders as rows; how many. As in bench/whole/whole.c.
static inline unsigned reduce(set *reduced, const set *after, unsigned n) {
    set busy = {{0, 0}};
    unsigned count = 0;
    for (unsigned i = 0; i < n; i++) busy.w[i >> 6] |= (uint64_t)some(after[i]) << (i & 63);
    for (unsigned i = 0; i < n; i++) {
        set far = {{0, 0}};
        for (set s = and_(after[i], busy); some(s); s = but(rest(s), far)) far = or_(far, or_(after[low(s)], after[high(s)]));
        reduced[i] = but(after[i], far);
        if (some(reduced[i])) count += size(reduced[i]);
    }
    return count;
}

static inline uint64_t answer(const reading *r, size_t length, unsigned count, uint8_t *area, size_t room) {
    if (room < 2 * count) return NO_ROOM;
    for (unsigned i = 0; i < r->n; i++)
        for (unsigned half = 0; half < 2; half++)
            for (uint64_t s = r->rows[i].w[half]; s; s &= s - 1) {
                *area++ = i;
                *area++ = 64 * half + __builtin_ctzll(s);
            }
    return (uint64_t)length << 8 | (uint64_t)count << 24 | (uint64_t)r->groups << 40;
}

// The product's steps: the tree, the table, its reduction.
static uint64_t c_read(const uint8_t *record, size_t length, uint8_t *area, size_t room) {
    reading r;
    set after[128];
    if (!read_tree(record, length, &r, 0)) return NO_RECORD;
    order(&r, after);
    return answer(&r, length, reduce(r.rows, after, r.n), area, room);
}
static uint64_t c_calls(const uint8_t *record, size_t length, uint8_t *area, size_t room) {
    reading r;
    set after[128];
    if (!read_by_calls(record, length, &r)) return NO_RECORD;
    order(&r, after);
    return answer(&r, length, reduce(r.rows, after, r.n), area, room);
}
// No table: the reduced orders from the tree.
static uint64_t c_tree(const uint8_t *record, size_t length, uint8_t *area, size_t room) {
    reading r;
    if (!read_tree(record, length, &r, 1)) return NO_RECORD;
    for (set s = r.ends.sinks; some(s); s = rest(s)) r.rows[low(s)] = (set){{0, 0}};
    return answer(&r, length, r.orders, area, room);
}

typedef uint64_t reader(const uint8_t *, size_t, uint8_t *, size_t);
enum { SIDES = 4, ROUNDS_AT_ONCE = 50, AREA = 8300 };
static reader *const side[SIDES] = {ordersheet_read, c_read, c_calls, c_tree};
static uint8_t area[SIDES][AREA];

// The answer of every side with this much room, which has to be the same; bytes past the room are compared too.
static uint64_t same(const uint8_t *record, size_t length, size_t room) {
    uint64_t a[SIDES];
    for (int i = 0; i < SIDES; i++) {
        memset(area[i], 0x5a, AREA);
        a[i] = side[i](record, length, area[i], room);
        if (a[i] != a[0] || memcmp(area[i], area[0], AREA)) {
            printf("the answers differ with an area of %zu bytes: %llx, %llx\nrecord ", room, (unsigned long long)a[0], (unsigned long long)a[i]);
            for (size_t k = 0; k < length; k++) printf("%02x", record[k]);
            printf("\n");
            exit(1);
        }
    }
    return a[0];
}
// The same with all the room, with as much as it takes, and one byte less.
static uint64_t same_in_any(const uint8_t *record, size_t length) {
    uint64_t a = same(record, length, ORDERSHEET_REDUCED_AREA);
    size_t takes = 2 * ordersheet_second(a);
    same(record, length, takes);
    if (takes) same(record, length, takes - 1);
    return a;
}

// many: how often one round calls each side, for times that the clock can tell.
typedef struct { uint64_t answer; int many; double best[SIDES]; } row;
static row rows[ROWS];

static double calls(const named *r, int i, int many) {
    double start = now();
    for (int k = 0; k < many; k++) {
        side[i](r->bytes, r->length, area[i], ORDERSHEET_REDUCED_AREA);
        __asm__ volatile("" ::: "memory");
    }
    return (now() - start) / many;
}

int main(int argc, char **argv) {
    int rounds = argc > 1 ? atoi(argv[1]) : 2000;
    make_records();
    for (int i = 0; i < count; i++) {
        row *r = &rows[i];
        r->answer = same_in_any(records[i].bytes, records[i].length);
        r->many = 1 + 20000 / calls(&records[i], 0, 3);
        for (int j = 0; j < SIDES; j++) r->best[j] = 1e18;
    }
    compare(same_in_any);
    // some rounds of every row, then some more: a busy moment of the machine falls on all of them
    for (int from = 0; from < rounds; from += ROUNDS_AT_ONCE)
        for (int i = 0; i < count; i++)
            for (int k = from; k < rounds && k < from + ROUNDS_AT_ONCE; k++)
                for (int j = 0; j < SIDES; j++) {
                    double t = calls(&records[i], (j + k) % SIDES, rows[i].many);
                    if (t < rows[i].best[(j + k) % SIDES]) rows[i].best[(j + k) % SIDES] = t;
                }
    printf("%-34s %5s  %-17s %8s %8s %6s %8s %6s %8s %6s\n", "record", "bytes", "answer", "rattle", "C", "ratio", "by calls", "ratio", "by tree", "ratio");
    for (int i = 0; i < count; i++) {
        const row *r = &rows[i];
        char said[40];
        if (ordersheet_number(r->answer)) snprintf(said, sizeof said, "refused %u", ordersheet_number(r->answer));
        else snprintf(said, sizeof said, "accepted %u %u", ordersheet_second(r->answer), ordersheet_third(r->answer));
        printf("%-34s %5zu  %-17s %8.0f %8.0f %6.2f %8.0f %6.2f %8.0f %6.2f\n", records[i].name, records[i].length, said, r->best[0], r->best[1],
            r->best[0] / r->best[1], r->best[2], r->best[0] / r->best[2], r->best[3], r->best[0] / r->best[3]);
    }
    return 0;
}
