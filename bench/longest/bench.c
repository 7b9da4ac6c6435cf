// The longest run of a record (`ordersheet_longest_run`) beside the same work in C, in one process, on the same bytes. README.md says how to run it.
#include "../reader/nodes.h"
typedef ordersheet_run result;
#include "../reader/race.h"

// The run of a tree is found in the sequence of its leaves: it has the leaves of one child of each side group, and passes over the others, from the
// group's first leaf to that child and from behind that child to the group's end. A place has a leaf's job, or 256 times the place to go on at.
static inline void pass_over(uint16_t *places, unsigned begin, unsigned from, unsigned to, unsigned end) {
    if (from != begin) places[begin] = from << 8;
    if (to != end) places[to] = end << 8;
}
static inline void list(const uint16_t *places, unsigned n, ordersheet_run *r) {
    unsigned count = 0;
    clear(r->jobs, sizeof r->jobs);
    for (unsigned i = 0; i < n;) {
        unsigned place = places[i++];
        if (place >> 8) i = place >> 8;
        else r->jobs[count++] = place;
    }
    r->count = count;
}
// Whether the bits after this one, a leaf's last, fill the last byte with zeros.
static inline int filled(const uint8_t *record, size_t length, unsigned last) {
    return last >> 3 == length - 1 && (uint8_t)(record[length - 1] << (last & 7) << 1) == 0;
}

// A group that is being read. more: the children left after the one that is read. least: its smallest job. begin: its first place. rank: that of a side
// group's last chain so far. total: of its children so far, or the greatest of theirs; from, to: that child's places, and the place behind them.
typedef struct { int total; uint16_t rank; uint8_t more, least, begin, from, to; } group;

// By groups: those around the one that is read are in a list, a chain and a side group in turn. A side group has its chains first, then its leaves.
static int find_by_groups(const uint8_t *record, size_t length, ordersheet_run *r) {
    if (length < 4 || length > LONGEST) return 0;
    group open[128], *around = open;
    uint16_t places[128];
    uint8_t seen[128];
    clear(seen, sizeof seen);
    unsigned n = (record[0] >> 1) + 1, bits = 8 * length, last = FIRST, placed = 0, groups = 0;
    unsigned more, least, begin, rank, from, to, job;   // of the group that is read
    int total;
    uint32_t x = node_to(record, last);
    if (!group_in(x)) {
        places[placed++] = job_in(x), total = hours_in(x), last += LEAF;
        if (job_in(x) != 0) return 0;
        goto whole;
    }
    if (kind_in(x) == SIDE) goto side;

chain:
    more = more_in(x), total = 0, least = 128, begin = placed;
    if (more == 0 || ++groups == n) return 0;
    last += GROUP;
    for (;;) {
        if (last >= bits) return 0;
        x = node_to(record, last);
        if (group_in(x)) {
            if (kind_in(x) != SIDE) return 0;
            around->total = total, around->more = more, around->least = least, around->begin = begin;
            around++;
            goto side;
        }
        job = job_in(x);
        if (job >= n || seen[job]) return 0;
        seen[job] = 1;
        places[placed++] = job;
        last += LEAF;
        total += hours_in(x);
        if (job < least) least = job;
    chained:
        if (more-- == 0) break;
    }
    if (around == open) goto whole;
    {   // into the side group around it
        int t = total;
        unsigned l = least, b = begin;
        around--;
        total = around->total, more = around->more, least = around->least, begin = around->begin;
        from = around->from, to = around->to;
        rank = rank_of(placed - b, l);
        if (rank <= around->rank) return 0;
        if (l < least) least = l;
        if (t > total) total = t, from = b, to = placed;
        goto sided;
    }

side:
    more = more_in(x), total = -1, least = 128, begin = placed, rank = 0, from = 0, to = 0;
    if (more == 0 || ++groups == n) return 0;
    last += GROUP;
    for (;;) {
        if (last >= bits) return 0;
        x = node_to(record, last);
        if (!group_in(x)) break;
        if (kind_in(x) != CHAIN) return 0;
        around->total = total, around->more = more, around->least = least, around->begin = begin;
        around->rank = rank, around->from = from, around->to = to;
        around++;
        goto chain;
    sided:
        if (more-- == 0) goto side_end;
    }
    for (job = job_in(x), least = job < least ? job : least;;) {
        if (seen[job]) return 0;
        seen[job] = 1;
        if ((int)hours_in(x) > total) total = hours_in(x), from = placed, to = placed + 1;
        places[placed++] = job;
        last += LEAF;
        if (more-- == 0) break;
        if (last >= bits) return 0;
        x = node_to(record, last);
        if (group_in(x) || job_in(x) <= job) return 0;
        job = job_in(x);
    }
    if (job >= n) return 0;   // the greatest of them
side_end:
    pass_over(places, begin, from, to, placed);
    if (around == open) goto whole;
    around--;   // into the chain around it
    total += around->total, more = around->more, begin = around->begin;
    if (around->least < least) least = around->least;
    goto chained;

whole:
    if (placed != n || !filled(record, length, last - LEAF)) return 0;
    r->total = total;
    list(places, n, r);
    return 1;
}

// By calls: two functions that call each other. What is read so far; a run's total, below 0 for no record, and the smallest job of its tree.
typedef struct { const uint8_t *record; unsigned n, bits, last, placed, groups; uint16_t places[128]; uint8_t seen[128]; } place;
typedef struct { int total; unsigned least; } found;
static const found NONE = {-1, 0};
static found beside(place *s, unsigned more);
static inline found leaf(place *s, uint32_t x) {
    unsigned job = job_in(x);
    if (job >= s->n || s->seen[job]) return NONE;
    s->seen[job] = 1;
    s->places[s->placed++] = job;
    s->last += LEAF;
    return (found){hours_in(x), job};
}
static inline int opened(place *s, uint32_t x, unsigned kind) {
    if (more_in(x) == 0 || s->groups + 1 == s->n || kind_in(x) != kind) return 0;
    s->groups++, s->last += GROUP;
    return 1;
}
static found chain(place *s, unsigned more) {
    found all = {0, 128};
    do {
        if (s->last >= s->bits) return NONE;
        uint32_t x = node_to(s->record, s->last);
        found f = !group_in(x) ? leaf(s, x) : opened(s, x, SIDE) ? beside(s, more_in(x)) : NONE;
        if (f.total < 0) return NONE;
        all.total += f.total;
        if (f.least < all.least) all.least = f.least;
    } while (more--);
    return all;
}
static found beside(place *s, unsigned more) {
    found best = {-1, 128};
    unsigned begin = s->placed, from = 0, to = 0, rank = 0;
    do {
        unsigned here = s->placed, before = rank;
        if (s->last >= s->bits) return NONE;
        uint32_t x = node_to(s->record, s->last);
        found f = !group_in(x) ? leaf(s, x) : opened(s, x, CHAIN) ? chain(s, more_in(x)) : NONE;
        rank = rank_of(s->placed - here, f.least);
        if (f.total < 0 || rank <= before) return NONE;
        if (f.least < best.least) best.least = f.least;
        if (f.total > best.total) best.total = f.total, from = here, to = s->placed;
    } while (more--);
    pass_over(s->places, begin, from, to, s->placed);
    return best;
}
static int find_by_calls(const uint8_t *record, size_t length, ordersheet_run *r) {
    if (length == 0 || length > LONGEST) return 0;
    place s;
    s.record = record, s.n = (record[0] >> 1) + 1, s.bits = 8 * length, s.last = FIRST, s.placed = 0, s.groups = 0;
    clear(s.seen, sizeof s.seen);
    if (s.last >= s.bits) return 0;
    uint32_t x = node_to(record, s.last);
    found f = !group_in(x) ? leaf(&s, x) : !opened(&s, x, kind_in(x)) ? NONE : kind_in(x) == CHAIN ? chain(&s, more_in(x)) : beside(&s, more_in(x));
    if (f.total < 0 || s.placed != s.n || !filled(record, length, s.last - LEAF)) return 0;
    r->total = f.total;
    list(s.places, s.n, r);
    return 1;
}

// Over nodes, in the product's steps: the nodes from the last to the first, and the jobs of the run.
static int find_over_nodes(const uint8_t *record, size_t length, ordersheet_run *r) {
    reading s;
    uint16_t nodes[256];
    unsigned count = read_nodes(record, length, &s, nodes);
    if (count == 0) return 0;

    struct { unsigned total; uint8_t first, last; } runs[128], *top = runs + 128, *end;
    uint8_t next[128];
    while (count--) {
        unsigned x = nodes[count];
        if (x < 256) {
            top--;
            top->total = s.hours[x], top->first = top->last = x;
            continue;
        }
        end = top + x % 128;
        if (x < 384) for (; top < end; top++) {   // each into the one behind it
            next[top->last] = top[1].first;
            top[1].first = top->first;
            top[1].total += top->total;
        }
        else for (; top < end; top++) if (top->total >= top[1].total) top[1] = *top;
    }

    unsigned job = top->first;
    clear(r->jobs, sizeof r->jobs);
    for (count = 0; job != top->last; job = next[job]) r->jobs[count++] = job;
    r->jobs[count++] = job;
    r->total = top->total, r->count = count;
    return 1;
}

static void by_groups(const uint8_t *record, size_t length, result *r) { answer(find_by_groups, record, length, r); }
static void by_calls(const uint8_t *record, size_t length, result *r) { answer(find_by_calls, record, length, r); }
static void over_nodes(const uint8_t *record, size_t length, result *r) { answer(find_over_nodes, record, length, r); }
static void say(char *said, size_t room, const result *r) { snprintf(said, room, "accepted %u %u", (unsigned)r->total, (unsigned)r->count); }

int main(int argc, char **argv) {
    race((sides){ordersheet_longest_run, by_groups, by_calls, "groups", "calls", over_nodes, say}, argc > 1 ? atoi(argv[1]) : 2000);
    return 0;
}
