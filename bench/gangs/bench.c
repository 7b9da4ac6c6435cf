// The fewest gangs of a record (`ordersheet_gangs`) beside the same work in C, in one process, on the same bytes. README.md says how to run it.
#include "../reader/nodes.h"
typedef ordersheet_gang_plan result;
#include "../reader/race.h"

// In one pass. A job below the count has no gang before it is met, and any other has gang 0 from the start: a job that is met again and one that is not
// below the count fail the same test.
enum { NO_GANG = 255 };
static const uint8_t before[256] = {[0 ... 127] = NO_GANG};
static inline void begin(result *r, unsigned n) {
    clear(r->hours, sizeof r->hours);
    memcpy(r->gangs, before + 128 - n, 64);
    memcpy(r->gangs + 64, before + 192 - n, 64);
}
// As many bits as two leaves have, the last of them this one, with other bits ahead of them; eight bytes, the last of them this bit's.
static inline uint64_t two_to(const uint8_t *record, unsigned last) {
    uint64_t x;
    memcpy(&x, record + (last >> 3) - 7, 8);
    return __builtin_bswap64(x) >> (~last & 7);
}
enum { EIGHT = 56 };   // the first bit of the eighth byte
static inline int groups_in(uint64_t x) { return (x & (1ull << 39 | 1ull << 19)) != 0; }

// A group around the one that is read. more: the children left after the one that is read. least: its smallest job. rank: that of a side group's last chain
// so far; left: as it is ahead of the next. at, end: a chain's first gang, and the one after its last. sum: the hours of its leaves, all of gang `at`.
typedef struct { uint32_t sum; uint16_t rank; uint8_t more, least, left, at, end; } group;

// A group is longer than a byte, so the length tells how many there are beside n leaves, and where the last leaf ends. A group of k + 1 children puts k
// leaves more into the tree, so in all groups together k adds up to n - 1. With no more of either, as many leaves follow as are begun, and no leaf
// that is read is tested for being there; and a chain has one leaf more than it takes of `left`. A side group has its chains first, then its leaves. twos: two
// leaves side by side are read at once.
static inline __attribute__((always_inline)) int find(const uint8_t *record, size_t length, result *r, int twos) {
    if (length < 4 || length > LONGEST) return 0;
    unsigned n = (record[0] >> 1) + 1, bits = 8 * length - 7;
    if (bits < LEAF * n) return 0;
    unsigned groups = (bits - LEAF * n) / GROUP, filling = (bits - LEAF * n) % GROUP, left = n - 1;
    if (filling == 8 || record[length - 1] & ((1 << filling) - 1)) return 0;
    begin(r, n);

    group open[128], *around = open;
    unsigned more, least, rank, at = 0, end, sum, job, last = FIRST;   // of the group that is read; in a side group, `at` is the gang after those so far
    uint32_t x = node_to(record, last);
    if (!group_in(x)) {
        if (job_in(x) != 0) return 0;
        r->gangs[0] = 0, r->hours[0] = hours_in(x), end = 1;
        goto whole;
    }
    if (kind_in(x) == SIDE) goto side;

chain:
    more = more_in(x), least = 128, end = at + 1, sum = 0;
    if (more == 0 || more > left || groups == 0) return 0;
    left -= more, groups--, last += GROUP;
    for (;;) {
        if (twos && more >= 2 && last + LEAF >= EIGHT) do {
            uint64_t y = two_to(record, last + LEAF);
            if (groups_in(y)) break;
            unsigned first = job_in(y >> LEAF);
            job = job_in(y);
            if (r->gangs[first] != NO_GANG) return 0;
            r->gangs[first] = at;
            if (r->gangs[job] != NO_GANG) return 0;
            r->gangs[job] = at;
            sum += hours_in(y >> LEAF) + hours_in(y);
            if (first < least) least = first;
            if (job < least) least = job;
            last += 2 * LEAF, more -= 2;
        } while (more >= 2);
        x = node_to(record, last);
        if (group_in(x)) {
            if (kind_in(x) != SIDE) return 0;
            around->sum = sum, around->more = more, around->least = least, around->at = at, around->end = end;
            around++;
            goto side;
        }
        job = job_in(x);
        if (r->gangs[job] != NO_GANG) return 0;
        r->gangs[job] = at;
        sum += hours_in(x);
        if (job < least) least = job;
        last += LEAF;
    chained:
        if (more-- == 0) break;
    }
    r->hours[at] += sum;
    if (around == open) goto whole;
    around--;   // into the side group around it
    rank = rank_of(1 + around->left - left, least);
    if (rank <= around->rank) return 0;
    more = around->more, at = end;
    if (around->least < least) least = around->least;
    goto sided;

side:
    more = more_in(x), least = 128, rank = 0;
    if (more == 0 || more > left || groups == 0) return 0;
    left -= more, groups--, last += GROUP;
    for (;;) {
        x = node_to(record, last);
        if (!group_in(x)) break;
        if (kind_in(x) != CHAIN) return 0;
        around->more = more, around->least = least, around->rank = rank, around->left = left;
        around++;
        goto chain;
    sided:
        if (more-- == 0) goto side_end;
    }
    for (job = job_in(x), least = job < least ? job : least;;) {
        if (r->gangs[job] != NO_GANG) return 0;
        r->gangs[job] = at, r->hours[at] += hours_in(x), at++;
        last += LEAF;
        for (; twos && more >= 2; more -= 2) {
            uint64_t y = two_to(record, last + LEAF);
            unsigned first = job_in(y >> LEAF), second = job_in(y);
            if (groups_in(y) || first <= job || second <= first || r->gangs[first] != NO_GANG || r->gangs[second] != NO_GANG) return 0;
            r->gangs[first] = at, r->hours[at] += hours_in(y >> LEAF), at++;
            r->gangs[second] = at, r->hours[at] += hours_in(y), at++;
            last += 2 * LEAF, job = second;
        }
        if (more-- == 0) break;
        x = node_to(record, last);
        if (group_in(x) || job_in(x) <= job) return 0;
        job = job_in(x);
    }
side_end:
    end = at;
    if (around == open) goto whole;
    around--;   // into the chain around it
    sum = around->sum, more = around->more, at = around->at;
    if (around->end > end) end = around->end;
    if (around->least < least) least = around->least;
    goto chained;

whole:
    if (left != 0 || groups != 0) return 0;
    r->count = end;
    return 1;
}
static int find_by_ones(const uint8_t *record, size_t length, result *r) { return find(record, length, r, 0); }
static int find_by_twos(const uint8_t *record, size_t length, result *r) { return find(record, length, r, 1); }

// Over nodes, in the product's steps: the nodes from the first to the last, with a stack of the groups around the present one. shape: 128 for a side group,
// and its children to come after the present one. at: the first gang of the present child. end: the gang after the greatest of the group's so far. Around
// the tree stands a group that has one child more to come, so no leaf is the last of all groups.
static int find_over_nodes(const uint8_t *record, size_t length, result *r) {
    reading s;
    uint16_t nodes[256];
    unsigned count = read_nodes(record, length, &s, nodes);
    if (count == 0) return 0;

    struct { uint8_t shape, at, end; } open[128], *top = open;
    unsigned shape = 1, at = 0, end = 0;
    clear(r->hours, sizeof r->hours);
    clear(r->gangs, sizeof r->gangs);
    for (unsigned i = 0; i < count; i++) {
        unsigned x = nodes[i];
        if (x >= 256) {
            top->shape = shape, top->at = at, top->end = end;
            top++;
            shape = x - 256, end = at;
            continue;
        }
        r->gangs[x] = at;
        r->hours[at] += s.hours[x];
        if (at >= end) end = at + 1;
        while (shape % 128 == 0) {   // the group is done
            top--;
            shape = top->shape, at = top->at;
            if (top->end > end) end = top->end;
        }
        if (shape >= 128) at = end;
        shape--;
    }
    r->count = end;
    return 1;
}

static void by_ones(const uint8_t *record, size_t length, result *r) { answer(find_by_ones, record, length, r); }
static void by_twos(const uint8_t *record, size_t length, result *r) { answer(find_by_twos, record, length, r); }
static void over_nodes(const uint8_t *record, size_t length, result *r) { answer(find_over_nodes, record, length, r); }
static void say(char *said, size_t room, const result *r) { snprintf(said, room, "accepted %u", (unsigned)r->count); }

int main(int argc, char **argv) {
    race((sides){ordersheet_gangs, by_ones, by_twos, "ones", "twos", over_nodes, say}, argc > 1 ? atoi(argv[1]) : 2000);
    return 0;
}
