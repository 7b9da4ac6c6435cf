// The reason between two jobs of a record (`ordersheet_reason`) beside the same work in C, in one process, on the same bytes. README.md says how to run it.
#include "../reader/nodes.h"
typedef ordersheet_ruling result;

// The pairs that are asked of a record. Timed: its first and last leaf, both ways; two neighbours in the middle, and the last two; four pairs drawn, of
// different jobs. Then one job twice, and job numbers that are not below the count, in either place and in both. All depend on the bytes alone.
#define QUESTIONS 16
enum { TIMED = 8, NO_JOB = 14 };
typedef struct { uint16_t first, second; } pair;
static pair pairs[QUESTIONS], asked;
static inline void ask(unsigned k) { asked = pairs[k]; }
static void choose(const uint8_t *record, size_t length) {
    reading s;
    uint16_t nodes[256];
    uint64_t seed = 88172645463325252ull;
    if (read_nodes(record, length, &s, nodes) == 0) {   // no record: jobs by their numbers
        s.n = length ? (record[0] >> 1) + 1 : 1;
        for (unsigned i = 0; i < s.n; i++) s.forward[i] = i;
    }
    for (size_t k = 0; k < length; k++) seed = (seed ^ record[k]) * 0x100000001b3ull;
    seed |= 1;
    unsigned n = s.n, middle = n / 2;
    pairs[0] = (pair){s.forward[0], s.forward[n - 1]};
    pairs[1] = (pair){s.forward[n - 1], s.forward[0]};
    pairs[2] = (pair){s.forward[middle], s.forward[middle ? middle - 1 : 0]};
    pairs[3] = (pair){s.forward[n > 1 ? n - 2 : 0], s.forward[n - 1]};
    for (unsigned k = 4; k < QUESTIONS; k++) {
        unsigned i = drawn(&seed, n), j = n > 1 ? drawn(&seed, n - 1) : 0;
        pairs[k] = (pair){s.forward[i], s.forward[n > 1 && j >= i ? j + 1 : j]};
    }
    pairs[8].second = pairs[8].first;
    pairs[9].first = pairs[9].second;
    pairs[10].first = n;
    pairs[11].second = n;
    pairs[12] = (pair){n, n};
    pairs[13].first = n + drawn(&seed, 65536 - n);
    pairs[14].second = 256 * (1 + drawn(&seed, 255)) + pairs[14].second;   // a job's number in its last eight bits
    pairs[15] = (pair){128 + drawn(&seed, 128), 65535};
}
#include "../reader/race.h"

// In one pass. `leaf` has for each job the position of its leaf, and a place for no job. A job below the count has 0 before it is met: of two jobs or more a
// group has position 0. Any other has 255 from the start. So a job that is met again and one that is not below the count fail the same test; and without that
// test either leaves a job below the count at 0.
static const uint8_t before[256] = {[128 ... 255] = 255};
static inline void begin(uint8_t *leaf, unsigned n) {
    memcpy(leaf, before + 128 - n, 64);
    memcpy(leaf + 64, before + 192 - n, 64);
    leaf[128] = 0;
}
static inline int all_met(const uint8_t *leaf) {
    uint8_t least = 255;
    for (unsigned k = 0; k < 128; k++) least = leaf[k] < least ? leaf[k] : least;
    return least != 0;
}
// Eight bytes, the first of them this bit's, from this bit on: if three leaves in a row begin here, their jobs, and nothing past them.
static inline uint64_t three_from(const uint8_t *record, unsigned first) {
    uint64_t x;
    memcpy(&x, record + (first >> 3), 8);
    return __builtin_bswap64(x) << (first & 7);
}
static inline int groups_in(uint64_t x) { return (x & (1ull << 63 | 1ull << 43 | 1ull << 23)) != 0; }
static inline int opens(uint64_t x) { return x >> 63; }
static inline int side_in(uint64_t x) { return x >> 62 & 1; }
static inline unsigned job_at(uint64_t x, unsigned shift) { return x >> shift & 127; }

// The group that is read, and those around it. more: the children left after the one that is read. least: its smallest job. rank: that of a side group's
// last chain so far. Of the group that is read these three are in variables. left: as it is ahead of a side group's next chain. at: its position. had: the groups
// that were left with it.
typedef struct { uint16_t rank; uint8_t more, least, left, at, had; } group;

// As in gangs/, the length tells how many groups there are beside n leaves, and where the last leaf ends, and no leaf that is read is tested for being there.
// The first group that ends after both jobs are met in it is the lowest over both. A side group has its chains first, then its leaves. threes: three leaves side
// by side are read at once, and a job that is met again or is not below the count is found at the end.
static inline __attribute__((always_inline)) int find(const uint8_t *record, size_t length, result *r, int threes) {
    if (length < 4 || length > LONGEST) return 0;
    unsigned n = (record[0] >> 1) + 1, bits = 8 * length - 7;
    if (bits < LEAF * n) return 0;
    unsigned groups = (bits - LEAF * n) / GROUP, filling = (bits - LEAF * n) % GROUP, left = n - 1;
    if (filling == 8 || record[length - 1] & ((1 << filling) - 1)) return 0;
    uint8_t leaf[129];
    const uint8_t *one = leaf + 128, *other = one;   // those of the two jobs, until their group is found
    begin(leaf, n);
    if (asked.first < n && asked.second < n && asked.first != asked.second) one = leaf + asked.first, other = leaf + asked.second;

    group open[128], *g = open;
    unsigned more, least, rank, job, last = FIRST, node = 0;
    uint64_t x = (uint64_t)node_to(record, last) << 44;
    if (!opens(x)) {
        if (job_at(x, 56) != 0) return 0;
        goto whole;
    }
    if (side_in(x)) goto side;

chain:
    more = job_at(x, 55), least = 128;
    if (more == 0 || more > left || groups == 0) return 0;
    g->at = node, g->had = groups;
    left -= more, groups--, node++, last += GROUP;
    for (;;) {
        while (threes && more >= 2) {
            x = three_from(record, last - (LEAF - 1));
            if (groups_in(x)) goto chain_child;
            unsigned a = job_at(x, 56), b = job_at(x, 36), c = job_at(x, 16);
            leaf[a] = node, leaf[b] = node + 1, leaf[c] = node + 2;
            a = a < b ? a : b;
            a = a < c ? a : c;
            least = a < least ? a : least;
            last += 3 * LEAF, node += 3;
            if (more == 2) goto chain_end;
            more -= 3;
        }
        x = (uint64_t)node_to(record, last) << 44;
    chain_child:
        if (opens(x)) {
            if (!side_in(x)) return 0;
            g->more = more, g->least = least;
            g++;
            goto side;
        }
        job = job_at(x, 56);
        if (!threes && leaf[job]) return 0;
        leaf[job] = node++;
        if (job < least) least = job;
        last += LEAF;
    chained:
        if (more-- == 0) break;
    }
chain_end:
    if (*one > g->at && *other > g->at) {
        r->rule = *one < *other ? 2 : 3, r->position = g->at, r->jobs = node - g->at - (g->had - groups);
        one = other = leaf + 128;
    }
    if (g == open) goto whole;
    g--;   // into the side group around it
    rank = rank_of(1 + g->left - left, least);
    if (rank <= g->rank) return 0;
    more = g->more;
    if (g->least < least) least = g->least;
    goto sided;

side:
    more = job_at(x, 55), least = 128, rank = 0;
    if (more == 0 || more > left || groups == 0) return 0;
    g->at = node, g->had = groups;
    left -= more, groups--, node++, last += GROUP;
    for (;;) {
        x = (uint64_t)node_to(record, last) << 44;
        if (!opens(x)) break;
        if (side_in(x)) return 0;
        g->more = more, g->least = least, g->rank = rank, g->left = left;
        g++;
        goto chain;
    sided:
        if (more-- == 0) goto side_end;
    }
    for (job = job_at(x, 56), least = job < least ? job : least;;) {
        if (!threes && leaf[job]) return 0;
        leaf[job] = node++;
        last += LEAF;
        for (; threes && more >= 3; more -= 3) {
            x = three_from(record, last - (LEAF - 1));
            unsigned a = job_at(x, 56), b = job_at(x, 36), c = job_at(x, 16);
            leaf[a] = node, leaf[b] = node + 1, leaf[c] = node + 2;
            if (groups_in(x) || (int)((a - job - 1) | (b - a - 1) | (c - b - 1)) < 0) return 0;
            last += 3 * LEAF, node += 3, job = c;
        }
        if (more-- == 0) break;
        x = (uint64_t)node_to(record, last) << 44;
        if (opens(x) || job_at(x, 56) <= job) return 0;
        job = job_at(x, 56);
    }
side_end:
    if (*one > g->at && *other > g->at) {
        r->rule = 4, r->position = g->at, r->jobs = node - g->at - (g->had - groups);
        one = other = leaf + 128;
    }
    if (g == open) goto whole;
    g--;   // into the chain around it
    more = g->more;
    if (g->least < least) least = g->least;
    goto chained;

whole:
    if (left != 0 || groups != 0) return 0;
    if (threes && n > 1 && !all_met(leaf)) return 0;
    if (asked.first >= n || asked.second >= n) *r = (result){NO_JOB, 0, 0, 0};
    else if (asked.first == asked.second) r->rule = 1, r->position = n > 1 ? leaf[asked.first] : 0, r->jobs = 1;
    return 1;
}
static int find_by_ones(const uint8_t *record, size_t length, result *r) { return find(record, length, r, 0); }
static int find_by_threes(const uint8_t *record, size_t length, result *r) { return find(record, length, r, 1); }

// Over nodes, in the product's steps: the nodes from the last to the first. height: the trees in a row from this node on. low: those of the row from the last
// tree that has one of the two jobs on. mark: which of the jobs were met, and in which order. The node at which both are met and one tree has both is the
// lowest over both. Then the leaves under it: trees to come, from it on.
enum { MET_FIRST = 1, MET_SECOND = 2, MET_BOTH = 3, FIRST_LATER = 4 };
static int find_over_nodes(const uint8_t *record, size_t length, result *r) {
    reading s;
    uint16_t nodes[256];
    unsigned count = read_nodes(record, length, &s, nodes);
    if (count == 0) return 0;
    unsigned first = asked.first, second = asked.second;
    if (first >= s.n || second >= s.n) {
        *r = (result){NO_JOB, 0, 0, 0};
        return 1;
    }

    unsigned i = count, height = 0, low = 0, mark = 0, x;
    do {
        x = nodes[--i];
        if (x >= 256) {
            height -= x % 128;
            if (height < low) low = height;
        } else {
            height++;
            if (x == first || x == second) {
                if (mark == 0) low = height;
                if (x == first) mark |= mark == 0 ? MET_FIRST | FIRST_LATER : MET_FIRST;
                if (x == second) mark |= MET_SECOND;
            }
        }
    } while ((mark & MET_BOTH) != MET_BOTH || height > low);
    r->position = i;
    r->rule = x < 256 ? 1 : x >= 384 ? 4 : mark & FIRST_LATER ? 3 : 2;

    unsigned jobs = 0, trees = 1;
    for (; trees; i++) {
        x = nodes[i];
        if (x >= 256) trees += x % 128;
        else trees--, jobs++;
    }
    r->jobs = jobs;
    return 1;
}

static void by_ones(const uint8_t *record, size_t length, result *r) { answer(find_by_ones, record, length, r); }
static void by_threes(const uint8_t *record, size_t length, result *r) { answer(find_by_threes, record, length, r); }
static void over_nodes(const uint8_t *record, size_t length, result *r) { answer(find_over_nodes, record, length, r); }
static result product(const uint8_t *record, size_t length) { return ordersheet_reason(record, length, asked.first, asked.second); }
static void say(char *said, size_t room, const result *r) {
    snprintf(said, room, "accepted %u %u %u", (unsigned)r->rule, (unsigned)r->position, (unsigned)r->jobs);
}

// All pairs of a record's jobs, each by a call of its own; and their rules alone, from one reading: the reduced orders, followed on.
static void rules_of_all(const uint8_t *record, size_t length, unsigned n, uint8_t *rules) {
    set after[128] = {{{0, 0}}};
    uint64_t read = ordersheet_read(record, length, area, sizeof area);
    for (unsigned i = 0; i < ordersheet_second(read); i++) after[area[2 * i]] = or_(after[area[2 * i]], only(area[2 * i + 1]));
    for (unsigned k = 0; k < n; k++)
        for (unsigned u = 0; u < n; u++) if (has(after[u], k)) after[u] = or_(after[u], after[k]);
    for (unsigned u = 0; u < n; u++)
        for (unsigned v = 0; v < n; v++) rules[n * u + v] = u == v ? 1 : has(after[u], v) ? 2 : has(after[v], u) ? 3 : 4;
}
static double all_by(const named *r, unsigned n, program *c) {
    double start = now();
    for (unsigned u = 0; u < n; u++)
        for (unsigned v = 0; v < n; v++) {
            result found;
            asked = (pair){u, v};
            if (c) c(r->bytes, r->length, &found);
            else found = product(r->bytes, r->length);
            KEPT(found);
        }
    return now() - start;
}
static double all_at_once(const named *r, unsigned n) {
    static uint8_t rules[128 * 128];
    double start = now();
    rules_of_all(r->bytes, r->length, n, rules);
    KEPT(rules);
    return now() - start;
}
static void same_of_all(const named *r, unsigned n) {
    static uint8_t rules[128 * 128];
    rules_of_all(r->bytes, r->length, n, rules);
    for (unsigned u = 0; u < n; u++)
        for (unsigned v = 0; v < n; v++) {
            result p, c[3];
            asked = (pair){u, v};
            p = product(r->bytes, r->length);
            by_ones(r->bytes, r->length, &c[0]);
            by_threes(r->bytes, r->length, &c[1]);
            over_nodes(r->bytes, r->length, &c[2]);
            for (int i = 0; i < 3; i++) if (memcmp(&c[i], &p, sizeof p)) differ("the results differ", r->bytes, r->length);
            if (p.answer || p.rule != rules[n * u + v]) differ("the reduced orders say otherwise", r->bytes, r->length);
        }
}
static void all_pairs(int rounds) {
    printf("\n%-34s %5s %9s %9s %6s %9s %6s %9s %6s\n", "all pairs, microseconds", "pairs", "product", "C", "ratio", "nodes", "ratio", "at once", "times");
    for (int i = 0; i < shapes; i++) {
        const named *r = &records[i];
        unsigned n = (r->bytes[0] >> 1) + 1;
        if (n != ORDERSHEET_JOBS) continue;
        program *const c[] = {NULL, by_ones, by_threes, over_nodes};
        double best[5] = {1e18, 1e18, 1e18, 1e18, 1e18};
        same_of_all(r, n);
        for (int k = 0; k < rounds; k++)
            for (int j = 0; j < 5; j++) {
                double t = j < 4 ? all_by(r, n, c[j]) : all_at_once(r, n);
                if (t < best[j]) best[j] = t;
            }
        double one = best[2] < best[1] ? best[2] : best[1];
        printf("%-34s %5u %9.0f %9.0f %6.2f %9.0f %6.2f %9.1f %6.0f\n", r->name, n * n, best[0] / 1000, one / 1000, best[0] / one, best[3] / 1000,
            best[0] / best[3], best[4] / 1000, best[0] / best[4]);
    }
}

int main(int argc, char **argv) {
    int rounds = argc > 1 ? atoi(argv[1]) : 2000;
    race((sides){product, by_ones, by_threes, "ones", "threes", over_nodes, say}, rounds);
    all_pairs(1 + rounds / 100);
    return 0;
}
