// The nodes of a record in C, for longest/, gangs/ and reason/: the fields of a node, and the first of the product's steps, a reading and a list of the nodes.
#include "records.h"

// In pieces of 64 bytes: for more of them gcc takes an instruction that is slow to begin.
static inline __attribute__((always_inline)) void clear(void *bytes, size_t size) {
    size_t k = 0;
    for (; k + 64 <= size; k += 64) memset((uint8_t *)bytes + k, 0, 64);
    memset((uint8_t *)bytes + k, 0, size - k);
}
// As many bits as a leaf has, the last of them this one, with other bits ahead of them. They begin with a node: each is a leaf or has one after it, so
// in a record as many bits are there, and nothing past it is read if this bit is one of it.
static inline uint32_t node_to(const uint8_t *record, unsigned last) {
    const uint8_t *b = record + (last >> 3) - 3;
    return ((uint32_t)b[0] << 24 | (uint32_t)b[1] << 16 | (uint32_t)b[2] << 8 | b[3]) >> (~last & 7);
}
enum { FIRST = 26 };   // the last bit of a leaf that follows the count: in the fourth byte
static inline int group_in(uint32_t x) { return x >> 19 & 1; }
static inline unsigned kind_in(uint32_t x) { return x >> 18 & 1; }
static inline unsigned more_in(uint32_t x) { return x >> 11 & 127; }
static inline unsigned job_in(uint32_t x) { return x >> 12 & 127; }
static inline unsigned hours_in(uint32_t x) { return x & 4095; }

// The product's steps. First the reading, by two functions that call each other: what the product's gives, the sequences and the hours. A part's smallest job
// and the ends of its part of the reverse sequence come back in one number; `ahead` has for each job the one ahead of it there, and a place for no job.
// A group's reader has the place and the jobs so far in variables of its own. They do not stand side by side in what is read so far: gcc would load both at
// once, and that waits where they were stored one by one.
enum { NOTHING = 128, NO_PART = 0xffffff };
typedef struct { const uint8_t *bytes; unsigned n, at, groups, placed, whole; uint8_t seen[128], forward[128], ahead[129]; uint16_t hours[128]; } reading;
static inline unsigned part(unsigned least, unsigned first, unsigned last) { return least | first << 8 | last << 16; }
static inline unsigned least_of(unsigned part) { return part & 255; }
static inline unsigned first_of(unsigned part) { return part >> 8 & 255; }
static inline unsigned last_of(unsigned part) { return part >> 16; }
static inline uint32_t bits_at(const uint8_t *bytes, unsigned at) {
    const uint8_t *b = bytes + (at >> 3);
    return ((uint32_t)b[0] << 24 | (uint32_t)b[1] << 16 | (uint32_t)b[2] << 8 | b[3]) << (at & 7);
}
static inline int read_leaf(reading *s, uint32_t x, unsigned placed) {
    unsigned job = job_in(x);
    if (job >= s->n || s->seen[job]) return 0;
    s->seen[job] = 1;
    s->forward[placed] = job;
    s->hours[job] = hours_in(x);
    return 1;
}
static unsigned read_chain(reading *s, unsigned more);
static unsigned read_beside(reading *s, unsigned more);
static inline unsigned read_group(reading *s, uint32_t x, unsigned kind, unsigned at, unsigned placed) {
    if (kind_in(x) != kind || more_in(x) == 0 || s->groups + 1 == s->n) return NO_PART;
    s->groups++, s->at = at + GROUP, s->placed = placed;
    return kind == CHAIN ? read_chain(s, more_in(x)) : read_beside(s, more_in(x));
}
static unsigned read_chain(reading *s, unsigned more) {
    unsigned at = s->at, placed = s->placed, least = NOTHING, first = NOTHING, last = NOTHING;
    do {
        uint32_t x = bits_at(s->bytes, at) >> 12;
        if (group_in(x)) {
            unsigned p = read_group(s, x, SIDE, at, placed);
            if (p == NO_PART) return NO_PART;
            at = s->at, placed = s->placed;
            s->ahead[first_of(p)] = last;
            last = last_of(p);
            if (first == NOTHING) first = first_of(p);
            if (least_of(p) < least) least = least_of(p);
        } else {
            unsigned job = job_in(x);
            if (!read_leaf(s, x, placed)) return NO_PART;
            at += LEAF, placed++;
            s->ahead[job] = last;
            last = job;
            if (first == NOTHING) first = job;
            if (job < least) least = job;
        }
    } while (more--);
    s->at = at, s->placed = placed;
    return part(least, first, last);
}
// First the chains, then the leaves, from the smallest job on. The first eight bits of a leaf are its job, and those of a group are more than any.
static unsigned read_beside(reading *s, unsigned more) {
    unsigned at = s->at, placed = s->placed, rank = 0, least = NOTHING, first = NOTHING, last = NOTHING, job;
    uint32_t x = bits_at(s->bytes, at) >> 12;
    for (; group_in(x); x = bits_at(s->bytes, at) >> 12) {
        unsigned p = read_group(s, x, CHAIN, at, placed), before = rank;
        rank = rank_of(s->placed - placed, least_of(p));
        if (p == NO_PART || rank <= before) return NO_PART;
        at = s->at, placed = s->placed;
        s->ahead[first] = last_of(p);
        first = first_of(p);
        if (last == NOTHING) last = last_of(p);
        if (least_of(p) < least) least = least_of(p);
        if (more-- == 0) goto whole;
    }
    job = job_in(x);
    if (last == NOTHING) last = job;
    if (job < least) least = job;
    for (unsigned n = s->n;;) {
        if (job >= n || s->seen[job]) return NO_PART;
        s->seen[job] = 1;
        s->forward[placed++] = job;
        s->hours[job] = hours_in(x);
        at += LEAF;
        s->ahead[first] = job;
        first = job;
        if (more-- == 0) break;
        x = bits_at(s->bytes, at) >> 12;
        if (x >> 12 <= job) return NO_PART;
        job = x >> 12;
    }
whole:
    s->at = at, s->placed = placed;
    return part(least, first, last);
}
static inline unsigned read_tree(reading *s) {
    uint32_t x = bits_at(s->bytes, s->at) >> 12;
    if (group_in(x)) return read_group(s, x, kind_in(x), s->at, 0);
    s->at += LEAF, s->placed++;
    return read_leaf(s, x, 0) ? part(job_in(x), job_in(x), job_in(x)) : NO_PART;
}
// Then the nodes in a list, as the product lists them: a node is its first nine bits, without the last for a leaf. How many; 0 for no record.
static inline unsigned read_nodes(const uint8_t *record, size_t length, reading *s, uint16_t *nodes) {
    uint8_t bytes[LONGEST + 8];
    if (length == 0 || length > LONGEST) return 0;
    memcpy(bytes, record, length);
    memset(bytes + length, 0, 8);
    s->bytes = bytes, s->n = (bytes[0] >> 1) + 1, s->at = 7, s->placed = s->groups = 0;
    clear(s->seen, sizeof s->seen);
    s->whole = read_tree(s);
    if (s->whole == NO_PART) return 0;
    if (s->placed != s->n || s->at > 8 * length || 8 * length >= s->at + 8 || (uint8_t)(bytes[s->at >> 3] << (s->at & 7))) return 0;

    unsigned count = s->n + s->groups;
    for (unsigned i = 0, at = 7; i < count; i++) {
        unsigned x = bits_at(bytes, at) >> 23;
        nodes[i] = x < 256 ? x / 2 : x;
        at += x < 256 ? LEAF : GROUP;
    }
    return count;
}
