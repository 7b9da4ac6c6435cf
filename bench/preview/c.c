// The preview in C, to compare with: a pair list and one more order into a table, and from there on the analysis of whole/whole.c. Compiled with -DPREVIEW=, its
// name, and -DNAME=, that of the analysis of a sheet, which is not called.
#include "../whole/whole.c"
#include "preview.h"

// The order into the table; 5 where it names a job not below n, 6 where it puts a job before itself, else 0.
static inline unsigned entered(set *after, unsigned n, unsigned x, unsigned y) {
    if (x >= n || y >= n) return 5;
    after[x].w[y >> 6] |= 1ull << (y & 63);
    return x == y ? 6 : 0;
}

uint64_t PREVIEW(uint16_t count, const uint16_t *list, size_t list_length, const uint16_t *hours, size_t hours_length, uint16_t first, uint16_t second) {
    // own: the first order from a job to itself, the new one being the last, or where there is none one past it
    unsigned n = count, orders = list_length / 2, own = orders + 1, any = 0, fault;
    set after[128], reduced[128];
    tree t;
    if (list_length % 2) return 2;
    if (n == 0 || n > 128) return 3;
    if (list_length >= 2 * ORDERS) return 4;
    if (hours_length != n) return 12;
    for (unsigned i = 0; i < n; i++) any |= hours[i];
    if (any > HOURS)
        for (unsigned i = 0; i < n; i++)
            if (hours[i] > HOURS) return answer(13, i, 0, 0, 0);
    memset(after, 0, n * sizeof *after);
    for (unsigned m = 0; m < orders; m++)
        if ((fault = entered(after, n, list[2 * m], list[2 * m + 1]))) {
            if (fault == 5) return answer(5, m, 0, 0, 0);
            if (own > orders) own = m;
        }
    if ((fault = entered(after, n, first, second))) {
        if (fault == 5) return answer(5, orders, 0, 0, 0);
        if (own > orders) own = orders;
    }
    if (own <= orders) return answer(6, own, 0, 0, 0);
    close(after, n);
    for (unsigned i = 0; i < n; i++)
        if (after[i].w[i >> 6] >> (i & 63) & 1) return answer(7, i, 0, 0, 0);
    t.hours = hours;
    turn(t.under, after, n);
    for (unsigned i = 0; i < n; i++) t.near[i] = join(after[i], t.under[i]);
    if (!write_record(&t, n)) return first_n(after, &t, n);
    return answer(0, t.at, reduce(reduced, after, n), t.groups, 0);
}
