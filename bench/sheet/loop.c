// The C loop to compare with: reads a sheet by the line form in one pass, with no byte read past its end. As long as there are as many bytes left as a
// line may have, none is tested for being there. The lines of hours and the order lines have two loops each: one expects lines that end in a line feed, the
// other in a carriage return and a line feed, as the count line does. Both take either.
#include <stddef.h>
#include <stdint.h>

enum { LINE = 9 }; // bytes of the longest line

#define SURE 1
#define CAREFUL (at < len)
#define DIGIT(e, THERE) (THERE && (e = d[at] - '0') < 10)
#define NUMBER(x, THERE) do { unsigned e; if (!DIGIT(e, THERE)) goto bad; at++; x = e; \
    if (x) { if (DIGIT(e, THERE)) { x = 10 * x + e; at++; if (DIGIT(e, THERE)) { x = 10 * x + e; at++; } } } } while (0)
#define LONG(x, THERE) do { unsigned e; NUMBER(x, THERE); if (99 < x && DIGIT(e, THERE)) { x = 10 * x + e; at++; } } while (0)
#define IS(b, THERE) (THERE && d[at] == (b))
#define BYTE(b, THERE) do { if (!IS(b, THERE)) goto bad; at++; } while (0)
#define LF(THERE) do { if (__builtin_expect(IS('\n', THERE), 1)) at++; else { BYTE('\r', THERE); BYTE('\n', THERE); } } while (0)
#define CR_LF(THERE) do { if (__builtin_expect(IS('\r', THERE), 1)) { at++; BYTE('\n', THERE); } else BYTE('\n', THERE); } while (0)
#define HOURS(STOP, END, THERE) while (i < n && at < (STOP)) { \
        LONG(x, THERE); \
        END(THERE); \
        if (i < jobs) hours[i] = x; \
        i++; \
    }
#define LINES(STOP, END, THERE) while (at < (STOP)) { \
        NUMBER(x, THERE); \
        BYTE(' ', THERE); \
        NUMBER(y, THERE); \
        END(THERE); \
        if (m < room / 2) { list[2 * m] = x; list[2 * m + 1] = y; } \
        m++; \
    }

// Reads the lines of n jobs' hours that begin at `at`: the place after them, or of the fault, and whether all are there. Not inlined: the order lines
// then have the registers for themselves.
__attribute__((noinline))
static size_t hours_lines(const uint8_t *d, size_t len, size_t at, size_t n, int cr_lf, uint16_t *hours, size_t jobs, int *all) {
    size_t i = 0, stop = len < LINE ? 0 : len - LINE;
    unsigned x;
    if (cr_lf) HOURS(stop, CR_LF, SURE) else HOURS(stop, LF, SURE)
    HOURS(len, LF, CAREFUL)
bad:
    *all = i == n;
    return at;
}

// How many arcs there are plus 2^20 times one more than the count, or the place of the fault.
uint64_t c_read(const uint8_t *d, size_t len, uint16_t *hours, size_t jobs, uint16_t *list, size_t room) {
    size_t at = 0, m = 0, stop = len < LINE ? 0 : len - LINE;
    unsigned n, x, y;
    int all;
    NUMBER(n, CAREFUL);
    LF(CAREFUL);
    int cr_lf = d[at - 2] == '\r';
    at = hours_lines(d, len, at, n, cr_lf, hours, jobs, &all);
    if (!all) goto bad;
    if (cr_lf) LINES(stop, CR_LF, SURE) else LINES(stop, LF, SURE)
    LINES(len, LF, CAREFUL)
    return m + ((uint64_t)(1 + n) << 20);
bad:
    return at;
}
