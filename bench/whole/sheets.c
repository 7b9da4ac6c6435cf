// Makes the sheets that the benchmark runs on, the same each time: sheets DIR writes DIR/NAME.sheet and prints the names in the table's order.
// sheets DIR crlf writes them with carriage return and line feed at each line's end, and one more with either end.
// sheets DIR former writes them without hours lines, in the form that versions ahead of those lines read, and leaves out those that are about hours.
#include <stdint.h>
#include <stdio.h>
#include <stdlib.h>
#include <string.h>

enum { JOBS = 128, MOST = 4096 };
static const char *dir;
static int orders[MOST][2], count;
static int name_of[JOBS];          // the job that a position stands for
static char before[JOBS][JOBS];    // an order over positions
static enum { LF, CRLF, EITHER } ends;
static int former;                 // no hours lines
static int over = -1;              // the job with hours above the most, or -1

static unsigned drawn(uint64_t *s, unsigned n) {   // xorshift
    *s ^= *s << 13; *s ^= *s >> 7; *s ^= *s << 17;
    return (*s >> 33) % n;
}
// From fixed seeds. Hours have one of their own: the orders are the same with and without them.
static unsigned below(unsigned n) { static uint64_t s = 20240607; return drawn(&s, n); }
static unsigned hours(void) {   // of one to four digits, as many of each
    static uint64_t s = 19720517;
    static const unsigned from[] = {0, 10, 100, 1000, 4096};
    unsigned digits = drawn(&s, 4);
    return from[digits] + drawn(&s, from[digits + 1] - from[digits]);
}
static void in_turn(void) { for (int i = 0; i < JOBS; i++) name_of[i] = i; }
static void shuffled(void) {
    in_turn();
    for (int i = JOBS - 1; i > 0; i--) { int j = below(i + 1), x = name_of[i]; name_of[i] = name_of[j]; name_of[j] = x; }
}
static void start(void) { count = 0; in_turn(); memset(before, 0, sizeof before); }
static void add(int u, int v) { if (count < MOST) { orders[count][0] = name_of[u]; orders[count][1] = name_of[v]; count++; } }
static void mix(void) {
    for (int i = count - 1; i > 0; i--) {
        int j = below(i + 1), x = orders[i][0], y = orders[i][1];
        orders[i][0] = orders[j][0]; orders[i][1] = orders[j][1];
        orders[j][0] = x; orders[j][1] = y;
    }
}
static FILE *open_sheet(const char *name) {
    char path[4096];
    snprintf(path, sizeof path, "%s/%s.sheet", dir, name);
    FILE *f = fopen(path, "wb");
    if (!f) { perror(path); exit(1); }
    puts(name);
    return f;
}
static const char *line_end(void) { return ends == CRLF || (ends == EITHER && below(2)) ? "\r\n" : "\n"; }
static void count_and_hours(FILE *f, int jobs) {
    fprintf(f, "%d%s", jobs, line_end());
    for (int i = 0; i < jobs && !former; i++) {
        unsigned h = hours();
        fprintf(f, "%u%s", i == over ? 4096 : h, line_end());
    }
}
static void text(const char *name, int jobs, const char *t) {
    FILE *f = open_sheet(name);
    count_and_hours(f, jobs);
    for (; *t; t++) if (*t == '\n') fputs(line_end(), f); else putc(*t, f);
    fclose(f);
}
// last: what stands for the last order's line end, where it is not 0
static void sheet_ending(const char *name, int jobs, const char *last) {
    FILE *f = open_sheet(name);
    count_and_hours(f, jobs);
    for (int i = 0; i < count; i++) fprintf(f, "%d %d%s", orders[i][0], orders[i][1], i + 1 < count || !last ? line_end() : last);
    fclose(f);
}
static void sheet(const char *name, int jobs) { sheet_ending(name, jobs, 0); }

// A random series-parallel order on the positions from lo up to hi. wide: the chance in 100 that a part is of its group's kind.
static void series_parallel(int lo, int hi, int series, int wide) {
    if (hi - lo < 2) return;
    int cut = lo + 1 + (int)below(hi - lo - 1);
    if (series) for (int u = lo; u < cut; u++) for (int v = cut; v < hi; v++) before[u][v] = 1;
    series_parallel(lo, cut, (int)below(100) < wide ? series : !series, wide);
    series_parallel(cut, hi, (int)below(100) < wide ? series : !series, wide);
}
static int covers(int u, int v) {
    if (!before[u][v]) return 0;
    for (int w = 0; w < JOBS; w++) if (before[u][w] && before[w][v]) return 0;
    return 1;
}
// The covering pairs, then pairs of the order at random, some of them twice, until there are so many.
static void add_redundant(int most) {
    for (int u = 0; u < JOBS; u++) for (int v = 0; v < JOBS; v++) if (covers(u, v)) add(u, v);
    if (count == 0) exit(1);
    while (count < most) { int u = below(JOBS), v = below(JOBS); if (before[u][v]) add(u, v); }
    mix();
}

static void bipartite(void) { start(); for (int u = 0; u < 64; u++) for (int v = 64; v < 128; v++) add(u, v); }
static void line(int most) {
    start(); shuffled();
    for (int u = 0; u < JOBS; u++) for (int v = u + 1; v < JOBS; v++) before[u][v] = 1;
    add_redundant(most);
}
static void pairs(int from) { for (int u = from; u < JOBS; u += 2) add(u, u + 1); }
static void last_four(void) { add(124, 126); add(125, 126); add(125, 127); }

int main(int argc, char **argv) {
    if (argc != 2 && argc != 3) return 1;
    dir = argv[1];
    ends = LF;
    if (argc == 3) {
        if (!strcmp(argv[2], "crlf")) ends = CRLF;
        else if (!strcmp(argv[2], "former")) former = 1;
        else return 1;
    }
    text("smallest", 1, "");
    text("example", 5, "0 1\n0 2\n1 3\n2 3\n0 3\n");
    text("five", 5, "0 2\n1 2\n1 3\n0 4\n4 3\n1 4\n");
    text("five-crossed", 5, "0 2\n1 2\n1 3\n0 4\n4 3\n");
    start(); sheet("no-order", 128);
    start(); for (int u = 0; u < 127; u++) add(u, u + 1); sheet("series", 128);
    start(); for (int u = 127; u > 0; u--) add(u, u - 1); sheet("series-back", 128);
    start(); shuffled();   // one job before all the rest, one job beside all the rest, and so on: 127 + 125 + .. + 1 orders
    for (int u = 0; u < JOBS; u += 2) for (int v = u + 1; v < JOBS; v++) add(u, v);
    mix(); sheet("caterpillar", 128);
    bipartite(); sheet("bipartite", 128);
    line(4096); sheet("line", 128);
    start(); shuffled(); series_parallel(0, JOBS, 1, 85); add_redundant(4096); sheet("mixed", 128);
    start(); shuffled(); series_parallel(0, JOBS, 1, 25); add_redundant(4000); sheet("redundant", 128);
    start();   // 118 jobs before the same six; the only N is that of the last four
    for (int u = 0; u < 118; u++) for (int v = 118; v < 124; v++) add(u, v);
    last_four(); sheet("crossed", 128);
    start();   // 30 pairs, all before the same 60, which each search goes through; the only N is that of the last four
    for (int u = 0; u < 60; u += 2) { add(u, u + 1); for (int v = 60; v < 120; v++) add(u + 1, v); }
    last_four(); sheet("crossed-late", 128);
    line(4095); add(127, 0); mix(); sheet("circle", 128);
    start(); add(0, 1); add(1, 0); for (int u = 0; u < 64; u++) for (int v = u ? 64 : 66; v < 128; v++) add(u, v);
    sheet("circle-last", 128);
    bipartite(); sheet_ending("broken-last", 128, " ");
    if (!former) { over = 127; start(); sheet("hours-over", 128); over = -1; }
    if (ends == CRLF) { ends = EITHER; bipartite(); sheet("either", 128); ends = CRLF; }
    start(); pairs(0); sheet("pairs", 128);
    start(); pairs(64); sheet("pairs-last", 128);   // 64 single jobs and 32 pairs, which all have to go ahead of them
    return 0;
}
