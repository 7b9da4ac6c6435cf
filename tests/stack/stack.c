/* How much stack the desk's calls take: each runs on a stack of its own that was filled with a pattern before.
 *
 *     tools/build desk
 *     cc -std=c11 -Wall -Wextra -O2 -Iinclude tests/stack/stack.c target/staticlib/libdesk.a -o target/stack && target/stack
 *
 * Exit status 1: an answer is wrong, or a call took more than ORDERSHEET_STACK. */

#define _GNU_SOURCE
#include <stdio.h>
#include <string.h>
#include <ucontext.h>

#include "ordersheet.h"

static uint8_t stack[1 << 20];
static char sheet[1 << 16];
static const char *end = "\n"; /* of a line */
static size_t length;
static uint8_t record[ORDERSHEET_RECORD_AREA], reduced[ORDERSHEET_REDUCED_AREA];
static size_t bytes;
static uint64_t answer;
static ordersheet_run run;
static ordersheet_gang_plan plan;
static ordersheet_ruling ruling;
static uint16_t first, second;
static uint16_t hours[ORDERSHEET_JOBS + 1], list[2 * (ORDERSHEET_REDUCED_AREA / 2 + 1)];
static size_t hours_length, list_length;
static uint16_t count;
static ucontext_t back, there;
static size_t most;
static int wrong;

static void nothing(void) {}
static void analyse(void)
{
    answer = ordersheet_analyse((const uint8_t *)sheet, length, record, sizeof record, reduced, sizeof reduced);
}
static void preview(void) { answer = ordersheet_preview(count, list, list_length, hours, hours_length, first, second); }
static void reread(void) { answer = ordersheet_read(record, bytes, reduced, sizeof reduced); }
static void longest_run(void)
{
    run = ordersheet_longest_run(record, bytes);
    answer = run.answer;
}
static void gangs(void)
{
    plan = ordersheet_gangs(record, bytes);
    answer = plan.answer;
}
static void reason(void)
{
    ruling = ordersheet_reason(record, bytes, first, second);
    answer = ruling.answer;
}

/* The bytes of the stack that a call writes, down to the lowest. */
static size_t taken_over(void (*call)(void), int pattern)
{
    memset(stack, pattern, sizeof stack);
    getcontext(&there);
    there.uc_stack.ss_sp = stack;
    there.uc_stack.ss_size = sizeof stack;
    there.uc_link = &back;
    makecontext(&there, call, 0);
    swapcontext(&back, &there);
    size_t low = 0;
    while (low < sizeof stack && stack[low] == (uint8_t)pattern)
        low++;
    return sizeof stack - low;
}

static size_t taken(void (*call)(void))
{
    size_t one = taken_over(call, 0xa5), other = taken_over(call, 0x5a);
    return one > other ? one : other;
}

static void measure(const char *name, void (*call)(void), unsigned number)
{
    size_t size = taken(call);
    printf("%-80s answer %2u  %6zu bytes\n", name, ordersheet_number(answer), size);
    if (size > most)
        most = size;
    if (ordersheet_number(answer) != number)
        wrong = 1;
}

/* The sheet, and the same as a pair list and hours. */
static void start(unsigned jobs)
{
    length = (size_t)sprintf(sheet, "%u%s", jobs, end);
    count = (uint16_t)jobs;
    hours_length = jobs;
    list_length = 0;
    for (unsigned i = 0; i < jobs; i++) {
        hours[i] = (uint16_t)(ORDERSHEET_HOURS - i);
        length += (size_t)sprintf(sheet + length, "%u%s", ORDERSHEET_HOURS - i, end);
    }
}
static void order(unsigned u, unsigned v)
{
    list[list_length++] = (uint16_t)u;
    list[list_length++] = (uint16_t)v;
    length += (size_t)sprintf(sheet + length, "%u %u%s", u, v, end);
}

/* This order after the list. */
static void previewed(const char *name, unsigned u, unsigned v, unsigned number)
{
    char text[100];
    first = (uint16_t)u;
    second = (uint16_t)v;
    snprintf(text, sizeof text, "preview: %s", name);
    measure(text, preview, number);
}
/* The list's last order after the others. */
static void previewed_last(const char *name, unsigned number)
{
    list_length -= 2;
    previewed(name, list[list_length], list[list_length + 1], number);
    list_length += 2;
}

/* The bytes of the record area, read, for their longest run, for their gangs and for the reason between job 0 and the last job, each with this answer; a record
 * also for the reason between job 0 and a job that it does not have. */
static void offered(const char *name, unsigned number)
{
    char text[100];
    snprintf(text, sizeof text, "reading: %s", name);
    measure(text, reread, number);
    snprintf(text, sizeof text, "run: %s", name);
    measure(text, longest_run, number);
    snprintf(text, sizeof text, "gangs: %s", name);
    measure(text, gangs, number);
    first = 0;
    second = bytes > 0 ? record[0] >> 1 : 0;
    snprintf(text, sizeof text, "reason: %s", name);
    measure(text, reason, number);
    if (number != 0)
        return;
    second = ORDERSHEET_JOBS;
    snprintf(text, sizeof text, "reason: %s, no such job", name);
    measure(text, reason, 14);
}

/* The sheet, its last order previewed, and its record, in full and cut off by a byte. */
static void all(const char *name)
{
    char text[100];
    snprintf(text, sizeof text, "analysis: %s", name);
    measure(text, analyse, 0);
    if (list_length > 0)
        previewed_last(name, 0);
    bytes = ordersheet_first(answer);
    offered(name, 0);
    bytes--;
    snprintf(text, sizeof text, "%s, a byte less", name);
    offered(text, 11);
}

static size_t bits;
static void put(unsigned value, unsigned width)
{
    while (width-- > 0) {
        if (value >> width & 1)
            record[bits / 8] |= (uint8_t)(0x80 >> bits % 8);
        bits++;
    }
}

/* So many leaves of one group, then groups in groups as far as the longest record goes: no record, but all of it is looked at. */
static void nested(const char *name, unsigned leaves, unsigned side)
{
    memset(record, 0, sizeof record);
    bits = 0;
    put(127, 7);
    for (; bits + 9 <= 8 * sizeof record; side = 1 - side) {
        put(2 + side, 2);
        put(127, 7);
        for (unsigned job = 0; job < leaves && bits + 20 <= 8 * sizeof record; job++) {
            put(job, 8);
            put(ORDERSHEET_HOURS - job, 12);
        }
        leaves = 0;
    }
    bytes = sizeof record;
    offered(name, 11);
}

int main(void)
{
    printf("%-80s            %6zu bytes\n", "a call that does nothing", taken(nothing));
    start(128);
    for (unsigned u = 0; u < 64; u++)
        for (unsigned v = 64; v < 128; v++)
            order(u, v);
    all("4,096 orders, 64 jobs before 64");
    /* the first N is the last of its kind */
    start(128);
    for (unsigned u = 0; u < 64; u++)
        for (unsigned v = 64; v < 128; v++)
            if (u != 63 || v != 64)
                order(u, v);
    measure("analysis: 4,095 of them, crossed", analyse, 8);
    previewed_last("4,095 of them, crossed", 8);
    previewed("4,096 orders, a circle", 64, 0, 7);
    previewed("4,096 orders, a job before itself", 64, 64, 6);
    previewed("4,096 orders, no such job", 64, 128, 5);
    hours[127] = ORDERSHEET_HOURS + 1;
    previewed("4,096 orders, hours above the most", 63, 64, 13);
    hours_length--;
    previewed("4,096 orders, hours short", 63, 64, 12);
    count = 0;
    previewed("4,096 orders, no jobs", 63, 64, 3);
    list_length--;
    previewed("an odd list", 63, 64, 2);
    start(128);
    for (unsigned i = 0; i < 127; i += 2)
        for (unsigned j = i + 1; j < 128; j++)
            order(i, j);
    all("127 groups of two, chain and side in turn, chain first");
    start(128);
    for (unsigned i = 1; i < 127; i += 2)
        for (unsigned j = i + 1; j < 128; j++)
            order(i, j);
    all("126 groups, side first");
    start(128);
    for (unsigned i = 1; i < 128; i += 2)
        for (unsigned j = 0; j < i; j++)
            order(j, i);
    all("127 groups of two, each the first child, chain first");
    start(128);
    for (unsigned i = 2; i < 128; i += 2)
        for (unsigned j = 0; j < i; j++)
            order(j, i);
    all("127 groups of two, each the first child, side first");
    /* 16 parts of 8 jobs side by side, each 0 and 1, then 2, then 3 and the two beside, 4 before 5, then 6 and 7 */
    start(128);
    for (unsigned i = 0; i < 128; i += 8) {
        static const unsigned ordered[][2] = {{0, 2}, {1, 2}, {2, 3}, {2, 4}, {4, 5}, {3, 6}, {5, 6}, {3, 7}, {5, 7}};
        for (unsigned k = 0; k < sizeof ordered / sizeof *ordered; k++)
            order(i + ordered[k][0], i + ordered[k][1]);
    }
    all("16 parts of 8 jobs and 5 groups side by side");
    start(128);
    for (unsigned i = 1; i < 128; i++)
        order(i - 1, i);
    all("one chain of 128");
    previewed("one chain of 128, a circle", 127, 0, 7);
    start(128);
    all("128 free jobs");
    previewed("128 free jobs and an order", 0, 127, 0);
    start(1);
    all("one job");
    previewed("one job, before itself", 0, 0, 6);
    end = "\r\n";
    start(128);
    for (unsigned i = 0; i < 4096; i++)
        order(100 + i % 14, 114 + i % 14);
    printf("%-80s            %6zu bytes of sheet\n", "the longest sheet", length);
    all("the longest sheet");
    previewed("a full list", 100, 114, 4);
    nested("groups in groups, chain first", 0, 0);
    nested("groups in groups, side first", 0, 1);
    nested("the same after 127 leaves of a chain", 127, 0);
    nested("the same after 127 leaves of a side group", 127, 1);
    memset(record, 0xff, sizeof record);
    offered("ones", 11);
    bytes = 0;
    offered("no bytes", 11);
    printf("at most %zu bytes, of %d\n", most, ORDERSHEET_STACK);
    return wrong || most > ORDERSHEET_STACK;
}
