/* Holds the numbers of ordersheet.h, their names and texts, what it says of the areas, and previews, longest runs, gangs and reasons worked by hand, to the library.
 * Prints a line for each that is wrong, then 'N passed, M failed'. */

#define _DEFAULT_SOURCE
#include <inttypes.h>
#include <stdio.h>
#include <string.h>
#include <sys/mman.h>

#include "ordersheet.h"

/* The calls as DESK.md declares them. */
static uint64_t (*const analyse)(const uint8_t *, size_t, uint8_t *, size_t, uint8_t *, size_t) = ordersheet_analyse;
static uint64_t (*const preview)(uint16_t, const uint16_t *, size_t, const uint16_t *, size_t, uint16_t, uint16_t) = ordersheet_preview;
static uint64_t (*const reread)(const uint8_t *, size_t, uint8_t *, size_t) = ordersheet_read;
static ordersheet_run (*const longest_run)(const uint8_t *, size_t) = ordersheet_longest_run;
static ordersheet_gang_plan (*const gang_plan)(const uint8_t *, size_t) = ordersheet_gangs;
static ordersheet_ruling (*const reason)(const uint8_t *, size_t, uint16_t, uint16_t) = ordersheet_reason;

enum { BEHIND = 64, FILL = 0xa5 }; /* bytes behind the longest area that stay as well, and what all are filled with */
static char sheet[ORDERSHEET_SHEET + (1 << 16)];
static const char *end = "\n"; /* of a line */
static unsigned most = ORDERSHEET_HOURS; /* hours of job 0; each job has one less than the job ahead of it */
static size_t length;
static uint8_t record[ORDERSHEET_RECORD_AREA + BEHIND], reduced[ORDERSHEET_REDUCED_AREA + BEHIND], again[sizeof reduced];
static unsigned passed, failed;

static void check(const char *name, const char *what, int holds)
{
    if (holds) {
        passed++;
    } else {
        failed++;
        printf("%s: %s\n", name, what);
    }
}

static void start(unsigned jobs)
{
    length = (size_t)sprintf(sheet, "%u%s", jobs, end);
    for (unsigned i = 0; i < jobs; i++)
        length += (size_t)sprintf(sheet + length, "%u%s", most - i, end);
}
static void order(unsigned u, unsigned v) { length += (size_t)sprintf(sheet + length, "%u %u%s", u, v, end); }

static uint64_t packed(uint64_t number, uint64_t first, uint64_t second, uint64_t third, uint64_t fourth)
{
    return number + (first << 8) + (second << 24) + (third << 40) + (fourth << 48);
}

/* The answer is this, by the header's functions and as one number. */
static void is(const char *name, uint64_t answer, unsigned number, unsigned first, unsigned second, unsigned third, unsigned fourth)
{
    char what[200];
    snprintf(what, sizeof what, "the answer is %016" PRIx64 " (%u %u %u %u %u), expected %u %u %u %u %u", answer, ordersheet_number(answer),
             ordersheet_first(answer), ordersheet_second(answer), ordersheet_third(answer), ordersheet_fourth(answer), number, first, second,
             third, fourth);
    check(name, what,
          answer == packed(number, first, second, third, fourth) && ordersheet_number(answer) == number && ordersheet_first(answer) == first &&
              ordersheet_second(answer) == second && ordersheet_third(answer) == third && ordersheet_fourth(answer) == fourth);
}

static void fill(void)
{
    memset(record, FILL, sizeof record);
    memset(reduced, FILL, sizeof reduced);
    memset(again, FILL, sizeof again);
}

static int filled(const uint8_t *area, size_t from, size_t size)
{
    while (from < size && area[from] == FILL)
        from++;
    return from >= size;
}

/* The bytes have this total and these jobs as their longest run, with zeros after them. */
static void runs(const char *name, const uint8_t *bytes, size_t size, unsigned total, unsigned count, const uint8_t *jobs)
{
    char what[100];
    ordersheet_run run = longest_run(bytes, size);
    is(name, run.answer, 0, 0, 0, 0, 0);
    snprintf(what, sizeof what, "the run has %" PRIu64 " hours and %" PRIu64 " jobs, expected %u and %u", run.total, run.count, total, count);
    check(name, what, run.total == total && run.count == count);
    check(name, "the run has other jobs", memcmp(run.jobs, jobs, count) == 0);
    unsigned after = count;
    while (after < ORDERSHEET_JOBS && run.jobs[after] == 0)
        after++;
    check(name, "the jobs of the run have no zeros after them", after == ORDERSHEET_JOBS);
}

/* The bytes are refused with 11, and the run has nothing else. */
static void no_run(const char *name, const uint8_t *bytes, size_t size)
{
    static const ordersheet_run none = {11, 0, 0, {0}};
    ordersheet_run run = longest_run(bytes, size);
    is(name, run.answer, 11, 0, 0, 0, 0);
    check(name, "refused, and the run is not all 0", memcmp(&run, &none, sizeof run) == 0);
}

/* The bytes have so many gangs, with these hours, and so many jobs, in these gangs; zeros after both. */
static void parted(const char *name, const uint8_t *bytes, size_t size, unsigned count, const uint32_t *hours, unsigned jobs, const uint8_t *gangs)
{
    char what[100];
    ordersheet_gang_plan plan = gang_plan(bytes, size), expected = {0, count, {0}, {0}};
    is(name, plan.answer, 0, 0, 0, 0, 0);
    snprintf(what, sizeof what, "there are %" PRIu64 " gangs, expected %u", plan.count, count);
    check(name, what, plan.count == count);
    memcpy(expected.hours, hours, count * sizeof *hours);
    memcpy(expected.gangs, gangs, jobs);
    check(name, "the gangs have other hours, or no zeros after them", memcmp(plan.hours, expected.hours, sizeof plan.hours) == 0);
    check(name, "the jobs have other gangs, or no zeros after them", memcmp(plan.gangs, expected.gangs, sizeof plan.gangs) == 0);
}

/* The bytes are refused with 11, and there are no gangs. */
static void no_gangs(const char *name, const uint8_t *bytes, size_t size)
{
    static const ordersheet_gang_plan none = {11, 0, {0}, {0}};
    ordersheet_gang_plan plan = gang_plan(bytes, size);
    is(name, plan.answer, 11, 0, 0, 0, 0);
    check(name, "refused, and the gangs are not all 0", memcmp(&plan, &none, sizeof plan) == 0);
}

/* The reason between two jobs of the bytes is this one. */
static void rules(const char *name, const uint8_t *bytes, size_t size, unsigned first, unsigned second, unsigned rule, unsigned position, unsigned jobs)
{
    char what[200];
    ordersheet_ruling ruling = reason(bytes, size, (uint16_t)first, (uint16_t)second);
    is(name, ruling.answer, 0, 0, 0, 0, 0);
    snprintf(what, sizeof what, "jobs %u and %u: rule %" PRIu64 ", position %" PRIu64 ", %" PRIu64 " jobs, expected %u, %u, %u", first, second, ruling.rule,
             ruling.position, ruling.jobs, rule, position, jobs);
    check(name, what, ruling.rule == rule && ruling.position == position && ruling.jobs == jobs);
}

/* The two jobs of the bytes are refused so, and there is no reason. */
static void no_reason(const char *name, const uint8_t *bytes, size_t size, unsigned first, unsigned second, unsigned number)
{
    const ordersheet_ruling none = {number, 0, 0, 0};
    ordersheet_ruling ruling = reason(bytes, size, (uint16_t)first, (uint16_t)second);
    is(name, ruling.answer, number, 0, 0, 0, 0);
    check(name, "refused, and the reason is not all 0", memcmp(&ruling, &none, sizeof ruling) == 0);
}

/* The bytes are refused with 11 by each question, whatever jobs it names. */
static void no_answer(const char *name, const uint8_t *bytes, size_t size)
{
    no_run(name, bytes, size);
    no_gangs(name, bytes, size);
    no_reason(name, bytes, size, 0, 0, 11);
    no_reason(name, bytes, size, 0, 1, 11);
    no_reason(name, bytes, size, ORDERSHEET_JOBS, 0, 11);
    no_reason(name, bytes, size, 0, UINT16_MAX, 11);
}

/* The sheet is refused so with areas of these lengths, and neither area is written to. */
static void refused(const char *name, size_t record_room, size_t reduced_room, unsigned number, unsigned first, unsigned second, unsigned third,
                    unsigned fourth)
{
    fill();
    is(name, analyse((const uint8_t *)sheet, length, record, record_room, reduced, reduced_room), number, first, second, third, fourth);
    check(name, "refused, and an area changed", filled(record, 0, sizeof record) && filled(reduced, 0, sizeof reduced));
}

/* The sheet is accepted so with areas just long enough; the bytes behind stay. Reading the record gives the same answer and orders. */
static void accepted(const char *name, unsigned bytes, unsigned orders, unsigned groups)
{
    fill();
    is(name, analyse((const uint8_t *)sheet, length, record, bytes, reduced, 2 * orders), 0, bytes, orders, groups, 0);
    check(name, "bytes behind the record or the orders changed", filled(record, bytes, sizeof record) && filled(reduced, 2 * orders, sizeof reduced));
    is(name, reread(record, bytes, again, 2 * orders), 0, bytes, orders, groups, 0);
    check(name, "read back, the orders are others", memcmp(reduced, again, sizeof again) == 0);
}

/* The first bytes of the record area are refused so as a record, and the other area is not written to. */
static void unread(const char *name, size_t bytes, size_t reduced_room, unsigned number)
{
    memset(again, FILL, sizeof again);
    is(name, reread(record, bytes, again, reduced_room), number, 0, 0, 0, 0);
    check(name, "refused, and the area changed", filled(again, 0, sizeof again));
    if (number == 11)
        no_answer(name, record, bytes);
}

static void packing(void)
{
    is("an answer of different bytes", 0xdef0bc789a345612, 0x12, 0x3456, 0x789a, 0xbc, 0xdef0);
    is("an answer of ones", UINT64_MAX, 0xff, 0xffff, 0xffff, 0xff, 0xffff);
    start(5);
    order(0, 1);
    order(0, 2);
    order(1, 3);
    order(2, 3);
    order(0, 3);
    accepted("DESK.md's sheet", 17, 4, 3);
    start(128);
    order(124, 126);
    order(125, 126);
    order(125, 127);
    refused("a crossed sheet", ORDERSHEET_RECORD_AREA, ORDERSHEET_REDUCED_AREA, 8, 124, 125, 126, 127);
}

static void most_jobs(void)
{
    start(ORDERSHEET_JOBS);
    accepted("ORDERSHEET_JOBS", 322, 0, 1);
    start(ORDERSHEET_JOBS + 1);
    refused("ORDERSHEET_JOBS + 1", ORDERSHEET_RECORD_AREA, ORDERSHEET_REDUCED_AREA, 3, 0, 0, 0, 0);
}

/* The hours are those of the record, bit by bit: 4,095 of job 0 and 4,094 of job 1, which is before it. */
static void most_hours(void)
{
    static const uint8_t bytes[] = {0x03, 0x01, 0x01, 0xff, 0xe0, 0x0f, 0xff};
    start(2);
    order(1, 0);
    accepted("ORDERSHEET_HOURS", sizeof bytes, 1, 1);
    check("ORDERSHEET_HOURS", "the record has other bytes", memcmp(record, bytes, sizeof bytes) == 0);
    most++;
    start(ORDERSHEET_JOBS);
    order(ORDERSHEET_JOBS, 0);
    refused("ORDERSHEET_HOURS + 1", ORDERSHEET_RECORD_AREA, ORDERSHEET_REDUCED_AREA, 13, 0, 0, 0, 0);
    most = 9999;
    start(2);
    refused("hours of 9,999", ORDERSHEET_RECORD_AREA, ORDERSHEET_REDUCED_AREA, 13, 0, 0, 0, 0);
    most = ORDERSHEET_HOURS;
    length = (size_t)sprintf(sheet, "3\n0\n%u\n%u\n0 3\n", most, most + 1);
    refused("ORDERSHEET_HOURS + 1, the last job", ORDERSHEET_RECORD_AREA, ORDERSHEET_REDUCED_AREA, 13, 2, 0, 0, 0);
    length = (size_t)sprintf(sheet, "1\n10000\n");
    refused("hours of five digits", ORDERSHEET_RECORD_AREA, ORDERSHEET_REDUCED_AREA, 2, 6, 0, 0, 0);
}

static void longest_sheet(void)
{
    memset(sheet, 'x', sizeof sheet);
    length = ORDERSHEET_SHEET;
    refused("ORDERSHEET_SHEET, no sheet", ORDERSHEET_RECORD_AREA, ORDERSHEET_REDUCED_AREA, 2, 0, 0, 0, 0);
    length = ORDERSHEET_SHEET + 1;
    refused("ORDERSHEET_SHEET + 1, no sheet", ORDERSHEET_RECORD_AREA, ORDERSHEET_REDUCED_AREA, 1, 0, 0, 0, 0);
    end = "\r\n";
    start(128);
    for (unsigned i = 0; i < 4096; i++)
        order(100 + i / 14 % 14, 114 + i % 14);
    end = "\n";
    check("ORDERSHEET_SHEET", "the longest sheet has another length", length == ORDERSHEET_SHEET);
    accepted("the longest sheet", 326, 196, 4);
    length = ORDERSHEET_SHEET - 1;
    refused("the longest sheet but one byte", ORDERSHEET_RECORD_AREA, ORDERSHEET_REDUCED_AREA, 2, ORDERSHEET_SHEET - 1, 0, 0, 0);
    length = ORDERSHEET_SHEET + 1;
    refused("the longest sheet and one byte", ORDERSHEET_RECORD_AREA, ORDERSHEET_REDUCED_AREA, 1, 0, 0, 0, 0);
}

/* The deepest tree: 127 groups of two, chains and side groups in turn. */
static void longest_record(void)
{
    start(128);
    for (unsigned u = 0; u < 128; u += 2)
        for (unsigned v = u + 1; v < 128; v++)
            order(u, v);
    accepted("ORDERSHEET_RECORD_AREA", ORDERSHEET_RECORD_AREA, 127, 127);
    unread("the longest record but one byte", ORDERSHEET_RECORD_AREA - 1, ORDERSHEET_REDUCED_AREA, 11);
    record[ORDERSHEET_RECORD_AREA] = 0;
    unread("the longest record and one byte", ORDERSHEET_RECORD_AREA + 1, ORDERSHEET_REDUCED_AREA, 11);
    unsigned taken = 0;
    for (int byte = 0; byte < 256; byte++) {
        memset(record, byte, sizeof record);
        taken += ordersheet_number(reread(record, ORDERSHEET_RECORD_AREA + 1, again, ORDERSHEET_REDUCED_AREA)) != 11;
    }
    check("ORDERSHEET_RECORD_AREA + 1", "so many equal bytes are taken as a record", taken == 0);
    refused("ORDERSHEET_RECORD_AREA - 1", ORDERSHEET_RECORD_AREA - 1, ORDERSHEET_REDUCED_AREA, 9, 0, 0, 0, 0);
    refused("both areas one byte short", ORDERSHEET_RECORD_AREA - 1, 2 * 127 - 1, 9, 0, 0, 0, 0);
}

/* The most reduced orders: 64 jobs, each before 64 others. */
static void most_orders(void)
{
    start(128);
    for (unsigned u = 0; u < 64; u++)
        for (unsigned v = 64; v < 128; v++)
            order(u, v);
    accepted("ORDERSHEET_REDUCED_AREA", 325, ORDERSHEET_REDUCED_AREA / 2, 3);
    check("ORDERSHEET_REDUCED_AREA", "odd", ORDERSHEET_REDUCED_AREA % 2 == 0);
    unread("ORDERSHEET_REDUCED_AREA - 1, from a record", 325, ORDERSHEET_REDUCED_AREA - 1, 10);
    unread("no record, and no area", 324, 0, 11);
    refused("ORDERSHEET_REDUCED_AREA - 1", ORDERSHEET_RECORD_AREA, ORDERSHEET_REDUCED_AREA - 1, 10, 0, 0, 0, 0);
}

/* Records without hours: one job, two in a chain, and 128 side by side. */
static void older(void)
{
    memset(record, 0, sizeof record);
    unread("one job without hours", 2, ORDERSHEET_REDUCED_AREA, 11);
    memcpy(record, "\x03\x01\x01\x00", 4);
    unread("two jobs without hours", 4, ORDERSHEET_REDUCED_AREA, 11);
    memcpy(record, "\xff\xff", 2);
    for (unsigned job = 0; job < 128; job++)
        record[2 + job] = (uint8_t)job;
    unread("128 jobs without hours", 130, ORDERSHEET_REDUCED_AREA, 11);
}

/* The sheet's record into the record area, and a copy of that; its bytes. */
static uint8_t before[sizeof record];
static size_t recorded(const char *name, const char *text)
{
    fill();
    uint64_t answer = analyse((const uint8_t *)text, strlen(text), record, ORDERSHEET_RECORD_AREA, reduced, ORDERSHEET_REDUCED_AREA);
    check(name, "the sheet is refused", ordersheet_number(answer) == 0);
    memcpy(before, record, sizeof record);
    return ordersheet_first(answer);
}
static void kept(const char *name) { check(name, "the record changed", memcmp(record, before, sizeof record) == 0); }

/* The sheet's record has this longest run, and stays as it is. */
static void sheet_runs(const char *name, const char *text, unsigned total, unsigned count, const uint8_t *jobs)
{
    size_t size = recorded(name, text);
    runs(name, record, size, total, count, jobs);
    kept(name);
}

/* The sheet's record has these gangs, and stays as it is. */
static void sheet_gangs(const char *name, const char *text, unsigned count, const uint32_t *hours, unsigned jobs, const uint8_t *gangs)
{
    size_t size = recorded(name, text);
    parted(name, record, size, count, hours, jobs, gangs);
    kept(name);
}
#define JOBS(...) sizeof((const uint8_t[]){__VA_ARGS__}), (const uint8_t[]){__VA_ARGS__}
#define HOURS(...) sizeof((const uint32_t[]){__VA_ARGS__}) / sizeof(uint32_t), (const uint32_t[]){__VA_ARGS__}

/* DESK.md's record, and a byte. */
static const uint8_t hull[] = {0x09, 0x81, 0x81, 0x00, 0x01, 0x46, 0x04, 0x04, 0x04, 0x00, 0x80, 0x40, 0x0c, 0x06, 0x01, 0x00, 0x20, 0x00};

/* DESK.md's record with a byte more and cut off, and the bytes that DESK.md names as no record. */
static void no_records(void)
{
    no_answer("DESK.md's record and a byte", hull, sizeof hull);
    for (size_t size = 0; size < sizeof hull - 1; size++)
        no_answer("DESK.md's record cut off", hull, size);
    static const uint8_t others[][8] = {{0x03, 0x81, 0x01}, {0x03, 0x01}, {0x03, 0x01, 0x01}};
    no_answer("a side group the wrong way round", others[0], 7);
    no_answer("job 0 twice", others[1], 7);
    no_answer("a byte too many", others[2], 8);
}

/* The header's name is this number, and the library gives it. */
static void named(const char *name, unsigned value, unsigned number, uint64_t given)
{
    char what[100];
    snprintf(what, sizeof what, "it is %u, expected %u, and the library gives %" PRIu64, value, number, given);
    check(name, what, value == number && given == value);
}
#define NAMED(name, number, answer) named(#name, name, number, ordersheet_number(answer))

/* What the library answers to a text, in areas of these lengths or long enough. */
static uint64_t answer_in(const char *text, size_t record_room, size_t reduced_room)
{
    return analyse((const uint8_t *)text, strlen(text), record, record_room, reduced, reduced_room);
}
static uint64_t answer_to(const char *text) { return answer_in(text, ORDERSHEET_RECORD_AREA, ORDERSHEET_REDUCED_AREA); }

static void names(void)
{
    static const uint16_t two[] = {0, 1};
    NAMED(ORDERSHEET_ACCEPTED, 0, answer_to("2\n0\n0\n0 1\n"));
    NAMED(ORDERSHEET_ACCEPTED, 0, reread(hull, sizeof hull - 1, reduced, ORDERSHEET_REDUCED_AREA));
    NAMED(ORDERSHEET_ACCEPTED, 0, preview(2, NULL, 0, two, 2, 0, 1));
    memset(sheet, '1', sizeof sheet);
    NAMED(ORDERSHEET_REFUSED_SHEET_LENGTH, 1, analyse((const uint8_t *)sheet, ORDERSHEET_SHEET + 1, record, ORDERSHEET_RECORD_AREA, reduced, ORDERSHEET_REDUCED_AREA));
    NAMED(ORDERSHEET_REFUSED_LINE_FORM, 2, answer_to("2\n0\n0\n0  1\n"));
    NAMED(ORDERSHEET_REFUSED_LINE_FORM, 2, preview(2, two, 1, two, 2, 0, 1));
    NAMED(ORDERSHEET_REFUSED_JOB_COUNT, 3, answer_to("0\n"));
    start(2);
    for (unsigned i = 0; i <= ORDERSHEET_REDUCED_AREA / 2; i++)
        order(0, 1);
    NAMED(ORDERSHEET_REFUSED_ORDER_COUNT, 4, answer_to(sheet));
    NAMED(ORDERSHEET_REFUSED_ORDER_JOB, 5, answer_to("2\n0\n0\n0 2\n"));
    NAMED(ORDERSHEET_REFUSED_ORDER_ITSELF, 6, answer_to("2\n0\n0\n1 1\n"));
    NAMED(ORDERSHEET_REFUSED_CIRCLE, 7, answer_to("2\n0\n0\n0 1\n1 0\n"));
    NAMED(ORDERSHEET_REFUSED_CROSSED, 8, answer_to("4\n0\n0\n0\n0\n0 2\n1 2\n1 3\n"));
    NAMED(ORDERSHEET_REFUSED_RECORD_AREA, 9, answer_in("2\n0\n0\n0 1\n", 6, ORDERSHEET_REDUCED_AREA));
    NAMED(ORDERSHEET_REFUSED_REDUCED_AREA, 10, answer_in("2\n0\n0\n0 1\n", ORDERSHEET_RECORD_AREA, 1));
    NAMED(ORDERSHEET_REFUSED_REDUCED_AREA, 10, reread(hull, sizeof hull - 1, reduced, 7));
    NAMED(ORDERSHEET_REFUSED_RECORD, 11, reread(hull, sizeof hull, reduced, ORDERSHEET_REDUCED_AREA));
    NAMED(ORDERSHEET_REFUSED_RECORD, 11, longest_run(hull, sizeof hull).answer);
    NAMED(ORDERSHEET_REFUSED_RECORD, 11, gang_plan(hull, sizeof hull).answer);
    NAMED(ORDERSHEET_REFUSED_RECORD, 11, reason(hull, sizeof hull, 0, 0).answer);
    NAMED(ORDERSHEET_REFUSED_HOURS_LENGTH, 12, preview(2, NULL, 0, two, 1, 0, 1));
    NAMED(ORDERSHEET_REFUSED_HOURS, 13, answer_to("2\n0\n4096\n0 1\n"));
    NAMED(ORDERSHEET_REFUSED_JOB, 14, reason(hull, sizeof hull - 1, 0, 5).answer);

    named("ORDERSHEET_RULE_SAME", ORDERSHEET_RULE_SAME, 1, reason(hull, sizeof hull - 1, 3, 3).rule);
    named("ORDERSHEET_RULE_BEFORE", ORDERSHEET_RULE_BEFORE, 2, reason(hull, sizeof hull - 1, 0, 3).rule);
    named("ORDERSHEET_RULE_AFTER", ORDERSHEET_RULE_AFTER, 3, reason(hull, sizeof hull - 1, 3, 0).rule);
    named("ORDERSHEET_RULE_FREE", ORDERSHEET_RULE_FREE, 4, reason(hull, sizeof hull - 1, 1, 2).rule);
}

/* The text of a number names this bound. */
static void bound(const char *name, unsigned number, unsigned most_of_it)
{
    char digits[20];
    snprintf(digits, sizeof digits, " %u", most_of_it);
    check(name, "the text of its refusal names another bound", strstr(ordersheet_text(number), digits) != NULL);
}

/* The text of a number that neither client prints nor a program of DESK.md. */
static void worded(unsigned number, const char *words)
{
    check(words, "the text of its number is another", strcmp(ordersheet_text(number), words) == 0);
}

/* Each number has a text of its own, and all that are none have one more. */
static void texts(void)
{
    enum { LAST = ORDERSHEET_REFUSED_JOB };
    const char *none = ordersheet_text(LAST + 1);
    check("ordersheet_text", "empty", *none != '\0');
    for (unsigned number = 0; number < 256; number++) {
        const char *text = ordersheet_text(number);
        char name[40];
        snprintf(name, sizeof name, "ordersheet_text(%u)", number);
        check(name, "empty, or that of no number, or the other way round", *text != '\0' && (strcmp(text, none) == 0) == (number > LAST));
        for (unsigned other = 0; other < number && number <= LAST; other++)
            check(name, "that of another number", strcmp(text, ordersheet_text(other)) != 0);
        check(name, "another with places", strcmp(text, ordersheet_text(packed(number, 0x3456, 0x789a, 0xbc, 0xdef0))) == 0);
    }
    bound("ORDERSHEET_SHEET", ORDERSHEET_REFUSED_SHEET_LENGTH, ORDERSHEET_SHEET);
    bound("ORDERSHEET_JOBS", ORDERSHEET_REFUSED_JOB_COUNT, ORDERSHEET_JOBS);
    bound("ORDERSHEET_REDUCED_AREA", ORDERSHEET_REFUSED_ORDER_COUNT, ORDERSHEET_REDUCED_AREA / 2);
    bound("ORDERSHEET_HOURS", ORDERSHEET_REFUSED_HOURS, ORDERSHEET_HOURS);
    worded(ORDERSHEET_ACCEPTED, "accepted");
    worded(ORDERSHEET_REFUSED_RECORD_AREA, "the record area is shorter than the record");
    worded(ORDERSHEET_REFUSED_REDUCED_AREA, "the area for reduced orders is shorter than two bytes for each");
    worded(ORDERSHEET_REFUSED_RECORD, "the bytes are not the record of any plain tree");
}

/* The count of records of every count: free jobs, and jobs in a chain. */
static void job_counts(void)
{
    char name[40];
    check("ordersheet_jobs, DESK.md's record", "other than 5", ordersheet_jobs(hull) == 5);
    for (unsigned jobs = 1; jobs <= ORDERSHEET_JOBS; jobs++)
        for (unsigned chain = 0; chain < 2; chain++) {
            start(jobs);
            for (unsigned job = 1; job < jobs && chain; job++)
                order(job - 1, job);
            snprintf(name, sizeof name, "ordersheet_jobs, %u jobs", jobs);
            check(name, "another count", ordersheet_number(answer_to(sheet)) == 0 && ordersheet_jobs(record) == jobs);
        }
}

static void longest_runs(void)
{
    check("ordersheet_run", "a run has not 152 bytes", sizeof(ordersheet_run) == 152);

    /* 40 + 16 + 24 hours */
    runs("a run, DESK.md's record", hull, sizeof hull - 1, 80, JOBS(0, 1, 3));
    sheet_runs("a run, one job of no hours", "1\n0\n", 0, JOBS(0));
    sheet_runs("a run, one job", "1\n4095\n", 4095, JOBS(0));
    sheet_runs("a run, job 1 before job 0", "2\n4095\n4094\n1 0\n", 8189, JOBS(1, 0));
    sheet_runs("a run, no hours in a chain", "3\n3\n0\n4\n0 1\n1 2\n", 7, JOBS(0, 1, 2));
    sheet_runs("a run, no hours in a side group", "3\n0\n0\n0\n", 0, JOBS(0));
    sheet_runs("a run, the second child", "3\n4\n6\n5\n", 6, JOBS(1));
    sheet_runs("a run, the second child as great as the third", "3\n4\n6\n6\n", 6, JOBS(1));
    sheet_runs("a run, a chain as great as a smaller job after it", "3\n7\n3\n4\n1 2\n", 7, JOBS(1, 2));
    sheet_runs("a run, a chain less than a smaller job after it", "3\n8\n3\n4\n1 2\n", 8, JOBS(0));
    sheet_runs("a run, a chain as great as a job after it", "3\n3\n7\n4\n0 2\n", 7, JOBS(0, 2));
    sheet_runs("a run, a chain less than a job after it", "3\n3\n8\n4\n0 2\n", 8, JOBS(1));
    sheet_runs("a run, two chains as great, of as many jobs", "4\n4\n3\n4\n3\n3 0\n1 2\n", 7, JOBS(3, 0));
    /* 3 before 4, 5 and 6, four jobs: 3 + 4 hours; after it 0 before 1 before 2: 2 + 2 + 3, then 2 + 2 + 4 */
    sheet_runs("a run, as great as one of more jobs after it", "7\n2\n2\n3\n3\n1\n4\n4\n3 4\n3 5\n3 6\n0 1\n1 2\n", 7, JOBS(3, 5));
    sheet_runs("a run, less than one of more jobs after it", "7\n2\n2\n4\n3\n1\n4\n4\n3 4\n3 5\n3 6\n0 1\n1 2\n", 8, JOBS(0, 1, 2));
    /* 5 before 3 and 0; 3 before 1, and 0 free of both; then 2; 4 beside all of it: 9 + (2 + 6) + 1 = 18, and 7 of job 0, 17 of job 4 */
    sheet_runs("a run, groups in groups", "6\n7\n6\n1\n2\n17\n9\n5 3\n5 0\n3 1\n1 2\n0 2\n", 18, JOBS(5, 3, 1, 2));
    /* and with 8 and 9 hours of job 0: as many as 3 and 1 have, which are ahead of it, and more: 9 + 9 + 1 = 19 */
    sheet_runs("a run, groups in groups, as great", "6\n8\n6\n1\n2\n17\n9\n5 3\n5 0\n3 1\n1 2\n0 2\n", 18, JOBS(5, 3, 1, 2));
    sheet_runs("a run, groups in groups, greater", "6\n9\n6\n1\n2\n17\n9\n5 3\n5 0\n3 1\n1 2\n0 2\n", 19, JOBS(5, 0, 2));

    uint8_t jobs[ORDERSHEET_JOBS];
    length = (size_t)sprintf(sheet, "%d\n", ORDERSHEET_JOBS);
    for (unsigned job = 0; job < ORDERSHEET_JOBS; job++) {
        jobs[job] = (uint8_t)(ORDERSHEET_JOBS - 1 - job);
        length += (size_t)sprintf(sheet + length, "%d\n", ORDERSHEET_HOURS);
    }
    for (unsigned job = 1; job < ORDERSHEET_JOBS; job++)
        order(job, job - 1);
    sheet_runs("a run, the greatest total", sheet, ORDERSHEET_JOBS * ORDERSHEET_HOURS, ORDERSHEET_JOBS, jobs);

    /* The deepest tree: jobs 0, 2, 4 to 126 and 127, job i of 4095 - i hours: 64 * 4095 - 2 * (0 + 1 + .. + 63) + 3968. */
    start(ORDERSHEET_JOBS);
    for (unsigned u = 0; u < 128; u += 2) {
        jobs[u / 2] = (uint8_t)u;
        for (unsigned v = u + 1; v < 128; v++)
            order(u, v);
    }
    jobs[64] = 127;
    sheet_runs("a run, the deepest tree", sheet, 262016, 65, jobs);
}

/* The sheet's record has so many gangs, job i of `most` - i hours in the gang that the list has. */
static void sheet_listed(const char *name, unsigned count, const uint8_t *gangs)
{
    uint32_t hours[ORDERSHEET_JOBS] = {0};
    for (unsigned job = 0; job < ORDERSHEET_JOBS; job++)
        hours[gangs[job]] += most - job;
    sheet_gangs(name, sheet, count, hours, ORDERSHEET_JOBS, gangs);
}

/* The sheet of halves of halves, from job 127 down: of n jobs, 128 at first, n / 2 + 1 in a chain; beside them, with fewer jobs and all the smaller ones, one job
 * before all that are left, which are halved again, down to one. So there are 127 to 63 in a chain, then 62 before all smaller ones; 61 to 30, then 29; 28 to 14,
 * then 13; 12 to 6, then 5; 4 to 2, then 1, then 0. The list has how many chains are ahead of each job. */
static void halves(uint8_t *ahead)
{
    static const unsigned before_all[] = {62, 29, 13, 5, 1, 0};
    unsigned chain = 0;
    start(ORDERSHEET_JOBS);
    for (unsigned job = ORDERSHEET_JOBS; job-- > 0;) {
        if (job == before_all[chain]) {
            chain += job > 0;
            for (unsigned smaller = 0; smaller < job; smaller++)
                order(job, smaller);
        } else if (job - 1 != before_all[chain]) {
            order(job, job - 1);
        }
        ahead[job] = (uint8_t)chain;
    }
}

static void fewest_gangs(void)
{
    check("ordersheet_gang_plan", "a plan has not 656 bytes", sizeof(ordersheet_gang_plan) == 656);

    /* 40 + 16 + 24, 16 and 8 hours */
    parted("gangs, DESK.md's record", hull, sizeof hull - 1, HOURS(80, 16, 8), JOBS(0, 0, 1, 0, 2));

    sheet_gangs("gangs, one job of no hours", "1\n0\n", HOURS(0), JOBS(0));
    sheet_gangs("gangs, one job", "1\n4095\n", HOURS(4095), JOBS(0));
    sheet_gangs("gangs, job 1 before job 0", "2\n4095\n4094\n1 0\n", HOURS(8189), JOBS(0, 0));
    sheet_gangs("gangs, a chain", "3\n3\n0\n4\n0 1\n1 2\n", HOURS(7), JOBS(0, 0, 0));
    sheet_gangs("gangs, a side group", "3\n4\n6\n5\n", HOURS(4, 6, 5), JOBS(0, 1, 2));
    sheet_gangs("gangs, no hours in a side group", "3\n0\n0\n0\n", HOURS(0, 0, 0), JOBS(0, 1, 2));
    sheet_gangs("gangs, a chain ahead of a smaller job", "3\n7\n3\n5\n1 2\n", HOURS(8, 7), JOBS(1, 0, 0));
    sheet_gangs("gangs, a chain ahead of a job", "3\n3\n8\n4\n0 2\n", HOURS(7, 8), JOBS(0, 1, 0));
    /* 2 before 3 before 4, then 0 before 1: 4 + 8 + 16 and 1 + 2 hours; then 3 before 0, and 1 before 2: 8 + 1 and 2 + 4 */
    sheet_gangs("gangs, a chain ahead of a shorter one", "5\n1\n2\n4\n8\n16\n0 1\n2 3\n3 4\n", HOURS(28, 3), JOBS(1, 1, 0, 0, 0));
    sheet_gangs("gangs, a chain ahead of one of as many jobs", "4\n1\n2\n4\n8\n1 2\n3 0\n", HOURS(9, 6), JOBS(0, 1, 1, 0));
    /* 0 and 1 before 2, 3 and 4: 1 + 4, 2 + 8 and 16 hours; then 0, 1 and 2 before 3 and 4: 1 + 8, 2 + 16 and 4 */
    sheet_gangs("gangs, two before three", "5\n1\n2\n4\n8\n16\n0 2\n0 3\n0 4\n1 2\n1 3\n1 4\n", HOURS(5, 10, 16), JOBS(0, 1, 0, 1, 2));
    sheet_gangs("gangs, three before two", "5\n1\n2\n4\n8\n16\n0 3\n0 4\n1 3\n1 4\n2 3\n2 4\n", HOURS(9, 18, 4), JOBS(0, 1, 2, 0, 1));
    /* 1 and 2 before 3, of two gangs; beside it 0, and beside both 4: 2 + 8, 4, 1 and 16 hours */
    sheet_gangs("gangs, a chain that ends narrow", "5\n1\n2\n4\n8\n16\n1 3\n2 3\n", HOURS(10, 4, 1, 16), JOBS(2, 0, 1, 0, 3));
    /* 4 before 5 before 6 before 7; beside it 1 and 2 before 3, of two gangs, the first numbered 1; beside both 0: 16 + 32 + 64 + 128, 2 + 8, 4 and 1 hours */
    sheet_gangs("gangs, a chain that ends narrow, after another", "8\n1\n2\n4\n8\n16\n32\n64\n128\n1 3\n2 3\n4 5\n5 6\n6 7\n", HOURS(240, 10, 4, 1),
                JOBS(3, 1, 2, 1, 0, 0, 0, 0));
    /* 5 before 3 and 0; 3 before 1, and 0 free of both; then 2; 4 beside all of it: 9 + (2 + 6) + 1, 7 and 17 hours */
    sheet_gangs("gangs, groups in groups", "6\n7\n6\n1\n2\n17\n9\n5 3\n5 0\n3 1\n1 2\n0 2\n", HOURS(18, 7, 17), JOBS(1, 0, 0, 0, 2, 0));

    static const uint8_t zeros[ORDERSHEET_JOBS];
    length = (size_t)sprintf(sheet, "%d\n", ORDERSHEET_JOBS);
    for (unsigned job = 0; job < ORDERSHEET_JOBS; job++)
        length += (size_t)sprintf(sheet + length, "%d\n", ORDERSHEET_HOURS);
    for (unsigned job = 1; job < ORDERSHEET_JOBS; job++)
        order(job, job - 1);
    sheet_gangs("gangs, the most hours", sheet, HOURS(ORDERSHEET_JOBS * ORDERSHEET_HOURS), ORDERSHEET_JOBS, zeros);

    uint8_t gangs[ORDERSHEET_JOBS];
    start(ORDERSHEET_JOBS);
    for (unsigned job = 0; job < ORDERSHEET_JOBS; job++)
        gangs[job] = (uint8_t)job;
    sheet_listed("gangs, the most", 128, gangs);

    /* jobs 0 to 63, and again from gang 0 on jobs 64 to 127 */
    start(ORDERSHEET_JOBS);
    for (unsigned job = 0; job < ORDERSHEET_JOBS; job++)
        gangs[job] = (uint8_t)(job % 64);
    for (unsigned u = 0; u < 64; u++)
        for (unsigned v = 64; v < 128; v++)
            order(u, v);
    sheet_listed("gangs, 64 jobs before 64", 64, gangs);

    /* The deepest trees. Each even job before all later ones: it is in gang 0, as job 127 is; the odd jobs stand after the groups beside them, 125 in gang 1, 123 in
     * gang 2, 1 in gang 63. */
    start(ORDERSHEET_JOBS);
    for (unsigned u = 0; u < 128; u++) {
        gangs[u] = (uint8_t)(u % 2 == 0 ? 0 : (127 - u) / 2);
        for (unsigned v = u + 1; v < 128 && u % 2 == 0; v++)
            order(u, v);
    }
    sheet_listed("gangs, the deepest tree", 64, gangs);
    /* Each odd job before all later ones: it is in gang 0, as job 126 is, but 127, beside 126, in gang 1; 124 in gang 2, 122 in gang 3, 0 in gang 64. */
    start(ORDERSHEET_JOBS);
    for (unsigned u = 0; u < 128; u++) {
        gangs[u] = (uint8_t)(u == 127 ? 1 : u % 2 == 1 || u == 126 ? 0 : (128 - u) / 2);
        for (unsigned v = u + 1; v < 128 && u % 2 == 1; v++)
            order(u, v);
    }
    sheet_listed("gangs, the deepest tree from a side group on", 65, gangs);
    /* Each odd job after all smaller ones: it is in gang 0, as job 0 is; 2 in gang 1, 4 in gang 2. */
    start(ORDERSHEET_JOBS);
    for (unsigned v = 0; v < 128; v++) {
        gangs[v] = (uint8_t)(v % 2 == 1 ? 0 : v / 2);
        for (unsigned u = 0; u < v && v % 2 == 1; u++)
            order(u, v);
    }
    sheet_listed("gangs, the deepest tree by first children", 64, gangs);

    /* Each chain has one gang, and the next number is that of the job after it and of all that this job is before. */
    halves(gangs);
    sheet_listed("gangs, halves of halves", 6, gangs);
}

/* The sheet's record has this reason between two jobs, the other way round the same with rules 2 and 3 exchanged, and stays as it is. */
static void sheet_rules(const char *name, const char *text, unsigned first, unsigned second, unsigned rule, unsigned position, unsigned jobs)
{
    size_t size = recorded(name, text);
    rules(name, record, size, first, second, rule, position, jobs);
    rules(name, record, size, second, first, rule == 2 ? 3 : rule == 3 ? 2 : rule, position, jobs);
    kept(name);
}

/* A job that is not below the sheet's count, as the first, as the second and as both: 14, and the record stays as it is. */
static void sheet_lacks(const char *name, const char *text, unsigned job)
{
    size_t size = recorded(name, text);
    no_reason(name, record, size, job, 0, 14);
    no_reason(name, record, size, 0, job, 14);
    no_reason(name, record, size, job, job, 14);
    kept(name);
}

/* All pairs of jobs of the sheet's record, a tree as deep as 128 jobs go: each group is a job and the next group. The lowest group over two jobs is that of the
 * smaller, which has all larger ones, or of the larger, which has all smaller ones: a chain if the job is odd, or if it is even. Chains have the job first, or
 * last; side groups have it last, since the next group has more jobs. With jobs first, ahead of a group are the groups of all smaller jobs, and the leaves of
 * those that have chains; a side group's leaf comes after the leaves and groups of all larger jobs, 2 * (127 - u) - 1 nodes, but 126 and 127, the last two, stand
 * by number. With jobs last, all groups are ahead of the leaves. */
static void deepest(const char *name, int job_first, unsigned odd)
{
    unsigned right = 0;
    size_t size = recorded(name, sheet);
    for (unsigned u = 0; u < ORDERSHEET_JOBS; u++)
        for (unsigned v = 0; v < ORDERSHEET_JOBS; v++) {
            ordersheet_ruling ruling = reason(record, size, (uint16_t)u, (uint16_t)v), expected = {0, 1, 0, 1};
            unsigned job = (u < v) == job_first ? u : v, last = ORDERSHEET_JOBS - 1;
            unsigned group = job_first ? job + (job + 1 - odd) / 2 : last - job;
            if (u != v) {
                expected.rule = job % 2 != odd ? 4 : u < v ? 2 : 3;
                expected.position = group;
                expected.jobs = job_first ? ORDERSHEET_JOBS - job : job + 1;
            } else if (!job_first) {
                expected.position = last + u;
            } else if (u == last) {
                expected.position = 191; /* 127 groups, and the leaves of 63 chains and of job 126 */
            } else {
                expected.position = group + (u % 2 == odd || u == last - 1 ? 1 : 2 * (last - u));
            }
            right += memcmp(&ruling, &expected, sizeof ruling) == 0;
        }
    check(name, "some pairs of jobs have another reason", right == ORDERSHEET_JOBS * ORDERSHEET_JOBS);
    kept(name);
    sheet_lacks(name, sheet, ORDERSHEET_JOBS);
}

static void reasons(void)
{
    check("ordersheet_ruling", "a ruling has not 32 bytes", sizeof(ordersheet_ruling) == 32);

    /* DESK.md's record: a side group at 0, in it a chain at 1 and job 4; in the chain job 0, a side group at 3 of jobs 1 and 2, and job 3. */
    static const uint8_t expected[5][5][3] = {
        {{1, 2, 1}, {2, 1, 4}, {2, 1, 4}, {2, 1, 4}, {4, 0, 5}},
        {{3, 1, 4}, {1, 4, 1}, {4, 3, 2}, {2, 1, 4}, {4, 0, 5}},
        {{3, 1, 4}, {4, 3, 2}, {1, 5, 1}, {2, 1, 4}, {4, 0, 5}},
        {{3, 1, 4}, {3, 1, 4}, {3, 1, 4}, {1, 6, 1}, {4, 0, 5}},
        {{4, 0, 5}, {4, 0, 5}, {4, 0, 5}, {4, 0, 5}, {1, 7, 1}},
    };
    for (unsigned u = 0; u < 5; u++)
        for (unsigned v = 0; v < 5; v++)
            rules("a reason, DESK.md's record", hull, sizeof hull - 1, u, v, expected[u][v][0], expected[u][v][1], expected[u][v][2]);
    /* at the count, past it, past all jobs, and with a job's number in the last eight bits */
    static const uint16_t no_jobs[] = {5, 6, 127, 128, 255, 256, 257, 256 + 5, 1 << 15, UINT16_MAX};
    for (unsigned i = 0; i < sizeof no_jobs / sizeof *no_jobs; i++)
        for (unsigned job = 0; job < 5; job++) {
            no_reason("a reason, no first job", hull, sizeof hull - 1, no_jobs[i], job, 14);
            no_reason("a reason, no second job", hull, sizeof hull - 1, job, no_jobs[i], 14);
            no_reason("a reason, neither job", hull, sizeof hull - 1, no_jobs[i], no_jobs[9 - i], 14);
            no_reason("a reason, no record and no job", hull, sizeof hull - 2, no_jobs[i], job, 11);
            no_reason("a reason, no record and no second job", hull, sizeof hull, job, no_jobs[i], 11);
        }

    sheet_rules("a reason, one job", "1\n0\n", 0, 0, 1, 0, 1);
    sheet_lacks("a reason, one job and another", "1\n4095\n", 1);
    sheet_rules("a reason, job 1 before job 0", "2\n4095\n4094\n1 0\n", 1, 0, 2, 0, 2);
    sheet_rules("a reason, job 1 before job 0", "2\n4095\n4094\n1 0\n", 1, 1, 1, 1, 1);
    sheet_lacks("a reason, two jobs and another", "2\n4095\n4094\n1 0\n", 2);
    sheet_rules("a reason, a chain", "3\n3\n0\n4\n2 0\n0 1\n", 2, 1, 2, 0, 3);
    sheet_rules("a reason, neighbours in a chain", "3\n3\n0\n4\n2 0\n0 1\n", 0, 1, 2, 0, 3);
    sheet_rules("a reason, a side group", "3\n4\n6\n5\n", 0, 2, 4, 0, 3);
    sheet_rules("a reason, the last leaf", "3\n4\n6\n5\n", 2, 2, 1, 3, 1);
    sheet_lacks("a reason, three jobs and another", "3\n4\n6\n5\n", 3);
    /* A side group at 0, in it a chain at 1 and job 4; in that chain job 5, a side group at 3 and job 2; in that one a chain at 4 of jobs 3 and 1, and job 0. */
    static const char groups[] = "6\n7\n6\n1\n2\n17\n9\n5 3\n5 0\n3 1\n1 2\n0 2\n";
    sheet_rules("a reason, the innermost chain", groups, 3, 1, 2, 4, 2);
    sheet_rules("a reason, a job beside a chain", groups, 0, 1, 4, 3, 3);
    sheet_rules("a reason, the same", groups, 3, 0, 4, 3, 3);
    sheet_rules("a reason, the outer chain", groups, 5, 2, 2, 1, 5);
    sheet_rules("a reason, into groups", groups, 5, 1, 2, 1, 5);
    sheet_rules("a reason, out of groups", groups, 1, 2, 2, 1, 5);
    sheet_rules("a reason, beside all", groups, 3, 4, 4, 0, 6);
    sheet_rules("a reason, a leaf in groups", groups, 1, 1, 1, 6, 1);
    sheet_rules("a reason, the leaf after a chain", groups, 0, 0, 1, 7, 1);
    sheet_rules("a reason, the leaf after groups", groups, 4, 4, 1, 9, 1);

    start(ORDERSHEET_JOBS);
    for (unsigned job = 1; job < ORDERSHEET_JOBS; job++)
        order(job, job - 1);
    sheet_rules("a reason, the longest chain", sheet, 127, 0, 2, 0, 128);
    sheet_rules("a reason, neighbours in the longest chain", sheet, 64, 63, 2, 0, 128);
    sheet_rules("a reason, the last leaf of the longest chain", sheet, 0, 0, 1, 128, 1);
    start(ORDERSHEET_JOBS);
    sheet_rules("a reason, the widest side group", sheet, 0, 127, 4, 0, 128);
    sheet_rules("a reason, the last leaf of the widest side group", sheet, 127, 127, 1, 128, 1);
    sheet_lacks("a reason, 128 jobs and another", sheet, ORDERSHEET_JOBS);

    /* A chain at 0 of two side groups, at 1 and at 66. */
    start(ORDERSHEET_JOBS);
    for (unsigned u = 0; u < 64; u++)
        for (unsigned v = 64; v < 128; v++)
            order(u, v);
    sheet_rules("a reason, 64 jobs before 64", sheet, 0, 127, 2, 0, 128);
    sheet_rules("a reason, neighbours of the 64 and 64", sheet, 63, 64, 2, 0, 128);
    sheet_rules("a reason, two of the first 64", sheet, 0, 63, 4, 1, 64);
    sheet_rules("a reason, two of the last 64", sheet, 127, 64, 4, 66, 64);
    sheet_rules("a reason, the last leaf of 64 and 64", sheet, 127, 127, 1, 130, 1);

    /* The deepest trees. Each even job before all later ones. */
    start(ORDERSHEET_JOBS);
    for (unsigned u = 0; u < 128; u += 2)
        for (unsigned v = u + 1; v < 128; v++)
            order(u, v);
    deepest("a reason, the deepest tree", 1, 0);
    /* Each odd job before all later ones. */
    start(ORDERSHEET_JOBS);
    for (unsigned u = 1; u < 128; u += 2)
        for (unsigned v = u + 1; v < 128; v++)
            order(u, v);
    deepest("a reason, the deepest tree from a side group on", 1, 1);
    /* Each odd job after all smaller ones: all groups stand ahead of the leaves. */
    start(ORDERSHEET_JOBS);
    for (unsigned v = 1; v < 128; v += 2)
        for (unsigned u = 0; u < v; u++)
            order(u, v);
    deepest("a reason, the deepest tree by first children", 0, 1);

    /* A side group at 0, in it a chain at 1 of 65 jobs and one at 67; in this job 62 and a side group at 69, in it a chain at 70 of 32 jobs and one at 103; and so on
     * side groups at 105, 124 and 135, in the last a chain at 136 of jobs 4, 3 and 2 and one at 140 of jobs 1 and 0. */
    uint8_t chains[ORDERSHEET_JOBS];
    halves(chains);
    sheet_rules("a reason, halves of halves", sheet, 127, 0, 4, 0, 128);
    sheet_rules("a reason, the first chain of halves", sheet, 127, 63, 2, 1, 65);
    sheet_rules("a reason, the last leaf of the first chain of halves", sheet, 63, 63, 1, 66, 1);
    sheet_rules("a reason, the second half", sheet, 62, 0, 2, 67, 63);
    sheet_rules("a reason, the second side group of halves", sheet, 61, 29, 4, 69, 62);
    sheet_rules("a reason, the second chain of halves", sheet, 30, 31, 3, 70, 32);
    sheet_rules("a reason, the second half of the second half", sheet, 29, 14, 2, 103, 30);
    sheet_rules("a reason, the third side group of halves", sheet, 14, 13, 4, 105, 29);
    sheet_rules("a reason, the fourth side group of halves", sheet, 5, 12, 4, 124, 13);
    sheet_rules("a reason, the last side group of halves", sheet, 4, 0, 4, 135, 5);
    sheet_rules("a reason, the last chain of halves", sheet, 1, 0, 2, 140, 2);
    sheet_rules("a reason, the last leaf of halves", sheet, 0, 0, 1, 142, 1);
}

/* Jobs 0, 1 and 2 of 7, 3 and 5 hours, 1 before 2: a side group, in it the chain of jobs 1 and 2, then job 0. By smallest job, as records once had it, job 0 is
 * first: no record now. */
static void largest_branch(void)
{
    static const uint8_t bytes[] = {0x05, 0x81, 0x80, 0x80, 0x80, 0x18, 0x10, 0x02, 0x80, 0x00, 0x38};
    static const uint8_t former[] = {0x05, 0x81, 0x00, 0x00, 0x78, 0x08, 0x08, 0x01, 0x81, 0x00, 0x28};
    static const char name[] = "the largest branch first";
    length = (size_t)sprintf(sheet, "3\n7\n3\n5\n1 2\n");
    accepted(name, sizeof bytes, 1, 2);
    check(name, "the record has other bytes", memcmp(record, bytes, sizeof bytes) == 0);
    runs(name, bytes, sizeof bytes, 8, JOBS(1, 2));
    parted(name, bytes, sizeof bytes, HOURS(8, 7), JOBS(1, 0, 0));
    rules(name, bytes, sizeof bytes, 1, 2, 2, 1, 2);
    rules(name, bytes, sizeof bytes, 0, 1, 4, 0, 3);
    rules(name, bytes, sizeof bytes, 0, 0, 1, 4, 1);

    fill();
    memcpy(record, former, sizeof former);
    memcpy(before, record, sizeof record);
    unread("the smallest job first", sizeof former, ORDERSHEET_REDUCED_AREA, 11);
    unread("the smallest job first, and no area", sizeof former, 0, 11);
    kept("the smallest job first");
}

/* A pair list and hours, and what is behind them; copies of both. */
enum { ORDERS = ORDERSHEET_REDUCED_AREA / 2 }; /* the most */
static uint16_t list[2 * (ORDERS + 1) + BEHIND], list_before[2 * (ORDERS + 1) + BEHIND], hours[ORDERSHEET_JOBS + 1 + BEHIND], hours_before[ORDERSHEET_JOBS + 1 + BEHIND];
static size_t numbers;

/* No orders, and job i of `most` - i hours. */
static void listed(void)
{
    memset(list, FILL, sizeof list);
    memset(hours, FILL, sizeof hours);
    numbers = 0;
    for (unsigned i = 0; i <= ORDERSHEET_JOBS; i++)
        hours[i] = (uint16_t)(most - i);
}
static void pair(unsigned u, unsigned v)
{
    list[numbers++] = (uint16_t)u;
    list[numbers++] = (uint16_t)v;
}

/* With this order more, so many jobs with so many hours and the list have this answer; list and hours stay as they are. */
static uint64_t previewed(const char *name, unsigned jobs, size_t hours_length, unsigned u, unsigned v)
{
    memcpy(list_before, list, sizeof list);
    memcpy(hours_before, hours, sizeof hours);
    uint64_t answer = preview((uint16_t)jobs, list, numbers, hours, hours_length, (uint16_t)u, (uint16_t)v);
    check(name, "the list changed", memcmp(list, list_before, sizeof list) == 0);
    check(name, "the hours changed", memcmp(hours, hours_before, sizeof hours) == 0);
    return answer;
}
static void previews(const char *name, unsigned jobs, size_t hours_length, unsigned u, unsigned v, unsigned number, unsigned first, unsigned second, unsigned third,
                     unsigned fourth)
{
    is(name, previewed(name, jobs, hours_length, u, v), number, first, second, third, fourth);
}

/* It is the answer for the sheet that has this order at its end. */
static void as_a_sheet(const char *name, unsigned jobs, unsigned u, unsigned v)
{
    char what[200];
    start(jobs);
    for (size_t i = 0; i < numbers; i += 2)
        order(list[i], list[i + 1]);
    order(u, v);
    uint64_t answer = previewed(name, jobs, jobs, u, v);
    uint64_t written = analyse((const uint8_t *)sheet, length, record, ORDERSHEET_RECORD_AREA, reduced, ORDERSHEET_REDUCED_AREA);
    snprintf(what, sizeof what, "order %u %u: the preview is %016" PRIx64 ", the answer for the sheet %016" PRIx64, u, v, answer, written);
    check(name, what, answer == written);
}

/* Every order of two of so many jobs, or of one that they do not have. */
static void every(const char *name, unsigned jobs, unsigned step)
{
    for (unsigned u = 0; u <= jobs; u += step)
        for (unsigned v = 0; v <= jobs; v += step)
            as_a_sheet(name, jobs, u, v);
}

static void one_more(void)
{
    /* DESK.md's list */
    listed();
    pair(0, 1);
    pair(0, 2);
    pair(1, 3);
    pair(2, 3);
    pair(0, 3);
    previews("a preview, the last of all", 5, 5, 3, 4, 0, 16, 5, 2, 0);
    previews("a preview, an order of the list", 5, 5, 0, 1, 0, 17, 4, 3, 0);
    previews("a preview, an order that follows", 5, 5, 0, 3, 0, 17, 4, 3, 0);
    previews("a preview, between two free jobs", 5, 5, 1, 2, 0, 16, 3, 2, 0);
    previews("a preview, a circle", 5, 5, 3, 1, 7, 1, 0, 0, 0);
    previews("a preview, a circle of all", 5, 5, 3, 0, 7, 0, 0, 0, 0);
    previews("a preview, crossed", 5, 5, 1, 4, 8, 2, 1, 3, 4);
    previews("a preview, crossed the other way", 5, 5, 4, 1, 8, 4, 0, 1, 2);
    previews("a preview, no second job", 5, 5, 0, 5, 5, 5, 0, 0, 0);
    previews("a preview, no first job", 5, 5, 5, 0, 5, 5, 0, 0, 0);
    previews("a preview, no job twice", 5, 5, UINT16_MAX, UINT16_MAX, 5, 5, 0, 0, 0);
    previews("a preview, a job's number in its last 8 bits", 5, 5, 256, 4, 5, 5, 0, 0, 0);
    previews("a preview, a job before itself", 5, 5, 4, 4, 6, 5, 0, 0, 0);
    previews("a preview, no jobs", 0, 0, 0, 1, 3, 0, 0, 0, 0);
    previews("a preview, no jobs and hours", 0, 5, 0, 1, 3, 0, 0, 0, 0);
    previews("a preview, a job too many", ORDERSHEET_JOBS + 1, ORDERSHEET_JOBS + 1, 0, 1, 3, 0, 0, 0, 0);
    previews("a preview, a count of 256 and one job", 256 + 1, 1, 0, 1, 3, 0, 0, 0, 0);
    previews("a preview, the greatest count", UINT16_MAX, 5, 0, 1, 3, 0, 0, 0, 0);
    previews("a preview, hours short", 5, 4, 3, 4, 12, 0, 0, 0, 0);
    previews("a preview, hours too many", 5, 6, 3, 4, 12, 0, 0, 0, 0);
    previews("a preview, hours short, and no job", 4, 3, 9, 9, 12, 0, 0, 0, 0);
    previews("a preview, a job of the list not below the count", 3, 3, 9, 0, 5, 2, 0, 0, 0);
    every("a preview, DESK.md's list", 5, 1);
    hours[3] = ORDERSHEET_HOURS + 1;
    hours[4] = UINT16_MAX;
    previews("a preview, hours above the most", 5, 5, 9, 9, 13, 3, 0, 0, 0);
    previews("a preview, hours short and above the most", 5, 4, 0, 1, 12, 0, 0, 0, 0);
    hours[3] = ORDERSHEET_HOURS;
    previews("a preview, hours above the most, the last job", 5, 5, 3, 4, 13, 4, 0, 0, 0);
    numbers--;
    previews("a preview, an odd list", 5, 5, 3, 4, 2, 0, 0, 0, 0);
    previews("a preview, an odd list and no jobs", 0, 4, 9, 9, 2, 0, 0, 0, 0);
    numbers = 1;
    previews("a preview, one number", 5, 5, 3, 4, 2, 0, 0, 0, 0);

    /* Faults of the list, and of the order as well: 5 ahead of 6, the first of each, 6 ahead of 7, 7 ahead of 8. */
    listed();
    pair(0, 0);
    pair(1, 1);
    previews("a preview, 6 in the list", 4, 4, 2, 2, 6, 0, 0, 0, 0);
    previews("a preview, 6 in the list and 5", 4, 4, 2, 4, 5, 2, 0, 0, 0);
    list[1] = 1;
    list[3] = 0;
    previews("a preview, a circle in the list and 6", 4, 4, 3, 3, 6, 2, 0, 0, 0);
    previews("a preview, a circle in the list", 4, 4, 2, 3, 7, 0, 0, 0, 0);
    listed();
    pair(0, 2);
    pair(1, 2);
    previews("a preview, four jobs crossed by the last order", 4, 4, 1, 3, 8, 0, 1, 2, 3);
    pair(1, 3);
    previews("a preview, a crossed list uncrossed", 4, 4, 0, 3, 0, 15, 4, 3, 0);
    previews("a preview, a crossed list and a circle", 4, 4, 3, 1, 7, 1, 0, 0, 0);
    every("a preview, a crossed list", 4, 1);

    listed();
    previews("a preview, one job", 1, 1, 0, 0, 6, 0, 0, 0, 0);
    previews("a preview, one job and another", 1, 1, 0, 1, 5, 0, 0, 0, 0);
    previews("a preview, no list", 2, 2, 1, 0, 0, 7, 1, 1, 0);
    every("a preview, no list", 3, 1);
    every("a preview, no list of the most jobs", ORDERSHEET_JOBS, 16);
    is("a preview, an empty list with no area", preview(2, NULL, 0, hours, 2, 1, 0), 0, 7, 1, 1, 0);
    is("a preview, no hours with no area", preview(2, NULL, 0, NULL, 0, 1, 0), 12, 0, 0, 0, 0);
    is("a preview, no jobs and no areas", preview(0, NULL, 0, NULL, 0, 0, 0), 3, 0, 0, 0, 0);

    /* 124 before 126, 125 before 126, then 125 before 127 */
    pair(124, 126);
    pair(125, 126);
    previews("a preview, the last four crossed", ORDERSHEET_JOBS, ORDERSHEET_JOBS, 125, 127, 8, 124, 125, 126, 127);

    /* 64 jobs before 64 others: the last of 4,096 orders, and one more. */
    listed();
    for (unsigned u = 0; u < 64; u++)
        for (unsigned v = 64; v < 128; v++)
            if (u != 63 || v != 127)
                pair(u, v);
    previews("a preview, the last order that there is room for", ORDERSHEET_JOBS, ORDERSHEET_JOBS, 63, 127, 0, 325, ORDERS, 3, 0);
    previews("a preview, the last order, and no job", ORDERSHEET_JOBS, ORDERSHEET_JOBS, 128, 127, 5, ORDERS - 1, 0, 0, 0);
    previews("a preview, the last order, a job before itself", ORDERSHEET_JOBS, ORDERSHEET_JOBS, 127, 127, 6, ORDERS - 1, 0, 0, 0);
    every("a preview, 4,095 orders", ORDERSHEET_JOBS, 32);
    pair(63, 127);
    previews("a preview, a full list", ORDERSHEET_JOBS, ORDERSHEET_JOBS, 0, 127, 4, 0, 0, 0, 0);
    previews("a preview, a full list and no job", ORDERSHEET_JOBS, ORDERSHEET_JOBS, 128, 128, 4, 0, 0, 0, 0);
    previews("a preview, a full list and hours short", ORDERSHEET_JOBS, ORDERSHEET_JOBS - 1, 0, 127, 4, 0, 0, 0, 0);
    previews("a preview, a full list and no jobs", 0, 0, 0, 127, 3, 0, 0, 0, 0);
    previews("a preview, a full list and a job too many", ORDERSHEET_JOBS + 1, ORDERSHEET_JOBS, 0, 127, 3, 0, 0, 0, 0);
    hours[0] = ORDERSHEET_HOURS + 1;
    previews("a preview, a full list and hours above the most", ORDERSHEET_JOBS, ORDERSHEET_JOBS, 0, 127, 4, 0, 0, 0, 0);
    numbers++;
    previews("a preview, a full list and a number", ORDERSHEET_JOBS, ORDERSHEET_JOBS, 0, 127, 2, 0, 0, 0, 0);
    previews("a preview, a full list, a number and no jobs", 0, 0, 0, 127, 2, 0, 0, 0, 0);
    numbers++;
    previews("a preview, more than a full list", ORDERSHEET_JOBS, ORDERSHEET_JOBS, 0, 127, 4, 0, 0, 0, 0);

    /* The deepest tree, with its last order and without: the longest record. */
    listed();
    for (unsigned u = 0; u < 128; u += 2)
        for (unsigned v = u + 1; v < 128; v++)
            if (u != 126)
                pair(u, v);
    previews("a preview, the longest record", ORDERSHEET_JOBS, ORDERSHEET_JOBS, 126, 127, 0, ORDERSHEET_RECORD_AREA, 127, 127, 0);
}

/* Lengths of 0 with no area, and lengths of more than 32 bits. */
static void any_length(void)
{
    static const char one[] = "1\n9\n", two[] = "2\n8\n9\n0 1\n";
    uint8_t bytes[4];
    is("no sheet", analyse(NULL, 0, NULL, 0, NULL, 0), 2, 0, 0, 0, 0);
    is("no record area", analyse((const uint8_t *)two, sizeof two - 1, NULL, 0, NULL, 0), 9, 0, 0, 0, 0);
    is("no area for orders, and none", analyse((const uint8_t *)one, sizeof one - 1, bytes, 4, NULL, 0), 0, 4, 0, 0, 0);
    is("no area for orders, and none to read", reread(bytes, 4, NULL, 0), 0, 4, 0, 0, 0);
    is("no record", reread(NULL, 0, NULL, 0), 11, 0, 0, 0, 0);
    no_answer("no record for a question", NULL, 0);

    /* Only the first page can be read or written. */
    size_t long_room = (size_t)1 << 32;
    uint8_t *area = mmap(NULL, 2 * long_room + 4, PROT_NONE, MAP_PRIVATE | MAP_ANONYMOUS | MAP_NORESERVE, -1, 0);
    check("an area of 2^33 + 4 bytes", "there is none", area != MAP_FAILED && mprotect(area, 4096, PROT_READ | PROT_WRITE) == 0);
    if (area == MAP_FAILED)
        return;
    is("2^32 + 2 bytes as a record", reread(area, long_room + 2, NULL, 0), 11, 0, 0, 0, 0);
    no_answer("2^32 + 2 bytes for a question", area, long_room + 2);
    memcpy(area, one, sizeof one - 1);
    is("a sheet of 2^32 + 2 bytes", analyse(area, long_room + 2, bytes, 4, NULL, 0), 1, 0, 0, 0, 0);
    is("a record area of 2^32 bytes", analyse((const uint8_t *)one, sizeof one - 1, area, long_room, NULL, 0), 0, 4, 0, 0, 0);
    is("an area of 2^32 bytes for orders", analyse((const uint8_t *)two, sizeof two - 1, record, sizeof record, area, long_room), 0, 7, 1, 1, 0);
    const uint16_t *words = (const uint16_t *)(const void *)area;
    is("a list of 2^32 + 2 numbers", preview(2, words, long_room + 2, hours, 2, 1, 0), 4, 0, 0, 0, 0);
    is("a list of 2^32 + 2 numbers and no jobs", preview(0, words, long_room + 2, hours, 2, 1, 0), 3, 0, 0, 0, 0);
    is("a list of 2^32 + 1 numbers", preview(2, words, long_room + 1, hours, 2, 1, 0), 2, 0, 0, 0, 0);
    is("hours of 2^32 + 2 numbers", preview(2, NULL, 0, words, long_room + 2, 1, 0), 12, 0, 0, 0, 0);
    is("an area of 2^32 bytes for orders read", reread(record, 7, area, long_room), 0, 7, 1, 1, 0);
}

int main(void)
{
    setvbuf(stdout, NULL, _IOLBF, BUFSIZ);
    packing();
    most_jobs();
    most_hours();
    longest_sheet();
    longest_record();
    most_orders();
    older();
    no_records();
    names();
    texts();
    job_counts();
    longest_runs();
    fewest_gangs();
    reasons();
    largest_branch();
    one_more();
    any_length();
    printf("%u passed, %u failed\n", passed, failed);
    return passed == 0 || failed != 0;
}
