/* desk FILE [FIRST SECOND]: what the sheet in FILE gives, in words. The reason is that between the jobs FIRST and
 * SECOND, or where none are named between job 0 and the last job.
 *
 *     tools/build desk
 *     cc -std=c11 -Wall -Wextra -O2 -Iinclude examples/desk.c target/staticlib/libdesk.a -o desk
 *
 * Exit status: 0 accepted, 1 refused, 2 a wrong usage or a file that cannot be read, 3 the record reads back
 * otherwise, or has no longest run, no gangs or no reason. */

#define _POSIX_C_SOURCE 200809L
#include <fcntl.h>
#include <inttypes.h>
#include <stdio.h>
#include <stdlib.h>
#include <string.h>
#include <unistd.h>

#include "ordersheet.h"

/* One byte over the longest sheet is enough to have it refused. */
static uint8_t sheet[ORDERSHEET_SHEET + 1];
static uint8_t record[ORDERSHEET_RECORD_AREA];
static uint8_t reduced[ORDERSHEET_REDUCED_AREA];
static uint8_t reread[ORDERSHEET_REDUCED_AREA];
static char text[8192];

/* Reads a file as far as there is room; its length, or -1. */
static ssize_t slurp(const char *name, uint8_t *bytes, size_t room)
{
    int file = open(name, O_RDONLY);
    if (file < 0)
        return -1;
    size_t length = 0;
    ssize_t more = 1;
    while (length < room && more > 0) {
        more = read(file, bytes + length, room - length);
        if (more > 0)
            length += (size_t)more;
    }
    close(file);
    return more < 0 ? -1 : (ssize_t)length;
}

static const char *plural(uint64_t count) { return count == 1 ? "" : "s"; }

/* The refusal in words, with its places. */
static void explain(uint64_t answer)
{
    unsigned first = ordersheet_first(answer);
    printf("refused %u: %s", ordersheet_number(answer), ordersheet_text(answer));
    switch (ordersheet_number(answer)) {
    case ORDERSHEET_REFUSED_LINE_FORM:
        printf(" (byte %u)", first);
        break;
    case ORDERSHEET_REFUSED_ORDER_JOB:
    case ORDERSHEET_REFUSED_ORDER_ITSELF:
        printf(" (order %u)", first);
        break;
    case ORDERSHEET_REFUSED_CIRCLE:
    case ORDERSHEET_REFUSED_HOURS:
        printf(" (job %u)", first);
        break;
    case ORDERSHEET_REFUSED_CROSSED:
        printf(" (the first N: jobs %u %u %u %u)", first, ordersheet_second(answer), ordersheet_third(answer),
               ordersheet_fourth(answer));
        break;
    }
    printf("\n");
}

static void show(unsigned bytes, unsigned orders, unsigned groups)
{
    printf("accepted: a record of %u bytes, %u reduced order%s, %u group%s\nrecord ", bytes, orders, plural(orders),
           groups, plural(groups));
    for (unsigned i = 0; i < bytes; i++)
        printf("%02x", record[i]);
    printf("\n");
    for (unsigned i = 0; i < orders; i++)
        printf("job %u before job %u\n", reduced[2 * i], reduced[2 * i + 1]);
}

static void show_run(const ordersheet_run *run)
{
    printf("longest run: %" PRIu64 " hour%s, jobs", run->total, plural(run->total));
    for (unsigned i = 0; i < run->count; i++)
        printf(" %u", run->jobs[i]);
    printf("\n");
}

static void show_gangs(const ordersheet_gang_plan *plan)
{
    unsigned jobs = ordersheet_jobs(record);
    printf("fewest gangs: %" PRIu64 "\n", plan->count);
    for (unsigned gang = 0; gang < plan->count; gang++) {
        printf("gang %u: %" PRIu32 " hour%s, jobs", gang, plan->hours[gang], plural(plan->hours[gang]));
        for (unsigned job = 0; job < jobs; job++)
            if (plan->gangs[job] == gang)
                printf(" %u", job);
        printf("\n");
    }
}

static void show_reason(unsigned first, unsigned second, const ordersheet_ruling *ruling)
{
    printf("reason: rule %" PRIu64 ", ", ruling->rule);
    switch (ruling->rule) {
    case ORDERSHEET_RULE_SAME:
        printf("job %u and job %u are the same, by the leaf", first, second);
        break;
    case ORDERSHEET_RULE_BEFORE:
        printf("job %u is before job %u, by the chain", first, second);
        break;
    case ORDERSHEET_RULE_AFTER:
        printf("job %u is before job %u, by the chain", second, first);
        break;
    case ORDERSHEET_RULE_FREE:
        printf("job %u and job %u are free, by the side group", first, second);
        break;
    }
    printf(" at position %" PRIu64 " with %" PRIu64 " job%s\n", ruling->position, ruling->jobs,
           plural(ruling->jobs));
}

/* A job number of 16 bits; whether the word is one. */
static int job_number(const char *word, uint16_t *job)
{
    char *end;
    unsigned long number = strtoul(word, &end, 10);
    *job = (uint16_t)number;
    return *word >= '0' && *word <= '9' && *end == '\0' && number <= UINT16_MAX;
}

int main(int arguments, char **argument)
{
    uint16_t first = 0, second = 0;
    if (arguments != 2 && !(arguments == 4 && job_number(argument[2], &first) && job_number(argument[3], &second))) {
        fprintf(stderr, "usage: desk FILE [FIRST SECOND]\n");
        return 2;
    }
    ssize_t length = slurp(argument[1], sheet, sizeof sheet);
    if (length < 0) {
        perror(argument[1]);
        return 2;
    }
    /* A buffer of its own, so that the program allocates nothing. */
    setvbuf(stdout, text, _IOFBF, sizeof text);
    uint64_t answer = ordersheet_analyse(sheet, (size_t)length, record, sizeof record, reduced, sizeof reduced);
    if (ordersheet_number(answer) != ORDERSHEET_ACCEPTED) {
        explain(answer);
        return 1;
    }
    unsigned bytes = ordersheet_first(answer), orders = ordersheet_second(answer);
    uint64_t again = ordersheet_read(record, bytes, reread, sizeof reread);
    if (again != answer || memcmp(reduced, reread, 2 * orders) != 0) {
        fprintf(stderr, "the record reads back otherwise: %" PRIx64 " and %" PRIx64 "\n", answer, again);
        return 3;
    }
    ordersheet_run run = ordersheet_longest_run(record, bytes);
    if (ordersheet_number(run.answer) != ORDERSHEET_ACCEPTED) {
        fprintf(stderr, "the record has no longest run: %" PRIx64 "\n", run.answer);
        return 3;
    }
    ordersheet_gang_plan plan = ordersheet_gangs(record, bytes);
    if (ordersheet_number(plan.answer) != ORDERSHEET_ACCEPTED) {
        fprintf(stderr, "the record has no gangs: %" PRIx64 "\n", plan.answer);
        return 3;
    }
    if (arguments == 2)
        second = (uint16_t)(ordersheet_jobs(record) - 1);
    ordersheet_ruling ruling = ordersheet_reason(record, bytes, first, second);
    if (ordersheet_number(ruling.answer) == ORDERSHEET_REFUSED_RECORD) {
        fprintf(stderr, "the record has no reason: %" PRIx64 "\n", ruling.answer);
        return 3;
    }
    show(bytes, orders, ordersheet_third(answer));
    show_run(&run);
    show_gangs(&plan);
    if (ordersheet_number(ruling.answer) != ORDERSHEET_ACCEPTED) {
        explain(ruling.answer);
        return 1;
    }
    show_reason(first, second, &ruling);
    return 0;
}
