/* preview FILE FIRST SECOND: what the jobs, hours and orders of the sheet in FILE would give with one more order as the
 * last, job FIRST before job SECOND. Nothing is written down.
 *
 *     tools/build desk
 *     cc -std=c11 -Wall -Wextra -O2 -Iinclude examples/preview.c target/staticlib/libdesk.a -o preview
 *
 * Exit status: 0 it would be accepted, 1 it would be refused, 2 a wrong usage or a file that cannot be read. */

#define _POSIX_C_SOURCE 200809L
#include <fcntl.h>
#include <stdio.h>
#include <stdlib.h>
#include <unistd.h>

#include "ordersheet.h"

/* One byte over the longest sheet is enough to have it refused. Each number of a sheet has a byte after it. */
static uint8_t sheet[ORDERSHEET_SHEET + 1], record[ORDERSHEET_RECORD_AREA], reduced[ORDERSHEET_REDUCED_AREA];
static uint16_t numbers[ORDERSHEET_SHEET / 2];
static char text[1024];

/* Reads a file as far as there is room; its length, or -1. */
static ssize_t slurp(const char *name)
{
    int file = open(name, O_RDONLY);
    if (file < 0)
        return -1;
    size_t length = 0;
    ssize_t more;
    while ((more = read(file, sheet + length, sizeof sheet - length)) > 0)
        length += (size_t)more;
    close(file);
    return more < 0 ? -1 : (ssize_t)length;
}

/* The numbers of a sheet in the line form, one after the other; how many. */
static size_t read_numbers(size_t length)
{
    size_t count = 0;
    unsigned number = 0;
    for (size_t i = 0; i < length; i++) {
        if (sheet[i] >= '0' && sheet[i] <= '9') {
            number = 10 * number + (sheet[i] - '0');
        } else if (sheet[i] != '\r') {
            numbers[count++] = (uint16_t)number;
            number = 0;
        }
    }
    return count;
}

/* The refusal in words, with its places; so many orders are in the sheet. */
static void explain(uint64_t answer, size_t orders)
{
    unsigned first = ordersheet_first(answer);
    printf("refused %u: %s", ordersheet_number(answer), ordersheet_text(answer));
    switch (ordersheet_number(answer)) {
    case ORDERSHEET_REFUSED_LINE_FORM:
        printf(" (byte %u)", first);
        break;
    case ORDERSHEET_REFUSED_ORDER_COUNT:
        printf(" (%zu in the sheet, and the new one)", orders);
        break;
    case ORDERSHEET_REFUSED_ORDER_JOB:
    case ORDERSHEET_REFUSED_ORDER_ITSELF:
        if (first < orders)
            printf(" (order %u of the sheet)", first);
        else
            printf(" (the new order)");
        break;
    case ORDERSHEET_REFUSED_CIRCLE:
    case ORDERSHEET_REFUSED_HOURS:
        printf(" (job %u)", first);
        break;
    case ORDERSHEET_REFUSED_CROSSED:
        printf(" (the first N: jobs %u %u %u %u)", first, ordersheet_second(answer), ordersheet_third(answer),
               ordersheet_fourth(answer));
        break;
    }
    printf("\n");
}

/* A job number of 16 bits; whether the word is one. */
static int job_number(const char *word, uint16_t *job)
{
    char *end;
    unsigned long number = strtoul(word, &end, 10);
    *job = (uint16_t)number;
    return *word >= '0' && *word <= '9' && *end == '\0' && number <= UINT16_MAX;
}

int main(int arguments, char **argument)
{
    uint16_t first, second;
    if (arguments != 4 || !job_number(argument[2], &first) || !job_number(argument[3], &second)) {
        fprintf(stderr, "usage: preview FILE FIRST SECOND\n");
        return 2;
    }
    ssize_t length = slurp(argument[1]);
    if (length < 0) {
        perror(argument[1]);
        return 2;
    }
    /* A buffer of its own, so that the program allocates nothing. */
    setvbuf(stdout, text, _IOFBF, sizeof text);
    uint64_t answer = ordersheet_analyse(sheet, (size_t)length, record, sizeof record, reduced, sizeof reduced);
    if (ordersheet_number(answer) == ORDERSHEET_REFUSED_SHEET_LENGTH ||
        ordersheet_number(answer) == ORDERSHEET_REFUSED_LINE_FORM) {
        explain(answer, 0);
        return 1;
    }
    /* The count, the hours of as many jobs, and two numbers for each order. */
    size_t total = read_numbers((size_t)length);
    uint16_t count = numbers[0];
    const uint16_t *hours = numbers + 1, *list = hours + count;
    size_t list_length = total - 1 - count;
    answer = ordersheet_preview(count, list, list_length, hours, count, first, second);
    if (ordersheet_number(answer) != ORDERSHEET_ACCEPTED) {
        explain(answer, list_length / 2);
        return 1;
    }
    unsigned reduced_orders = ordersheet_second(answer), groups = ordersheet_third(answer);
    printf("accepted: a record of %u bytes, %u reduced order%s, %u group%s\n", ordersheet_first(answer), reduced_orders,
           reduced_orders == 1 ? "" : "s", groups, groups == 1 ? "" : "s");
    return 0;
}
