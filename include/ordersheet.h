/* Order sheets and cutting records: the planning desk's six calls. docs/DESK.md explains them, with examples.
 *
 * A sheet is a line with the job count, then as many lines as the count says, each with one job's hours from job 0 on,
 * then a line for each order, two job numbers with one space between. A number has one to three digits, hours one to
 * four, and no leading zero but 0 itself. A line ends in \n or \r\n.
 *
 * Each call hands back an answer, one 64-bit number; a longest run, gangs and a reason have it as their first field:
 *
 *     number + 2^8 * first + 2^24 * second + 2^40 * third + 2^48 * fourth
 *
 * Number 0 is acceptance; its places are the record's bytes, the reduced orders, the groups in the tree, and 0, or all
 * 0 for a longest run, for gangs and for a reason. The others are refusals (enum ordersheet_refusal), tested in the
 * order 1, 2, 3, 4, 13, 5, 6, 7, 8, 9, 10 for a sheet, 2, 3, 4, 12, 13, 5, 6, 7, 8 for a preview, 11, 10 for a record
 * that is read and 11, 14 for a reason; a longest run and gangs are refused with 11 alone. A place that is not named
 * here is 0. Orders, jobs, gangs, nodes and bytes are counted from 0.
 *
 * A refusal leaves the areas untouched. On acceptance the bytes after the written ones stay. ORDERSHEET_RECORD_AREA
 * and ORDERSHEET_REDUCED_AREA bytes are always enough, and 9 and 10 are then never given. Any lengths may be lent. A
 * preview, a longest run, gangs and a reason take no area.
 *
 * A pointer is good for as many bytes as the length after it says, in a preview for as many 16-bit numbers, and there
 * it has the alignment of uint16_t; where the length is 0 it is not followed. An area overlaps neither the other area
 * nor the input. Nothing else is asked: each call returns, whatever the input is.
 *
 * All this and what is said of the calls below is proved of their source (docs/PROOF.md). Not proved, but true of the
 * source: the calls allocate nothing, keep nothing between calls, and may run on several threads at once. Not proved,
 * but measured: a call takes less than ORDERSHEET_STACK bytes of stack; tests/stack/stack.c measures up to 49,000 for a
 * sheet, 29,000 for a preview and, for bytes offered as a record, 21,000 to read them, 13,000 for a longest run, 14,000
 * for gangs and 13,000 for a reason. Not proved, but tested: that this header declares what the library has, and the
 * functions at its end, which are C (tests/header). */

#ifndef ORDERSHEET_H
#define ORDERSHEET_H

#include <stddef.h>
#include <stdint.h>

#ifdef __cplusplus
extern "C" {
#endif

/* The version: how many requests the calls follow, A.1 to A.8. Each may change or add calls; docs/landings/ has a note
 * on each. */
#define ORDERSHEET_VERSION 8

#define ORDERSHEET_JOBS 128           /* the most jobs */
#define ORDERSHEET_HOURS 4095         /* the most hours of a job */
#define ORDERSHEET_SHEET 37637        /* bytes of the longest sheet */
#define ORDERSHEET_RECORD_AREA 464    /* bytes of the longest record */
#define ORDERSHEET_REDUCED_AREA 8192  /* two bytes for each of the most reduced orders, 4,096 */
#define ORDERSHEET_STACK 65536        /* bytes of stack that are enough for a call */

/* The numbers of an answer, and the places that each names. */
enum ordersheet_refusal {
    ORDERSHEET_ACCEPTED = 0,
    ORDERSHEET_REFUSED_SHEET_LENGTH = 1,  /* the sheet is longer than ORDERSHEET_SHEET bytes */
    ORDERSHEET_REFUSED_LINE_FORM = 2,     /* the sheet breaks the line form; first: the byte where it does, or the
                                           * sheet's length where it stops short. Of a preview: the list is odd */
    ORDERSHEET_REFUSED_JOB_COUNT = 3,     /* the job count is 0 or above ORDERSHEET_JOBS */
    ORDERSHEET_REFUSED_ORDER_COUNT = 4,   /* there are more than 4,096 orders, repeats counted, and in a preview the
                                           * new one too */
    ORDERSHEET_REFUSED_ORDER_JOB = 5,     /* an order names a job not below the count; first: the first such order */
    ORDERSHEET_REFUSED_ORDER_ITSELF = 6,  /* an order puts a job before itself; first: the first such order */
    ORDERSHEET_REFUSED_CIRCLE = 7,        /* there is a circle; first: the smallest job before itself */
    ORDERSHEET_REFUSED_CROSSED = 8,       /* the order is crossed; first to fourth: the first N's a, b, c, d */
    ORDERSHEET_REFUSED_RECORD_AREA = 9,   /* the record area is shorter than the record */
    ORDERSHEET_REFUSED_REDUCED_AREA = 10, /* the area for reduced orders is shorter than two bytes for each */
    ORDERSHEET_REFUSED_RECORD = 11,       /* the bytes offered as a record are not the record of any plain tree */
    ORDERSHEET_REFUSED_HOURS_LENGTH = 12, /* the hours list is not as long as the job count; of a preview alone */
    ORDERSHEET_REFUSED_HOURS = 13,        /* a job's hours are above ORDERSHEET_HOURS; first: the first such job */
    ORDERSHEET_REFUSED_JOB = 14,          /* a job number is not below the record's job count */
};

/* The rules of a reason. */
enum ordersheet_rule {
    ORDERSHEET_RULE_SAME = 1,   /* the same job */
    ORDERSHEET_RULE_BEFORE = 2, /* the first before the second */
    ORDERSHEET_RULE_AFTER = 3,  /* the second before the first */
    ORDERSHEET_RULE_FREE = 4,   /* neither before the other */
};

/* The analysis of a sheet. On acceptance the record, which has the hours, is in the one area and the reduced orders,
 * two bytes each, in the other. */
uint64_t ordersheet_analyse(const uint8_t *sheet, size_t sheet_length, uint8_t *record, size_t record_room,
                            uint8_t *reduced, size_t reduced_room);

/* The preview of one more order: the answer that the analysis would give, with areas long enough, for so many jobs with
 * these hours and the orders of the list with this one at its end. The list has two numbers for each order, the hours
 * one for each job; both are only read. In a place of 5 or 6 the new order counts as the one after the list's last. */
uint64_t ordersheet_preview(uint16_t count, const uint16_t *list, size_t list_length, const uint16_t *hours,
                            size_t hours_length, uint16_t first, uint16_t second);

/* The reading of a record. On acceptance the reduced orders, two bytes each, are in the area. */
uint64_t ordersheet_read(const uint8_t *record, size_t record_length, uint8_t *reduced, size_t reduced_room);

/* A longest run of work: of all sets of jobs in which any two are ordered, one whose hours together are the most. */
typedef struct {
    uint64_t answer;               /* 0, its places 0; or 11, and then all below is 0 */
    uint64_t total;                /* the hours together: at most ORDERSHEET_JOBS times ORDERSHEET_HOURS */
    uint64_t count;                /* how many jobs it has: 1 to ORDERSHEET_JOBS */
    uint8_t jobs[ORDERSHEET_JOBS]; /* so many job numbers, earliest first, then zeros */
} ordersheet_run;

/* The longest run of a record. The total is the fewest hours in which all jobs can be done with hands enough. A chain
 * adds its children's runs, a side group takes that of its first child with the greatest total. */
ordersheet_run ordersheet_longest_run(const uint8_t *record, size_t record_length);

/* The fewest gangs: each job is in one gang, and of any two jobs of a gang one is before the other. */
typedef struct {
    uint64_t answer;                 /* 0, its places 0; or 11, and then all below is 0 */
    uint64_t count;                  /* how many gangs: 1 to ORDERSHEET_JOBS */
    uint32_t hours[ORDERSHEET_JOBS]; /* of each gang, its jobs' hours together, then zeros */
    uint8_t gangs[ORDERSHEET_JOBS];  /* of each of ordersheet_jobs(record) jobs, its gang, then zeros */
} ordersheet_gang_plan;

/* The gangs of a record: as many as there are jobs in the largest set of jobs that are all free of each other. A side
 * group numbers its children's gangs one after the other, a chain joins gang 0 of every child, then gang 1, and so
 * on. */
ordersheet_gang_plan ordersheet_gangs(const uint8_t *record, size_t record_length);

/* The reason between two jobs: how they stand, and the lowest group over both, which decides it. A node's position is
 * how many nodes are ahead of it in the record. */
typedef struct {
    uint64_t answer;   /* 0, its places 0; or 11 or 14, and then all below is 0 */
    uint64_t rule;     /* how they stand: enum ordersheet_rule */
    uint64_t position; /* of the lowest group over both, or of the leaf if they are the same job: 0 to 254 */
    uint64_t jobs;     /* how many jobs are under it: 2 to ORDERSHEET_JOBS, or of a leaf 1 */
} ordersheet_ruling;

/* The reason between two jobs of a record. If one is before the other, the group is a chain, and that one is in the
 * earlier child; if they are free, it is a side group. */
ordersheet_ruling ordersheet_reason(const uint8_t *record, size_t record_length, uint16_t first, uint16_t second);

/* An answer's number and places. */
static inline unsigned ordersheet_number(uint64_t answer) { return (unsigned)(answer & 0xff); }
static inline unsigned ordersheet_first(uint64_t answer) { return (unsigned)(answer >> 8 & 0xffff); }
static inline unsigned ordersheet_second(uint64_t answer) { return (unsigned)(answer >> 24 & 0xffff); }
static inline unsigned ordersheet_third(uint64_t answer) { return (unsigned)(answer >> 40 & 0xff); }
static inline unsigned ordersheet_fourth(uint64_t answer) { return (unsigned)(answer >> 48 & 0xffff); }

/* An answer's number in words, without the places; or those of a number by itself. */
static inline const char *ordersheet_text(uint64_t answer)
{
    switch (ordersheet_number(answer)) {
    case ORDERSHEET_ACCEPTED: return "accepted";
    case ORDERSHEET_REFUSED_SHEET_LENGTH: return "the sheet is longer than 37637 bytes";
    case ORDERSHEET_REFUSED_LINE_FORM: return "the sheet breaks the line form, or the list is odd";
    case ORDERSHEET_REFUSED_JOB_COUNT: return "the job count is 0 or above 128";
    case ORDERSHEET_REFUSED_ORDER_COUNT: return "there are more than 4096 orders";
    case ORDERSHEET_REFUSED_ORDER_JOB: return "an order names a job not below the count";
    case ORDERSHEET_REFUSED_ORDER_ITSELF: return "an order puts a job before itself";
    case ORDERSHEET_REFUSED_CIRCLE: return "there is a circle";
    case ORDERSHEET_REFUSED_CROSSED: return "the order is crossed";
    case ORDERSHEET_REFUSED_RECORD_AREA: return "the record area is shorter than the record";
    case ORDERSHEET_REFUSED_REDUCED_AREA: return "the area for reduced orders is shorter than two bytes for each";
    case ORDERSHEET_REFUSED_RECORD: return "the bytes are not the record of any plain tree";
    case ORDERSHEET_REFUSED_HOURS_LENGTH: return "the hours list is not as long as the job count";
    case ORDERSHEET_REFUSED_HOURS: return "a job's hours are above 4095";
    case ORDERSHEET_REFUSED_JOB: return "a job number is not below the record's job count";
    default: return "a number that these calls do not give";
    }
}

/* How many jobs a record has: 1 to ORDERSHEET_JOBS. The bytes must be a record, that is, ordersheet_analyse wrote them
 * with acceptance, or ordersheet_read, a longest run, gangs or a reason did not refuse them with 11. Of other bytes
 * this may be any of these numbers, and of none there is no first byte to read. */
static inline unsigned ordersheet_jobs(const uint8_t *record) { return (unsigned)(record[0] >> 1) + 1; }

#ifdef __cplusplus
}
#endif

#endif
