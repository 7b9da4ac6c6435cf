// The calls from C++: a sheet, its record read back, its longest run, gangs and reasons, in full and cut off, and previews; names, a text and a count. Exit status 0: each
// gives what it should.

#include "ordersheet.h"

static_assert(sizeof(ordersheet_run) == 152, "a run has 152 bytes");
static_assert(sizeof(ordersheet_gang_plan) == 656, "a plan has 656 bytes");
static_assert(sizeof(ordersheet_ruling) == 32, "a ruling has 32 bytes");

int main()
{
    const uint8_t sheet[] = {'2', '\n', '0', '\n', '7', '\n', '1', ' ', '0', '\n'};
    uint8_t record[ORDERSHEET_RECORD_AREA], reduced[ORDERSHEET_REDUCED_AREA], again[ORDERSHEET_REDUCED_AREA];
    uint64_t answer = ordersheet_analyse(sheet, sizeof sheet, record, sizeof record, reduced, sizeof reduced);
    bool accepted = ordersheet_number(answer) == 0 && ordersheet_first(answer) == 7 && ordersheet_second(answer) == 1 &&
                    ordersheet_third(answer) == 1 && ordersheet_fourth(answer) == 0;
    bool same = ordersheet_read(record, ordersheet_first(answer), again, sizeof again) == answer;
    bool orders = reduced[0] == 1 && reduced[1] == 0 && again[0] == 1 && again[1] == 0;
    ordersheet_run run = ordersheet_longest_run(record, ordersheet_first(answer));
    bool found = run.answer == 0 && run.total == 7 && run.count == 2 && run.jobs[0] == 1 && run.jobs[1] == 0;
    ordersheet_run none = ordersheet_longest_run(record, ordersheet_first(answer) - 1);
    bool refused = none.answer == 11 && none.total == 0 && none.count == 0 && none.jobs[0] == 0 && none.jobs[ORDERSHEET_JOBS - 1] == 0;
    ordersheet_gang_plan plan = ordersheet_gangs(record, ordersheet_first(answer));
    bool parted = plan.answer == 0 && plan.count == 1 && plan.hours[0] == 7 && plan.hours[1] == 0 && plan.gangs[0] == 0 && plan.gangs[1] == 0;
    const uint8_t free_sheet[] = {'2', '\n', '3', '\n', '7', '\n'};
    uint64_t free_answer = ordersheet_analyse(free_sheet, sizeof free_sheet, again, sizeof again, reduced, sizeof reduced);
    ordersheet_gang_plan two = ordersheet_gangs(again, ordersheet_first(free_answer));
    bool two_gangs = two.answer == 0 && two.count == 2 && two.hours[0] == 3 && two.hours[1] == 7 && two.gangs[0] == 0 && two.gangs[1] == 1;
    ordersheet_gang_plan empty = ordersheet_gangs(record, ordersheet_first(answer) - 1);
    bool turned = empty.answer == 11 && empty.count == 0 && empty.hours[0] == 0 && empty.hours[ORDERSHEET_JOBS - 1] == 0 && empty.gangs[ORDERSHEET_JOBS - 1] == 0;
    ordersheet_ruling forth = ordersheet_reason(record, ordersheet_first(answer), 1, 0);
    ordersheet_ruling back = ordersheet_reason(record, ordersheet_first(answer), 0, 1);
    bool decided = forth.answer == 0 && forth.rule == 2 && forth.position == 0 && forth.jobs == 2 && back.answer == 0 && back.rule == 3 &&
                   back.position == 0 && back.jobs == 2;
    ordersheet_ruling one = ordersheet_reason(again, ordersheet_first(free_answer), 1, 1);
    ordersheet_ruling beside = ordersheet_reason(again, ordersheet_first(free_answer), 0, 1);
    bool free = one.answer == 0 && one.rule == 1 && one.position == 2 && one.jobs == 1 && beside.answer == 0 && beside.rule == 4 && beside.position == 0 &&
                beside.jobs == 2;
    ordersheet_ruling no_job = ordersheet_reason(record, ordersheet_first(answer), 0, 2);
    ordersheet_ruling no_record = ordersheet_reason(record, ordersheet_first(answer) - 1, 0, 2);
    bool no_reason = no_job.answer == 14 && no_job.rule == 0 && no_job.position == 0 && no_job.jobs == 0 && no_record.answer == 11 && no_record.rule == 0 &&
                     no_record.position == 0 && no_record.jobs == 0;
    const uint16_t list[] = {0, 2, 1, 2}, hours[] = {3, 7, ORDERSHEET_HOURS, 0};
    bool seen = ordersheet_preview(2, nullptr, 0, hours, 2, 1, 0) == answer;
    uint64_t crossed = ordersheet_preview(4, list, 4, hours, 4, 1, 3);
    bool crossing = ordersheet_number(crossed) == 8 && ordersheet_first(crossed) == 0 && ordersheet_second(crossed) == 1 && ordersheet_third(crossed) == 2 &&
                    ordersheet_fourth(crossed) == 3;
    uint64_t no_such = ordersheet_preview(4, list, 4, hours, 4, 1, 4);
    bool foreseen = ordersheet_number(no_such) == 5 && ordersheet_first(no_such) == 2 && ordersheet_preview(4, list, 3, hours, 4, 1, 3) == 2 &&
                    ordersheet_preview(4, list, 4, hours, 3, 1, 3) == 12 && ordersheet_preview(4, nullptr, 0, nullptr, 0, 1, 3) == 12;
    bool named = ordersheet_number(answer) == ORDERSHEET_ACCEPTED && ordersheet_number(crossed) == ORDERSHEET_REFUSED_CROSSED &&
                 no_job.answer == ORDERSHEET_REFUSED_JOB && forth.rule == ORDERSHEET_RULE_BEFORE && back.rule == ORDERSHEET_RULE_AFTER &&
                 one.rule == ORDERSHEET_RULE_SAME && beside.rule == ORDERSHEET_RULE_FREE;
    bool told = ordersheet_text(crossed)[0] != '\0' && ordersheet_jobs(record) == 2;
    return accepted && same && orders && found && refused && parted && two_gangs && turned && decided && free && no_reason && seen && crossing && foreseen && named && told ? 0 : 1;
}
