/* The counters of the monitor's run, and in which order they are written. */
#include "monitor_counters.h"

uint64_t counters[COUNTER_COUNT];
uint64_t counters_rule_7_1[6];
uint64_t counters_rule_7_2_data_sync[6];
uint64_t counters_rule_7_2_wrong_opens[6];
uint64_t counters_rule_7_2_wrong_joined[6];
uint64_t counters_rule_7_2_taken[6];
uint64_t counters_rule_7_2_marked[6];
uint64_t counters_rule_7_3_gap[6];
uint64_t counters_rule_7_5[6];
uint64_t counters_own_line_complete[6];
uint64_t counters_own_line_missing[6];
uint64_t counters_other_line_complete[6];
uint64_t counters_other_line_missing[6];
uint64_t counters_other_line_unsound[6];
uint64_t counters_other_line_data_sync[6];
uint64_t counters_other_line_silence[6];
uint64_t counters_silence_no_answer[6];
uint64_t counters_silence_short[6];
uint64_t counters_silence_complete[6];
uint64_t counters_reply_status_taken[6];
uint64_t counters_reply_supersedes[6];
uint64_t counters_open_at_end[6];
uint64_t counters_opens_row[8];
uint64_t counters_rule_7_8_row[8];
uint64_t counters_silence_awaiting_row[8];
uint64_t counters_silence_no_answer_row[8];
uint64_t counters_silence_short_row[8];
uint64_t counters_illegal_row[8];
uint64_t counters_illegal_group_row[8];
uint64_t counters_format[16];
uint64_t counters_format_sound[16];
uint64_t counters_fault[8];
uint64_t counters_refusal[16];
uint64_t counters_refusal_7_tag[8];
uint64_t counters_field_tag[8];

/* Of each row of counters only those that the rules can reach. */
void counters_write_all(FILE *file)
{
    static const char *const names[] = {COUNTER_NAMES(COUNTER_STRING)};
    static const char *const stage_names[] = {"command", "second", "awaiting",
                                              "reply", "last", "ended"};
    static const unsigned stages[] = {0, 1, 2, 3, 4, 5};
    static const unsigned status_due[] = {2, 4};
    static const unsigned status_not_due[] = {0, 1, 3, 5};
    static const unsigned may_have_all[] = {0, 3, 5};
    static const unsigned may_lack_on_own_line[] = {0, 1, 3};
    static const unsigned may_lack[] = {0, 1, 2, 3, 4};
    static const unsigned may_be_short[] = {0, 3};
    static const unsigned rows[] = {0, 1, 2, 3, 4, 5};
    static const unsigned rows_at_first[] = {0, 1, 3, 4, 5};
    static const unsigned rows_with_data[] = {0, 1, 2, 4, 5};
    static const unsigned rows_illegal[] = {3, 4, 5};
    static const unsigned rows_illegal_group[] = {1, 3, 4, 5};
    static const unsigned formats[] = {0, 1, 2, 3, 4, 5, 8, 10, 11, 12};
    static const unsigned codes[] = {0, 1, 2, 3, 4, 5, 6, 7};
    static const unsigned refusals[] = {2, 5, 6, 7, 8, 9};
    static const unsigned tags[] = {1, 2, 3, 4, 5, 6, 7};

    counters_write_named(file, names, COUNTER_COUNT);
    WRITE_NAMED(file, rule_7_1, stages, stage_names);
    WRITE_NAMED(file, rule_7_2_data_sync, status_due, stage_names);
    WRITE_NAMED(file, rule_7_2_wrong_opens, status_due, stage_names);
    WRITE_NAMED(file, rule_7_2_wrong_joined, status_due, stage_names);
    WRITE_NAMED(file, rule_7_2_taken, status_due, stage_names);
    WRITE_NAMED(file, rule_7_2_marked, status_due, stage_names);
    WRITE_NAMED(file, rule_7_3_gap, status_not_due, stage_names);
    WRITE_NAMED(file, rule_7_5, may_have_all, stage_names);
    WRITE_NAMED(file, own_line_complete, may_have_all, stage_names);
    WRITE_NAMED(file, own_line_missing, may_lack_on_own_line, stage_names);
    WRITE_NAMED(file, other_line_complete, may_have_all, stage_names);
    WRITE_NAMED(file, other_line_missing, may_lack, stage_names);
    WRITE_NAMED(file, other_line_unsound, stages, stage_names);
    WRITE_NAMED(file, other_line_data_sync, stages, stage_names);
    WRITE_NAMED(file, other_line_silence, stages, stage_names);
    WRITE_NAMED(file, silence_no_answer, status_due, stage_names);
    WRITE_NAMED(file, silence_short, may_be_short, stage_names);
    WRITE_NAMED(file, silence_complete, may_have_all, stage_names);
    WRITE_NAMED(file, reply_status_taken, status_due, stage_names);
    WRITE_NAMED(file, reply_supersedes, stages, stage_names);
    WRITE_NAMED(file, open_at_end, stages, stage_names);
    WRITE_INDEXED(file, opens_row, rows_at_first);
    WRITE_INDEXED(file, rule_7_8_row, rows_with_data);
    WRITE_INDEXED(file, silence_awaiting_row, rows_at_first);
    WRITE_INDEXED(file, silence_no_answer_row, rows);
    WRITE_INDEXED(file, silence_short_row, rows_with_data);
    WRITE_INDEXED(file, illegal_row, rows_illegal);
    WRITE_INDEXED(file, illegal_group_row, rows_illegal_group);
    WRITE_INDEXED(file, format, formats);
    WRITE_INDEXED(file, format_sound, formats);
    WRITE_INDEXED(file, fault, codes);
    WRITE_INDEXED(file, refusal, refusals);
    WRITE_INDEXED(file, refusal_7_tag, tags);
    WRITE_INDEXED(file, field_tag, tags);
}
