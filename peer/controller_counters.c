/* The counters of controller recordings, and in which order they are written. */
#include "controller_counters.h"

uint64_t counters[COUNTER_COUNT];
uint64_t counters_start_format[16];
uint64_t counters_ended_format[16];
uint64_t counters_refusal_14_format[16];
uint64_t counters_rule_1[5];
uint64_t counters_rule_3_data_sync[5];
uint64_t counters_rule_3_wrong_address[5];
uint64_t counters_rule_3_taken[5];
uint64_t counters_rule_3_marked[5];
uint64_t counters_rule_4[5];
uint64_t counters_rule_5[5];
uint64_t counters_silence_no_answer[5];
uint64_t counters_start_while_open_stage[5];
uint64_t counters_host_write_inside_stage[5];
uint64_t counters_open_at_end[5];
uint64_t counters_first_status_row[8];
uint64_t counters_wrong_address_row[8];
uint64_t counters_rule_7_row[8];
uint64_t counters_silence_awaiting_row[8];
uint64_t counters_silence_given_end_row[8];
uint64_t counters_silence_no_answer_row[8];
uint64_t counters_silence_short_row[8];
uint64_t counters_silence_reply_end_row[8];
uint64_t counters_result[8];
uint64_t counters_refusal[16];
uint64_t counters_refusal_7_tag[16];
uint64_t counters_field_tag[16];

/* Of each row of counters only those that the rules can reach. */
void counters_write_all(FILE *file)
{
    static const char *const names[] = {COUNTER_NAMES(COUNTER_STRING)};
    static const char *const stage_names[] = {"given", "awaiting", "reply", "last", "ended"};
    static const unsigned stages[] = {0, 1, 2, 3, 4};
    static const unsigned status_due[] = {1, 3};
    static const unsigned status_came[] = {2, 4};
    static const unsigned formats[] = {0, 1, 2, 3, 4, 5, 8, 10, 11, 12};
    static const unsigned lacking[] = {6, 7, 9, 13, 14, 15};
    static const unsigned rows[] = {0, 1, 2, 3, 4, 5};
    static const unsigned rows_replying_data[] = {1, 2, 5};
    static const unsigned rows_of_groups[] = {0, 3, 4};
    static const unsigned codes[] = {0, 1, 2, 3, 4, 5, 6, 7};
    static const unsigned refusals[] = {5, 6, 7, 8, 9, 14};
    static const unsigned tags[] = {2, 3, 5, 10, 11};

    counters_write_named(file, names, COUNTER_COUNT);
    WRITE_INDEXED(file, start_format, formats);
    WRITE_INDEXED(file, ended_format, formats);
    WRITE_INDEXED(file, refusal_14_format, lacking);
    WRITE_NAMED(file, rule_1, stages, stage_names);
    WRITE_NAMED(file, rule_3_data_sync, status_due, stage_names);
    WRITE_NAMED(file, rule_3_wrong_address, status_due, stage_names);
    WRITE_NAMED(file, rule_3_taken, status_due, stage_names);
    WRITE_NAMED(file, rule_3_marked, status_due, stage_names);
    WRITE_NAMED(file, rule_4, status_came, stage_names);
    WRITE_NAMED(file, rule_5, status_came, stage_names);
    WRITE_NAMED(file, silence_no_answer, status_due, stage_names);
    WRITE_NAMED(file, start_while_open_stage, stages, stage_names);
    WRITE_NAMED(file, host_write_inside_stage, stages, stage_names);
    WRITE_NAMED(file, open_at_end, stages, stage_names);
    WRITE_INDEXED(file, first_status_row, rows);
    WRITE_INDEXED(file, wrong_address_row, rows);
    WRITE_INDEXED(file, rule_7_row, rows_replying_data);
    WRITE_INDEXED(file, silence_awaiting_row, rows);
    WRITE_INDEXED(file, silence_given_end_row, rows_of_groups);
    WRITE_INDEXED(file, silence_no_answer_row, rows);
    WRITE_INDEXED(file, silence_short_row, rows_replying_data);
    WRITE_INDEXED(file, silence_reply_end_row, rows);
    WRITE_INDEXED(file, result, codes);
    WRITE_INDEXED(file, refusal, refusals);
    WRITE_INDEXED(file, refusal_7_tag, tags);
    WRITE_INDEXED(file, field_tag, tags);
}
