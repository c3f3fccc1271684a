/*
 * The counters of controller recordings, named after the rules of K10's reading:
 * rule_1 to rule_7 are K10.4.1 to K10.4.7.
 */
#ifndef CONTROLLER_COUNTERS_H
#define CONTROLLER_COUNTERS_H

#include "counters.h"

#define COUNTER_NAMES(X) \
    X(start_nothing_due) X(start_nothing_due_after_result) X(start_while_open) \
    X(start_none_left) X(start_none_left_lacking) X(start_takes_the_last) \
    X(start_drops_result) X(start_chained) X(start_line_a) X(start_line_b) \
    X(start_block_0) X(start_block_255) X(start_control_bit_14) X(start_control_bit_15) \
    X(start_count_0) X(start_gives_33_words) X(start_group_not_31) X(start_31_not_group) \
    X(start_other_counts) \
    X(word_nothing_open) X(word_other_line) \
    X(rule_2) X(rule_2_joined) X(rule_2_not_joined) \
    X(rule_3_data_sync_wrong_address) X(rule_3_wrong_address_other_command) \
    X(rule_3_taken_joined) X(rule_3_taken_not_joined) X(rule_3_mark_kept) \
    X(rule_4_short) X(rule_4_all_in) X(rule_4_command_sync) \
    X(rule_5_none_wanted) X(rule_5_all_in) X(rule_5_command_sync) \
    X(rule_6) X(rule_6_first_word) X(rule_6_later_word) \
    X(rule_7_word_32) \
    X(silence_nothing_open) X(silence_other_line) X(silence_to_last) X(silence_ended) \
    X(silence_short_none) X(silence_short_some) \
    X(last_status_in_cell_35) X(last_status_after_other_counts) \
    X(result_marked) X(result_marked_code_0) X(result_fault_after_mark) \
    X(goes_on) X(goes_on_to_itself) X(goes_on_none_left) X(goes_on_lacking) \
    X(goes_on_other_line) X(goes_on_other_block) X(goes_on_link_changed_inside) \
    X(stops_by_fault) X(stops_by_mark) X(stops_by_bit_4) \
    X(ended_first_changed_inside) X(ended_second_changed_inside) \
    X(host_write_idle) X(host_write_inside) X(host_write_inside_first) \
    X(host_write_inside_second) X(host_write_inside_given) X(host_write_inside_reply) \
    X(host_write_inside_link) X(host_write_last_cell) \
    X(refusal_5_length) X(refusal_5_value) X(refusal_6_last_byte) X(refusal_6_tray_tag) \
    X(refusal_8_marks) X(refusal_8_marks_while_open) X(refusal_8_line) \
    X(refusal_8_line_while_open) X(refusal_8_cells) \
    X(refusal_9_not_first) X(refusal_9_not_first_unfit) X(refusal_9_again) \
    X(refusal_14_first) X(refusal_14_chained) \
    X(end_without_setup)

enum { COUNTER_NAMES(COUNTER_CONSTANT) COUNTER_COUNT };

/* By format code. */
extern uint64_t counters_start_format[16];
extern uint64_t counters_ended_format[16];      /* with code 0 */
extern uint64_t counters_refusal_14_format[16];

/* By stage. */
extern uint64_t counters_rule_1[5];
extern uint64_t counters_rule_3_data_sync[5];
extern uint64_t counters_rule_3_wrong_address[5];
extern uint64_t counters_rule_3_taken[5];
extern uint64_t counters_rule_3_marked[5];
extern uint64_t counters_rule_4[5];
extern uint64_t counters_rule_5[5];
extern uint64_t counters_silence_no_answer[5];
extern uint64_t counters_start_while_open_stage[5];
extern uint64_t counters_host_write_inside_stage[5];
extern uint64_t counters_open_at_end[5];

/* By row. */
extern uint64_t counters_first_status_row[8];
extern uint64_t counters_wrong_address_row[8];
extern uint64_t counters_rule_7_row[8];
extern uint64_t counters_silence_awaiting_row[8];
extern uint64_t counters_silence_given_end_row[8];
extern uint64_t counters_silence_no_answer_row[8];
extern uint64_t counters_silence_short_row[8];
extern uint64_t counters_silence_reply_end_row[8];

extern uint64_t counters_result[8];             /* by code */
extern uint64_t counters_refusal[16];
extern uint64_t counters_refusal_7_tag[16];
extern uint64_t counters_field_tag[16];

#endif
