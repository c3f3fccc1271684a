/*
 * The counters of the monitor's run, named after the rules of K3's reading: rule_7_1
 * to rule_7_8 are K3.7.1 to K3.7.8.
 */
#ifndef MONITOR_COUNTERS_H
#define MONITOR_COUNTERS_H

#include "counters.h"

#define COUNTER_NAMES(X) \
    X(opens_joined) X(opens_not_joined) X(opens_line_a) X(opens_line_b) X(opens_group) \
    X(opens_count_0) X(idle_unsound) X(idle_data_sync) \
    X(rule_7_2_data_sync_wrong_address) X(rule_7_2_taken_joined) \
    X(rule_7_2_taken_repeated_command) X(rule_7_2_mark_kept) \
    X(rule_7_3_gap_all_in) X(rule_7_4_data) X(rule_7_4_command_sync) \
    X(rule_7_5_none_wanted) X(rule_7_5_command_sync) \
    X(rule_7_6_taken) X(rule_7_6_taken_group) X(rule_7_6_misfit_group) \
    X(rule_7_6_misfit_direction) X(rule_7_6_misfit_mode) X(rule_7_6_misfit_count) \
    X(rule_7_6_misfit_31) X(rule_7_6_misfit_same_address) \
    X(rule_7_7_mode_word) X(rule_7_7_first_word) X(rule_7_7_later_word) X(rule_7_8_word_32) \
    X(supersedes_joined) \
    X(silence_nothing_open) X(silence_second) X(silence_to_last) \
    X(closes_line_a) X(closes_line_b) X(closes_36_words) X(closes_in_block_255) \
    X(bit_9) X(bit_9_code_0) X(bit_9_fault) X(bit_8) X(bit_3) X(bit_3_code_0) X(bit_3_fault) \
    X(transfer_to_own) X(transfer_from_own) X(transfer_from_own_to_group) \
    X(transfer_of_others) X(no_answer_of_own) \
    X(reply_opens) X(reply_closes_by_status) X(reply_closes_by_word) \
    X(reply_closes_by_silence) X(reply_wrong_address) X(reply_word_taken) \
    X(reply_word_to_receive) X(reply_word_too_many) X(reply_word_idle) \
    X(reply_silence_complete) X(reply_silence_short) X(reply_silence_to_last) \
    X(reply_silence_to_awaiting) X(reply_silence_idle) \
    X(closes_two_by_tape_and_reply) X(closes_two_by_reply) X(closes_two_at_word) \
    X(closes_two_at_silence) \
    X(refusal_5_length) X(refusal_5_value) X(refusal_6_last_byte) X(refusal_8_marks) \
    X(refusal_8_line) X(refusal_8_cells) X(refusal_9_not_first) X(refusal_9_again) \
    X(refusal_while_open) X(end_without_setup)

enum { COUNTER_NAMES(COUNTER_CONSTANT) COUNTER_COUNT };

/* By stage of the open message. */
extern uint64_t counters_rule_7_1[6];
extern uint64_t counters_rule_7_2_data_sync[6];
extern uint64_t counters_rule_7_2_wrong_opens[6];
extern uint64_t counters_rule_7_2_wrong_joined[6];
extern uint64_t counters_rule_7_2_taken[6];
extern uint64_t counters_rule_7_2_marked[6];
extern uint64_t counters_rule_7_3_gap[6];
extern uint64_t counters_rule_7_5[6];
extern uint64_t counters_own_line_complete[6];      /* K3.8: superseded */
extern uint64_t counters_own_line_missing[6];
extern uint64_t counters_other_line_complete[6];
extern uint64_t counters_other_line_missing[6];
extern uint64_t counters_other_line_unsound[6];     /* K3.7: no effect */
extern uint64_t counters_other_line_data_sync[6];
extern uint64_t counters_other_line_silence[6];
extern uint64_t counters_silence_no_answer[6];
extern uint64_t counters_silence_short[6];
extern uint64_t counters_silence_complete[6];
extern uint64_t counters_reply_status_taken[6];
extern uint64_t counters_reply_supersedes[6];
extern uint64_t counters_open_at_end[6];

/* By row. */
extern uint64_t counters_opens_row[8];
extern uint64_t counters_rule_7_8_row[8];
extern uint64_t counters_silence_awaiting_row[8];
extern uint64_t counters_silence_no_answer_row[8];
extern uint64_t counters_silence_short_row[8];
extern uint64_t counters_illegal_row[8];
extern uint64_t counters_illegal_group_row[8];

extern uint64_t counters_format[16];                /* by code of the format */
extern uint64_t counters_format_sound[16];          /* the same, with fault code 0 */
extern uint64_t counters_fault[8];
extern uint64_t counters_refusal[16];
extern uint64_t counters_refusal_7_tag[8];
extern uint64_t counters_field_tag[8];

#endif
