/* The counters of tray recordings. */
#ifndef TRAY_COUNTERS_H
#define TRAY_COUNTERS_H

#include "counters.h"

#define COUNTER_NAMES(X) \
    X(open_own) X(open_broadcast) X(open_line_a) X(open_line_b) \
    X(open_joined) X(open_not_joined) X(open_receive) X(open_transmit) X(open_count_0) \
    X(open_mode_subaddress_0) X(open_mode_subaddress_31) X(open_illegal_broadcast_transmit) \
    X(block_is_table) X(block_modulo_256) X(busy_by_flag) X(busy_by_table) \
    X(message_error_kept) X(status_bus_control) X(status_terminal_flag) \
    X(status_terminal_flag_inhibited) \
    X(word_nothing_open) X(word_other_line_ignored) \
    X(superseded_same_line) X(superseded_other_line) \
    X(word_skipped) X(word_skipped_unsound) X(word_skipped_own) \
    X(rule_1) \
    X(rule_2) X(rule_2_data_sync) X(rule_2_data_sync_wrong_address) \
    X(rule_2_wrong_address) X(rule_2_wrong_address_own) \
    X(rule_2_taken) X(rule_2_taken_joined) X(rule_2_taken_not_joined) \
    X(rule_3) X(rule_3_after_second) X(rule_3_words_in) \
    X(rule_4) \
    X(rule_5) X(rule_5_none_wanted) X(rule_5_all_in) X(rule_5_command_sync) \
    X(rule_6) X(rule_6_dropped) X(rule_6_second_command) X(rule_6_second_command_broadcast) \
    X(rule_6_else) X(rule_6_else_wrong_count) X(rule_6_else_own) X(rule_6_else_address_31) \
    X(rule_6_else_not_a_transmit) \
    X(rule_7) X(rule_7_after_answer) X(rule_7_mode_data) X(rule_7_own_joined) \
    X(rule_8) X(rule_8_stored) X(rule_8_busy_checked) X(rule_8_busy_mode_stored) \
    X(rule_8_after_answer) \
    X(silence_nothing_open) X(silence_elsewhere) X(silence_after_second) X(silence_no_answer) \
    X(silence_words_short) X(silence_words_short_after_answer) X(silence_sound_end) \
    X(silence_illegal_end) \
    X(fault_without_block) X(fault_broadcast) X(fault_busy) \
    X(reply_given) X(reply_none_broadcast) X(reply_none_shut) \
    X(sent_data) X(sent_mode_data) X(sent_last_command) X(sent_busy_status_alone) \
    X(sent_busy_mode_data) X(ended_busy_receive) X(ended_after_answer) \
    X(ended_broadcast_disabled_since) \
    X(act_4) X(act_4_both_shut) X(act_5) X(act_5_was_shut) X(act_6) X(act_7) \
    X(act_7_was_inhibited) X(act_8) X(act_8_on_shut_line) \
    X(elapsed_over_65535) X(elapsed_zero) X(time_not_rising) \
    X(link_stored) X(link_not_stored) X(link_not_stored_same_number) \
    X(link_over_service_cell) X(link_over_itself) X(data_over_own_table_cell) \
    X(host_write_inside_message) X(host_write_inside_table_cell) X(host_write_inside_block) \
    X(host_write_inside_link) \
    X(queue_joined) X(queue_overflow) X(queue_not_wanted) \
    X(queue_read_found) X(queue_read_empty) X(queue_read_empty_overflow) \
    X(queue_read_overflow) X(queue_read_around) \
    X(table_inside_message) X(flags_inside_message) X(broadcast_cleared_inside_broadcast) \
    X(refusal_2_station) X(refusal_5_length) X(refusal_5_value) X(refusal_6_last_byte) \
    X(refusal_8_marks) X(refusal_8_line) X(refusal_8_setup_flags) X(refusal_8_flags) \
    X(refusal_8_cells) X(refusal_9_not_first) X(refusal_9_again)

enum { COUNTER_NAMES(COUNTER_CONSTANT) COUNTER_COUNT };

extern uint64_t counters_fault[8];
extern uint64_t counters_mode_legal[32];
extern uint64_t counters_mode_illegal[32];
extern uint64_t counters_mode_ended[32];
extern uint64_t counters_superseded_stage[4];
extern uint64_t counters_refusal[10];
extern uint64_t counters_refusal_7_tag[8];
extern uint64_t counters_field_tag[8];

#endif
