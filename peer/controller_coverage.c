/*
 * The observer of controller recordings: runs the reader one field at a time and
 * counts what the field reached, by the controller before it, its value, and the
 * controller and the memory after it.  Which rule fitted is told by the stage before
 * and by what became of the message: the code of its end, or the next stage.
 */
#include "controller.h"
#include "controller_counters.h"

#include "observer.h"

/* Whether the host wrote these cells of the block since the start. */
static bool is_first_changed;
static bool is_second_changed;
static bool is_link_changed;

/* The message due came by a link, not by the setup. */
static bool is_chained;

static bool is_lacking(unsigned control)
{
    struct controller controller;
    static const uint16_t memory[CARD_CELLS];
    struct given given;

    controller_setup(&controller, (uint16_t)control, 1);
    return controller_start(&controller, memory, &given) == REFUSAL_FORMAT;
}

/* K10.2, a start that gives words. */
static void count_given(const struct controller *before, const struct controller *after)
{
    const struct exchange *message = &after->message;
    const unsigned control = before->control;
    const unsigned address = address_of(message->first);
    const bool is_between = message->row == ROW_BETWEEN_TERMINALS;

    is_first_changed = is_second_changed = is_link_changed = false;
    COUNT_INDEX(start_format, format_code_of(control));
    COUNT_IF(after->starts_left == 0, start_takes_the_last);
    COUNT_IF(before->has_result, start_drops_result);
    COUNT_IF(is_chained, start_chained);
    COUNT_IF(line_of_control(control) == 0, start_line_a);
    COUNT_IF(line_of_control(control) == 1, start_line_b);
    COUNT_IF(block_of_control(control) == 0, start_block_0);
    COUNT_IF(block_of_control(control) == 255, start_block_255);
    COUNT_IF((control & 1 << 14) != 0, start_control_bit_14);
    COUNT_IF((control & 1 << 15) != 0, start_control_bit_15);
    COUNT_IF(message->row <= ROW_BETWEEN_TERMINALS && low_five_of(message->first) == 0,
             start_count_0);
    COUNT_IF(message->words_given == 33, start_gives_33_words);
    COUNT_IF(message->group && address != ADDRESS_BROADCAST, start_group_not_31);
    COUNT_IF(!message->group && address == ADDRESS_BROADCAST, start_31_not_group);
    COUNT_IF(is_between && low_five_of(message->first) != low_five_of(message->second),
             start_other_counts);
}

static void count_start(const struct controller *before, const struct controller *after)
{
    if (before->is_open) {
        COUNT(start_while_open);
        COUNT_INDEX(start_while_open_stage, before->message.stage);
    } else if (!before->is_due) {
        COUNT(start_nothing_due);
        COUNT_IF(before->has_result, start_nothing_due_after_result);
    } else if (before->starts_left == 0) {
        COUNT(start_none_left);
        COUNT_IF(is_lacking(before->control), start_none_left_lacking);
    } else {
        count_given(before, after);
    }
}

/* K10.7. */
static void count_end(const struct controller *before, const struct controller *after,
                      const uint16_t *memory)
{
    const unsigned code = after->result.code;
    const bool mark = after->result.mark;
    const bool may_go_on = (before->control & CONTROL_GO_ON) != 0;
    const unsigned block = block_of_control(before->control);
    const struct exchange *message = &before->message;

    COUNT_INDEX(result, code);
    if (code == FAULT_NONE)
        COUNT_INDEX(ended_format, format_code_of(before->control));
    COUNT_IF(mark, result_marked);
    COUNT_IF(mark && code == FAULT_NONE, result_marked_code_0);
    COUNT_IF(mark && code != FAULT_NONE, result_fault_after_mark);
    COUNT_IF(is_first_changed && memory[word_address(block, 0)] != message->first,
             ended_first_changed_inside);
    COUNT_IF(is_second_changed && message->row == ROW_BETWEEN_TERMINALS
             && memory[word_address(block, 1)] != message->second,
             ended_second_changed_inside);
    is_chained = after->is_due;
    if (after->is_due) {
        COUNT(goes_on);
        COUNT_IF(after->control == before->control, goes_on_to_itself);
        COUNT_IF(after->starts_left == 0, goes_on_none_left);
        COUNT_IF(is_lacking(after->control), goes_on_lacking);
        COUNT_IF(line_of_control(after->control) != line_of_control(before->control),
                 goes_on_other_line);
        COUNT_IF(block_of_control(after->control) != block, goes_on_other_block);
        COUNT_IF(is_link_changed, goes_on_link_changed_inside);
    } else if (!may_go_on) {
        COUNT(stops_by_bit_4);
    } else if (code != FAULT_NONE) {
        COUNT(stops_by_fault);
    } else {
        COUNT(stops_by_mark);
    }
}

/* K10.4.3, a sound word where a status was due. */
static void count_status(const struct exchange *message, const struct controller *after,
                         unsigned marks, uint16_t value)
{
    const unsigned stage = message->stage;
    const bool is_row_2 = message->row == ROW_BETWEEN_TERMINALS;
    const bool is_first = stage == CONTROLLER_AWAITING;
    const unsigned awaited =
        address_of(is_row_2 && is_first ? message->second : message->first);
    const unsigned other =
        address_of(is_row_2 && is_first ? message->first : message->second);

    if (!after->is_open && after->result.code == FAULT_SYNC) {
        COUNT_INDEX(rule_3_data_sync, stage);
        COUNT_IF(address_of(value) != awaited, rule_3_data_sync_wrong_address);
    } else if (!after->is_open) {
        COUNT_INDEX(rule_3_wrong_address, stage);
        COUNT_INDEX(wrong_address_row, message->row);
        COUNT_IF(is_row_2 && address_of(value) == other, rule_3_wrong_address_other_command);
    } else {
        COUNT_INDEX(rule_3_taken, stage);
        COUNT_IF((marks & MARK_JOINED) != 0, rule_3_taken_joined);
        COUNT_IF((marks & MARK_JOINED) == 0, rule_3_taken_not_joined);
        if ((value & 0x7FF) != 0)
            COUNT_INDEX(rule_3_marked, stage);
        COUNT_IF(message->mark && (value & 0x7FF) == 0, rule_3_mark_kept);
        if (is_first)
            COUNT_INDEX(first_status_row, message->row);
        COUNT_IF(!is_first && message->words_wanted == 32, last_status_in_cell_35);
        COUNT_IF(!is_first && low_five_of(message->first) != low_five_of(message->second),
                 last_status_after_other_counts);
    }
}

/* K10.4.4 to K10.4.7: a sound word in the reply, or behind the last status. */
static void count_reply(const struct exchange *message, const struct controller *after,
                        unsigned marks)
{
    const bool is_command = (marks & MARK_COMMAND_SYNC) != 0;
    const bool has_all = message->words_taken == message->words_wanted;

    if (after->is_open) {
        COUNT_INDEX(rule_7_row, message->row);
        COUNT_IF(after->message.words_taken == 32, rule_7_word_32);
        return;
    }
    switch (after->result.code) {
    case FAULT_GAP:
        COUNT_INDEX(rule_4, message->stage);
        COUNT_IF(has_all, rule_4_all_in);
        COUNT_IF(!has_all, rule_4_short);
        COUNT_IF(is_command, rule_4_command_sync);
        break;
    case FAULT_TOO_MANY:
        COUNT_INDEX(rule_5, message->stage);
        COUNT_IF(message->words_wanted == 0, rule_5_none_wanted);
        COUNT_IF(message->words_wanted != 0, rule_5_all_in);
        COUNT_IF(is_command, rule_5_command_sync);
        break;
    default: /* FAULT_SYNC */
        COUNT(rule_6);
        COUNT_IF(message->words_taken == 0, rule_6_first_word);
        COUNT_IF(message->words_taken != 0, rule_6_later_word);
        break;
    }
}

static void count_word(const struct controller *before, const struct controller *after,
                       const uint16_t *memory, const uint8_t *value)
{
    const struct exchange *message = &before->message;
    const unsigned marks = value[0];
    const unsigned stage = message->stage;

    if (!before->is_open) {
        COUNT(word_nothing_open);
        return;
    }
    if ((marks & MARK_LINE_B) != line_of_control(before->control)) {
        COUNT(word_other_line);
        return;
    }
    if (!after->is_open)
        count_end(before, after, memory);
    if (!after->is_open && after->result.code == FAULT_UNSOUND) {
        COUNT_INDEX(rule_1, stage);
    } else if (stage == CONTROLLER_GIVEN) {
        COUNT(rule_2);
        COUNT_IF((marks & MARK_JOINED) != 0, rule_2_joined);
        COUNT_IF((marks & MARK_JOINED) == 0, rule_2_not_joined);
    } else if (stage == CONTROLLER_AWAITING || stage == CONTROLLER_LAST) {
        count_status(message, after, marks, two_bytes(value + 1));
    } else {
        count_reply(message, after, marks);
    }
}

/* K10.5, a silence that ends the message. */
static void count_silent_end(const struct exchange *message, unsigned code)
{
    switch (message->stage) {
    case CONTROLLER_GIVEN:
        COUNT_INDEX(silence_given_end_row, message->row);
        break;
    case CONTROLLER_REPLY:
        if (code == FAULT_GAP) {
            COUNT_INDEX(silence_short_row, message->row);
            COUNT_IF(message->words_taken == 0, silence_short_none);
            COUNT_IF(message->words_taken != 0, silence_short_some);
        } else {
            COUNT_INDEX(silence_reply_end_row, message->row);
        }
        break;
    case CONTROLLER_ENDED:
        COUNT(silence_ended);
        break;
    default: /* a status was due */
        COUNT_INDEX(silence_no_answer, message->stage);
        COUNT_INDEX(silence_no_answer_row, message->row);
        break;
    }
}

static void count_silence(const struct controller *before, const struct controller *after,
                          const uint16_t *memory, unsigned line)
{
    const struct exchange *message = &before->message;

    if (!before->is_open) {
        COUNT(silence_nothing_open);
    } else if (line != line_of_control(before->control)) {
        COUNT(silence_other_line);
    } else if (!after->is_open) {
        count_end(before, after, memory);
        count_silent_end(message, after->result.code);
    } else if (after->message.stage == CONTROLLER_LAST) {
        COUNT(silence_to_last);
    } else {
        COUNT_INDEX(silence_awaiting_row, message->row);
    }
}

/* Where a host write hits the open message: cells 0 and 1, what else it gave, what
   comes back, the link. */
static void count_host_write(const struct controller *before, unsigned address,
                             unsigned word_count)
{
    const struct exchange *message = &before->message;
    const unsigned start = word_address(block_of_control(before->control), 0);
    const unsigned reply = start + message->words_given;
    const bool is_first = covers(address, word_count, start, start);
    const bool is_second = covers(address, word_count, start + 1, start + 1);
    const bool is_link = covers(address, word_count, start + CELL_LINK, start + CELL_LINK);

    COUNT_IF(address + word_count == CARD_CELLS, host_write_last_cell);
    if (!before->is_open) {
        COUNT(host_write_idle);
        return;
    }
    COUNT(host_write_inside);
    COUNT_INDEX(host_write_inside_stage, message->stage);
    COUNT_IF(is_first, host_write_inside_first);
    COUNT_IF(is_second, host_write_inside_second);
    COUNT_IF(is_link, host_write_inside_link);
    COUNT_IF(message->words_given > 2 && covers(address, word_count, start + 2, reply - 1),
             host_write_inside_given);
    COUNT_IF(covers(address, word_count, reply, start + 35), host_write_inside_reply);
    is_first_changed = is_first_changed || is_first;
    is_second_changed = is_second_changed || is_second;
    is_link_changed = is_link_changed || is_link;
}

/* A field that was taken. */
static void count_field(const struct controller *before, const struct controller *after,
                        const uint16_t *memory, const uint8_t *field)
{
    const unsigned tag = field[0];
    const unsigned length = two_bytes(field + 1);
    const uint8_t *const value = field + HEAD_BYTES;

    COUNT_INDEX(field_tag, tag);
    switch (tag) {
    case TAG_WORD:
        count_word(before, after, memory, value);
        break;
    case TAG_SILENCE:
        count_silence(before, after, memory, value[0]);
        break;
    case TAG_HOST_WRITE:
        count_host_write(before, two_bytes(value), (length - 2) / 2);
        break;
    case TAG_START:
        count_start(before, after);
        break;
    default: /* TAG_CONTROLLER_SETUP */
        break;
    }
}

/* A first field that 8 would meet, were it not 9 already. */
static bool is_unfit(const uint8_t *field)
{
    const uint8_t *const value = field + HEAD_BYTES;

    return (field[0] == TAG_WORD && value[0] > MARKS_ALL)
        || (field[0] == TAG_SILENCE && value[0] > 1);
}

static void count_refusal(const struct controller *controller, enum refusal refusal,
                          const uint8_t *field, size_t left)
{
    const unsigned tag = field[0];
    const bool is_open = controller->is_open;

    count_reader_refusal(refusal, tag, TAG_CONTROLLER_SETUP, left);
    COUNT_IF(refusal == REFUSAL_TAG && tag >= 1 && tag <= 7, refusal_6_tray_tag);
    COUNT_IF(refusal == REFUSAL_SETUP && is_unfit(field), refusal_9_not_first_unfit);
    COUNT_IF(refusal == REFUSAL_RANGE && tag == TAG_WORD && is_open,
             refusal_8_marks_while_open);
    COUNT_IF(refusal == REFUSAL_RANGE && tag == TAG_SILENCE && is_open,
             refusal_8_line_while_open);
    if (refusal == REFUSAL_FORMAT) {
        COUNT_INDEX(refusal_14_format, format_code_of(controller->control));
        COUNT_IF(is_chained, refusal_14_chained);
        COUNT_IF(!is_chained, refusal_14_first);
    }
}

static void count_last_state(const struct controller_recording *recording)
{
    COUNT_IF(!recording->run.has_setup, end_without_setup);
    if (recording->controller.is_open)
        COUNT_INDEX(open_at_end, recording->controller.message.stage);
}

enum outcome controller_run_observed(struct controller_recording *recording,
                                     const uint8_t *window, size_t length, bool is_last,
                                     size_t *used)
{
    const struct controller *const controller = &recording->controller;
    struct run *const run = &recording->run;
    enum outcome outcome;
    size_t taken;

    *used = 0;
    do {
        const uint8_t *const field = window + *used;
        const size_t left = length - *used;
        const struct controller before = *controller;

        outcome = controller_run(recording, field, field_bytes(field, left), is_last, &taken);
        if (taken != 0)
            count_field(&before, controller, run->memory, field);
        else if (outcome == OUTCOME_REFUSED)
            count_refusal(controller, run->refusal, field, left);
        *used += taken;
    } while (taken != 0);
    if (outcome == OUTCOME_ENDED || outcome == OUTCOME_REFUSED)
        count_last_state(recording);
    return outcome;
}
