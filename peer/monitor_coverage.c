/*
 * The observer of the monitor's run: stands before the monitor's actions and counts what
 * each reached, by the monitor before it, what was heard, and the monitor and its memory
 * after it.  Which rule fitted is told by the stage before and by what became of the
 * message: the code of its end, or the next stage.  The first thing heard in a field is
 * the tape's, all others are the terminal's reply.
 */
#include "monitor.h"
#include "monitor_counters.h"

#include "observer.h"

static unsigned station;            /* the terminal's own */
static unsigned heard_in_field;     /* words and silences */
static unsigned closed_in_field;
static bool is_closed_by_tape;

/* What an action met, and what came of it. */
struct event {
    const struct heard *message;    /* the message that was open, if one was */
    bool is_open;
    bool is_reply;                  /* heard from our own terminal */
    bool is_closed;                 /* it closed the message */
    unsigned state_word;            /* which then has this one */
    const struct monitor *after;
};

static unsigned code_of(const struct event *event)
{
    return event->state_word & MONITOR_STATE_FAULT_CODE;
}

/* K3.6. */
static void count_opening(const struct event *event, unsigned marks)
{
    const struct heard *const message = &event->after->message;

    COUNT_INDEX(opens_row, message->row);
    COUNT_IF((marks & MARK_JOINED) != 0, opens_joined);
    COUNT_IF((marks & MARK_JOINED) == 0, opens_not_joined);
    COUNT_IF(message->line == 0, opens_line_a);
    COUNT_IF(message->line == 1, opens_line_b);
    COUNT_IF(message->group, opens_group);
    COUNT_IF(message->row == ROW_TO_TERMINAL && low_five_of(message->first) == 0,
             opens_count_0);
    COUNT_IF(event->is_reply, reply_opens);
}

/* K3.4: who took part in a sound transfer. */
static void count_transfer(const struct heard *message)
{
    if (address_of(message->second) != station)
        COUNT_IF(address_of(message->first) != station, transfer_of_others);
    else if (message->group)
        COUNT(transfer_from_own_to_group);
    else
        COUNT(transfer_from_own);
    COUNT_IF(address_of(message->first) == station, transfer_to_own);
}

/* K3.11. */
static void count_closing(const struct event *event, const struct closed *closed)
{
    const struct heard *const message = event->message;
    const unsigned state_word = event->state_word;
    const unsigned code = code_of(event);
    const unsigned format = state_word >> MONITOR_STATE_FORMAT_CODE & 15;
    const bool is_illegal = (state_word & MONITOR_STATE_FIRST) != 0;
    const bool is_marked = (state_word & MONITOR_STATE_MARK) != 0;

    closed_in_field++;
    COUNT_INDEX(fault, code);
    COUNT_INDEX(format, format);
    if (code == FAULT_NONE)
        COUNT_INDEX(format_sound, format);
    COUNT_IF(message->line == 0, closes_line_a);
    COUNT_IF(message->line == 1, closes_line_b);
    COUNT_IF(closed->word_count == 36, closes_36_words);
    COUNT_IF(closed->block == 255, closes_in_block_255);
    COUNT_IF(is_illegal, bit_9);
    COUNT_IF(is_illegal && code == FAULT_NONE, bit_9_code_0);
    COUNT_IF(is_illegal && code != FAULT_NONE, bit_9_fault);
    COUNT_IF((state_word & MONITOR_STATE_SECOND) != 0, bit_8);
    COUNT_IF(is_marked, bit_3);
    COUNT_IF(is_marked && code == FAULT_NONE, bit_3_code_0);
    COUNT_IF(is_marked && code != FAULT_NONE, bit_3_fault);
    if (is_illegal && message->group)
        COUNT_INDEX(illegal_group_row, message->row);
    else if (is_illegal)
        COUNT_INDEX(illegal_row, message->row);
    if (code == FAULT_NONE && message->row == ROW_BETWEEN_TERMINALS)
        count_transfer(message);
}

/* K3.7.2, a sound word where a status was due. */
static void count_status(const struct event *event, unsigned marks, unsigned value)
{
    const struct heard *const message = event->message;
    const unsigned stage = message->stage;
    const bool is_row_2 = message->row == ROW_BETWEEN_TERMINALS;
    const unsigned awaited = address_of(is_row_2 && stage == MONITOR_AWAITING
                                        ? message->second : message->first);

    if (event->is_closed && code_of(event) == FAULT_SYNC) {
        COUNT_INDEX(rule_7_2_data_sync, stage);
        COUNT_IF(address_of(value) != awaited, rule_7_2_data_sync_wrong_address);
    } else if (event->is_closed) {
        if (event->after->is_open)
            COUNT_INDEX(rule_7_2_wrong_opens, stage);
        else
            COUNT_INDEX(rule_7_2_wrong_joined, stage);
        COUNT_IF(event->is_reply, reply_wrong_address);
    } else {
        COUNT_INDEX(rule_7_2_taken, stage);
        COUNT_IF((marks & MARK_JOINED) != 0, rule_7_2_taken_joined);
        COUNT_IF(value == message->first, rule_7_2_taken_repeated_command);
        if ((value & 0x7FF) != 0)
            COUNT_INDEX(rule_7_2_marked, stage);
        COUNT_IF(message->mark && (value & 0x7FF) == 0, rule_7_2_mark_kept);
        if (event->is_reply)
            COUNT_INDEX(reply_status_taken, stage);
    }
}

/* K3.8. */
static void count_superseded(const struct event *event, bool is_other_line, unsigned marks)
{
    const unsigned stage = event->message->stage;
    const bool is_complete = code_of(event) == FAULT_NONE;

    if (is_other_line && is_complete)
        COUNT_INDEX(other_line_complete, stage);
    else if (is_other_line)
        COUNT_INDEX(other_line_missing, stage);
    else if (is_complete)
        COUNT_INDEX(own_line_complete, stage);
    else
        COUNT_INDEX(own_line_missing, stage);
    COUNT_IF((marks & MARK_JOINED) != 0, supersedes_joined);
    if (event->is_reply)
        COUNT_INDEX(reply_supersedes, stage);
}

/* K3.7.6, a command that does not fit, by all that is wrong with it. */
static void count_misfit(const struct heard *message, unsigned value)
{
    COUNT_IF(message->group, rule_7_6_misfit_group);
    COUNT_IF(!direction_of(value), rule_7_6_misfit_direction);
    COUNT_IF(!is_data_subaddress(subaddress_of(value)), rule_7_6_misfit_mode);
    COUNT_IF(low_five_of(value) != low_five_of(message->first), rule_7_6_misfit_count);
    COUNT_IF(address_of(value) == ADDRESS_BROADCAST, rule_7_6_misfit_31);
    COUNT_IF(address_of(value) == address_of(message->first), rule_7_6_misfit_same_address);
}

/* K3.7.8. */
static void count_data(const struct event *event)
{
    const struct heard *const message = event->message;

    COUNT_INDEX(rule_7_8_row, message->row);
    COUNT_IF(event->after->message.words_taken == 32, rule_7_8_word_32);
    COUNT_IF(event->is_reply && message->stage == MONITOR_REPLY, reply_word_taken);
    COUNT_IF(event->is_reply && message->stage == MONITOR_COMMAND, reply_word_to_receive);
}

/* K3.7.4 to K3.7.8: sound, joined, and no status due. */
static void count_joined(const struct event *event, bool is_command, unsigned value)
{
    const struct heard *const message = event->message;
    const unsigned stage = message->stage;

    if (!event->is_closed && event->after->message.stage == MONITOR_SECOND) {
        COUNT(rule_7_6_taken);
        COUNT_IF(message->group, rule_7_6_taken_group);
    } else if (!event->is_closed) {
        count_data(event);
    } else if (stage == MONITOR_SECOND) {
        COUNT_IF(is_command, rule_7_4_command_sync);
        COUNT_IF(!is_command, rule_7_4_data);
    } else if (code_of(event) == FAULT_TOO_MANY) {
        COUNT_INDEX(rule_7_5, stage);
        COUNT_IF(message->words_wanted == 0, rule_7_5_none_wanted);
        COUNT_IF(is_command, rule_7_5_command_sync);
        COUNT_IF(event->is_reply, reply_word_too_many);
    } else if (code_of(event) == FAULT_COMMAND) {
        count_misfit(message, value);
    } else {
        COUNT_IF(message->row == ROW_MODE_WITH_WORD, rule_7_7_mode_word);
        COUNT_IF(stage == MONITOR_REPLY && message->words_taken == 0, rule_7_7_first_word);
        COUNT_IF(message->words_taken != 0, rule_7_7_later_word);
    }
}

/* K3.7, a word of the open message's line. */
static void count_own_line(const struct event *event, unsigned marks, unsigned value)
{
    const unsigned stage = event->message->stage;
    const bool is_command = (marks & MARK_COMMAND_SYNC) != 0;

    if ((marks & MARK_SOUND) == 0) {
        COUNT_INDEX(rule_7_1, stage);
    } else if (stage == MONITOR_AWAITING || stage == MONITOR_LAST) {
        count_status(event, marks, value);
    } else if ((marks & MARK_JOINED) != 0) {
        count_joined(event, is_command, value);
    } else if (is_command) {
        count_superseded(event, false, marks);
    } else {
        COUNT_INDEX(rule_7_3_gap, stage);
        COUNT_IF(event->message->words_taken >= event->message->words_wanted,
                 rule_7_3_gap_all_in);
    }
}

static void count_word(const struct event *event, unsigned marks, unsigned value)
{
    const struct heard *const message = event->message;
    const bool is_sound = (marks & MARK_SOUND) != 0;
    const bool is_command = (marks & MARK_COMMAND_SYNC) != 0;

    if (event->after->is_open && (event->is_closed || !event->is_open))
        count_opening(event, marks);
    if (event->is_reply && event->is_closed) {
        COUNT_IF(is_command, reply_closes_by_status);
        COUNT_IF(!is_command, reply_closes_by_word);
    }
    if (!event->is_open) {
        COUNT_IF(!is_sound, idle_unsound);
        COUNT_IF(is_sound && !is_command, idle_data_sync);
        COUNT_IF(event->is_reply && !is_command, reply_word_idle);
    } else if ((marks & MARK_LINE_B) == message->line) {
        count_own_line(event, marks, value);
    } else if (!is_sound) {
        COUNT_INDEX(other_line_unsound, message->stage);
    } else if (!is_command) {
        COUNT_INDEX(other_line_data_sync, message->stage);
    } else {
        count_superseded(event, true, marks);
    }
}

/* K3.9, a silence that closes the message. */
static void count_silent_end(const struct event *event)
{
    const struct heard *const message = event->message;

    switch (code_of(event)) {
    case FAULT_NO_ANSWER:
        COUNT_INDEX(silence_no_answer, message->stage);
        COUNT_INDEX(silence_no_answer_row, message->row);
        COUNT_IF(address_of(message->first) == station, no_answer_of_own);
        break;
    case FAULT_GAP:
        COUNT_INDEX(silence_short, message->stage);
        COUNT_INDEX(silence_short_row, message->row);
        COUNT_IF(event->is_reply, reply_silence_short);
        break;
    default: /* FAULT_NONE */
        COUNT_INDEX(silence_complete, message->stage);
        COUNT_IF(event->is_reply, reply_silence_complete);
        break;
    }
    COUNT_IF(event->is_reply, reply_closes_by_silence);
}

static void count_silence(const struct event *event, unsigned line)
{
    const struct heard *const message = event->message;

    if (!event->is_open) {
        COUNT(silence_nothing_open);
        COUNT_IF(event->is_reply, reply_silence_idle);
    } else if (line != message->line) {
        COUNT_INDEX(other_line_silence, message->stage);
    } else if (event->is_closed) {
        count_silent_end(event);
    } else if (message->stage == MONITOR_SECOND) {
        COUNT(silence_second);
    } else if (message->stage == MONITOR_REPLY) {
        COUNT(silence_to_last);
        COUNT_IF(event->is_reply, reply_silence_to_last);
    } else {
        COUNT_INDEX(silence_awaiting_row, message->row);
        COUNT_IF(event->is_reply, reply_silence_to_awaiting);
    }
}

/* What both actions have in common. */
static struct event event_of(const struct monitor *before, const struct monitor *after,
                             const uint16_t *memory, bool is_closed,
                             const struct closed *closed)
{
    struct event event = {
        .message = &before->message,
        .is_open = before->is_open,
        .is_reply = heard_in_field++ > 0,
        .is_closed = is_closed,
        .after = after,
    };

    if (is_closed) {
        is_closed_by_tape = is_closed_by_tape || !event.is_reply;
        event.state_word = memory[word_address(closed->block, CELL_MONITOR_STATE_WORD)];
        count_closing(&event, closed);
    }
    return event;
}

bool monitor_word_observed(struct monitor *monitor, uint16_t *memory, unsigned marks,
                           uint16_t value, struct closed *closed)
{
    const struct monitor before = *monitor;
    const bool is_closed = monitor_word(monitor, memory, marks, value, closed);
    const struct event event = event_of(&before, monitor, memory, is_closed, closed);

    count_word(&event, marks, value);
    COUNT_IF(is_closed && closed_in_field == 2, closes_two_at_word);
    return is_closed;
}

bool monitor_silence_observed(struct monitor *monitor, uint16_t *memory, unsigned line,
                              struct closed *closed)
{
    const struct monitor before = *monitor;
    const bool is_closed = monitor_silence(monitor, memory, line, closed);
    const struct event event = event_of(&before, monitor, memory, is_closed, closed);

    count_silence(&event, line);
    COUNT_IF(is_closed && closed_in_field == 2, closes_two_at_silence);
    return is_closed;
}

static void count_last_state(const struct monitor_recording *recording)
{
    COUNT_IF(!recording->run.has_setup, end_without_setup);
    if (recording->monitor.is_open)
        COUNT_INDEX(open_at_end, recording->monitor.message.stage);
}

enum outcome monitor_run_observed(struct monitor_recording *recording, const uint8_t *window,
                                  size_t length, bool is_last, size_t *used)
{
    enum outcome outcome;
    size_t taken;

    *used = 0;
    do {
        const uint8_t *const field = window + *used;
        const size_t left = length - *used;

        station = recording->terminal.station;
        heard_in_field = closed_in_field = 0;
        is_closed_by_tape = false;
        outcome = monitor_run(recording, field, field_bytes(field, left), is_last, &taken);
        if (taken != 0) {
            COUNT_INDEX(field_tag, field[0]);
            COUNT_IF(closed_in_field == 2 && is_closed_by_tape, closes_two_by_tape_and_reply);
            COUNT_IF(closed_in_field == 2 && !is_closed_by_tape, closes_two_by_reply);
        } else if (outcome == OUTCOME_REFUSED) {
            count_reader_refusal(recording->run.refusal, field[0], TAG_SETUP, left);
            COUNT_IF(recording->monitor.is_open, refusal_while_open);
        }
        *used += taken;
    } while (taken != 0);
    if (outcome == OUTCOME_ENDED || outcome == OUTCOME_REFUSED)
        count_last_state(recording);
    return outcome;
}
