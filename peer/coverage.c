/*
 * The observer of tray recordings: runs the reader one field at a time and counts what the field
 * reached, by the terminal before it, its value, and the terminal and the card
 * memory after it.  Which rule fitted is told by what became of the message; what
 * no state shows, a copy of the terminal is asked.
 */
#include "peer.h"
#include "tray_counters.h"

#include "observer.h"

struct word {
    unsigned marks;
    uint16_t value;
    uint32_t time;
    bool is_own;        /* an own command */
    unsigned fault;     /* the code by which it closed the open message, or 0 */
};

static uint16_t spare[CARD_CELLS]; /* the memory of the copies */

/* With nothing open any own command opens, and no other word does. */
static bool is_own_command(const struct terminal *before, const struct word *word)
{
    struct terminal copy = *before;

    copy.is_open = false;
    (void)terminal_word(&copy, spare, word->marks, word->value, word->time);
    return copy.is_open;
}

/* Not every message has a block to show the code of its fault: the copy's has
   block 0, and no link that could be written over the code. */
static struct terminal with_spare_block(const struct terminal *before)
{
    struct terminal copy = *before;

    copy.message.has_block = true;
    copy.message.block = 0;
    copy.message.moved = true;
    spare[CELL_STATE_WORD] = 0;
    return copy;
}

static unsigned spare_fault(void)
{
    return spare[CELL_STATE_WORD] >> STATE_FAULT_CODE & 7;
}

static unsigned fault_of_word(const struct terminal *before, const struct word *word)
{
    struct terminal copy = with_spare_block(before);

    (void)terminal_word(&copy, spare, word->marks, word->value, word->time);
    return spare_fault();
}

/* "Opening", which writes nothing: the table word is still the one it read. */
static void count_opening(const struct terminal *after, const uint16_t *memory)
{
    const struct message *message = &after->message;
    const unsigned subaddress = subaddress_of(message->command);
    const unsigned low_five = low_five_of(message->command);
    const bool is_data = message->format != FORMAT_MODE;
    const bool is_legal = message->stage != STAGE_SKIPPING;

    COUNT_IF(message->broadcast, open_broadcast);
    COUNT_IF(!message->broadcast, open_own);
    COUNT_IF(message->line == 0, open_line_a);
    COUNT_IF(message->line == 1, open_line_b);
    COUNT_IF((after->flags & FLAG_BUSY) != 0, busy_by_flag);
    if (is_data) {
        COUNT_IF(low_five == 0, open_count_0);
        COUNT_IF(is_legal && message->format == FORMAT_RECEIVE, open_receive);
        COUNT_IF(is_legal && message->format == FORMAT_TRANSMIT, open_transmit);
        COUNT_IF(!is_legal, open_illegal_broadcast_transmit);
    } else {
        COUNT_IF(subaddress == 0, open_mode_subaddress_0);
        COUNT_IF(subaddress == 31, open_mode_subaddress_31);
        if (is_legal)
            COUNT_INDEX(mode_legal, low_five);
        else
            COUNT_INDEX(mode_illegal, low_five);
    }
    if (message->has_block) {
        const uint16_t table_word = memory[message->table * BLOCK_CELLS + message->cell];

        COUNT_IF(message->block == message->table, block_is_table);
        COUNT_IF((table_word & 0x300) != 0, block_modulo_256);
        COUNT_IF((table_word & TABLE_BUSY) != 0 && (after->flags & FLAG_BUSY) == 0,
                 busy_by_table);
    }
    if (!is_legal)
        return;
    if (!is_data && (low_five == MODE_TRANSMIT_STATUS || low_five == MODE_LAST_COMMAND)) {
        COUNT_IF((after->status & STATUS_MESSAGE_ERROR) != 0, message_error_kept);
    } else {
        COUNT_IF((after->status & STATUS_BUS_CONTROL) != 0, status_bus_control);
        COUNT_IF((after->status & STATUS_TERMINAL) != 0, status_terminal_flag);
        COUNT_IF((after->flags & FLAG_TERMINAL) != 0 && after->inhibit,
                 status_terminal_flag_inhibited);
    }
}

/* "Closing" of the message that was open. */
static void count_closing(const struct terminal *before, const struct terminal *after,
                          uint32_t time)
{
    const struct message *message = &before->message;
    const uint32_t elapsed = time - message->opened;
    const bool is_own_table = message->block == message->table;

    if (!message->has_block)
        return;
    COUNT_IF(elapsed > ELAPSED_MAXIMUM, elapsed_over_65535);
    COUNT_IF(elapsed == 0, elapsed_zero);
    COUNT_IF(time < message->opened, time_not_rising);
    if (message->moved) {
        COUNT(link_not_stored);
        COUNT_IF(message->table == before->table, link_not_stored_same_number);
    } else {
        COUNT(link_stored);
        COUNT_IF(is_own_table && message->cell >= CELL_STATE_WORD
                 && message->cell <= CELL_ELAPSED, link_over_service_cell);
        COUNT_IF(is_own_table && message->cell == CELL_LINK, link_over_itself);
    }
    if (!message->queued)
        COUNT(queue_not_wanted);
    else if (after->queue_count > before->queue_count)
        COUNT(queue_joined);
    else
        COUNT(queue_overflow);
}

static void count_fault(const struct terminal *before, const struct terminal *after,
                        unsigned fault, uint32_t time)
{
    COUNT_INDEX(fault, fault);
    COUNT_IF(!before->message.has_block, fault_without_block);
    COUNT_IF(before->message.broadcast, fault_broadcast);
    COUNT_IF(before->message.busy, fault_busy);
    count_closing(before, after, time);
}

/* Rule 2: a sound word where the answering status was due. */
static void count_answer(const struct message *message, const struct word *word)
{
    const bool is_joined = (word->marks & MARK_JOINED) != 0;

    COUNT(rule_2);
    switch (word->fault) {
    case FAULT_SYNC:
        COUNT(rule_2_data_sync);
        COUNT_IF(address_of(word->value) != address_of(message->second),
                 rule_2_data_sync_wrong_address);
        break;
    case FAULT_WRONG_ANSWER:
        COUNT(rule_2_wrong_address);
        COUNT_IF(word->is_own, rule_2_wrong_address_own);
        break;
    default:
        COUNT(rule_2_taken);
        COUNT_IF(is_joined, rule_2_taken_joined);
        COUNT_IF(!is_joined, rule_2_taken_not_joined);
        break;
    }
}

/* Rule 6, "else 7". */
static void count_unfit_command(const struct terminal *before, uint16_t value)
{
    const unsigned address = address_of(value);
    const bool is_transmit = direction_of(value) && is_data_subaddress(subaddress_of(value));

    COUNT(rule_6);
    COUNT(rule_6_else);
    if (!is_transmit)
        COUNT(rule_6_else_not_a_transmit);
    else if (address == before->station)
        COUNT(rule_6_else_own);
    else if (address == ADDRESS_BROADCAST)
        COUNT(rule_6_else_address_31);
    else
        COUNT(rule_6_else_wrong_count);
}

/* Rule 8. */
static void count_data(const struct message *message)
{
    COUNT(rule_8);
    COUNT_IF(message->has_second, rule_8_after_answer);
    if (message->busy && message->format == FORMAT_RECEIVE) {
        COUNT(rule_8_busy_checked);
    } else {
        COUNT(rule_8_stored);
        COUNT_IF(message->busy, rule_8_busy_mode_stored);
        COUNT_IF(message->block == message->table && message->words_taken == message->cell,
                 data_over_own_table_cell);
    }
}

/* Rules 6 and 8 where they close nothing. */
static void count_taken(const struct terminal *before, const struct terminal *after,
                        const uint16_t *memory)
{
    const struct message *message = &before->message;

    if (after->message.words_taken > message->words_taken) {
        count_data(message);
    } else if (after->message.stage == STAGE_SECOND) {
        COUNT(rule_6);
        COUNT(rule_6_second_command);
        COUNT_IF(message->broadcast, rule_6_second_command_broadcast);
    } else {
        COUNT(rule_6);
        COUNT(rule_6_dropped);
        count_opening(after, memory);
    }
}

/* "Words of an open message". */
static void count_rule(const struct terminal *before, const struct terminal *after,
                       const uint16_t *memory, const struct word *word)
{
    const struct message *message = &before->message;
    const bool has_all_words = message->words_taken == message->words_wanted;

    if (message->stage == STAGE_SKIPPING) {
        COUNT(word_skipped);
        COUNT_IF((word->marks & MARK_SOUND) == 0, word_skipped_unsound);
        COUNT_IF(word->is_own, word_skipped_own);
        return;
    }
    if (message->stage == STAGE_AWAITING && word->fault != FAULT_UNSOUND) {
        count_answer(message, word);
        return;
    }
    switch (word->fault) {
    case FAULT_UNSOUND:
        COUNT(rule_1);
        break;
    case FAULT_GAP:
        COUNT(rule_3);
        COUNT_IF(message->stage == STAGE_SECOND, rule_3_after_second);
        COUNT_IF(has_all_words, rule_3_words_in);
        break;
    case FAULT_TOO_MANY:
        COUNT(rule_5);
        COUNT_IF(message->words_wanted == 0, rule_5_none_wanted);
        COUNT_IF(message->words_wanted != 0, rule_5_all_in);
        COUNT_IF((word->marks & MARK_COMMAND_SYNC) != 0, rule_5_command_sync);
        break;
    case FAULT_COMMAND:
        if (message->stage == STAGE_SECOND)
            COUNT(rule_4);
        else
            count_unfit_command(before, word->value);
        break;
    case FAULT_SYNC:
        COUNT(rule_7);
        COUNT_IF(message->has_second && message->words_taken == 0, rule_7_after_answer);
        COUNT_IF(message->format == FORMAT_MODE, rule_7_mode_data);
        COUNT_IF(word->is_own, rule_7_own_joined);
        break;
    default:
        count_taken(before, after, memory);
        break;
    }
}

/* "Opening", first paragraph. */
static void count_word(const struct terminal *before, const struct terminal *after,
                       const uint16_t *memory, const uint8_t *value)
{
    struct word word = {
        .marks = value[0],
        .value = two_bytes(value + 1),
        .time = four_bytes(value + 3),
    };
    const bool is_joined = (word.marks & MARK_JOINED) != 0;
    const bool is_same_line = (word.marks & MARK_LINE_B) == before->message.line;

    word.is_own = is_own_command(before, &word);
    word.fault = fault_of_word(before, &word);

    if (word.fault != FAULT_NONE)
        count_fault(before, after, word.fault, word.time);
    if (!before->is_open && !after->is_open) {
        COUNT(word_nothing_open);
    } else if (!before->is_open) {
        COUNT_IF(is_joined, open_joined);
        COUNT_IF(!is_joined, open_not_joined);
        count_opening(after, memory);
    } else if (word.fault == FAULT_COMMAND && after->is_open) {
        COUNT_IF(is_same_line, superseded_same_line);
        COUNT_IF(!is_same_line, superseded_other_line);
        COUNT_INDEX(superseded_stage, before->message.stage);
        count_opening(after, memory);
    } else if (is_same_line) {
        count_rule(before, after, memory, &word);
    } else {
        COUNT(word_other_line_ignored);
    }
}

/* The status, and the words that a sound end sends after it. */
static void count_reply(const struct terminal *before, const struct reply *reply)
{
    const struct message *message = &before->message;
    const bool is_mode = message->format == FORMAT_MODE;

    COUNT_IF(message->broadcast, reply_none_broadcast);
    COUNT_IF(before->shut[message->line], reply_none_shut);
    COUNT_IF(reply->given, reply_given);
    if (!reply->given || message->words_to_send == 0 || message->stage == STAGE_SKIPPING)
        return;
    if (reply->word_count == 0)
        COUNT(sent_busy_status_alone);
    else if (!is_mode)
        COUNT(sent_data);
    else if (low_five_of(message->command) == MODE_LAST_COMMAND)
        COUNT(sent_last_command);
    else if (message->busy)
        COUNT(sent_busy_mode_data);
    else
        COUNT(sent_mode_data);
}

/* "Sound end", what mode codes do. */
static void count_mode_end(const struct terminal *before, const struct terminal *after)
{
    const unsigned code = low_five_of(before->message.command);
    const unsigned line = before->message.line;

    COUNT_INDEX(mode_ended, code);
    switch (code) {
    case MODE_SHUT:
        COUNT(act_4);
        COUNT_IF(after->shut[0] && after->shut[1], act_4_both_shut);
        break;
    case MODE_OPEN:
        COUNT(act_5);
        COUNT_IF(before->shut[line ^ 1], act_5_was_shut);
        break;
    case MODE_INHIBIT:
        COUNT(act_6);
        break;
    case MODE_RELEASE:
        COUNT(act_7);
        COUNT_IF(before->inhibit, act_7_was_inhibited);
        break;
    case MODE_RESET:
        COUNT(act_8);
        COUNT_IF(before->shut[line], act_8_on_shut_line);
        break;
    default:
        break;
    }
}

static void count_sound_end(const struct terminal *before, const struct terminal *after,
                            uint32_t time)
{
    const struct message *message = &before->message;

    COUNT(silence_sound_end);
    if (message->format == FORMAT_MODE)
        count_mode_end(before, after);
    COUNT_IF(message->busy && message->format == FORMAT_RECEIVE, ended_busy_receive);
    COUNT_IF(message->has_second, ended_after_answer);
    COUNT_IF(message->broadcast && (before->flags & FLAG_BROADCAST_ENABLED) == 0,
             ended_broadcast_disabled_since);
    count_closing(before, after, time);
}

/* "Silence on its line". */
static void count_silence(const struct terminal *before, const struct terminal *after,
                          const uint8_t *value)
{
    const struct message *message = &before->message;
    const unsigned line = value[0];
    const uint32_t time = four_bytes(value + 1);
    struct terminal copy = with_spare_block(before);
    struct reply reply;
    unsigned fault;

    (void)terminal_silence(&copy, spare, line, time, &reply);
    fault = spare_fault();

    if (fault != FAULT_NONE)
        count_fault(before, after, fault, time);
    if (!before->is_open) {
        COUNT(silence_nothing_open);
    } else if (line != message->line) {
        COUNT(silence_elsewhere);
    } else if (after->is_open) {
        COUNT(silence_after_second);
    } else if (fault == FAULT_NO_ANSWER) {
        COUNT(silence_no_answer);
    } else if (fault == FAULT_GAP) {
        COUNT(silence_words_short);
        COUNT_IF(message->has_second, silence_words_short_after_answer);
    } else {
        count_reply(before, &reply);
        if (message->stage == STAGE_SKIPPING)
            COUNT(silence_illegal_end);
        else
            count_sound_end(before, after, time);
    }
}

/* "Queue read". */
static void count_queue_read(const struct terminal *before)
{
    COUNT_IF(before->queue_overflow, queue_read_overflow);
    if (before->queue_count == 0) {
        COUNT(queue_read_empty);
        COUNT_IF(before->queue_overflow, queue_read_empty_overflow);
    } else {
        COUNT(queue_read_found);
        COUNT_IF(before->queue_start == QUEUE_PLACES - 1, queue_read_around);
    }
}

/* Where a host write hits the open message. */
static void count_host_write(const struct terminal *before, unsigned address,
                             unsigned word_count)
{
    const struct message *message = &before->message;
    const unsigned start = message->block * (unsigned)BLOCK_CELLS;
    const unsigned table_cell = message->table * (unsigned)BLOCK_CELLS + message->cell;

    if (!before->is_open)
        return;
    COUNT(host_write_inside_message);
    if (!message->has_block)
        return;
    COUNT_IF(covers(address, word_count, table_cell, table_cell), host_write_inside_table_cell);
    COUNT_IF(covers(address, word_count, start, start + 57), host_write_inside_block);
    COUNT_IF(covers(address, word_count, start + CELL_LINK, start + CELL_LINK),
             host_write_inside_link);
}

static void count_flags(const struct terminal *before, unsigned flags)
{
    COUNT_IF(before->is_open, flags_inside_message);
    COUNT_IF(before->is_open && before->message.broadcast
             && (flags & FLAG_BROADCAST_ENABLED) == 0, broadcast_cleared_inside_broadcast);
}

/* A field that was taken. */
static void count_field(const struct terminal *before, const struct terminal *after,
                        const uint16_t *memory, const uint8_t *field)
{
    const unsigned tag = field[0];
    const unsigned length = two_bytes(field + 1);
    const uint8_t *const value = field + HEAD_BYTES;

    COUNT_INDEX(field_tag, tag);
    switch (tag) {
    case TAG_WORD:
        count_word(before, after, memory, value);
        break;
    case TAG_SILENCE:
        count_silence(before, after, value);
        break;
    case TAG_QUEUE_READ:
        count_queue_read(before);
        break;
    case TAG_HOST_WRITE:
        count_host_write(before, two_bytes(value), (length - 2) / 2);
        break;
    case TAG_TABLE:
        COUNT_IF(before->is_open, table_inside_message);
        break;
    case TAG_FLAGS:
        count_flags(before, value[0]);
        break;
    default: /* TAG_SETUP */
        break;
    }
}

/* The field that was refused: what the terminal refuses, then what the reader does. */
static void count_refusal(enum refusal refusal, unsigned tag, size_t left)
{
    COUNT_IF(refusal == REFUSAL_STATION, refusal_2_station);
    COUNT_IF(refusal == REFUSAL_RANGE && tag == TAG_SETUP, refusal_8_setup_flags);
    COUNT_IF(refusal == REFUSAL_RANGE && tag == TAG_FLAGS, refusal_8_flags);
    count_reader_refusal(refusal, tag, TAG_SETUP, left);
}

enum outcome recording_run_observed(struct recording *recording, const uint8_t *window,
                                    size_t length, bool is_last, size_t *used)
{
    struct run *const run = &recording->run;
    enum outcome outcome;
    size_t taken;

    *used = 0;
    do {
        const uint8_t *const field = window + *used;
        const size_t left = length - *used;
        const struct terminal before = recording->terminal;

        outcome = recording_run(recording, field, field_bytes(field, left), is_last, &taken);
        if (taken != 0)
            count_field(&before, &recording->terminal, run->memory, field);
        else if (outcome == OUTCOME_REFUSED)
            count_refusal(run->refusal, field[0], left);
        *used += taken;
    } while (taken != 0);
    return outcome;
}
