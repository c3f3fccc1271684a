/* The monitor of request K3: K3.2 to K3.11. */
#include "monitor.h"

static uint16_t *block_of(const struct monitor *monitor, uint16_t *memory)
{
    return &memory[word_address(block_of_control(monitor->control), 0)];
}

static void store(const struct monitor *monitor, uint16_t *memory, struct heard *message,
                  uint16_t value)
{
    block_of(monitor, memory)[message->words_stored] = value;
    message->words_stored++;
}

/* K3.4, the row by the first command. */
static unsigned row_of_command(unsigned command)
{
    const bool direction = direction_of(command);

    if (is_data_subaddress(subaddress_of(command)))
        return direction ? ROW_FROM_TERMINAL : ROW_TO_TERMINAL;
    if (low_five_of(command) < 16)
        return ROW_MODE;
    return direction ? ROW_MODE_FOR_WORD : ROW_MODE_WITH_WORD;
}

/* K3.5: "a status comes in every row unless broadcast, in row 2 even then". */
static bool has_status(const struct heard *message)
{
    return !message->group || message->row == ROW_BETWEEN_TERMINALS;
}

/* K3.5: "a last status comes in row 2 unless broadcast". */
static bool has_last_status(const struct heard *message)
{
    return message->row == ROW_BETWEEN_TERMINALS && !message->group;
}

/* K3.5. */
static bool is_all_in(const struct heard *message)
{
    switch (message->stage) {
    case MONITOR_COMMAND:
    case MONITOR_REPLY:
        return message->words_taken >= message->words_wanted;
    default:
        return message->stage == MONITOR_ENDED;
    }
}

/* K3.5. */
static bool is_complete(const struct heard *message)
{
    if (!is_all_in(message))
        return false;
    if (message->stage == MONITOR_COMMAND)
        return !has_status(message);
    if (message->stage == MONITOR_REPLY)
        return !has_last_status(message);
    return true;
}

/* K3.2, "setup". */
void monitor_setup(struct monitor *monitor, uint16_t control)
{
    *monitor = (struct monitor){.control = control, .is_running = true};
}

/* K3.6. */
static void open_message(struct monitor *monitor, uint16_t *memory, unsigned line,
                         uint16_t command)
{
    const unsigned row = row_of_command(command);

    monitor->is_open = true;
    monitor->message = (struct heard){
        .line = (uint8_t)line,
        .row = (uint8_t)row,
        .group = address_of(command) == ADDRESS_BROADCAST,
        .stage = MONITOR_COMMAND,
        .first = command,
        .words_wanted = (uint8_t)data_behind_command(row, command),
    };
    store(monitor, memory, &monitor->message, command);
}

/* K3.11, bits 13 to 10. */
static unsigned format_code(const struct heard *message, unsigned row)
{
    return message->group && may_be_group(row) ? row | FORMAT_CODE_GROUP : row;
}

/* K3.11; is_misfit: a second command that did not fit closes it. */
static void close_message(struct monitor *monitor, uint16_t *memory, enum fault code,
                          bool is_misfit, struct closed *closed)
{
    const struct heard *const message = &monitor->message;
    const unsigned row = is_misfit ? (unsigned)ROW_BETWEEN_TERMINALS : message->row;
    uint16_t *const block = block_of(monitor, memory);
    unsigned state_word = (unsigned)message->line << MONITOR_STATE_LINE
        | format_code(message, row) << MONITOR_STATE_FORMAT_CODE | (unsigned)code;

    if (!is_legal_command(message->first))
        state_word |= MONITOR_STATE_ERROR | MONITOR_STATE_FIRST;
    if (is_misfit)
        state_word |= MONITOR_STATE_ERROR | MONITOR_STATE_SECOND;
    if (code != FAULT_NONE)
        state_word |= MONITOR_STATE_ERROR;
    if (message->mark)
        state_word |= MONITOR_STATE_MARK;

    block[CELL_MONITOR_STATE_WORD] = (uint16_t)state_word;
    *closed = (struct closed){
        .block = block_of_control(monitor->control),
        .word_count = message->words_stored,
    };
    monitor->is_open = false;
    if ((monitor->control & CONTROL_GO_ON) == 0
        || ((monitor->control & CONTROL_STAYS_ON) == 0
            && (state_word & (MONITOR_STATE_ERROR | MONITOR_STATE_MARK)) != 0))
        monitor->is_running = false;
    else
        monitor->control = block[CELL_LINK];
}

/* The same for all that is no misfit; it has closed a message. */
static bool close_with(struct monitor *monitor, uint16_t *memory, enum fault code,
                       struct closed *closed)
{
    close_message(monitor, memory, code, false, closed);
    return true;
}

/* K3.8. */
static bool supersede(struct monitor *monitor, uint16_t *memory, unsigned line,
                      uint16_t command, struct closed *closed)
{
    const enum fault code = is_complete(&monitor->message) ? FAULT_NONE : FAULT_COMMAND;

    (void)close_with(monitor, memory, code, closed);
    if (monitor->is_running)
        open_message(monitor, memory, line, command);
    return true;
}

/* "Awaited address: in row 2 C2's for S2 and C1's for S1; else C's." */
static unsigned awaited_address(const struct heard *message)
{
    if (message->row == ROW_BETWEEN_TERMINALS && message->stage == MONITOR_AWAITING)
        return address_of(message->second);
    return address_of(message->first);
}

/* K3.7.2: a sound word where a status is due. */
static bool take_status(struct monitor *monitor, uint16_t *memory, unsigned marks,
                        uint16_t value, struct closed *closed)
{
    struct heard *const message = &monitor->message;

    if ((marks & MARK_COMMAND_SYNC) == 0)
        return close_with(monitor, memory, FAULT_SYNC, closed);
    if (address_of(value) != awaited_address(message)) {
        (void)close_with(monitor, memory, FAULT_WRONG_ANSWER, closed);
        if ((marks & MARK_JOINED) == 0 && monitor->is_running)
            open_message(monitor, memory, marks & MARK_LINE_B, value);
        return true;
    }
    store(monitor, memory, message, value);
    message->mark = message->mark || (value & 0x7FF) != 0;
    if (message->stage == MONITOR_LAST) {
        message->stage = MONITOR_ENDED;
    } else {
        message->stage = MONITOR_REPLY;
        message->words_wanted = (uint8_t)data_in_reply(message->row, message->first);
    }
    return false;
}

/* K3.7.6: a command as first word of a data receive. */
static bool take_second(struct monitor *monitor, uint16_t *memory, uint16_t value,
                        struct closed *closed)
{
    struct heard *const message = &monitor->message;

    if (!direction_of(value) || !is_data_subaddress(subaddress_of(value))
        || low_five_of(value) != low_five_of(message->first)
        || address_of(value) == ADDRESS_BROADCAST
        || address_of(value) == address_of(message->first)) {
        close_message(monitor, memory, FAULT_COMMAND, true, closed);
        return true;
    }
    store(monitor, memory, message, value);
    message->row = ROW_BETWEEN_TERMINALS;
    message->second = value;
    message->stage = MONITOR_SECOND;
    return false;
}

/* K3.7: a word of the open message's line, the first rule that fits. */
static bool take_word(struct monitor *monitor, uint16_t *memory, unsigned marks,
                      uint16_t value, struct closed *closed)
{
    struct heard *const message = &monitor->message;
    const bool is_command = (marks & MARK_COMMAND_SYNC) != 0;

    if ((marks & MARK_SOUND) == 0)                                      /* 7.1 */
        return close_with(monitor, memory, FAULT_UNSOUND, closed);
    if (message->stage == MONITOR_AWAITING || message->stage == MONITOR_LAST) /* 7.2 */
        return take_status(monitor, memory, marks, value, closed);
    if ((marks & MARK_JOINED) == 0)                                     /* 7.3 */
        return is_command
            ? supersede(monitor, memory, message->line, value, closed)
            : close_with(monitor, memory, FAULT_GAP, closed);
    if (message->stage == MONITOR_SECOND)                               /* 7.4 */
        return close_with(monitor, memory, FAULT_COMMAND, closed);
    if (is_all_in(message))                                             /* 7.5 */
        return close_with(monitor, memory, FAULT_TOO_MANY, closed);
    if (is_command && message->stage == MONITOR_COMMAND
        && message->row == ROW_TO_TERMINAL && message->words_taken == 0) /* 7.6 */
        return take_second(monitor, memory, value, closed);
    if (is_command)                                                     /* 7.7 */
        return close_with(monitor, memory, FAULT_SYNC, closed);
    store(monitor, memory, message, value);                             /* 7.8 */
    message->words_taken++;
    return false;
}

/* K3.6, and K3.7 for the other line. */
bool monitor_word(struct monitor *monitor, uint16_t *memory, unsigned marks, uint16_t value,
                  struct closed *closed)
{
    const unsigned needed = MARK_SOUND | MARK_COMMAND_SYNC;
    const bool may_open = (marks & needed) == needed;
    const unsigned line = marks & MARK_LINE_B;

    if (!monitor->is_running)
        return false;
    if (!monitor->is_open) {
        if (may_open)
            open_message(monitor, memory, line, value);
        return false;
    }
    if (line != monitor->message.line)
        return may_open && supersede(monitor, memory, line, value, closed);
    return take_word(monitor, memory, marks, value, closed);
}

/* K3.9. */
bool monitor_silence(struct monitor *monitor, uint16_t *memory, unsigned line,
                     struct closed *closed)
{
    struct heard *const message = &monitor->message;

    if (!monitor->is_open || line != message->line)
        return false;
    if (message->stage == MONITOR_SECOND) {
        message->stage = MONITOR_AWAITING;
        return false;
    }
    if (message->stage == MONITOR_AWAITING || message->stage == MONITOR_LAST)
        return close_with(monitor, memory, FAULT_NO_ANSWER, closed);
    if (!is_all_in(message))
        return close_with(monitor, memory, FAULT_GAP, closed);
    if (is_complete(message))
        return close_with(monitor, memory, FAULT_NONE, closed);
    message->stage = message->stage == MONITOR_COMMAND ? MONITOR_AWAITING : MONITOR_LAST;
    return false;
}
