/* The controller of request K10: K10.1 to K10.7. */
#include "controller.h"

/* "Formats": rows 0 to 5; X is for the rows that may go to a group. */
static bool is_in_table(unsigned control)
{
    static const bool may_be_group[8] = {
        [ROW_TO_TERMINAL] = true,
        [ROW_BETWEEN_TERMINALS] = true,
        [ROW_MODE] = true,
        [ROW_MODE_WITH_WORD] = true,
    };
    const unsigned row = row_of_control(control);

    return row <= ROW_MODE_FOR_WORD
        && ((control & CONTROL_GROUP) == 0 || may_be_group[row]);
}

/* "Formats", given by the controller. */
static unsigned words_given(unsigned row, uint16_t first)
{
    switch (row) {
    case ROW_TO_TERMINAL:
        return 1 + count_of(first);
    case ROW_BETWEEN_TERMINALS:
    case ROW_MODE_WITH_WORD:
        return 2;
    default:
        return 1;
    }
}

/* "Formats", data in the reply; K10.3: row 2 goes by the second command's count. */
static unsigned words_wanted(unsigned row, uint16_t first, uint16_t second)
{
    switch (row) {
    case ROW_FROM_TERMINAL:
        return count_of(first);
    case ROW_BETWEEN_TERMINALS:
        return count_of(second);
    case ROW_MODE_FOR_WORD:
        return 1;
    default:
        return 0;
    }
}

/* K10.1, "setup": due, nothing open, no result. */
void controller_setup(struct controller *controller, uint16_t control, uint16_t count)
{
    *controller = (struct controller){
        .control = control,
        .starts_left = count,
        .is_due = true,
    };
}

/* K10.2. */
enum refusal controller_start(struct controller *controller, const uint16_t *memory,
                              struct given *given)
{
    const unsigned control = controller->control;
    const unsigned row = row_of_control(control);
    const uint16_t *const block = &memory[word_address(block_of_control(control), 0)];

    *given = (struct given){.word_count = 0};
    if (!controller->is_due || controller->is_open || controller->starts_left == 0)
        return REFUSAL_NONE;
    if (!is_in_table(control))
        return REFUSAL_FORMAT;

    controller->starts_left--;
    controller->is_due = false;
    controller->has_result = false;
    controller->is_open = true;
    controller->message = (struct exchange){
        .row = (uint8_t)row,
        .group = (control & CONTROL_GROUP) != 0,
        .first = block[0],
        .second = block[1],
        .words_given = (uint8_t)words_given(row, block[0]),
        .words_wanted = (uint8_t)words_wanted(row, block[0], block[1]),
        .stage = CONTROLLER_GIVEN,
    };
    given->word_count = controller->message.words_given;
    given->words = block;
    return REFUSAL_NONE;
}

/* K10.7: the result, and whether the chain goes on by cell 63. */
static void end_message(struct controller *controller, const uint16_t *memory,
                        enum fault code)
{
    const bool mark = controller->message.mark;
    const unsigned control = controller->control;

    controller->is_open = false;
    controller->has_result = true;
    controller->result = (struct result){.code = (uint8_t)code, .mark = mark};
    if (code == FAULT_NONE && !mark && (control & CONTROL_GO_ON) != 0) {
        controller->control = memory[word_address(block_of_control(control), CELL_LINK)];
        controller->is_due = true;
    }
}

/* "Awaited address: in row 2 C2's for S2 and C1's for S1; else C's." */
static unsigned awaited_address(const struct exchange *message)
{
    if (message->row == ROW_BETWEEN_TERMINALS && message->stage == CONTROLLER_AWAITING)
        return address_of(message->second);
    return address_of(message->first);
}

/* K10.4: a word of the message's line, the first rule that fits; the fault that it
   brings, or none. */
static enum fault take_word(struct exchange *message, uint16_t *block, unsigned marks,
                            uint16_t value)
{
    const bool is_command = (marks & MARK_COMMAND_SYNC) != 0;
    /* K10.6: the status behind the words given, the data behind the status. */
    const unsigned status_cell = message->words_given;
    const unsigned data_cell = status_cell + 1 + message->words_taken;

    if ((marks & MARK_SOUND) == 0)                                      /* 4.1 */
        return FAULT_UNSOUND;
    if (message->stage == CONTROLLER_GIVEN)                             /* 4.2 */
        return FAULT_COMMAND;
    if (message->stage == CONTROLLER_AWAITING || message->stage == CONTROLLER_LAST) {
        const bool is_last = message->stage == CONTROLLER_LAST;         /* 4.3 */

        if (!is_command)
            return FAULT_SYNC;
        if (address_of(value) != awaited_address(message))
            return FAULT_WRONG_ANSWER;
        /* K10.6: the last status in cell 3 + wanted, row 2 having given 2. */
        block[is_last ? 3u + message->words_wanted : status_cell] = value;
        message->mark = message->mark || (value & 0x7FF) != 0;
        message->stage = is_last ? CONTROLLER_ENDED : CONTROLLER_REPLY;
        return FAULT_NONE;
    }
    if ((marks & MARK_JOINED) == 0)                                     /* 4.4 */
        return FAULT_GAP;
    if (message->stage == CONTROLLER_ENDED
        || message->words_taken == message->words_wanted)               /* 4.5 */
        return FAULT_TOO_MANY;
    if (is_command)                                                     /* 4.6 */
        return FAULT_SYNC;
    block[data_cell] = value;                                           /* 4.7 */
    message->words_taken++;
    return FAULT_NONE;
}

/* K10.4: words of the other line, and of either while none is open, do nothing. */
enum refusal controller_word(struct controller *controller, uint16_t *memory,
                             unsigned marks, uint16_t value, bool *is_end)
{
    const unsigned control = controller->control;
    enum fault fault;

    *is_end = false;
    if (marks > MARKS_ALL)
        return REFUSAL_RANGE;
    if (!controller->is_open || (marks & MARK_LINE_B) != line_of_control(control))
        return REFUSAL_NONE;

    fault = take_word(&controller->message,
                      &memory[word_address(block_of_control(control), 0)], marks, value);
    if (fault != FAULT_NONE) {
        end_message(controller, memory, fault);
        *is_end = true;
    }
    return REFUSAL_NONE;
}

/* K10.5: what a silence brings, with the next stage where it ends nothing. */
struct pause {
    bool is_end;
    enum fault code;
    enum controller_stage stage;
};

static struct pause end_with(enum fault code)
{
    return (struct pause){.is_end = true, .code = code};
}

static struct pause go_to(enum controller_stage stage)
{
    return (struct pause){.stage = stage};
}

static struct pause take_silence(const struct exchange *message)
{
    switch (message->stage) {
    case CONTROLLER_GIVEN:
        /* X is in rows 0, 2, 3 and 4 alone, and row 2's transmitter answers. */
        if (message->group && message->row != ROW_BETWEEN_TERMINALS)
            return end_with(FAULT_NONE);
        return go_to(CONTROLLER_AWAITING);
    case CONTROLLER_AWAITING:
    case CONTROLLER_LAST:
        return end_with(FAULT_NO_ANSWER);
    case CONTROLLER_REPLY:
        if (message->words_taken < message->words_wanted)
            return end_with(FAULT_GAP);
        if (message->row == ROW_BETWEEN_TERMINALS && !message->group)
            return go_to(CONTROLLER_LAST);
        return end_with(FAULT_NONE);
    default: /* CONTROLLER_ENDED */
        return end_with(FAULT_NONE);
    }
}

enum refusal controller_silence(struct controller *controller, const uint16_t *memory,
                                unsigned line, bool *is_end)
{
    struct pause pause;

    *is_end = false;
    if (line > 1)
        return REFUSAL_RANGE;
    if (!controller->is_open || line != line_of_control(controller->control))
        return REFUSAL_NONE;

    pause = take_silence(&controller->message);
    if (pause.is_end)
        end_message(controller, memory, pause.code);
    else
        controller->message.stage = (uint8_t)pause.stage;
    *is_end = pause.is_end;
    return REFUSAL_NONE;
}
