/* The terminal of document 01: "The terminal" up to "Recordings". */
#include "peer.h"

enum { STATION_MAXIMUM = 30 };

/* "Opening", mode codes; a cell of 0 means an internal code, without a block. */
struct mode {
    bool is_known;
    bool direction;
    bool may_be_broadcast;
    uint8_t cell;
    uint8_t words_wanted;
    uint8_t words_to_send;
};

static const struct mode modes[32] = {
    [0] = {true, true, false, 31, 0, 0},
    [1] = {true, true, true, 31, 0, 0},
    [2] = {true, true, false, 0, 0, 0},
    [3] = {true, true, true, 31, 0, 0},
    [4] = {true, true, true, 0, 0, 0},
    [5] = {true, true, true, 0, 0, 0},
    [6] = {true, true, true, 0, 0, 0},
    [7] = {true, true, true, 0, 0, 0},
    [8] = {true, true, true, 31, 0, 0},
    [16] = {true, true, false, 32, 0, 1},
    [17] = {true, false, true, 31, 1, 0},
    [18] = {true, true, false, 0, 0, 1},
    [19] = {true, true, false, 63, 0, 1},
    [20] = {true, false, true, 31, 1, 0},
    [21] = {true, false, true, 31, 1, 0},
};

/* "Opening": own command.  Broadcast is judged by the flags as they stand. */
static bool is_own_command(const struct terminal *terminal, unsigned marks, unsigned value)
{
    const unsigned needed = MARK_SOUND | MARK_COMMAND_SYNC;

    if ((marks & needed) != needed)
        return false;
    return address_of(value) == terminal->station
        || (address_of(value) == ADDRESS_BROADCAST
            && (terminal->flags & FLAG_BROADCAST_ENABLED) != 0);
}

/* "Status", from the bits caught at opening; message error is still 0. */
static uint16_t status_at_opening(const struct terminal *terminal,
                                  const struct message *message, bool is_bus_control)
{
    const unsigned flags = terminal->flags;
    unsigned status = (unsigned)terminal->station << 11;

    if ((flags & FLAG_SERVICE_REQUEST) != 0)
        status |= STATUS_SERVICE_REQUEST;
    if (message->broadcast)
        status |= STATUS_BROADCAST;
    if (message->busy)
        status |= STATUS_BUSY;
    if ((flags & FLAG_SUBSYSTEM) != 0)
        status |= STATUS_SUBSYSTEM;
    if (is_bus_control && (flags & FLAG_BUS_CONTROL) != 0)
        status |= STATUS_BUS_CONTROL;
    if ((flags & FLAG_TERMINAL) != 0 && !terminal->inhibit)
        status |= STATUS_TERMINAL;
    return (uint16_t)status;
}

/* "Opening", from the second paragraph on. */
static void open_message(struct terminal *terminal, const uint16_t *memory,
                         unsigned line, uint16_t command, uint32_t time)
{
    const unsigned subaddress = subaddress_of(command);
    const unsigned low_five = low_five_of(command);
    const bool direction = direction_of(command);
    const bool is_data = is_data_subaddress(subaddress);
    struct message *message = &terminal->message;
    bool is_legal;

    *message = (struct message){
        .opened = time,
        .command = command,
        .line = (uint8_t)line,
        .table = terminal->table,
        .broadcast = address_of(command) == ADDRESS_BROADCAST,
        .busy = (terminal->flags & FLAG_BUSY) != 0,
    };
    terminal->is_open = true;

    if (is_data) {
        const uint8_t count = (uint8_t)count_of(command);

        is_legal = !(message->broadcast && direction);
        message->cell = (uint8_t)(32 * direction + subaddress);
        if (direction) {
            message->format = FORMAT_TRANSMIT;
            message->words_to_send = count;
        } else {
            message->format = FORMAT_RECEIVE;
            message->words_wanted = count;
        }
        message->has_block = is_legal;
    } else {
        const struct mode *mode = &modes[low_five];

        is_legal = mode->is_known && direction == mode->direction
            && (!message->broadcast || mode->may_be_broadcast);
        message->format = FORMAT_MODE;
        message->cell = mode->cell;
        message->words_wanted = mode->words_wanted;
        message->words_to_send = mode->words_to_send;
        message->has_block = is_legal && mode->cell != 0;
    }

    if (message->has_block) {
        const uint16_t table_word = memory[word_address(message->table, message->cell)];

        message->block = (uint8_t)(table_word & 0xFF); /* bits 9 to 0 modulo 256 */
        message->busy = message->busy || (table_word & TABLE_BUSY) != 0;
        message->queued = (table_word & TABLE_QUEUE_WANTED) != 0;
    }

    if (!is_legal) {
        message->stage = STAGE_SKIPPING;
        terminal->status = status_at_opening(terminal, message, false) | STATUS_MESSAGE_ERROR;
        terminal->last_command = command;
    } else if (!is_data && low_five == MODE_LAST_COMMAND) {
        /* keeps remembered status and last command */
    } else if (!is_data && low_five == MODE_TRANSMIT_STATUS) {
        terminal->last_command = command;
    } else {
        const bool is_bus_control = !is_data && low_five == MODE_BUS_CONTROL;

        terminal->status = status_at_opening(terminal, message, is_bus_control);
        terminal->last_command = command;
    }
}

/* "Closing", the queue: a full one loses the newcomer. */
static void join_queue(struct terminal *terminal, uint8_t block)
{
    if (terminal->queue_count == QUEUE_PLACES) {
        terminal->queue_overflow = true;
        return;
    }
    terminal->queue[(terminal->queue_start + terminal->queue_count) % QUEUE_PLACES] = block;
    terminal->queue_count++;
}

/* "State word", bits 5 to 0 for what takes words: under busy data are not stored. */
static unsigned words_stored(const struct message *message)
{
    return message->busy && message->format == FORMAT_RECEIVE ? 0u : message->words_taken;
}

/* Cells 58 to 61, then the link into the opening's table cell, then the queue. */
static void close_message(struct terminal *terminal, uint16_t *memory, enum fault fault,
                          unsigned word_count, uint32_t time)
{
    const struct message *message = &terminal->message;
    const uint32_t elapsed = time - message->opened; /* modulo 4,294,967,296 */
    unsigned state_word =
        (unsigned)message->line << 15 | (unsigned)fault << STATE_FAULT_CODE | word_count;
    uint16_t *block;

    terminal->is_open = false;
    if (!message->has_block)
        return;

    if (fault != FAULT_NONE)
        state_word |= STATE_FAULT;
    if (message->broadcast)
        state_word |= STATE_BROADCAST;
    if (message->has_second)
        state_word |= STATE_SECOND;
    if (message->busy)
        state_word |= STATE_BUSY;

    block = &memory[word_address(message->block, 0)];
    block[CELL_STATE_WORD] = (uint16_t)state_word;
    block[CELL_TIME_HIGH] = (uint16_t)(time >> 16);
    block[CELL_TIME_LOW] = (uint16_t)(time & 0xFFFF);
    block[CELL_ELAPSED] = elapsed > ELAPSED_MAXIMUM ? ELAPSED_MAXIMUM : (uint16_t)elapsed;

    if (!message->moved)
        memory[word_address(message->table, message->cell)] = block[CELL_LINK];
    if (message->queued)
        join_queue(terminal, message->block);
}

/* "A fault closes silently and sets message error." */
static void close_by_fault(struct terminal *terminal, uint16_t *memory, enum fault fault,
                           uint32_t time)
{
    terminal->status |= STATUS_MESSAGE_ERROR;
    close_message(terminal, memory, fault, words_stored(&terminal->message), time);
}

/* Rule 6: a command as the first word of a data receive. */
static void take_early_command(struct terminal *terminal, uint16_t *memory, uint16_t value,
                               uint32_t time)
{
    struct message *message = &terminal->message;
    const unsigned address = address_of(value);
    const bool is_transmit = direction_of(value) && is_data_subaddress(subaddress_of(value));

    if (is_transmit && message->broadcast && address == terminal->station) {
        open_message(terminal, memory, message->line, value, time);
    } else if (is_transmit && address != terminal->station && address != ADDRESS_BROADCAST
               && low_five_of(value) == low_five_of(message->command)) {
        message->stage = STAGE_SECOND;
        message->second = value;
        message->has_second = true;
    } else {
        close_by_fault(terminal, memory, FAULT_COMMAND, time);
    }
}

/* "Words of an open message": the first rule that fits. */
static void take_word(struct terminal *terminal, uint16_t *memory, unsigned marks,
                      uint16_t value, uint32_t time)
{
    struct message *message = &terminal->message;
    const bool is_command = (marks & MARK_COMMAND_SYNC) != 0;
    const bool is_joined = (marks & MARK_JOINED) != 0;

    if (message->stage == STAGE_SKIPPING)
        return;
    if ((marks & MARK_SOUND) == 0) {                                    /* 1 */
        close_by_fault(terminal, memory, FAULT_UNSOUND, time);
        return;
    }
    if (message->stage == STAGE_AWAITING) {                             /* 2 */
        if (!is_command)
            close_by_fault(terminal, memory, FAULT_SYNC, time);
        else if (address_of(value) != address_of(message->second))
            close_by_fault(terminal, memory, FAULT_WRONG_ANSWER, time);
        else
            message->stage = STAGE_DATA;
        return;
    }
    if (!is_joined) {                                                   /* 3 */
        close_by_fault(terminal, memory, FAULT_GAP, time);
        return;
    }
    if (message->stage == STAGE_SECOND) {                               /* 4 */
        close_by_fault(terminal, memory, FAULT_COMMAND, time);
        return;
    }
    if (message->words_taken == message->words_wanted) {                /* 5 */
        close_by_fault(terminal, memory, FAULT_TOO_MANY, time);
        return;
    }
    if (is_command && message->words_taken == 0 && message->format == FORMAT_RECEIVE
        && !message->has_second) {                                      /* 6 */
        take_early_command(terminal, memory, value, time);
        return;
    }
    if (is_command) {                                                   /* 7 */
        close_by_fault(terminal, memory, FAULT_SYNC, time);
        return;
    }
    if (!message->busy || message->format != FORMAT_RECEIVE)            /* 8 */
        memory[word_address(message->block, message->words_taken)] = value;
    message->words_taken++;
}

enum refusal terminal_word(struct terminal *terminal, uint16_t *memory,
                           unsigned marks, uint16_t value, uint32_t time)
{
    const unsigned line = marks & MARK_LINE_B;
    bool is_own;

    if (marks > MARKS_ALL)
        return REFUSAL_RANGE;
    is_own = is_own_command(terminal, marks, value);

    /* "Opening", first paragraph. */
    if (!terminal->is_open) {
        if (is_own)
            open_message(terminal, memory, line, value, time);
    } else if (line != terminal->message.line) {
        if (is_own) {
            close_by_fault(terminal, memory, FAULT_COMMAND, time);
            open_message(terminal, memory, line, value, time);
        }
    } else if (is_own && (marks & MARK_JOINED) == 0) {
        close_by_fault(terminal, memory, FAULT_COMMAND, time);
        open_message(terminal, memory, line, value, time);
    } else {
        take_word(terminal, memory, marks, value, time);
    }
    return REFUSAL_NONE;
}

/* "Sound end", what mode codes do; other is the line the message is not on. */
static void act(struct terminal *terminal, unsigned code, unsigned other)
{
    switch (code) {
    case MODE_SHUT:
        terminal->shut[other] = true;
        break;
    case MODE_OPEN:
        terminal->shut[other] = false;
        break;
    case MODE_INHIBIT:
        terminal->inhibit = true;
        break;
    case MODE_RELEASE:
        terminal->inhibit = false;
        break;
    case MODE_RESET:
        terminal->shut[0] = false;
        terminal->shut[1] = false;
        terminal->inhibit = false;
        break;
    default:
        break;
    }
}

/* The status, unless broadcast or shut: every message that ends has it. */
static void give_status(const struct terminal *terminal, struct reply *reply)
{
    const struct message *message = &terminal->message;

    if (message->broadcast || terminal->shut[message->line])
        return;
    reply->given = true;
    reply->status = terminal->status;
}

/* "Sound end": the reply, then the mode code acts, then the closing.  The words
   sent lie in cells 0 to 31 and the closing of what sends writes only cells
   above them, so they may be shown where they are. */
static void end_sound(struct terminal *terminal, uint16_t *memory, uint32_t time,
                      struct reply *reply)
{
    const struct message *message = &terminal->message;
    const bool is_mode = message->format == FORMAT_MODE;
    const unsigned code = low_five_of(message->command);

    give_status(terminal, reply);
    if (reply->given && message->words_to_send != 0) {
        if (is_mode && code == MODE_LAST_COMMAND) {
            reply->word_count = 1;
            reply->words = &terminal->last_command;
        } else if (!message->busy || is_mode) { /* busy data sends status alone */
            reply->word_count = message->words_to_send;
            reply->words = &memory[word_address(message->block, 0)];
        }
    }
    if (is_mode)
        act(terminal, code, message->line ^ 1u);
    close_message(terminal, memory, FAULT_NONE, words_stored(message) + reply->word_count, time);
}

/* "Silence on its line". */
enum refusal terminal_silence(struct terminal *terminal, uint16_t *memory,
                              unsigned line, uint32_t time, struct reply *reply)
{
    struct message *message = &terminal->message;

    *reply = (struct reply){.given = false};
    if (line > 1)
        return REFUSAL_RANGE;
    if (!terminal->is_open || line != message->line)
        return REFUSAL_NONE;

    switch (message->stage) {
    case STAGE_SKIPPING:
        give_status(terminal, reply);
        terminal->is_open = false;
        break;
    case STAGE_SECOND:
        message->stage = STAGE_AWAITING;
        break;
    case STAGE_AWAITING:
        close_by_fault(terminal, memory, FAULT_NO_ANSWER, time);
        break;
    default: /* STAGE_DATA */
        if (message->words_taken != message->words_wanted)
            close_by_fault(terminal, memory, FAULT_GAP, time);
        else
            end_sound(terminal, memory, time, reply);
        break;
    }
    return REFUSAL_NONE;
}

/* "Setup": nothing open, all else zero; a refusal leaves the terminal as it was. */
enum refusal terminal_setup(struct terminal *terminal, unsigned station,
                            uint8_t table, unsigned flags)
{
    if (station > STATION_MAXIMUM)
        return REFUSAL_STATION;
    if (flags > FLAGS_ALL)
        return REFUSAL_RANGE;
    *terminal = (struct terminal){
        .station = (uint8_t)station,
        .table = table,
        .flags = (uint8_t)flags,
        .status = (uint16_t)(station << 11),
    };
    return REFUSAL_NONE;
}

/* "Queue read". */
uint16_t terminal_read_queue(struct terminal *terminal)
{
    unsigned answer = terminal->queue_overflow ? QUEUE_READ_OVERFLOW : 0u;

    if (terminal->queue_count == 0)
        return (uint16_t)answer;
    answer |= QUEUE_READ_FOUND | terminal->queue[terminal->queue_start];
    terminal->queue_start = (uint8_t)(terminal->queue_start + 1u); /* modulo 256 */
    terminal->queue_count--;
    return (uint16_t)answer;
}

/* Tag 06; also the same number counts as set since the opening. */
void terminal_set_table(struct terminal *terminal, uint8_t table)
{
    terminal->table = table;
    terminal->message.moved = true; /* an opening clears it */
}

/* Tag 07. */
enum refusal terminal_set_flags(struct terminal *terminal, unsigned flags)
{
    if (flags > FLAGS_ALL)
        return REFUSAL_RANGE;
    terminal->flags = (uint8_t)flags;
    return REFUSAL_NONE;
}
