/* K3.14: a tray recording with the monitor beside the terminal. */
#include "coverage.h"
#include "monitor.h"

enum {
    FIRST_CONTROL = CONTROL_STAYS_ON | CONTROL_GO_ON,
    BLOCKS = CARD_CELLS / BLOCK_CELLS
};

void monitor_prepare(struct monitor_recording *recording)
{
    for (unsigned block = 0; block < BLOCKS; block++)
        recording->memory[word_address(block, CELL_LINK)] =
            (uint16_t)((block + 1) % BLOCKS << 6 | FIRST_CONTROL);
    monitor_setup(&recording->monitor, FIRST_CONTROL);
}

/* The message's words are still there: what the same word opened is in the block behind. */
static void print_closed(struct text *text, const uint16_t *memory, const struct closed *closed)
{
    const uint16_t *const block = &memory[word_address(closed->block, 0)];
    const unsigned word_count = closed->word_count;
    char *bytes = &text->bytes[text->used];

    *bytes++ = 'W';
    bytes = put_blank_and_word(bytes, block[CELL_MONITOR_STATE_WORD]);
    for (unsigned index = 0; index < word_count; index++)
        bytes = put_blank_and_word(bytes, block[index]);
    *bytes++ = '\n';
    text->used = (size_t)(bytes - text->bytes);
}

static void hear_word(struct monitor_recording *recording, unsigned marks, uint16_t value)
{
    struct closed closed;

    if (OBSERVED(monitor_word)(&recording->monitor, recording->memory, marks, value, &closed))
        print_closed(&recording->run.text, recording->memory, &closed);
}

static void hear_silence(struct monitor_recording *recording, unsigned line)
{
    struct closed closed;

    if (OBSERVED(monitor_silence)(&recording->monitor, recording->memory, line, &closed))
        print_closed(&recording->run.text, recording->memory, &closed);
}

/* A reply of the terminal, which does not hear it, as a segment of its own. */
static void hear_reply(struct monitor_recording *recording, unsigned line,
                       const struct reply *reply)
{
    hear_word(recording, line | MARK_SOUND | MARK_COMMAND_SYNC, reply->status);
    for (unsigned index = 0; index < reply->word_count; index++)
        hear_word(recording, line | MARK_SOUND | MARK_JOINED, reply->words[index]);
    hear_silence(recording, line);
}

/* The terminal refuses first: of a refused field the monitor hears nothing. */
static enum refusal take_field(void *machine, struct run *run, unsigned tag,
                               const uint8_t *value, unsigned length)
{
    struct monitor_recording *recording = machine;
    struct terminal *terminal = &recording->terminal;
    struct reply reply;
    enum refusal refusal;

    switch (tag) {
    case TAG_WORD:
        refusal = terminal_word(terminal, run->memory, value[0], two_bytes(value + 1),
                                four_bytes(value + 3));
        if (refusal == REFUSAL_NONE)
            hear_word(recording, value[0], two_bytes(value + 1));
        return refusal;
    case TAG_SILENCE:
        refusal = terminal_silence(terminal, run->memory, value[0], four_bytes(value + 1),
                                   &reply);
        if (refusal == REFUSAL_NONE)
            hear_silence(recording, value[0]);
        if (reply.given)
            hear_reply(recording, value[0], &reply);
        return refusal;
    case TAG_QUEUE_READ:
        (void)terminal_read_queue(terminal);
        return REFUSAL_NONE;
    default:
        return tray_take_host_field(terminal, run, tag, value, length);
    }
}

enum outcome monitor_run(struct monitor_recording *recording, const uint8_t *window,
                         size_t length, bool is_last, size_t *used)
{
    static const struct kind kind = {
        .setup_tag = TAG_SETUP,
        .is_tag = is_tray_tag,
        .is_length_of = is_tray_length,
        .take_field = take_field,
    };

    return reader_run(&kind, recording, &recording->run, window, length, is_last, used);
}
