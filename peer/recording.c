/* Document 01's tray recordings: "Recordings" and "A tray run". */
#include "peer.h"

static bool is_tag(unsigned tag)
{
    return tag >= TAG_SETUP && tag <= TAG_FLAGS;
}

/* The length each tag has; a host write's has bounds instead. */
static const uint8_t lengths[TAG_FLAGS + 1] = {
    [TAG_SETUP] = 3, [TAG_WORD] = WORD_BYTES, [TAG_SILENCE] = SILENCE_BYTES,
    [TAG_QUEUE_READ] = 0, [TAG_TABLE] = 1, [TAG_FLAGS] = 1,
};

static bool is_length_of(unsigned tag, unsigned length)
{
    if (tag == TAG_HOST_WRITE)
        return is_host_write_length(length);
    return length == lengths[tag];
}

static void print_reply(struct text *text, const struct reply *reply)
{
    const uint16_t *const words = reply->words;
    const unsigned word_count = reply->word_count;
    char *bytes = &text->bytes[text->used];

    *bytes++ = 'S';
    bytes = put_blank_and_word(bytes, reply->status);
    for (unsigned index = 0; index < word_count; index++)
        bytes = put_blank_and_word(bytes, words[index]);
    *bytes++ = '\n';
    text->used = (size_t)(bytes - text->bytes);
}

static void print_queue_read(struct text *text, uint16_t answer)
{
    char *bytes = &text->bytes[text->used];

    *bytes++ = 'Q';
    bytes = put_blank_and_word(bytes, answer);
    *bytes++ = '\n';
    text->used = (size_t)(bytes - text->bytes);
}

static enum refusal take_field(void *machine, struct run *run, unsigned tag,
                               const uint8_t *value, unsigned length)
{
    struct terminal *terminal = machine;
    struct reply reply;
    enum refusal refusal;

    switch (tag) {
    case TAG_SETUP:
        refusal = terminal_setup(terminal, value[0], value[1], value[2]);
        run->has_setup = refusal == REFUSAL_NONE;
        return refusal;
    case TAG_WORD:
        return terminal_word(terminal, run->memory, value[0], two_bytes(value + 1),
                             four_bytes(value + 3));
    case TAG_SILENCE:
        refusal = terminal_silence(terminal, run->memory, value[0], four_bytes(value + 1),
                                   &reply);
        if (reply.given)
            print_reply(&run->text, &reply);
        return refusal;
    case TAG_QUEUE_READ:
        print_queue_read(&run->text, terminal_read_queue(terminal));
        return REFUSAL_NONE;
    case TAG_HOST_WRITE:
        return card_host_write(run->memory, two_bytes(value), value + 2, (length - 2) / 2);
    case TAG_TABLE:
        terminal_set_table(terminal, value[0]);
        return REFUSAL_NONE;
    default: /* TAG_FLAGS */
        return terminal_set_flags(terminal, value[0]);
    }
}

/* "Reader order 6, 5 (length), 7, 5 (value), 9, 2, 3, 8." */
enum outcome recording_run(struct recording *recording, const uint8_t *window,
                           size_t length, bool is_last, size_t *used)
{
    static const struct kind kind = {
        .setup_tag = TAG_SETUP,
        .is_tag = is_tag,
        .is_length_of = is_length_of,
        .take_field = take_field,
    };

    return reader_run(&kind, &recording->terminal, &recording->run, window, length, is_last,
                      used);
}
