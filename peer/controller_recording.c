/* Recordings of what came back to the controller, in document 01's manner. */
#include "controller.h"

static bool is_tag(unsigned tag)
{
    return tag == TAG_WORD || tag == TAG_SILENCE || tag == TAG_HOST_WRITE
        || tag == TAG_CONTROLLER_SETUP || tag == TAG_START;
}

static bool is_length_of(unsigned tag, unsigned length)
{
    switch (tag) {
    case TAG_WORD:
        return length == WORD_BYTES;
    case TAG_SILENCE:
        return length == SILENCE_BYTES;
    case TAG_HOST_WRITE:
        return is_host_write_length(length);
    case TAG_CONTROLLER_SETUP:
        return length == 4;
    default: /* TAG_START */
        return length == 0;
    }
}

static void print_given(struct text *text, const struct given *given)
{
    const uint16_t *const words = given->words;
    const unsigned word_count = given->word_count;
    char *bytes = &text->bytes[text->used];

    *bytes++ = 'G';
    for (unsigned index = 0; index < word_count; index++)
        bytes = put_blank_and_word(bytes, words[index]);
    *bytes++ = '\n';
    text->used = (size_t)(bytes - text->bytes);
}

static void print_result(struct text *text, const struct result *result)
{
    text_string(text, "R ");
    text_decimal(text, result->code);
    text_string(text, result->mark ? " 1\n" : " 0\n");
}

/* The controller keeps no time: the stamps of words and silences are not used. */
static enum refusal take_field(void *machine, struct run *run, unsigned tag,
                               const uint8_t *value, unsigned length)
{
    struct controller *controller = machine;
    struct given given;
    enum refusal refusal;
    bool is_end;

    switch (tag) {
    case TAG_CONTROLLER_SETUP:
        controller_setup(controller, two_bytes(value), two_bytes(value + 2));
        run->has_setup = true;
        return REFUSAL_NONE;
    case TAG_START:
        refusal = controller_start(controller, run->memory, &given);
        if (given.word_count != 0)
            print_given(&run->text, &given);
        return refusal;
    case TAG_WORD:
        refusal = controller_word(controller, run->memory, value[0], two_bytes(value + 1),
                                  &is_end);
        break;
    case TAG_SILENCE:
        refusal = controller_silence(controller, run->memory, value[0], &is_end);
        break;
    default: /* TAG_HOST_WRITE */
        return card_host_write(run->memory, two_bytes(value), value + 2, (length - 2) / 2);
    }
    if (is_end)
        print_result(&run->text, &controller->result);
    return refusal;
}

/* "Order 6, 5 (length), 7, 5 (value), 9, 8, 14." */
enum outcome controller_run(struct controller_recording *recording, const uint8_t *window,
                            size_t length, bool is_last, size_t *used)
{
    static const struct kind kind = {
        .setup_tag = TAG_CONTROLLER_SETUP,
        .is_tag = is_tag,
        .is_length_of = is_length_of,
        .take_field = take_field,
    };

    return reader_run(&kind, &recording->controller, &recording->run, window, length,
                      is_last, used);
}
