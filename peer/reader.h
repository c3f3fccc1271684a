/*
 * The reader of document 01, "Recordings", as far as it is the same for every
 * kind of recording: bytes, the order of refusals, fields and offsets counted.
 */
#ifndef READER_H
#define READER_H

#include "card.h"
#include "text.h"

#include <stdbool.h>
#include <stddef.h>
#include <stdint.h>

/* The tags that mean the same in every kind. */
enum {
    TAG_WORD = 2,
    TAG_SILENCE = 3,
    TAG_HOST_WRITE = 5
};

enum {
    HEAD_BYTES = 3,         /* a field's tag and length */
    WORD_BYTES = 7,
    SILENCE_BYTES = 5,
    LONGEST_FIELD = HEAD_BYTES + 2 + 2 * 64 /* a host write of 64 words */
};

/* "High byte first". */
static inline uint16_t two_bytes(const uint8_t *bytes)
{
    return (uint16_t)((unsigned)bytes[0] << 8 | bytes[1]);
}

static inline uint32_t four_bytes(const uint8_t *bytes)
{
    return (uint32_t)bytes[0] << 24 | (uint32_t)bytes[1] << 16 | (uint32_t)bytes[2] << 8
        | bytes[3];
}

/* Tag 05, "2 + 2k, k 1-64". */
static inline bool is_host_write_length(unsigned length)
{
    return length >= 4 && length <= 2 + 2 * 64 && length % 2 == 0;
}

enum outcome {
    OUTCOME_NEEDS_INPUT,    /* every whole field in the window was run */
    OUTCOME_TEXT_FULL,      /* the text has to be written first */
    OUTCOME_ENDED,          /* the input ended after a whole field */
    OUTCOME_REFUSED
};

/* A run of a recording: what it works on and what has come of it so far. */
struct run {
    bool has_setup;         /* the setup was taken */
    enum refusal refusal;
    uint64_t fields;        /* fields taken */
    uint64_t offset;        /* of the next field's, or the refused one's, first byte */
    uint16_t memory[CARD_CELLS];
    struct text text;
};

/* A kind of recording. */
struct kind {
    unsigned setup_tag;
    bool (*is_tag)(unsigned tag);
    bool (*is_length_of)(unsigned tag, unsigned length);

    /* Takes one whole field, whose tag and length are right, in its place, on the
       machine: the terminal or what else this kind of recording drives. */
    enum refusal (*take_field)(void *machine, struct run *run, unsigned tag,
                               const uint8_t *value, unsigned length);
};

/* "Reader order 6, 5 (length), 7, 5 (value), 9" and then the field's own.  Runs the
   whole fields at the head of the window and sets *used to the bytes they fill;
   is_last: no bytes will follow those in the window.  Inline, so that a kind known
   where it is called costs no call for a field. */
static inline enum outcome reader_run(const struct kind *kind, void *machine,
                                      struct run *run, const uint8_t *window,
                                      size_t length, bool is_last, size_t *used)
{
    const uint8_t *field = window;
    const uint8_t *const end = window + length;
    uint64_t fields = 0;
    enum refusal refusal = REFUSAL_NONE;
    enum outcome outcome = is_last ? OUTCOME_ENDED : OUTCOME_NEEDS_INPUT;

    while (field != end) {
        const size_t left = (size_t)(end - field);
        const unsigned tag = field[0];
        unsigned value_length;

        if (run->text.used > TEXT_NEARLY_FULL) {
            outcome = OUTCOME_TEXT_FULL;
            break;
        }
        if (!kind->is_tag(tag)) {
            refusal = REFUSAL_TAG;
            break;
        }
        if (left < HEAD_BYTES) {
            refusal = is_last ? REFUSAL_CUT : REFUSAL_NONE;
            break;
        }
        value_length = two_bytes(field + 1);
        if (!kind->is_length_of(tag, value_length)) {
            refusal = REFUSAL_LENGTH;
            break;
        }
        if (left - HEAD_BYTES < value_length) {
            refusal = is_last ? REFUSAL_CUT : REFUSAL_NONE;
            break;
        }
        if ((tag == kind->setup_tag) == run->has_setup) {
            refusal = REFUSAL_SETUP;
            break;
        }
        refusal = kind->take_field(machine, run, tag, field + HEAD_BYTES, value_length);
        if (refusal != REFUSAL_NONE)
            break;
        fields++;
        field += HEAD_BYTES + value_length;
    }

    *used = (size_t)(field - window);
    run->offset += *used;
    run->fields += fields;
    if (refusal != REFUSAL_NONE) {
        run->refusal = refusal;
        outcome = OUTCOME_REFUSED;
    }
    return outcome;
}

/* Prints the last line: END or a refusal. */
void run_print_end(struct run *run);

#endif
