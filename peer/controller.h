/*
 * The controller of document 02's request K10, and the reader of its recordings:
 * of what came back.  The numbers K10.1 to K10.9 are those of the request's exact
 * reading.  Nothing in controller.c or controller_recording.c allocates memory or
 * does input or output; program.c does the latter.
 */
#ifndef CONTROLLER_H
#define CONTROLLER_H

#include "reader.h"

/* The tags of fields, beside those of every kind. */
enum {
    TAG_CONTROLLER_SETUP = 0x0A,    /* control word, count */
    TAG_START = 0x0B
};

/* K10.1: the control word of documents 001 and 003, controller's column. */
enum {
    CONTROL_LINE_B = 1 << 5,
    CONTROL_GO_ON = 1 << 4,
    CONTROL_GROUP = 1 << 3          /* X, broadcast */
};

static inline unsigned block_of_control(unsigned control)
{
    return control >> 6 & 255;
}

static inline unsigned line_of_control(unsigned control)
{
    return (control & CONTROL_LINE_B) != 0 ? 1u : 0u;
}

static inline unsigned format_code_of(unsigned control)
{
    return control & 15;
}

static inline unsigned row_of_control(unsigned control)
{
    return control & 7;
}

/* The rows of document 001's table of formats, counted from 0. */
enum row {
    ROW_TO_TERMINAL = 0,
    ROW_FROM_TERMINAL = 1,
    ROW_BETWEEN_TERMINALS = 2,
    ROW_MODE = 3,
    ROW_MODE_WITH_WORD = 4,
    ROW_MODE_FOR_WORD = 5
};

/* K10.3. */
enum controller_stage {
    CONTROLLER_GIVEN,       /* the words are on the bus, silence is due */
    CONTROLLER_AWAITING,    /* the status, in row 2 the transmitter's, is due */
    CONTROLLER_REPLY,       /* the status came; data, if any are wanted */
    CONTROLLER_LAST,        /* row 2: the receiver's status is due */
    CONTROLLER_ENDED        /* row 2: it came */
};

/* The open message.  Its line and block are those of the control word, which
   stays as long as the message is open. */
struct exchange {
    uint8_t row;            /* enum row */
    bool group;             /* X */
    uint16_t first;         /* cells 0 and 1 as they were at the start */
    uint16_t second;
    uint8_t words_given;    /* follow from row and commands */
    uint8_t words_wanted;   /* data words in the reply */

    uint8_t stage;          /* enum controller_stage */
    uint8_t words_taken;
    bool mark;              /* a status had one of its bits 10 to 0 set */
};

struct result {
    uint8_t code;           /* enum fault */
    bool mark;
};

struct controller {
    uint16_t control;
    uint16_t starts_left;
    bool is_due;            /* the control word's message may be started */
    bool has_result;
    struct result result;   /* the last one, until the next start */
    bool is_open;
    struct exchange message;
};

/* The words that a start gives: where they are in the memory, until its next
   change.  No words: the start gave nothing. */
struct given {
    unsigned word_count;
    const uint16_t *words;
};

void controller_setup(struct controller *controller, uint16_t control, uint16_t count);
enum refusal controller_start(struct controller *controller, const uint16_t *memory,
                              struct given *given);

/* *is_end: the action ended the message, and controller->result is its result. */
enum refusal controller_word(struct controller *controller, uint16_t *memory,
                             unsigned marks, uint16_t value, bool *is_end);
enum refusal controller_silence(struct controller *controller, const uint16_t *memory,
                                unsigned line, bool *is_end);

struct controller_recording {
    struct controller controller;
    struct run run;
};

/* reader_run for a controller recording; the second, in the build with counters,
   with what each field reaches counted. */
enum outcome controller_run(struct controller_recording *recording, const uint8_t *window,
                            size_t length, bool is_last, size_t *used);
enum outcome controller_run_observed(struct controller_recording *recording,
                                     const uint8_t *window, size_t length, bool is_last,
                                     size_t *used);

#endif
