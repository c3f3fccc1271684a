/*
 * The message monitor of document 02's request K3, beside the terminal, and the run of a
 * tray recording that it hears.  The numbers K3.1 to K3.14 are those of the request's
 * exact reading.  Nothing in monitor.c or monitor_recording.c allocates memory or does
 * input or output; program.c does the latter.
 */
#ifndef MONITOR_H
#define MONITOR_H

#include "formats.h"
#include "peer.h"

/* K3.2: the control word, what the monitor's column alone has. */
enum { CONTROL_STAYS_ON = 1 << 5 };

/* K3.11: the state word and its cell. */
enum {
    CELL_MONITOR_STATE_WORD = 62,

    MONITOR_STATE_LINE = 15,            /* its lowest bit */
    MONITOR_STATE_ERROR = 1 << 14,
    MONITOR_STATE_FORMAT_CODE = 10,     /* its lowest bit */
    MONITOR_STATE_FIRST = 1 << 9,       /* the first command is illegal */
    MONITOR_STATE_SECOND = 1 << 8,      /* the second one did not fit */
    MONITOR_STATE_MARK = 1 << 3,
    MONITOR_STATE_FAULT_CODE = 7
};

/* K3.3. */
enum monitor_stage {
    MONITOR_COMMAND,        /* the command segment: data, if any are wanted */
    MONITOR_SECOND,         /* a second command was taken, silence is due */
    MONITOR_AWAITING,       /* the status, in row 2 the transmitter's, is due */
    MONITOR_REPLY,          /* the status came; data, if any are wanted */
    MONITOR_LAST,           /* row 2: the receiver's status is due */
    MONITOR_ENDED           /* row 2: it came */
};

/* The open message.  Its block is that of the control word, which stays as long as
   the message is open. */
struct heard {
    uint8_t line;           /* 0 is A, 1 is B */
    uint8_t row;            /* enum row; row 2 once the second command is taken */
    bool group;             /* the first command has address 31 */
    uint8_t stage;          /* enum monitor_stage */
    uint16_t first;
    uint16_t second;        /* row 2 alone */
    uint8_t words_wanted;   /* in command segment or reply */
    uint8_t words_taken;    /* data words, of the command segment and of the reply */
    uint8_t words_stored;   /* of every kind: word k on the bus is in cell k */
    bool mark;              /* a status had one of its bits 10 to 0 set */
};

struct monitor {
    uint16_t control;
    bool is_running;
    bool is_open;
    struct heard message;
};

/* A message that closed: its block, with the state word in it, and how many of its
   words were stored there. */
struct closed {
    unsigned block;
    unsigned word_count;
};

void monitor_setup(struct monitor *monitor, uint16_t control);

/* True: it closed a message, and *closed tells which.  K3.13 has refusal 8 here for
   marks above 15 and a line above 1; the terminal beside the monitor gives it. */
bool monitor_word(struct monitor *monitor, uint16_t *memory, unsigned marks, uint16_t value,
                  struct closed *closed);
bool monitor_silence(struct monitor *monitor, uint16_t *memory, unsigned line,
                     struct closed *closed);

/* The same in the build with counters, with what each reaches counted. */
bool monitor_word_observed(struct monitor *monitor, uint16_t *memory, unsigned marks,
                           uint16_t value, struct closed *closed);
bool monitor_silence_observed(struct monitor *monitor, uint16_t *memory, unsigned line,
                              struct closed *closed);

struct monitor_recording {
    struct terminal terminal;
    struct run run;                 /* with the terminal's memory */
    struct monitor monitor;
    uint16_t memory[CARD_CELLS];    /* the monitor's own */
};

/* Before the first field: the monitor set up, its memory one closed chain of all
   blocks, so that it never stops. */
void monitor_prepare(struct monitor_recording *recording);

/* reader_run for a tray recording; the second, in the build with counters, with what
   each field reaches counted. */
enum outcome monitor_run(struct monitor_recording *recording, const uint8_t *window,
                         size_t length, bool is_last, size_t *used);
enum outcome monitor_run_observed(struct monitor_recording *recording, const uint8_t *window,
                                  size_t length, bool is_last, size_t *used);

#endif
