/*
 * The remote terminal with chained blocks of document 01, and the reader of
 * its tray recordings.  Nothing in terminal.c or recording.c allocates memory
 * or does input or output; program.c does the latter.
 */
#ifndef PEER_H
#define PEER_H

#include "reader.h"

enum { ELAPSED_MAXIMUM = 65535 };

/* "The terminal": the host's flags. */
enum {
    FLAG_BROADCAST_ENABLED = 1 << 0,
    FLAG_BUSY = 1 << 1,
    FLAG_SERVICE_REQUEST = 1 << 2,
    FLAG_SUBSYSTEM = 1 << 3,
    FLAG_BUS_CONTROL = 1 << 4,
    FLAG_TERMINAL = 1 << 5,
    FLAGS_ALL = 63
};

/* "Recordings": the tags of fields, beside those of every kind. */
enum {
    TAG_SETUP = 1,
    TAG_QUEUE_READ = 4,
    TAG_TABLE = 6,
    TAG_FLAGS = 7
};

enum stage {
    STAGE_DATA,     /* words, if any are wanted, then silence */
    STAGE_SECOND,   /* a second command was taken, silence is due */
    STAGE_AWAITING, /* the answering status is due */
    STAGE_SKIPPING  /* illegal: everything is skipped until silence */
};

enum format {
    FORMAT_RECEIVE,
    FORMAT_TRANSMIT,
    FORMAT_MODE
};

/* The open message.  Everything but the last five members is fixed at opening. */
struct message {
    uint32_t opened;        /* stamp of the opening command */
    uint16_t command;
    uint8_t line;           /* 0 is A, 1 is B */
    uint8_t format;         /* enum format */
    uint8_t table;          /* the table block at the opening */
    uint8_t cell;           /* the table cell that named the block */
    uint8_t block;          /* 0 where there is none */
    bool has_block;
    bool broadcast;
    bool busy;
    bool queued;            /* bit 14 of the table word */
    uint8_t words_wanted;   /* words to be taken */
    uint8_t words_to_send;  /* words the reply is to hold after the status */

    uint8_t stage;          /* enum stage */
    uint8_t words_taken;    /* stored, or under busy checked */
    bool moved;             /* the host set the table block since the opening */
    bool has_second;        /* kept until the end of the message */
    uint16_t second;
};

enum { QUEUE_PLACES = 256 };

struct terminal {
    uint8_t station;
    uint8_t table;
    uint8_t flags;
    bool inhibit;
    bool shut[2];
    uint16_t status;        /* the remembered status */
    uint16_t last_command;

    bool is_open;
    struct message message;

    bool queue_overflow;
    uint8_t queue_start;
    uint16_t queue_count;
    uint8_t queue[QUEUE_PLACES];
};

/* A reply on the bus.  The words stay where they are: in the card memory, or in
   last_command for mode code 18; they hold until the next action. */
struct reply {
    bool given;
    uint16_t status;
    unsigned word_count;
    const uint16_t *words;
};

enum refusal terminal_setup(struct terminal *terminal, unsigned station,
                            uint8_t table, unsigned flags);
enum refusal terminal_word(struct terminal *terminal, uint16_t *memory,
                           unsigned marks, uint16_t value, uint32_t time);
enum refusal terminal_silence(struct terminal *terminal, uint16_t *memory,
                              unsigned line, uint32_t time, struct reply *reply);
uint16_t terminal_read_queue(struct terminal *terminal);
void terminal_set_table(struct terminal *terminal, uint8_t table);
enum refusal terminal_set_flags(struct terminal *terminal, unsigned flags);

struct recording {
    struct terminal terminal;
    struct run run;
};

/* reader_run for a tray recording; the second, in the build with counters, with
   what each field reaches counted. */
enum outcome recording_run(struct recording *recording, const uint8_t *window,
                           size_t length, bool is_last, size_t *used);
enum outcome recording_run_observed(struct recording *recording, const uint8_t *window,
                                    size_t length, bool is_last, size_t *used);

#endif
