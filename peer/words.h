/*
 * The words of document 01, bit by bit, and the numbers of mode codes, faults
 * and refusals.
 */
#ifndef WORDS_H
#define WORDS_H

#include <stdbool.h>

/* "Recordings": the marks of a word. */
enum {
    MARK_LINE_B = 1 << 0,
    MARK_COMMAND_SYNC = 1 << 1,
    MARK_SOUND = 1 << 2,
    MARK_JOINED = 1 << 3,
    MARKS_ALL = 15
};

/* "Refusal numbers", those a recording can meet (its table block is a byte), and
   14 of request K10. */
enum refusal {
    REFUSAL_NONE = 0,
    REFUSAL_STATION = 2,
    REFUSAL_CUT = 5,
    REFUSAL_TAG = 6,
    REFUSAL_LENGTH = 7,
    REFUSAL_RANGE = 8,
    REFUSAL_SETUP = 9,
    REFUSAL_FORMAT = 14
};

/* "Status". */
enum {
    STATUS_MESSAGE_ERROR = 1 << 10,
    STATUS_SERVICE_REQUEST = 1 << 8,
    STATUS_BROADCAST = 1 << 4,
    STATUS_BUSY = 1 << 3,
    STATUS_SUBSYSTEM = 1 << 2,
    STATUS_BUS_CONTROL = 1 << 1,
    STATUS_TERMINAL = 1 << 0
};

/* "Card memory": the table word, the state word. */
enum {
    TABLE_BUSY = 1 << 15,
    TABLE_QUEUE_WANTED = 1 << 14,

    STATE_FAULT = 1 << 14,
    STATE_BROADCAST = 1 << 13,
    STATE_SECOND = 1 << 12,
    STATE_BUSY = 1 << 11,
    STATE_FAULT_CODE = 8    /* its lowest bit */
};

/* "Queue read". */
enum {
    QUEUE_READ_FOUND = 1 << 15,
    QUEUE_READ_OVERFLOW = 1 << 10
};

enum fault {
    FAULT_NONE = 0,
    FAULT_UNSOUND = 1,
    FAULT_NO_ANSWER = 2,
    FAULT_GAP = 3,          /* not joined, or words short */
    FAULT_TOO_MANY = 4,
    FAULT_WRONG_ANSWER = 5,
    FAULT_SYNC = 6,
    FAULT_COMMAND = 7       /* superseded, or a command that does not fit; at the
                               controller a word before its first silence */
};

/* Mode codes that the terminal treats by name. */
enum {
    MODE_BUS_CONTROL = 0,
    MODE_TRANSMIT_STATUS = 2,
    MODE_SHUT = 4,
    MODE_OPEN = 5,
    MODE_INHIBIT = 6,
    MODE_RELEASE = 7,
    MODE_RESET = 8,
    MODE_LAST_COMMAND = 18
};

/* The parts of a command word. */
enum { ADDRESS_BROADCAST = 31 };

static inline unsigned address_of(unsigned command)
{
    return command >> 11;
}

static inline bool direction_of(unsigned command)
{
    return (command >> 10 & 1) != 0;
}

static inline unsigned subaddress_of(unsigned command)
{
    return command >> 5 & 31;
}

static inline unsigned low_five_of(unsigned command)
{
    return command & 31;
}

/* "Word count 0 means 32." */
static inline unsigned count_of(unsigned command)
{
    return low_five_of(command) == 0 ? 32u : low_five_of(command);
}

static inline bool is_data_subaddress(unsigned subaddress)
{
    return subaddress != 0 && subaddress != 31;
}

#endif
