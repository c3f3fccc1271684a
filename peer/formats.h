/*
 * What controller and monitor have in common: document 001's table of formats, and
 * the control word of documents 001 and 003 as far as both columns agree.
 */
#ifndef FORMATS_H
#define FORMATS_H

#include "words.h"

/* The control word: bit 4; bits 13 to 6. */
enum { CONTROL_GO_ON = 1 << 4 };

static inline unsigned block_of_control(unsigned control)
{
    return control >> 6 & 255;
}

/* The rows of the table, counted from 0. */
enum row {
    ROW_TO_TERMINAL = 0,
    ROW_FROM_TERMINAL = 1,
    ROW_BETWEEN_TERMINALS = 2,
    ROW_MODE = 3,
    ROW_MODE_WITH_WORD = 4,
    ROW_MODE_FOR_WORD = 5
};

/* A format code is a row with or without X, broadcast. */
enum { FORMAT_CODE_GROUP = 1 << 3 };

/* X is "which rows 0, 2, 3, 4 alone may have". */
static inline bool may_be_group(unsigned row)
{
    return row != ROW_FROM_TERMINAL && row <= ROW_MODE_WITH_WORD;
}

/* "Data behind the command". */
static inline unsigned data_behind_command(unsigned row, unsigned command)
{
    switch (row) {
    case ROW_TO_TERMINAL:
        return count_of(command);
    case ROW_MODE_WITH_WORD:
        return 1;
    default:
        return 0;
    }
}

/* "Data in the reply". */
static inline unsigned data_in_reply(unsigned row, unsigned command)
{
    switch (row) {
    case ROW_FROM_TERMINAL:
    case ROW_BETWEEN_TERMINALS:
        return count_of(command);
    case ROW_MODE_FOR_WORD:
        return 1;
    default:
        return 0;
    }
}

#endif
