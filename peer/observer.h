/*
 * What the observers have in common.  To be included behind the program's list of
 * counters, which has those that are counted here.
 */
#ifndef OBSERVER_H
#define OBSERVER_H

#include "reader.h"

/* Up to the end of the field at the head, or all that is left where it is cut. */
static inline size_t field_bytes(const uint8_t *field, size_t left)
{
    size_t whole;

    if (left < HEAD_BYTES)
        return left;
    whole = HEAD_BYTES + (size_t)two_bytes(field + 1);
    return whole < left ? whole : left;
}

/* Whether a host write hits one of the cells from first to last. */
static inline bool covers(unsigned address, unsigned word_count, unsigned first,
                          unsigned last)
{
    return address <= last && first < address + word_count;
}

/* The field that was refused, with the bytes left from its first one on: what the
   reader refuses of every kind of recording. */
static inline void count_reader_refusal(enum refusal refusal, unsigned tag,
                                        unsigned setup_tag, size_t left)
{
    COUNT_INDEX(refusal, refusal);
    switch (refusal) {
    case REFUSAL_CUT:
        COUNT_IF(left < HEAD_BYTES, refusal_5_length);
        COUNT_IF(left >= HEAD_BYTES, refusal_5_value);
        break;
    case REFUSAL_TAG:
        COUNT_IF(left == 1, refusal_6_last_byte);
        break;
    case REFUSAL_LENGTH:
        COUNT_INDEX(refusal_7_tag, tag);
        break;
    case REFUSAL_RANGE:
        COUNT_IF(tag == TAG_WORD, refusal_8_marks);
        COUNT_IF(tag == TAG_SILENCE, refusal_8_line);
        COUNT_IF(tag == TAG_HOST_WRITE, refusal_8_cells);
        break;
    case REFUSAL_SETUP:
        COUNT_IF(tag == setup_tag, refusal_9_again);
        COUNT_IF(tag != setup_tag, refusal_9_not_first);
        break;
    default:
        break;
    }
}

#endif
