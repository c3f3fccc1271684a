/* "Card memory" of document 01: 256 blocks of 64 cells of 16 bits. */
#ifndef CARD_H
#define CARD_H

#include "words.h"

#include <stdint.h>

enum {
    BLOCK_CELLS = 64,
    CARD_CELLS = 16384,

    CELL_STATE_WORD = 58,
    CELL_TIME_HIGH = 59,
    CELL_TIME_LOW = 60,
    CELL_ELAPSED = 61,
    CELL_LINK = 63
};

static inline unsigned word_address(unsigned block, unsigned cell)
{
    return BLOCK_CELLS * block + cell;
}

/* Tag 05: the words' bytes, high byte first, into the cells from the address on. */
enum refusal card_host_write(uint16_t *memory, unsigned address, const uint8_t *bytes,
                             unsigned word_count);

#endif
