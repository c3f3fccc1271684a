#include "card.h"

/* The reader's length has made word_count 1 to 64. */
enum refusal card_host_write(uint16_t *memory, unsigned address, const uint8_t *bytes,
                             unsigned word_count)
{
    if (address + word_count > CARD_CELLS)
        return REFUSAL_RANGE;
    for (unsigned index = 0; index < word_count; index++)
        memory[address + index] =
            (uint16_t)((unsigned)bytes[2 * index] << 8 | bytes[2 * index + 1]);
    return REFUSAL_NONE;
}
