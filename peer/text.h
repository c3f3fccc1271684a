/* Lines printed and not yet written. */
#ifndef TEXT_H
#define TEXT_H

#include <stddef.h>
#include <stdint.h>

/* While used is at most TEXT_NEARLY_FULL there is room for any one line. */
enum {
    TEXT_BYTES = 262144,
    TEXT_NEARLY_FULL = TEXT_BYTES - 256
};

struct text {
    size_t used;
    char bytes[TEXT_BYTES];
};

void text_string(struct text *text, const char *string);
void text_hex(struct text *text, uint32_t number, unsigned digits);
void text_decimal(struct text *text, uint64_t number);

/* A line of a name, with its blank, and a number. */
void text_named(struct text *text, const char *name, unsigned number);
void text_named_hex(struct text *text, const char *name, unsigned number, unsigned digits);

/* A blank and four digits; the lines that hold words are made of these. */
static inline char *put_blank_and_word(char *bytes, unsigned word)
{
    static const char hex_digits[] = "0123456789ABCDEF";

    bytes[0] = ' ';
    bytes[1] = hex_digits[word >> 12];
    bytes[2] = hex_digits[word >> 8 & 15];
    bytes[3] = hex_digits[word >> 4 & 15];
    bytes[4] = hex_digits[word & 15];
    return bytes + 5;
}

#endif
