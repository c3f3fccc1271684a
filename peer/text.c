#include "text.h"

#include <string.h>

void text_string(struct text *text, const char *string)
{
    const size_t length = strlen(string);

    memcpy(&text->bytes[text->used], string, length);
    text->used += length;
}

void text_hex(struct text *text, uint32_t number, unsigned digits)
{
    char *bytes = &text->bytes[text->used];

    for (unsigned index = digits; index-- > 0; number >>= 4)
        bytes[index] = "0123456789ABCDEF"[number & 15];
    text->used += digits;
}

void text_decimal(struct text *text, uint64_t number)
{
    char digits[20];
    size_t count = 0;

    do {
        digits[count++] = (char)('0' + (int)(number % 10));
        number /= 10;
    } while (number != 0);
    while (count > 0)
        text->bytes[text->used++] = digits[--count];
}

void text_named(struct text *text, const char *name, unsigned number)
{
    text_string(text, name);
    text_decimal(text, number);
    text_string(text, "\n");
}

void text_named_hex(struct text *text, const char *name, unsigned number, unsigned digits)
{
    text_string(text, name);
    text_hex(text, number, digits);
    text_string(text, "\n");
}
