#include "reader.h"

void run_print_end(struct run *run)
{
    struct text *text = &run->text;

    if (run->refusal == REFUSAL_NONE) {
        text_string(text, "END ");
        text_decimal(text, run->fields);
    } else {
        text_string(text, "! ");
        text_decimal(text, run->refusal);
        text_string(text, " ");
        text_decimal(text, run->offset);
    }
    text_string(text, "\n");
}
