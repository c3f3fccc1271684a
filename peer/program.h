/*
 * A program that runs a recording: standard input to standard output, in constant
 * memory.
 */
#ifndef PROGRAM_H
#define PROGRAM_H

#include "reader.h"

struct program {
    const char *usage;
    struct run *run;

    /* Runs the whole fields at the head of the window, as reader_run does. */
    enum outcome (*run_window)(const uint8_t *window, size_t length, bool is_last,
                               size_t *used);

    /* For `cells`: the lines of the machine's state, or of none. */
    void (*print_state)(struct text *text);
};

/* What main answers: 0 where every line was written, a refusal's too; 1 where a
   write failed; 2 where the arguments are wrong. */
int program_main(const struct program *program, int argument_count, char **arguments);

#endif
