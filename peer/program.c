#define _POSIX_C_SOURCE 200809L

#include "coverage.h"
#include "program.h"

#include <errno.h>
#include <signal.h>
#include <string.h>
#include <unistd.h>

enum {
    READ_BYTES = 65536,
    EXIT_WRITTEN = 0,
    EXIT_WRITE_FAILED = 1,
    EXIT_ARGUMENTS = 2
};

/* What a window holds before a read is less than one field. */
static uint8_t window[LONGEST_FIELD + READ_BYTES];

/* Bytes read; 0 at the end of the input, which a failed read is too. */
static size_t read_some(uint8_t *bytes, size_t room)
{
    for (;;) {
        const ssize_t count = read(STDIN_FILENO, bytes, room);

        if (count >= 0)
            return (size_t)count;
        if (errno != EINTR)
            return 0;
    }
}

static bool write_all(int descriptor, const char *bytes, size_t length)
{
    while (length > 0) {
        const ssize_t count = write(descriptor, bytes, length);

        if (count > 0) {
            bytes += count;
            length -= (size_t)count;
        } else if (count == 0 || errno != EINTR) {
            return false;
        }
    }
    return true;
}

static bool write_text(struct text *text)
{
    const size_t used = text->used;

    text->used = 0;
    return write_all(STDOUT_FILENO, text->bytes, used);
}

/* Reads into the window, runs its whole fields, moves the rest to the front. */
static bool run_input(const struct program *program)
{
    size_t held = 0;
    bool is_last = false;

    for (;;) {
        size_t used;
        const enum outcome outcome = program->run_window(window, held, is_last, &used);

        if (outcome == OUTCOME_ENDED || outcome == OUTCOME_REFUSED)
            return true;
        held -= used;
        memmove(window, window + used, held);
        if (outcome == OUTCOME_TEXT_FULL) {
            if (!write_text(&program->run->text))
                return false;
        } else {
            const size_t count = read_some(window + held, READ_BYTES);

            is_last = count == 0;
            held += count;
        }
    }
}

static bool print_cells(struct text *text, const uint16_t *memory)
{
    for (unsigned address = 0; address < CARD_CELLS; address++) {
        if (memory[address] == 0)
            continue;
        if (text->used > TEXT_NEARLY_FULL && !write_text(text))
            return false;
        text_hex(text, address, 4);
        text_string(text, " ");
        text_hex(text, memory[address], 4);
        text_string(text, "\n");
    }
    return write_text(text);
}

static bool run_and_print(const struct program *program, bool wants_cells)
{
    struct text *text = &program->run->text;

    if (!run_input(program))
        return false;
    /* The last field may have left the text nearly full. */
    if (text->used > TEXT_NEARLY_FULL && !write_text(text))
        return false;
    run_print_end(program->run);
    if (!write_text(text))
        return false;
    if (!wants_cells)
        return true;
    program->print_state(text);
    return print_cells(text, program->run->memory);
}

int program_main(const struct program *program, int argument_count, char **arguments)
{
    const bool wants_cells = argument_count == 2 && strcmp(arguments[1], "cells") == 0;
    bool is_written;

    if (argument_count > 1 && !wants_cells) {
        (void)write_all(STDERR_FILENO, program->usage, strlen(program->usage));
        return EXIT_ARGUMENTS;
    }
#ifdef SIGPIPE
    (void)signal(SIGPIPE, SIG_IGN); /* a reader that went away is a failed write */
#endif
    is_written = run_and_print(program, wants_cells);
    COUNTERS_WRITE();
    return is_written ? EXIT_WRITTEN : EXIT_WRITE_FAILED;
}
