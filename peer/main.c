/*
 * peer        runs the tray recording on standard input and prints its lines
 * peer cells  the same, then the terminal's state and every nonzero cell
 */
#include "coverage.h"
#include "peer.h"
#include "program.h"

static struct recording recording;

static enum outcome run_window(const uint8_t *window, size_t length, bool is_last,
                               size_t *used)
{
    return OBSERVED(recording_run)(&recording, window, length, is_last, used);
}

static void print_open(struct text *text, const struct message *message)
{
    static const char *const stages[] = {
        [STAGE_DATA] = "data",
        [STAGE_SECOND] = "second",
        [STAGE_AWAITING] = "awaiting",
        [STAGE_SKIPPING] = "skipping",
    };

    text_string(text, "open ");
    text_hex(text, message->command, 4);
    text_string(text, message->line == 0 ? " line A block " : " line B block ");
    text_decimal(text, message->block);
    text_string(text, " table ");
    text_decimal(text, message->table);
    text_string(text, " moved ");
    text_decimal(text, message->moved);
    text_string(text, " busy ");
    text_decimal(text, message->busy);
    text_string(text, " queued ");
    text_decimal(text, message->queued);
    text_string(text, " opened ");
    text_hex(text, message->opened, 8);
    text_string(text, " taken ");
    text_decimal(text, message->words_taken);
    text_string(text, " second ");
    if (message->has_second)
        text_hex(text, message->second, 4);
    else
        text_string(text, "none");
    text_string(text, " stage ");
    text_string(text, stages[message->stage]);
    text_string(text, "\n");
}

/* The text is empty here, so the state's lines, some 1,300 bytes, have room. */
static void print_terminal(struct text *text, const struct terminal *terminal)
{
    text_named(text, "station ", terminal->station);
    text_named(text, "table ", terminal->table);
    text_named_hex(text, "flags ", terminal->flags, 2);
    text_named_hex(text, "status ", terminal->status, 4);
    text_named_hex(text, "last ", terminal->last_command, 4);
    text_named(text, "shut A ", terminal->shut[0]);
    text_named(text, "shut B ", terminal->shut[1]);
    text_named(text, "inhibit ", terminal->inhibit);
    text_named(text, "overflow ", terminal->queue_overflow);

    text_string(text, "waiting");
    if (terminal->queue_count == 0)
        text_string(text, " none");
    for (unsigned index = 0; index < terminal->queue_count; index++) {
        text_string(text, " ");
        text_decimal(text, terminal->queue[(terminal->queue_start + index) % QUEUE_PLACES]);
    }
    text_string(text, "\n");

    if (terminal->is_open)
        print_open(text, &terminal->message);
    else
        text_string(text, "open none\n");
}

static void print_state(struct text *text)
{
    if (recording.run.has_setup)
        print_terminal(text, &recording.terminal);
    else
        text_string(text, "terminal none\n");
}

int main(int argument_count, char **arguments)
{
    static const struct program program = {
        .usage = "usage: peer [cells] < recording\n",
        .run = &recording.run,
        .run_window = run_window,
        .print_state = print_state,
    };

    return program_main(&program, argument_count, arguments);
}
