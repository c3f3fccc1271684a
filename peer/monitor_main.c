/*
 * monitor        runs the tray recording on standard input and prints a line for each
 *                message that the monitor saw close
 * monitor cells  the same, then the monitor's state and every nonzero cell of its memory
 */
#include "coverage.h"
#include "monitor.h"
#include "program.h"

static struct monitor_recording recording;

static enum outcome run_window(const uint8_t *window, size_t length, bool is_last,
                               size_t *used)
{
    return OBSERVED(monitor_run)(&recording, window, length, is_last, used);
}

static void print_open(struct text *text, const struct heard *message)
{
    static const char *const stages[] = {
        [MONITOR_COMMAND] = "command",
        [MONITOR_SECOND] = "second",
        [MONITOR_AWAITING] = "awaiting",
        [MONITOR_REPLY] = "reply",
        [MONITOR_LAST] = "last",
        [MONITOR_ENDED] = "ended",
    };

    text_string(text, message->line == 0 ? "open line A row " : "open line B row ");
    text_decimal(text, message->row);
    text_string(text, " group ");
    text_decimal(text, message->group);
    text_string(text, " first ");
    text_hex(text, message->first, 4);
    text_string(text, " second ");
    if (message->row == ROW_BETWEEN_TERMINALS)
        text_hex(text, message->second, 4);
    else
        text_string(text, "none");
    text_string(text, " stage ");
    text_string(text, stages[message->stage]);
    text_string(text, " taken ");
    text_decimal(text, message->words_taken);
    text_string(text, " mark ");
    text_decimal(text, message->mark);
    text_string(text, "\n");
}

static void print_state(struct text *text)
{
    const struct monitor *const monitor = &recording.monitor;

    text_named_hex(text, "control ", monitor->control, 4);
    text_named(text, "running ", monitor->is_running);
    if (monitor->is_open)
        print_open(text, &monitor->message);
    else
        text_string(text, "open none\n");
}

int main(int argument_count, char **arguments)
{
    static const struct program program = {
        .usage = "usage: monitor [cells] < recording\n",
        .run = &recording.run,
        .run_window = run_window,
        .print_state = print_state,
        .memory = recording.memory,
    };

    monitor_prepare(&recording);
    return program_main(&program, argument_count, arguments);
}
