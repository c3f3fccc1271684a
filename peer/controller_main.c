/*
 * controller        runs the controller recording on standard input and prints its lines
 * controller cells  the same, then the controller's state and every nonzero cell
 */
#include "controller.h"
#include "coverage.h"
#include "program.h"

static struct controller_recording recording;

static enum outcome run_window(const uint8_t *window, size_t length, bool is_last,
                               size_t *used)
{
    return OBSERVED(controller_run)(&recording, window, length, is_last, used);
}

static void print_open(struct text *text, const struct exchange *message)
{
    static const char *const stages[] = {
        [CONTROLLER_GIVEN] = "given",
        [CONTROLLER_AWAITING] = "awaiting",
        [CONTROLLER_REPLY] = "reply",
        [CONTROLLER_LAST] = "last",
        [CONTROLLER_ENDED] = "ended",
    };

    text_string(text, "open row ");
    text_decimal(text, message->row);
    text_string(text, " group ");
    text_decimal(text, message->group);
    text_string(text, " first ");
    text_hex(text, message->first, 4);
    text_string(text, " second ");
    text_hex(text, message->second, 4);
    text_string(text, " stage ");
    text_string(text, stages[message->stage]);
    text_string(text, " taken ");
    text_decimal(text, message->words_taken);
    text_string(text, " mark ");
    text_decimal(text, message->mark);
    text_string(text, "\n");
}

static void print_controller(struct text *text, const struct controller *controller)
{
    text_named_hex(text, "control ", controller->control, 4);
    text_named(text, "count ", controller->starts_left);
    text_named(text, "due ", controller->is_due);

    text_string(text, "result ");
    if (controller->has_result) {
        text_decimal(text, controller->result.code);
        text_string(text, " ");
        text_decimal(text, controller->result.mark);
    } else {
        text_string(text, "none");
    }
    text_string(text, "\n");

    if (controller->is_open)
        print_open(text, &controller->message);
    else
        text_string(text, "open none\n");
}

static void print_state(struct text *text)
{
    if (recording.run.has_setup)
        print_controller(text, &recording.controller);
    else
        text_string(text, "control none\n");
}

int main(int argument_count, char **arguments)
{
    static const struct program program = {
        .usage = "usage: controller [cells] < recording\n",
        .run = &recording.run,
        .run_window = run_window,
        .print_state = print_state,
    };

    return program_main(&program, argument_count, arguments);
}
