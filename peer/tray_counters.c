/* The counters of tray recordings, and in which order they are written. */
#include "tray_counters.h"

uint64_t counters[COUNTER_COUNT];
uint64_t counters_fault[8];
uint64_t counters_mode_legal[32];
uint64_t counters_mode_illegal[32];
uint64_t counters_mode_ended[32];
uint64_t counters_superseded_stage[4];
uint64_t counters_refusal[10];
uint64_t counters_refusal_7_tag[8];
uint64_t counters_field_tag[8];

void counters_write_all(FILE *file)
{
    static const char *const names[] = {COUNTER_NAMES(COUNTER_STRING)};
    static const char *const stage_names[] = {"data", "second", "awaiting", "skipping"};
    static const unsigned stages[] = {0, 1, 2, 3};
    static const unsigned faults[] = {1, 2, 3, 4, 5, 6, 7};
    static const unsigned legal_codes[] = {0, 1, 2, 3, 4, 5, 6, 7, 8, 16, 17, 18, 19, 20, 21};
    static const unsigned tags[] = {1, 2, 3, 4, 5, 6, 7};
    static const unsigned refusals[] = {2, 5, 6, 7, 8, 9};
    unsigned codes[32];

    for (unsigned index = 0; index < 32; index++)
        codes[index] = index;
    counters_write_named(file, names, COUNTER_COUNT);
    WRITE_NAMED(file, superseded_stage, stages, stage_names);
    WRITE_INDEXED(file, fault, faults);
    WRITE_INDEXED(file, mode_legal, legal_codes);
    WRITE_INDEXED(file, mode_illegal, codes);
    WRITE_INDEXED(file, mode_ended, legal_codes);
    WRITE_INDEXED(file, refusal, refusals);
    WRITE_INDEXED(file, refusal_7_tag, tags);
    WRITE_INDEXED(file, field_tag, tags);
}
