/*
 * Counters of the build with -DCOVERAGE: rules, codes and refusals reached.  Each
 * program has a list of its own, COUNTER_NAMES, and rows of counters by a number.
 */
#ifndef COUNTERS_H
#define COUNTERS_H

#include <stdint.h>
#include <stdio.h>

extern uint64_t counters[];

#define COUNTER_CONSTANT(name) COUNTER_##name,
#define COUNTER_STRING(name) #name,

#define COUNT(name) ((void)counters[COUNTER_##name]++)
#define COUNT_IF(condition, name) ((void)((condition) ? COUNT(name) : (void)0))
#define COUNT_INDEX(name, index) ((void)counters_##name[index]++)

/* Appends `name count` lines to the file that PEER_COVERAGE names. */
void counters_write(void);

/* The program's own part of that. */
void counters_write_all(FILE *file);

void counters_write_named(FILE *file, const char *const *names, unsigned name_count);

/* One row of counters, those with the indexes alone: by the number in two digits, or
   by the name that each index has. */
void counters_write_row(FILE *file, const char *row, const uint64_t *counts,
                        const unsigned *indexes, unsigned index_count,
                        const char *const *index_names);

#define ROW_LENGTH(indexes) ((unsigned)(sizeof(indexes) / sizeof(indexes)[0]))
#define WRITE_INDEXED(file, name, indexes) \
    counters_write_row(file, #name, counters_##name, indexes, ROW_LENGTH(indexes), NULL)
#define WRITE_NAMED(file, name, indexes, names) \
    counters_write_row(file, #name, counters_##name, indexes, ROW_LENGTH(indexes), names)

#endif
