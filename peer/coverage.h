/*
 * How a program runs its reader: through the observer in the build with -DCOVERAGE,
 * which counts the rules that a recording reaches, and as it is in every other.
 */
#ifndef COVERAGE_H
#define COVERAGE_H

#ifdef COVERAGE

#include "counters.h"

#define OBSERVED(run) run##_observed
#define COUNTERS_WRITE() counters_write()

#else

#define OBSERVED(run) run
#define COUNTERS_WRITE() ((void)0)

#endif
#endif
