/* How counters are written. */
#include "counters.h"

#include <inttypes.h>
#include <stdlib.h>

void counters_write_named(FILE *file, const char *const *names, unsigned name_count)
{
    for (unsigned index = 0; index < name_count; index++)
        (void)fprintf(file, "%s %" PRIu64 "\n", names[index], counters[index]);
}

void counters_write_row(FILE *file, const char *row, const uint64_t *counts,
                        const unsigned *indexes, unsigned index_count,
                        const char *const *index_names)
{
    for (unsigned place = 0; place < index_count; place++) {
        const unsigned index = indexes[place];

        if (index_names == NULL)
            (void)fprintf(file, "%s_%02u %" PRIu64 "\n", row, index, counts[index]);
        else
            (void)fprintf(file, "%s_%s %" PRIu64 "\n", row, index_names[index],
                          counts[index]);
    }
}

void counters_write(void)
{
    const char *path = getenv("PEER_COVERAGE");
    FILE *file;

    if (path == NULL)
        return;
    file = fopen(path, "a");
    if (file == NULL)
        return;
    counters_write_all(file);
    (void)fclose(file);
}
