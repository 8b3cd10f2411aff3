/* Runs a program by the library as often as is asked for, and tells the median microseconds of a call; bench/embedding builds it.
 *
 *     embedding FILE PLAIN SPACE CALLS
 */
#include "tallowmarch.h"

#include <stdio.h>
#include <stdlib.h>
#include <time.h>

static int by_size(const void *a, const void *b) {
    const double less = *(const double *)a, more = *(const double *)b;
    return (less > more) - (less < more);
}

int main(int count, char **words) {
    static uint8_t program[1 << 20], printed[1 << 16];
    static tallowmarch_entry schedule[1 << 12];
    static double took[1 << 16];
    FILE *file = count == 5 ? fopen(words[1], "rb") : NULL;
    if (!file) return 2;
    const size_t length = fread(program, 1, sizeof program, file);
    const int calls = atoi(words[4]);
    tallowmarch_settings settings = TALLOWMARCH_SETTINGS;
    tallowmarch_counts counts;
    settings.plain = (uint32_t)atoi(words[2]);
    settings.space = (uint32_t)atoi(words[3]);
    for (int at = 0; at < calls; at++) {
        struct timespec from, to;
        clock_gettime(CLOCK_MONOTONIC, &from);
        if (tallowmarch_run(program, length, TALLOWMARCH_NUMBERS(settings), printed, sizeof printed, schedule, 1 << 12,
TALLOWMARCH_NUMBERS(counts)) > TALLOWMARCH_FAULTED) return 1;
        clock_gettime(CLOCK_MONOTONIC, &to);
        took[at] = (double)(to.tv_sec - from.tv_sec) * 1e6 + (double)(to.tv_nsec - from.tv_nsec) / 1e3;
    }
    qsort(took, (size_t)calls, sizeof *took, by_size);
    printf("%.1f\n", took[calls / 2]);
    return 0;
}
