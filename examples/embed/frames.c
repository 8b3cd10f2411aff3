/* A host with a loop of frames: each of a hundred scripts gets a slice of 100 steps a frame, until all have ended.
 *
 *     tools/library && cc examples/embed/frames.c -Iout -Lout -ltallowmarch -o out/frames && out/frames
 */
#include "tallowmarch.h"

#include <stdio.h>

enum { SCRIPTS = 100, STEPS = 100 };

/* Script N prints the numbers from 1 to N, and their sum. */
static uint32_t start(tallowmarch_standing *run, int number) {
    char text[80];
    int length = snprintf(text, sizeof text, "0 1 1 %d { dup = add } for (sum ) print =", number);
    tallowmarch_settings settings = TALLOWMARCH_SETTINGS;
    settings.space = 4096;
    return tallowmarch_start((const uint8_t *)text, (size_t)length, TALLOWMARCH_NUMBERS(settings), run);
}

/* How many bytes a run printed behind those that were taken: a host shows them here. */
static size_t take(tallowmarch_standing *run, size_t taken) {
    uint8_t room[1024];
    size_t all, found = 0;
    while ((all = tallowmarch_printed(run, taken + found, room, sizeof room)) > taken + found)
        found += all - taken - found < sizeof room ? all - taken - found : sizeof room;
    return found;
}

int main(void) {
    static tallowmarch_standing runs[SCRIPTS];
    size_t taken[SCRIPTS] = {0}, bytes = 0;
    int left = SCRIPTS;
    for (int at = 0; at < SCRIPTS; at++)
        if (start(&runs[at], at + 1)) return 1;
    for (int frame = 1; left > 0; frame++) {
        for (int at = 0; at < SCRIPTS; at++) {
            uint32_t code = tallowmarch_advance(&runs[at], STEPS);
            if (code == TALLOWMARCH_CLOSED) continue;
            size_t found = take(&runs[at], taken[at]);
            taken[at] += found;
            bytes += found;
            if (code == TALLOWMARCH_STEPS_OUT) continue;
            tallowmarch_close(&runs[at]);
            left--;
        }
        printf("frame %d: %d scripts go on, %zu bytes were printed\n", frame, left, bytes);
    }
    return 0;
}
