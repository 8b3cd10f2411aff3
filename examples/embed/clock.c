/* A host that shows what a program prints as it comes, looks at a clock, and stops the program when its time is up.
 *
 *     tools/library && cc examples/embed/clock.c -Iout -Lout -ltallowmarch -o out/clock && out/clock
 */
#include "tallowmarch.h"

#include <stdio.h>
#include <stdlib.h>
#include <time.h>

static const uint8_t program[] = "1 1 5 {(Step ) print = 50000 {} repeat} for (And now for ever) = {} loop";

/* What a call handed out. */
struct part {
    uint8_t printed[4096];
    tallowmarch_entry *schedule;
    size_t room;
    tallowmarch_counts counts;
    uint32_t code;
};

/* Goes on from one part to the next, with room for all of its schedule. */
static void go_on(const struct part *from, struct part *to, const tallowmarch_settings *settings) {
    for (;;) {
        to->code = tallowmarch_go_on(program, sizeof program - 1, TALLOWMARCH_NUMBERS(*settings), from->schedule, from->counts.entries,
                                     to->printed, sizeof to->printed, to->schedule, to->room, TALLOWMARCH_NUMBERS(to->counts));
        if (to->code >= TALLOWMARCH_OUT_OF_RANGE || to->counts.entries <= to->room) return;
        to->room = 2 * to->counts.entries;
        to->schedule = realloc(to->schedule, to->room * sizeof(tallowmarch_entry));
        if (!to->schedule) exit(2);
    }
}

int main(void) {
    static struct part parts[2];
    tallowmarch_settings settings = TALLOWMARCH_SETTINGS;
    size_t shown = 0;
    for (int at = 0; at < 2; at++) {
        parts[at].room = 16;
        if (!(parts[at].schedule = malloc(16 * sizeof(tallowmarch_entry)))) return 2;
    }
    settings.steps = 10000;
    settings.output = sizeof parts[0].printed;
    for (int at = 0;; at = !at) {
        struct part *part = &parts[!at];
        go_on(&parts[at], part, &settings);
        if (part->code >= TALLOWMARCH_OUT_OF_RANGE) return 2;
        fwrite(part->printed + shown, 1, part->counts.bytes - shown, stdout);
        fflush(stdout);
        shown = part->counts.bytes;
        if (part->code != TALLOWMARCH_STEPS_OUT) return (int)part->code;
        if (clock() > CLOCKS_PER_SEC) break;
        /* Twice as many steps in all, so that the whole costs some twice as much as its last part. */
        settings.steps = (uint32_t)part->counts.steps;
    }
    puts("stopped by the clock");
    free(parts[0].schedule);
    free(parts[1].schedule);
    return 0;
}
