/* The least that a C host does: one program, run in the host's own process.
 *
 *     cc examples/embed/hello.c -Iout -Lout -ltallowmarch -o out/hello && out/hello
 */
#include "tallowmarch.h"

#include <stdio.h>

int main(void) {
    static const uint8_t program[] = "(Hello from PostScript: ) print 1 2 add =";
    const tallowmarch_settings settings = TALLOWMARCH_SETTINGS;
    uint8_t printed[4096];
    tallowmarch_entry schedule[16];
    tallowmarch_counts counts;

    uint32_t code = tallowmarch_run(program, sizeof program - 1, TALLOWMARCH_NUMBERS(settings), printed, sizeof printed, schedule, 16,
                                    TALLOWMARCH_NUMBERS(counts));
    if (code >= TALLOWMARCH_OUT_OF_RANGE) {
        fprintf(stderr, "no run: code %u\n", code);
        return 2;
    }
    size_t shown = counts.bytes < sizeof printed ? counts.bytes : sizeof printed;
    fwrite(printed, 1, shown, stdout);
    fprintf(stderr, "code %u after %llu steps\n", code, (unsigned long long)counts.steps);
    return (int)code;
}
