/* Runs a program by the library on a thread whose stack is painted, and tells how many KiB of it the call touched; bench/embedding builds it.
 *
 *     stack FILE PLAIN
 */
#include "tallowmarch.h"

#include <pthread.h>
#include <stdio.h>
#include <stdlib.h>
#include <string.h>

enum { PAINT = 0x5a, STACK = 8 << 20 };

struct call {
    uint8_t program[1 << 16];
    size_t length;
    tallowmarch_settings settings;
    uint32_t code;
};

static void *run(void *given) {
    struct call *call = given;
    uint8_t printed[1];
    tallowmarch_entry schedule[1];
    tallowmarch_counts counts;
    call->code = tallowmarch_run(call->program, call->length, TALLOWMARCH_NUMBERS(call->settings), printed, 0, schedule, 0,
                                 TALLOWMARCH_NUMBERS(counts));
    return NULL;
}

int main(int count, char **words) {
    static struct call call;
    FILE *file = count == 3 ? fopen(words[1], "rb") : NULL;
    unsigned char *stack = aligned_alloc(4096, STACK);
    pthread_attr_t attributes;
    pthread_t thread;
    size_t untouched = 0;
    if (!file || !stack) return 2;
    call.length = fread(call.program, 1, sizeof call.program, file);
    call.settings = (tallowmarch_settings)TALLOWMARCH_SETTINGS;
    call.settings.plain = (uint32_t)atoi(words[2]);
    memset(stack, PAINT, STACK);
    if (pthread_attr_init(&attributes) || pthread_attr_setstack(&attributes, stack, STACK)) return 2;
    if (pthread_create(&thread, &attributes, run, &call) || pthread_join(thread, NULL)) return 2;
    while (untouched < STACK && stack[untouched] == PAINT) untouched++;
    printf("%zu\n", (STACK - untouched) / 1024);
    return call.code > TALLOWMARCH_FAULTED;
}
