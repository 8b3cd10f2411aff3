/* A host that asks scripts for what they came to: what they defined, the topmost operand, and what went wrong.
 *
 *     tools/library && cc examples/embed/values.c -Iout -Lout -ltallowmarch -o out/values && out/values
 */
#include "tallowmarch.h"

#include <stdio.h>
#include <string.h>

/* A value in a few words; `room` has its bytes. */
static void show(const char *what, uint32_t code, const tallowmarch_value *value, const uint8_t *room) {
    if (code)
        printf("  %s: %s\n", what, tallowmarch_code_text(code));
    else if (value->kind == TALLOWMARCH_INTEGER)
        printf("  %s: the integer %lld\n", what, (long long)value->number);
    else if (value->kind == TALLOWMARCH_STRING || value->kind == TALLOWMARCH_NAME || value->kind == TALLOWMARCH_OPERATOR)
        printf("  %s: %.*s\n", what, (int)value->length, (const char *)room);
    else
        printf("  %s: of kind %u and length %llu\n", what, value->kind, (unsigned long long)value->length);
}

static void run(const char *text) {
    tallowmarch_standing script = TALLOWMARCH_STANDING;
    tallowmarch_settings settings = TALLOWMARCH_SETTINGS;
    tallowmarch_value value;
    uint8_t room[64];
    if (tallowmarch_start((const uint8_t *)text, strlen(text), TALLOWMARCH_NUMBERS(settings), &script)) return;
    uint32_t code = tallowmarch_advance(&script, 1000);
    printf("%s\n  %s\n", text, tallowmarch_code_text(code));
    if (code == TALLOWMARCH_FAULTED) {
        code = tallowmarch_error_name(&script, 1, &value, room, sizeof room);
        show("error", code, &value, room);
        code = tallowmarch_error_command(&script, 1, &value, room, sizeof room);
        show("raised by", code, &value, room);
    }
    code = tallowmarch_definition(&script, 1, (const uint8_t *)"area", 4, &value, room, sizeof room);
    show("area", code, &value, room);
    code = tallowmarch_operand(&script, 1, 0, &value, room, sizeof room);
    show("topmost operand", code, &value, room);
    tallowmarch_close(&script);
}

int main(void) {
    run("/area 12 5 mul def (square miles)");
    run("/area {side dup mul} def [1 2 3]");
    run("/area 12 0 idiv def");
    return 0;
}
