/* Tries the library as a host in C calls it: each code, rooms of every kind of size, refused memory, and threads. tools/embedded builds and runs
 * it. It tells what differs; the last line is 'N passed, M failed'.
 */
#include "tallowmarch.h"

#include "counting.h"

#include <pthread.h>
#include <inttypes.h>
#include <stdio.h>
#include <stdlib.h>
#include <string.h>

/* The allocations that the run on this thread may still make, those that it asked for, and the blocks that it holds. */
static _Thread_local long left = 1L << 40, asked, standing;

/* What a byte is that nothing promises to keep. */
enum { POISON = 0xa5 };

/* A block of poison. */
static tallowmarch_block given(size_t size) {
    void *at = malloc(size ? size : 1);
    if (!at) return (tallowmarch_block){0, &left};
    memset(at, POISON, size);
    return (tallowmarch_block){1, at};
}

tallowmarch_block rattle_alloc(size_t size, size_t align) {
    asked++;
    if (align > 16 || left-- <= 0) return (tallowmarch_block){0, &left};
    standing++;
    return given(size);
}

/* Of a block that is resized just the bytes are kept that are in use, and what it was is poison behind. */
tallowmarch_block rattle_realloc(void *at, size_t old_size, size_t size, size_t align) {
    asked++;
    if (align > 16 || left-- <= 0) return (tallowmarch_block){0, &left};
    tallowmarch_block block = given(size);
    if (!block.is_given) return block;
    memcpy(block.at, at, old_size < size ? old_size : size);
    memset(at, POISON, old_size);
    free(at);
    return block;
}

void rattle_dealloc(void *at) {
    standing--;
    free(at);
}

static const char contexts[] =
    "/made 0 def /turn lock def\n"
    "/work { 200 { turn { /made made 1 add store } monitor 10 string pop yield } repeat } def\n"
    "mark { work } fork mark { work } fork mark { work } fork 3 { join cleartomark } repeat made =\n";

/* Contexts that are shown how much memory is used, and are refused some, in a space that is collected. */
static const char statuses[] =
    "/work { 12 { vmstatus pop exch pop = 300 array pop { 4000 array pop } stopped { pop } if yield } repeat } def\n"
    "mark { work } fork mark { work } fork work join cleartomark join cleartomark 1 1 40 { pop vmstatus pop exch pop = } for\n";

static tallowmarch_settings small(void) {
    tallowmarch_settings settings = TALLOWMARCH_SETTINGS;
    settings.space = 4096;
    settings.quantum = 10;
    settings.steps = 100000;
    return settings;
}

enum { BYTES = 4096, ENTRIES = 16384 };

/* The rooms of a call, and what it left in them. */
struct made {
    uint8_t printed[BYTES];
    tallowmarch_entry schedule[ENTRIES];
    tallowmarch_counts counts;
    uint32_t code;
};

static void run_in(struct made *made, const char *text, tallowmarch_settings settings, size_t bytes, size_t entries) {
    memset(made, 0x5a, sizeof *made);
    made->code = tallowmarch_run((const uint8_t *)text, strlen(text), TALLOWMARCH_NUMBERS(settings), made->printed, bytes, made->schedule, entries,
                                 TALLOWMARCH_NUMBERS(made->counts));
}

static int is_untouched(const void *at, size_t size) {
    const uint8_t *bytes = at;
    for (size_t place = 0; place < size; place++)
        if (bytes[place] != 0x5a) return 0;
    return 1;
}

static int prints(const struct made *made, uint32_t code, const char *text) {
    return made->code == code && made->counts.bytes == strlen(text) && !memcmp(made->printed, text, strlen(text));
}

static int is_refused(const struct made *made, uint32_t code) { return made->code == code && is_untouched(made, offsetof(struct made, code)); }

/* Each code that a call can give. */
static void codes(struct made *made) {
    tallowmarch_settings settings = small();
    run_in(made, "1 2 add =", settings, BYTES, ENTRIES);
    count(prints(made, TALLOWMARCH_FINISHED, "3\n") && made->counts.steps == 5 && made->counts.entries == 1, "a sum");
    run_in(made, "1 0 idiv", settings, BYTES, ENTRIES);
    count(prints(made, TALLOWMARCH_FAULTED, "%%[ Error: undefinedresult; OffendingCommand: idiv ]%%\n"), "an error");
    run_in(made, "lock dup { condition wait } monitor", settings, BYTES, ENTRIES);
    count(prints(made, TALLOWMARCH_ALL_WAITING, ""), "a wait for ever");
    settings.steps = 1000;
    run_in(made, "(so far) = {} loop", settings, BYTES, ENTRIES);
    count(prints(made, TALLOWMARCH_STEPS_OUT, "so far\n") && made->counts.steps == 1000, "steps that are used up");
    const tallowmarch_settings wrong[] = {{4095, 1, 1, 0, 0, 0, {0, 0}}, {1048577, 1, 1, 1, 0, 0, {0, 0}}, {4096, 0, 1, 0, 0, 1, {0, 0}},
                                          {4096, 65536, 1, 1, 0, 0, {0, 0}}, {4096, 1, 0, 0, 1, 0, {0, 0}},
                                          {4096, 1, 1ull << 32, 0, 0, 0, {0, 0}}, {(1ull << 32) + 4096, 1, 1, 1, 0, 0, {0, 0}}};
    for (size_t at = 0; at < sizeof wrong / sizeof *wrong; at++) {
        run_in(made, "1 =", wrong[at], BYTES, ENTRIES);
        count(is_refused(made, TALLOWMARCH_OUT_OF_RANGE), "a number out of its range");
    }
    for (uint32_t plain = 0; plain < 2; plain++) {
        settings.plain = plain ? 0x80000000u : 0;
        left = 0;
        run_in(made, "1 =", settings, BYTES, ENTRIES);
        left = 1L << 40;
        count(is_refused(made, TALLOWMARCH_NO_ROOM), "no room to start with");
    }
    count(tallowmarch_version() == TALLOWMARCH_VERSION, "the version");
    count(!strcmp(tallowmarch_code_text(TALLOWMARCH_MEMORY), "stopped: its memory, output or entries were used up"), "the text of a code");
    count(!strcmp(tallowmarch_code_text(UINT32_MAX), "a code of another version"), "the text of no code");
}

/* Hosts that know fewer numbers than the library, and more. */
static void versions(struct made *made) {
    static const uint8_t status[] = "vmstatus = pop pop";
    uint64_t numbers[10] = {4096, 100, 1000, 0, 0, 0, 1, 2, 0, 0}, counts[8];
    tallowmarch_settings usual = TALLOWMARCH_SETTINGS;
    for (size_t known = 0; known <= 10; known++) {
        memset(made, 0x5a, sizeof *made);
        made->code = tallowmarch_run(status, sizeof status - 1, numbers, known, made->printed, BYTES, made->schedule, ENTRIES,
                                     TALLOWMARCH_NUMBERS(made->counts));
        count(prints(made, TALLOWMARCH_FINISHED, known ? "4096\n" : "65536\n"), "settings of which some are known");
    }
    count(usual.space == 65536 && usual.quantum == 100 && usual.steps == UINT32_MAX, "the usual settings");
    for (size_t at = 8; at < 10; at++) {
        numbers[at] = 1;
        for (size_t known = 8; known <= 10; known++) {
            memset(made, 0x5a, sizeof *made);
            made->code = tallowmarch_run(status, sizeof status - 1, numbers, known, made->printed, BYTES, made->schedule, ENTRIES,
                                         TALLOWMARCH_NUMBERS(made->counts));
            count(known > at ? is_refused(made, TALLOWMARCH_OUT_OF_RANGE) : prints(made, TALLOWMARCH_FINISHED, "4096\n"),
                  "a setting of a later version");
        }
        numbers[at] = 0;
    }
    for (size_t known = 0; known <= 8; known++) {
        memset(counts, 0x5a, sizeof counts);
        uint32_t code = tallowmarch_run(status, sizeof status - 1, numbers, 8, made->printed, BYTES, made->schedule, ENTRIES, counts, known);
        size_t written = known < 5 ? known : 5;
        count(code == TALLOWMARCH_FINISHED && (!known || counts[0] == 5) && is_untouched(counts + written, sizeof counts - 8 * written),
              "counts of which some are known");
    }
    count(tallowmarch_fits(TALLOWMARCH_VERSION) && tallowmarch_fits(TALLOWMARCH_VERSION + 1) && !tallowmarch_fits(TALLOWMARCH_VERSION + 100) &&
              !tallowmarch_fits(TALLOWMARCH_VERSION + 10000) && !tallowmarch_fits(300), "versions that fit one another");
}

/* A bound on the output: what just fits is printed whole, and a step that would print a byte more ends the run. */
static void outputs(struct made *made) {
    static struct made whole;
    tallowmarch_settings settings = small();
    for (uint32_t plain = 0; plain < 2; plain++) {
        settings.plain = plain;
        settings.output = 13;
        run_in(&whole, "(12345) = (123456) =", settings, BYTES, ENTRIES);
        count(prints(&whole, TALLOWMARCH_FINISHED, "12345\n123456\n"), "output that just fits");
        settings.output = 12;
        run_in(made, "(12345) = (123456) =", settings, BYTES, ENTRIES);
        count(prints(made, TALLOWMARCH_MEMORY, "12345\n") && made->counts.steps < whole.counts.steps, "a byte too much");
        made->code = tallowmarch_replay((const uint8_t *)"(12345) = (123456) =", 20, TALLOWMARCH_NUMBERS(settings), whole.schedule,
                                        whole.counts.entries, made->printed, BYTES,
                                        made->schedule, ENTRIES, TALLOWMARCH_NUMBERS(made->counts));
        count(prints(made, TALLOWMARCH_MEMORY, "12345\n"), "a replay of a byte too much");
        settings.output = UINT64_MAX;
        run_in(made, "{(0123456789) print} loop", settings, BYTES, ENTRIES);
        count(made->code == TALLOWMARCH_STEPS_OUT && made->counts.bytes > BYTES, "a bound that nothing meets");
    }
}

/* A bound on the entries: a schedule that just fits is whole, and a step that wants one more ends the run. */
static void few_entries(struct made *made) {
    static struct made whole;
    tallowmarch_settings settings = small();
    for (uint32_t plain = 0; plain < 2; plain++) {
        settings.plain = plain;
        settings.entries = 0;
        run_in(&whole, contexts, settings, BYTES, ENTRIES);
        const size_t entries = whole.counts.entries;
        settings.entries = entries;
        run_in(made, contexts, settings, BYTES, ENTRIES);
        count(!memcmp(made, &whole, sizeof whole), "a schedule that just fits");
        settings.entries = entries - 1;
        run_in(made, contexts, settings, BYTES, ENTRIES);
        count(made->code == TALLOWMARCH_MEMORY && made->counts.entries == entries - 1 && made->counts.steps < whole.counts.steps &&
                  !memcmp(made->schedule, whole.schedule, (entries - 1) * sizeof(tallowmarch_entry)), "an entry too much");
    }
}

/* Rooms of no item, of one, of just as many as there are, of one fewer and of more: what is written is a beginning, and nothing lies behind it. */
static void rooms(struct made *made) {
    static struct made whole;
    run_in(&whole, contexts, small(), BYTES, ENTRIES);
    count(prints(&whole, TALLOWMARCH_FINISHED, "600\n") && whole.counts.flips > 0 && whole.counts.entries < ENTRIES, "contexts");
    const size_t bytes = whole.counts.bytes, entries = whole.counts.entries;
    const size_t tried[][2] = {{0, 0}, {1, 1}, {bytes, entries}, {bytes - 1, entries - 1}, {bytes + 1, entries + 1}, {0, entries}, {bytes, 0}};
    for (size_t at = 0; at < sizeof tried / sizeof *tried; at++) {
        run_in(made, contexts, small(), tried[at][0], tried[at][1]);
        const size_t some = tried[at][0] < bytes ? tried[at][0] : bytes, few = tried[at][1] < entries ? tried[at][1] : entries;
        count(made->code == whole.code && !memcmp(&made->counts, &whole.counts, sizeof whole.counts), "counts of a room");
        count(!memcmp(made->printed, whole.printed, some) && is_untouched(made->printed + some, BYTES - some), "a room of bytes");
        count(!memcmp(made->schedule, whole.schedule, few * sizeof(tallowmarch_entry)) &&
                  is_untouched(made->schedule + few, (ENTRIES - few) * sizeof(tallowmarch_entry)), "a room of entries");
    }
}

/* Replays: of a run in a collected space, of a part of it, of none, of contexts that there aren't, and where memory is refused. */
static void replays(struct made *made) {
    static struct made whole;
    const tallowmarch_settings any = {0, 0, 0, 0, 0, 0, {1, 2}};
    const uint8_t *program = (const uint8_t *)contexts;
    run_in(&whole, contexts, small(), BYTES, ENTRIES);
    const size_t entries = whole.counts.entries;
    for (size_t given = 0; given <= entries; given += given < 2 ? 1 : entries - 2 > given ? entries - 2 - given : 1) {
        memset(made, 0x5a, sizeof *made);
        made->code = tallowmarch_replay(program, strlen(contexts), TALLOWMARCH_NUMBERS(any), whole.schedule, given, made->printed, BYTES,
                                        made->schedule, ENTRIES, TALLOWMARCH_NUMBERS(made->counts));
        count(made->code == (given == entries ? TALLOWMARCH_FINISHED : TALLOWMARCH_STEPS_OUT) && made->counts.entries == given &&
                  !memcmp(made->schedule, whole.schedule, given * sizeof(tallowmarch_entry)), "a replay of a part");
        count(made->counts.bytes <= whole.counts.bytes && !memcmp(made->printed, whole.printed, made->counts.bytes), "the bytes of a replay");
        count(made->counts.flips == 0 && made->counts.taken == 0, "a replay collects nothing");
    }
    count(prints(made, TALLOWMARCH_FINISHED, "600\n") && made->counts.steps == whole.counts.steps, "a whole replay");
    const tallowmarch_entry nobody[] = {{7, 4000000000u, 2, 0x100, 1, INT32_MAX}, {UINT32_MAX, 3, 0, 0, 0, -6}};
    made->code = tallowmarch_replay(program, strlen(contexts), TALLOWMARCH_NUMBERS(any), nobody, 2, made->printed, BYTES, made->schedule, ENTRIES,
                                    TALLOWMARCH_NUMBERS(made->counts));
    const tallowmarch_entry first = {7, 4000000000u, 1, 1, 1, INT32_MAX}, second = {UINT32_MAX, 3, 0, 0, 0, 0};
    count(made->code == TALLOWMARCH_STEPS_OUT && made->counts.steps == 4000000003u && !memcmp(made->schedule, &first, sizeof first) &&
              !memcmp(made->schedule + 1, &second, sizeof second), "steps of contexts that there aren't");
}

/* The place of a context's last error: of the first one, of one that was caught, of none, and of one whose place isn't in the program. */
static void places(struct made *made) {
    const tallowmarch_settings any = {0, 0, 0, 0, 0, 0, {1, 2}};
    const char *const faulty[] = {"1 0\n  idiv", "{pop} stopped\r\n4", "1 2 add pop", "[(x) 0 /idiv cvx] cvx exec"};
    const tallowmarch_place wanted[] = {{3, 2, 3, 6}, {4, 1, 2, 1}, {7, 7, 7, 7}, {12, 1, 23, 22}};
    const uint32_t codes[] = {0, 0, TALLOWMARCH_NO_VALUE, 0};
    for (size_t at = 0; at < sizeof faulty / sizeof *faulty; at++) {
        run_in(made, faulty[at], small(), BYTES, ENTRIES);
        tallowmarch_place place = {7, 7, 7, 7};
        const uint32_t code = tallowmarch_error_place((const uint8_t *)faulty[at], strlen(faulty[at]), TALLOWMARCH_NUMBERS(any), made->schedule,
                                                      made->counts.entries, 1, &place);
        if (code != codes[at] || memcmp(&place, wanted + at, sizeof place))
            fprintf(stderr, "place %zu: code %u, %" PRIu64 " %" PRIu64 ":%" PRIu64 " %" PRIu64 "\n", at, code, place.step, place.line, place.column, place.offset);
        count(code == codes[at] && !memcmp(&place, wanted + at, sizeof place), "the place of an error");
    }
    const tallowmarch_entry none = {1, 0, 0, 0, 0, 0};
    const tallowmarch_entry idle = {9, 4000000000u, 0, 0, 0, 0};
    tallowmarch_place place = {7, 7, 7, 7};
    const tallowmarch_place same = place;
    const uint8_t *program = (const uint8_t *)"1 =";
    count(tallowmarch_error_place(program, 3, TALLOWMARCH_NUMBERS(any), &none, 1, 1, &place) == TALLOWMARCH_BAD_ENTRY, "a place behind no entry");
    count(tallowmarch_error_place(program, 3, TALLOWMARCH_NUMBERS(any), &idle, 1, 9, &place) == TALLOWMARCH_NO_VALUE &&
              !memcmp(&place, &same, sizeof place), "a place behind steps of nobody");
}

static void go_on_in(struct made *made, const char *text, tallowmarch_settings settings, const tallowmarch_entry *given, size_t given_length, size_t bytes,
                     size_t entries) {
    memset(made, 0x5a, sizeof *made);
    made->code = tallowmarch_go_on((const uint8_t *)text, strlen(text), TALLOWMARCH_NUMBERS(settings), given, given_length, made->printed, bytes,
                                   made->schedule, entries,
                                   TALLOWMARCH_NUMBERS(made->counts));
}

/* A run that was cut behind so many steps, and gone on from, is the one that wasn't cut. */
static void cut_runs(struct made *made, const char *text, uint32_t plain) {
    static struct made whole, part;
    tallowmarch_settings settings = small(), cut = settings;
    settings.plain = cut.plain = plain;
    run_in(&whole, text, settings, BYTES, ENTRIES);
    const uint32_t steps = (uint32_t)whole.counts.steps;
    count(whole.code == TALLOWMARCH_FINISHED && whole.counts.entries < ENTRIES && whole.counts.bytes < BYTES, "a run that isn't cut");
    const uint32_t tried[] = {1, 2, 9, 10, 11, steps / 7, steps / 3, steps / 3 + 1, steps / 2, steps - 10, steps - 1, steps, steps + 5};
    for (size_t at = 0; at < sizeof tried / sizeof *tried; at++) {
        cut.steps = tried[at];
        run_in(&part, text, cut, BYTES, ENTRIES);
        count(part.code == (tried[at] < steps ? TALLOWMARCH_STEPS_OUT : TALLOWMARCH_FINISHED) && part.counts.bytes <= whole.counts.bytes &&
                  !memcmp(part.printed, whole.printed, part.counts.bytes), "the output of a run that is cut");
        go_on_in(made, text, settings, part.schedule, part.counts.entries, BYTES, ENTRIES);
        count(!memcmp(made, &whole, sizeof whole), "a run that goes on");
    }
    part.counts.entries = 0;
    for (cut.steps = 1; part.counts.entries == 0 || part.code == TALLOWMARCH_STEPS_OUT; cut.steps *= 2) {
        go_on_in(made, text, cut, part.schedule, part.counts.entries, BYTES, ENTRIES);
        count(made->counts.bytes >= part.counts.bytes || part.counts.entries == 0, "output that grows");
        part = *made;
    }
    count(!memcmp(&part, &whole, sizeof whole), "a run in many parts");
}

static int is_shown(const tallowmarch_entry *entry) { return entry->shown != 0; }
static int is_refused_in(const tallowmarch_entry *entry) { return entry->refused != 0; }

/* The place of the first such entry of a run; their number where there is none. */
static size_t first_of(const struct made *made, int (*is_such)(const tallowmarch_entry *)) {
    size_t place = 0;
    while (place < made->counts.entries && !is_such(&made->schedule[place])) place++;
    return place;
}

/* Schedules that no run has: of another program, of nobody, longer than the run, with another pair, another refusal, and another last step. */
static void other_schedules(struct made *made) {
    static struct made whole;
    static tallowmarch_entry given[ENTRIES];
    const tallowmarch_settings settings = small();
    const tallowmarch_entry nobody = {7, 1, 0, 0, 0, 0};
    run_in(&whole, contexts, settings, BYTES, ENTRIES);
    go_on_in(made, "1 =", settings, whole.schedule, whole.counts.entries, BYTES, ENTRIES);
    count(is_refused(made, TALLOWMARCH_OTHER_SCHEDULE), "a schedule of another program");
    go_on_in(made, "1 =", settings, &nobody, 1, BYTES, ENTRIES);
    count(is_refused(made, TALLOWMARCH_OTHER_SCHEDULE), "a step of nobody");
    run_in(&whole, statuses, settings, BYTES, ENTRIES);
    const size_t entries = whole.counts.entries, shown = first_of(&whole, is_shown), refused = first_of(&whole, is_refused_in);
    count(shown < entries && refused < entries && whole.counts.flips > 2, "pairs and refusals");
    for (int at = 0; at < 7; at++) {
        memcpy(given, whole.schedule, sizeof given);
        size_t length = at < 2 ? entries + 1 : at < 5 ? entries : refused + 1;
        if (at == 0) given[entries] = (tallowmarch_entry){1, 1, 0, 0, 0, 0};
        if (at == 1) given[entries] = nobody;
        if (at == 2) given[shown].used++;
        if (at == 3) given[shown].shown = 0;
        if (at == 4) given[entries - 1].steps++;
        if (at == 5) given[refused].refused = 0;
        if (at == 6) given[refused].refused = 7;
        go_on_in(made, statuses, settings, given, length, BYTES, ENTRIES);
        if (at < 6)
            count(is_refused(made, TALLOWMARCH_OTHER_SCHEDULE), "a schedule that no run has");
        else
            count(!memcmp(made, &whole, sizeof whole), "any number but 0 is a refusal");
    }
    size_t length = 0;
    for (size_t place = 0; place < entries && length + 2 < ENTRIES; place++) {
        const tallowmarch_entry entry = whole.schedule[place];
        if (entry.steps > 1) given[length++] = (tallowmarch_entry){entry.context, entry.steps - 1, 0, 0, 0, 0};
        given[length++] = (tallowmarch_entry){entry.context, 1, entry.refused, entry.shown, entry.used, entry.size};
    }
    go_on_in(made, statuses, settings, given, length, BYTES, ENTRIES);
    count(!memcmp(made, &whole, sizeof whole), "a schedule in other entries");
}

/* Entries that are none, first and last in a schedule: neither call that is given one makes a step or writes. */
static void bad_entries(struct made *made) {
    const tallowmarch_entry good = {1, 1, 0, 0, 0, 0}, bad[] = {{0, 1, 0, 0, 0, 0}, {1, 0, 0, 0, 0, 0},  {1, 0, 1, 1, 5, 6},         {1, 1, 0, 1, 0, 5},
                                                                {1, 1, 0, 7, 5, 0}, {1, 1, 1, 1, -1, 5}, {1, 1, 0, 1, 5, INT32_MIN}};
    const tallowmarch_settings settings = small(), any = {0, 0, 0, 0, 0, 0, {1, 2}};
    for (size_t at = 0; at < sizeof bad / sizeof *bad; at++) {
        for (int before = 0; before < 2; before++) {
            const tallowmarch_entry given[] = {before ? bad[at] : good, before ? good : bad[at]};
            go_on_in(made, "1 =", settings, given, 2, BYTES, ENTRIES);
            count(is_refused(made, TALLOWMARCH_BAD_ENTRY), "going on from an entry that is none");
            go_on_in(made, "1 =", any, given, 2, BYTES, ENTRIES);
            count(is_refused(made, TALLOWMARCH_OUT_OF_RANGE), "a number out of its range before an entry that is none");
            memset(made, 0x5a, sizeof *made);
            made->code = tallowmarch_replay((const uint8_t *)"1 =", 3, TALLOWMARCH_NUMBERS(any), given, 2, made->printed, BYTES, made->schedule,
                                            ENTRIES, TALLOWMARCH_NUMBERS(made->counts));
            count(is_refused(made, TALLOWMARCH_BAD_ENTRY), "a replay of an entry that is none");
        }
    }
}

/* Runs that go on: rooms of no item, numbers out of their range, and a bound on the output that is met in the given steps. */
static void goings_on(struct made *made) {
    static struct made whole;
    tallowmarch_settings settings = small();
    for (uint32_t plain = 0; plain < 2; plain++) {
        cut_runs(made, contexts, plain);
        cut_runs(made, statuses, plain);
    }
    other_schedules(made);
    run_in(&whole, contexts, settings, BYTES, ENTRIES);
    go_on_in(made, contexts, settings, whole.schedule, 5, 0, 0);
    count(made->code == whole.code && !memcmp(&made->counts, &whole.counts, sizeof whole.counts) && is_untouched(made->schedule, sizeof made->schedule),
          "rooms of no item");
    settings.quantum = 3;
    go_on_in(made, contexts, settings, whole.schedule, 100, BYTES, ENTRIES);
    count(prints(made, TALLOWMARCH_FINISHED, "600\n") && !memcmp(made->schedule, whole.schedule, 99 * sizeof(tallowmarch_entry)) &&
              made->counts.entries > whole.counts.entries, "turns of another length behind the given ones");
    settings.steps = 0;
    go_on_in(made, contexts, settings, whole.schedule, 5, BYTES, ENTRIES);
    count(is_refused(made, TALLOWMARCH_OUT_OF_RANGE), "no step more");
    settings = small();
    left = 0;
    go_on_in(made, contexts, settings, whole.schedule, 5, BYTES, ENTRIES);
    left = 1L << 40;
    count(is_refused(made, TALLOWMARCH_NO_ROOM), "no room to go on");
    for (settings.plain = 0; settings.plain < 2; settings.plain++) {
        settings.output = 0;
        run_in(&whole, "(12345) = (123456) = {} loop", settings, BYTES, ENTRIES);
        settings.output = 12;
        go_on_in(made, "(12345) = (123456) = {} loop", settings, whole.schedule, whole.counts.entries, BYTES, ENTRIES);
        count(prints(made, TALLOWMARCH_MEMORY, "12345\n") && made->counts.steps < whole.counts.steps, "output that is bounded in the given steps");
    }
}

/* Each allocation of a run, of what goes on from a part of it, and of its replay, refused in turn: the code is one of memory, and no block is lost. */
static void refusals(struct made *made, uint32_t plain) {
    static const char text[] = "mark { 1 1 300 { 20 array pop = } for } fork { (0123456789) print } repeat join";
    static struct made whole;
    tallowmarch_settings settings = small();
    settings.plain = plain;
    run_in(&whole, text, settings, BYTES, ENTRIES);
    const size_t given[] = {0, whole.counts.entries / 2, whole.counts.entries};
    uint32_t (*const calls[])(const uint8_t *, size_t, const uint64_t *, size_t, const tallowmarch_entry *, size_t, uint8_t *, size_t,
                              tallowmarch_entry *, size_t, uint64_t *, size_t) = {NULL, tallowmarch_go_on, tallowmarch_replay};
    const uint8_t *program = (const uint8_t *)text;
    for (int which = 0; which < 3; which++) {
        long others = 0, lost = 0, differ = 0, few = 0;
        for (long at = 0; at < 100000; at++) {
            memset(made, 0x5a, sizeof *made);
            left = at;
            asked = standing = 0;
            made->code = calls[which] ? calls[which](program, strlen(text), TALLOWMARCH_NUMBERS(settings), whole.schedule, given[which],
made->printed,
                                                     BYTES, made->schedule, ENTRIES, TALLOWMARCH_NUMBERS(made->counts))
                                      : tallowmarch_run(program, strlen(text), TALLOWMARCH_NUMBERS(settings), made->printed, BYTES, made->schedule,
                                                        ENTRIES, TALLOWMARCH_NUMBERS(made->counts));
            lost += standing != 0;
            if (asked <= at) break;
            if (made->code == TALLOWMARCH_NO_ROOM) {
                differ += !is_refused(made, TALLOWMARCH_NO_ROOM);
            } else if (made->code == TALLOWMARCH_MEMORY) {
                few++;
                differ += made->counts.bytes > whole.counts.bytes || memcmp(made->printed, whole.printed, made->counts.bytes) != 0;
            } else {
                others += made->code != whole.code || made->counts.bytes != whole.counts.bytes || memcmp(made->printed, whole.printed, whole.counts.bytes);
            }
        }
        left = 1L << 40;
        count(asked > 20 && few > 0, "allocations that are refused");
        count(lost == 0, "a block was lost");
        count(differ == 0 && others == 0, "what is handed out where memory is refused");
        count(made->code == whole.code, "a run with just enough memory");
    }
}

static void *beside(void *of) {
    struct made *made = of;
    for (int at = 0; at < 10; at++) run_in(made, contexts, small(), BYTES, ENTRIES);
    return NULL;
}

/* Eight threads at once: each makes the run that one alone makes. */
static void threads(void) {
    static struct made whole, made[8];
    pthread_t started[8];
    run_in(&whole, contexts, small(), BYTES, ENTRIES);
    for (int at = 0; at < 8; at++)
        if (pthread_create(&started[at], NULL, beside, &made[at])) exit(2);
    for (int at = 0; at < 8; at++) pthread_join(started[at], NULL);
    for (int at = 0; at < 8; at++) count(!memcmp(&made[at], &whole, sizeof whole), "a run beside seven others");
}

int main(void) {
    static struct made made;
    codes(&made);
    versions(&made);
    outputs(&made);
    few_entries(&made);
    rooms(&made);
    replays(&made);
    places(&made);
    goings_on(&made);
    bad_entries(&made);
    refusals(&made, 0);
    refusals(&made, 1);
    threads();
    printf("%d passed, %d failed\n", passed, failed);
    return failed > 0;
}
