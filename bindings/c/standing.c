/* Tries runs that stand between calls as a host in C makes them: slices of random sizes come to what one call does, each code, refused memory, and
 * handles that go from thread to thread. With a number and files it makes the programs of these in slices, the sizes being of that number. tools/embedded
 * builds and runs it. It tells what differs; the last line is 'N passed, M failed'.
 */
#include "tallowmarch.h"

#include "counting.h"

#include <pthread.h>
#include <stdio.h>
#include <stdlib.h>
#include <string.h>

/* The allocations that the calls on this thread may still make, those that they asked for, and the blocks that stand. */
static _Thread_local long left = 1L << 40, asked;
static long standing;

tallowmarch_block rattle_alloc(size_t size, size_t align) {
    asked++;
    if (align > 16 || left-- <= 0) return (tallowmarch_block){0, &left};
    __atomic_add_fetch(&standing, 1, __ATOMIC_RELAXED);
    return (tallowmarch_block){1, malloc(size ? size : 1)};
}

tallowmarch_block rattle_realloc(void *at, size_t old_size, size_t size, size_t align) {
    (void)old_size;
    asked++;
    if (align > 16 || left-- <= 0) return (tallowmarch_block){0, &left};
    return (tallowmarch_block){1, realloc(at, size ? size : 1)};
}

void rattle_dealloc(void *at) {
    __atomic_sub_fetch(&standing, 1, __ATOMIC_RELAXED);
    free(at);
}

/* Programs whose schedule depends on turns, on what vmstatus shows, on refusals and on when the collector acts. */
static const char *const texts[] = {
    "1 1 100 { = } for",
    "/made 0 def /turn lock def\n"
    "/work { 200 { turn { /made made 1 add store } monitor 10 string pop yield } repeat } def\n"
    "mark { work } fork mark { work } fork mark { work } fork 3 { join cleartomark } repeat made =\n",
    "/work { 12 { vmstatus pop exch pop = 300 array pop { 4000 array pop } stopped { pop } if yield } repeat } def\n"
    "mark { work } fork mark { work } fork work join cleartomark join cleartomark 1 1 40 { pop vmstatus pop exch pop = } for\n",
    "20 { 100 array pop } repeat 1 vmreclaim vmstatus pop exch pop = 200 { 50 array pop vmstatus pop exch pop = 2 vmreclaim } repeat",
    "-2 vmreclaim 30 { 90 array pop vmstatus pop exch pop = } repeat 0 vmreclaim 90 { 90 array pop vmstatus pop exch pop = } repeat",
    "/l lock def /c condition def /on false def mark { l { { on { exit } if l c wait } loop } monitor (waited) = } fork\n"
    "300 { 30 array pop } repeat l { /on true store c notify } monitor join cleartomark (joined) =",
    "mark { 1 0 idiv } fork join cleartomark { } loop",
    "/l lock def /c condition def l { l c wait } monitor",
    "(unclosed",
};

enum { TEXTS = sizeof texts / sizeof *texts, BYTES = 65536, ENTRIES = 65536 };

static tallowmarch_settings small(uint32_t quantum) {
    tallowmarch_settings settings = TALLOWMARCH_SETTINGS;
    settings.space = 4096;
    settings.quantum = quantum;
    settings.steps = 20000;
    settings.output = BYTES;
    return settings;
}

/* What a run came to. */
struct made {
    uint8_t printed[BYTES];
    tallowmarch_entry entries[ENTRIES];
    tallowmarch_counts counts;
    uint32_t code;
};

static uint32_t seed = 1;

static uint32_t below(uint32_t limit) {
    seed = seed * 1664525 + 1013904223;
    return (seed >> 8) % limit;
}

/* Starts a run of bytes that are freed before its first step. */
static uint32_t start_bytes(tallowmarch_standing *run, const char *text, size_t length, tallowmarch_settings settings) {
    char *copy = malloc(length + 1);
    memcpy(copy, text, length);
    uint32_t code = tallowmarch_start((const uint8_t *)copy, length, TALLOWMARCH_NUMBERS(settings), run);
    free(copy);
    return code;
}

static uint32_t start(tallowmarch_standing *run, const char *text, tallowmarch_settings settings) { return start_bytes(run, text, strlen(text), settings); }

/* Slices until so many steps were made or the run is over; what is printed is taken piece by piece, through a small room. */
static void sliced(struct made *made, const char *text, size_t length, tallowmarch_settings settings, uint32_t limit) {
    tallowmarch_standing run = TALLOWMARCH_STANDING;
    uint8_t piece[7];
    size_t taken = 0;
    memset(made, 0x5a, sizeof *made);
    count(start_bytes(&run, text, length, settings) == 0, "a run that starts");
    uint32_t rest = settings.steps;
    do {
        uint32_t steps = 1 + below(limit);
        if (steps > rest) steps = rest;
        rest -= steps;
        made->code = tallowmarch_advance(&run, steps);
        for (size_t all = tallowmarch_printed(&run, taken, piece, sizeof piece); taken < all; all = tallowmarch_printed(&run, taken, piece, sizeof piece)) {
            size_t got = all - taken < sizeof piece ? all - taken : sizeof piece;
            memcpy(made->printed + taken, piece, got);
            taken += got;
        }
    } while (made->code == TALLOWMARCH_STEPS_OUT && rest);
    tallowmarch_entries(&run, 0, made->entries, ENTRIES);
    count(tallowmarch_counts_of(&run, TALLOWMARCH_NUMBERS(made->counts)) == 0 && made->counts.bytes == taken, "the counts of a run that stands");
    tallowmarch_close(&run);
}

static const uint32_t limits[] = {1, 2, 13, 100, 5000}, quanta[] = {1, 7, 100};

/* The run that one call makes, and slices of random sizes: they print the same, under the same schedule, to the same end. */
static void compare(const char *name, const char *text, size_t length, uint32_t quantum, size_t first, size_t sizes) {
    static struct made whole, made;
    tallowmarch_settings settings = small(quantum);
    memset(&whole, 0x5a, sizeof whole);
    whole.code = tallowmarch_run((const uint8_t *)text, length, TALLOWMARCH_NUMBERS(settings), whole.printed, BYTES, whole.entries, ENTRIES,
                                 TALLOWMARCH_NUMBERS(whole.counts));
    for (size_t size = first; size < first + sizes; size++) {
        sliced(&made, text, length, settings, limits[size]);
        int same = !memcmp(&made, &whole, sizeof whole);
        if (!same) printf("%s, quantum %u, slices up to %u: code %u for %u, bytes %zu for %zu, entries %zu for %zu, flips %zu for %zu\n", name, quantum,
                          limits[size], made.code, whole.code, (size_t)made.counts.bytes, (size_t)whole.counts.bytes, (size_t)made.counts.entries,
                          (size_t)whole.counts.entries, (size_t)made.counts.flips, (size_t)whole.counts.flips);
        count(same, "slices come to another run than one call");
    }
}

static void slices(void) {
    for (size_t which = 0; which < TEXTS; which++)
        for (size_t turn = 0; turn < 3; turn++) compare(texts[which], texts[which], strlen(texts[which]), quanta[turn], 0, 5);
}

/* The programs of these files, each by a quantum and slices of a size that are chosen at random. */
static int of_files(int count_of_files, char **names) {
    static char text[1 << 20];
    for (int at = 0; at < count_of_files; at++) {
        FILE *file = fopen(names[at], "rb");
        if (!file) return 2;
        size_t length = fread(text, 1, sizeof text, file);
        fclose(file);
        uint32_t quantum = quanta[below(3)];
        compare(names[at], text, length, quantum, below(5), 1);
    }
    count(standing == 0, "a block stands at the end");
    printf("%d passed, %d failed\n", passed, failed);
    return failed > 0;
}

/* An empty handle, one that was closed, one that is started twice, numbers out of range, and rooms that are small or asked for behind the end. */
static void codes(void) {
    tallowmarch_standing run = TALLOWMARCH_STANDING;
    tallowmarch_settings settings = small(10), wrong = settings;
    tallowmarch_counts counts, before;
    uint8_t room[4] = {9, 9, 9, 9};
    tallowmarch_entry entry;
    memset(&counts, 0x5a, sizeof counts);
    before = counts;
    count(tallowmarch_advance(&run, 1) == TALLOWMARCH_CLOSED, "an empty handle that is advanced");
    count(tallowmarch_advance(&run, 0) == TALLOWMARCH_CLOSED, "an empty handle that is advanced by nothing");
    count(tallowmarch_printed(&run, 0, room, 4) == 0 && room[0] == 9, "what an empty handle printed");
    count(tallowmarch_entries(&run, 0, &entry, 1) == 0, "the entries of an empty handle");
    count(tallowmarch_counts_of(&run, TALLOWMARCH_NUMBERS(counts)) == TALLOWMARCH_CLOSED && !memcmp(&counts, &before, sizeof counts), "the counts of an empty handle");
    tallowmarch_close(&run);
    wrong.space = 4095;
    count(start(&run, "1 =", wrong) == TALLOWMARCH_OUT_OF_RANGE && run.full == 0, "a space out of its range");
    wrong = settings;
    wrong.plain = 1;
    count(start(&run, "1 =", wrong) == TALLOWMARCH_OUT_OF_RANGE && run.full == 0, "a run that stands in memory that grows");
    count(start(&run, "1 = 2 = 3 =", settings) == 0, "a handle that is started");
    count(start(&run, "4 =", settings) == TALLOWMARCH_OPEN, "a handle that is started twice");
    count(tallowmarch_advance(&run, 0) == TALLOWMARCH_OUT_OF_RANGE, "a slice of no step");
    count(tallowmarch_counts_of(&run, TALLOWMARCH_NUMBERS(counts)) == 0 && counts.steps == 0 && counts.bytes == 0 && counts.entries == 0, "the counts before the first step");
    count(tallowmarch_advance(&run, 2) == TALLOWMARCH_STEPS_OUT, "a first slice");
    count(tallowmarch_counts_of(&run, TALLOWMARCH_NUMBERS(counts)) == 0 && counts.steps == 2 && counts.bytes == 2 && counts.entries == 1, "the counts behind it");
    count(tallowmarch_advance(&run, UINT32_MAX) == TALLOWMARCH_FINISHED, "a last slice");
    count(tallowmarch_advance(&run, UINT32_MAX) == TALLOWMARCH_FINISHED, "a slice behind the end");
    count(tallowmarch_printed(&run, 2, room, 3) == 6 && !memcmp(room, "2\n3\11", 4), "a room that is too small");
    count(tallowmarch_printed(&run, 6, room, 4) == 6 && !memcmp(room, "2\n3\11", 4), "what is behind the end");
    count(tallowmarch_printed(&run, SIZE_MAX, room, 4) == 6 && !memcmp(room, "2\n3\11", 4), "what is far behind the end");
    count(tallowmarch_entries(&run, 0, &entry, 1) == 1 && entry.context == 1 && entry.steps == 7, "the entry of one context");
    count(tallowmarch_entries(&run, 7, &entry, 1) == 1, "entries behind the end");
    tallowmarch_close(&run);
    tallowmarch_close(&run);
    count(tallowmarch_advance(&run, 1) == TALLOWMARCH_CLOSED && run.full == 0, "a handle that was closed");
    count(start(&run, "5 =", settings) == 0 && tallowmarch_advance(&run, 9) == TALLOWMARCH_FINISHED, "a handle that is started again");
    tallowmarch_close(&run);
    count(standing == 0, "a block stands behind close");
}

/* What a call told of a value, in a room of 16 bytes, of which it knew `known`; before it value and room were the untouched ones. */
struct found {
    uint32_t code;
    tallowmarch_value value;
    uint8_t room[16];
};

static const struct found untouched = {0, {77, 78, 79, 80}, {9, 9, 9, 9, 9, 9, 9, 9, 9, 9, 9, 9, 9, 9, 9, 9}};

static struct found operand(tallowmarch_standing *run, uint32_t context, size_t depth, size_t known) {
    struct found found = untouched;
    found.code = tallowmarch_operand(run, context, depth, &found.value, found.room, known);
    return found;
}

static struct found definition(tallowmarch_standing *run, uint32_t context, const char *name) {
    struct found found = untouched;
    found.code = tallowmarch_definition(run, context, (const uint8_t *)name, strlen(name), &found.value, found.room, 16);
    return found;
}

static struct found error_name(tallowmarch_standing *run, uint32_t context) {
    struct found found = untouched;
    found.code = tallowmarch_error_name(run, context, &found.value, found.room, 16);
    return found;
}

static struct found error_command(tallowmarch_standing *run, uint32_t context) {
    struct found found = untouched;
    found.code = tallowmarch_error_command(run, context, &found.value, found.room, 16);
    return found;
}

/* Whether this code was told, and nothing was written. */
static int is_untold(struct found found, uint32_t code) {
    return found.code == code && !memcmp(&found.value, &untouched.value, sizeof found.value) && !memcmp(found.room, untouched.room, 16);
}

/* Whether it is of this kind, attribute, number and length, with these bytes, and the room behind them is as it was. */
static int is_told(struct found found, tallowmarch_value value, const char *bytes) {
    const size_t length = strlen(bytes);
    return found.code == 0 && !memcmp(&found.value, &value, sizeof value) && !memcmp(found.room, bytes, length) &&
           !memcmp(found.room + length, untouched.room, 16 - length);
}

/* An operand of each kind, and an error that leaves two more. */
static const char valued[] = "/x -7 def /word (hello) def /proc { 1 2 } def\n"
                             "true null mark /name /add load [1 2 3] { a } (string) userdict lock condition -2147483648 (string) 1 2 getinterval cvx 1 0 idiv";

static const struct {
    tallowmarch_value value;
    const char *bytes;
} topmost_first[] = {{{TALLOWMARCH_INTEGER, 0, 0, 0}, ""},         {{TALLOWMARCH_INTEGER, 0, 1, 0}, ""},  {{TALLOWMARCH_STRING, 1, 0, 2}, "tr"},
                     {{TALLOWMARCH_INTEGER, 0, INT32_MIN, 0}, ""}, {{TALLOWMARCH_CONDITION, 0, 0, 0}, ""}, {{TALLOWMARCH_LOCK, 0, 0, 0}, ""},
                     {{TALLOWMARCH_DICTIONARY, 0, 0, 3}, ""},      {{TALLOWMARCH_STRING, 0, 0, 6}, "string"}, {{TALLOWMARCH_ARRAY, 1, 0, 1}, ""},
                     {{TALLOWMARCH_ARRAY, 0, 0, 3}, ""},           {{TALLOWMARCH_OPERATOR, 1, 0, 3}, "add"}, {{TALLOWMARCH_NAME, 0, 0, 4}, "name"},
                     {{TALLOWMARCH_MARK, 0, 0, 0}, ""},            {{TALLOWMARCH_NULL, 0, 0, 0}, ""},     {{TALLOWMARCH_BOOLEAN, 0, 1, 0}, ""}};

/* What a run that stands has: each kind of operand, definitions, the last error, and each code. Looking asks for no memory. */
static void values(void) {
    tallowmarch_standing run = TALLOWMARCH_STANDING;
    const tallowmarch_value null = {TALLOWMARCH_NULL, 0, 0, 0};
    count(is_untold(operand(&run, 1, 0, 16), TALLOWMARCH_CLOSED) && is_untold(definition(&run, 1, "x"), TALLOWMARCH_CLOSED), "a value of an empty handle");
    count(is_untold(error_name(&run, 1), TALLOWMARCH_CLOSED) && is_untold(error_command(&run, 1), TALLOWMARCH_CLOSED), "an error of an empty handle");
    count(start(&run, valued, small(10)) == 0, "a run that is looked at");
    count(is_untold(operand(&run, 1, 0, 16), TALLOWMARCH_NO_VALUE) && is_untold(definition(&run, 1, "x"), TALLOWMARCH_NO_VALUE), "a value before the first step");
    count(is_told(error_name(&run, 1), null, "") && is_told(error_command(&run, 1), null, ""), "an error before the first one");
    count(tallowmarch_advance(&run, 1000) == TALLOWMARCH_FAULTED, "a run with an error");
    asked = 0;
    for (size_t at = 0; at < sizeof topmost_first / sizeof *topmost_first; at++)
        count(is_told(operand(&run, 1, at, 16), topmost_first[at].value, topmost_first[at].bytes), "an operand");
    count(is_untold(operand(&run, 1, 15, 16), TALLOWMARCH_NO_VALUE) && is_untold(operand(&run, 1, SIZE_MAX, 16), TALLOWMARCH_NO_VALUE), "no operand");
    count(is_untold(operand(&run, 2, 0, 16), TALLOWMARCH_NO_CONTEXT) && is_untold(operand(&run, 0, 0, 16), TALLOWMARCH_NO_CONTEXT), "no context");
    const struct found few = operand(&run, 1, 7, 5), full = operand(&run, 1, 7, 6);
    count(few.code == TALLOWMARCH_SMALL_ROOM && few.value.length == 6 && !memcmp(few.room, untouched.room, 16), "a room that is too small");
    count(is_told(full, topmost_first[7].value, "string"), "a room that is just large enough");
    count(is_told(definition(&run, 1, "x"), (tallowmarch_value){TALLOWMARCH_INTEGER, 0, -7, 0}, ""), "a number that is defined");
    count(is_told(definition(&run, 1, "word"), (tallowmarch_value){TALLOWMARCH_STRING, 0, 0, 5}, "hello"), "a string that is defined");
    count(is_told(definition(&run, 1, "proc"), (tallowmarch_value){TALLOWMARCH_ARRAY, 1, 0, 2}, ""), "a procedure that is defined");
    count(is_untold(definition(&run, 1, "nobody"), TALLOWMARCH_NO_VALUE) && is_untold(definition(&run, 1, ""), TALLOWMARCH_NO_VALUE), "a name that was not met");
    count(is_untold(definition(&run, 1, "add"), TALLOWMARCH_NO_VALUE) && is_untold(definition(&run, 2, "x"), TALLOWMARCH_NO_CONTEXT), "no definition");
    count(is_told(error_name(&run, 1), (tallowmarch_value){TALLOWMARCH_NAME, 0, 0, 15}, "undefinedresult"), "an error's name");
    count(is_told(error_command(&run, 1), (tallowmarch_value){TALLOWMARCH_OPERATOR, 1, 0, 4}, "idiv"), "an error's command");
    count(is_untold(error_name(&run, 3), TALLOWMARCH_NO_CONTEXT) && is_untold(error_command(&run, 3), TALLOWMARCH_NO_CONTEXT), "an error of no context");
    count(asked == 0, "memory that looking asked for");
    tallowmarch_close(&run);
    count(is_untold(definition(&run, 1, "x"), TALLOWMARCH_CLOSED) && is_untold(operand(&run, 1, 0, 16), TALLOWMARCH_CLOSED), "a value behind close");
}

/* Values are told between two slices as they are, wherever the collector has moved them, and of the context that is asked for. */
static void values_moved(void) {
    tallowmarch_standing run = TALLOWMARCH_STANDING;
    const char *text = "mark { (second) { 2 0 idiv } stopped pop pop pop $error /command undef { } loop } fork\n"
                       "{ 99 string pop } loop";
    tallowmarch_counts counts;
    count(start(&run, text, small(3)) == 0, "a run whose objects are moved");
    count(tallowmarch_advance(&run, 100) == TALLOWMARCH_STEPS_OUT, "steps of two contexts");
    for (int at = 0; at < 300; at++) {
        count(tallowmarch_advance(&run, 40) == TALLOWMARCH_STEPS_OUT, "a slice");
        const struct found found = operand(&run, 2, 0, 16), error = error_name(&run, 2);
        count(is_told(found, (tallowmarch_value){TALLOWMARCH_STRING, 0, 0, 6}, "second"), "an operand behind a slice");
        count(is_told(error, (tallowmarch_value){TALLOWMARCH_NAME, 0, 0, 15}, "undefinedresult"), "an error that was caught");
        count(is_untold(error_command(&run, 2), TALLOWMARCH_NO_VALUE), "what a program took out of its $error");
        count(is_told(error_name(&run, 1), (tallowmarch_value){TALLOWMARCH_NULL, 0, 0, 0}, ""), "the error of another context");
    }
    count(tallowmarch_counts_of(&run, TALLOWMARCH_NUMBERS(counts)) == 0 && counts.flips > 0, "flips of a run that is looked at");
    tallowmarch_close(&run);
}

/* Whether a definition has this text: whole, cut, and not at all where memory is refused to it. */
static int is_defined(uint32_t (*define)(uint8_t *room, size_t count, uint64_t *size), const char *wanted) {
    uint8_t room[200];
    uint64_t size = 77;
    const size_t length = strlen(wanted);
    memset(room, 9, sizeof room);
    int so = define(room, sizeof room, &size) == 0 && size == length && !memcmp(room, wanted, length) && room[length] == 9;
    memset(room, 9, sizeof room);
    so = so && define(room, 3, &size) == 0 && size == length && !memcmp(room, wanted, 3) && room[3] == 9;
    for (long at = 0; so; at++) {
        memset(room, 9, sizeof room);
        size = 77;
        left = at;
        asked = 0;
        const uint32_t code = define(room, sizeof room, &size);
        left = 1L << 40;
        if (asked <= at) return code == 0 && standing == 0;
        so = code == TALLOWMARCH_NO_ROOM && size == 77 && room[0] == 9 && standing == 0;
    }
    return 0;
}

static uint32_t an_integer(uint8_t *room, size_t count, uint64_t *size) { return tallowmarch_define_integer((const uint8_t *)"x", 1, INT32_MIN, room, count, size); }

static uint32_t a_boolean(uint8_t *room, size_t count, uint64_t *size) { return tallowmarch_define_boolean((const uint8_t *)"on?", 3, 2, room, count, size); }

static uint32_t a_string(uint8_t *room, size_t count, uint64_t *size) {
    return tallowmarch_define_string((const uint8_t *)"word", 4, (const uint8_t *)"(\\\0\377", 4, room, count, size);
}

/* Definitions that go before a program: their texts, what has none, and what the program then has. */
static void definitions(void) {
    static uint8_t text[1 << 18], bytes[65536];
    tallowmarch_standing run = TALLOWMARCH_STANDING;
    uint8_t name[128], room[4] = {9, 9, 9, 9};
    uint64_t size = 77, used = 0;
    tallowmarch_settings large = small(10);
    large.space = 65536;
    memset(name, 'n', sizeof name);
    count(is_defined(an_integer, "/x -2147483648 def\n") && is_defined(a_boolean, "/on? true def\n") && is_defined(a_string, "/word <285c00ff> def\n"), "a definition");
    static const char *const bad[] = {" ", "a b", "a/b", "(", "a)", "<", ">", "[", "]", "{", "}", "%", "\n"};
    for (size_t at = 0; at < sizeof bad / sizeof *bad; at++)
        count(tallowmarch_define_integer((const uint8_t *)bad[at], strlen(bad[at]), 1, room, 4, &size) == TALLOWMARCH_BAD_NAME && size == 77 && room[0] == 9, "a bad name");
    count(tallowmarch_define_integer(name, 128, 1, room, 4, &size) == TALLOWMARCH_BAD_NAME && tallowmarch_define_integer(name, 127, 1, room, 4, &size) == 0, "a long name");
    count(tallowmarch_define_string(name, 1, bytes, 65536, room, 4, &size) == TALLOWMARCH_LONG_STRING, "a long string");
    for (size_t at = 0; at < 65535; at++) bytes[at] = (uint8_t)(at * 7);
    count(tallowmarch_define_string((const uint8_t *)"all", 3, bytes, 65535, text, sizeof text, &size) == 0, "the longest string");
    used = size;
    count(tallowmarch_define_integer((const uint8_t *)"", 0, 5, text + used, sizeof text - used, &size) == 0, "a name of no bytes");
    used += size;
    count(tallowmarch_define_boolean((const uint8_t *)"12", 2, 0, text + used, sizeof text - used, &size) == 0, "a name of digits");
    used += size;
    memcpy(text + used, "all length =", 12);
    count(start_bytes(&run, (const char *)text, used + 12, large) == 0 && tallowmarch_advance(&run, 1000) == TALLOWMARCH_FINISHED, "a program behind definitions");
    static uint8_t found[65535];
    tallowmarch_value value;
    count(tallowmarch_definition(&run, 1, (const uint8_t *)"all", 3, &value, found, 65535) == 0 && value.kind == TALLOWMARCH_STRING && value.length == 65535 &&
              !memcmp(found, bytes, 65535), "the longest string that was defined");
    count(is_told(definition(&run, 1, ""), (tallowmarch_value){TALLOWMARCH_INTEGER, 0, 5, 0}, ""), "an integer that was defined");
    count(is_told(definition(&run, 1, "12"), (tallowmarch_value){TALLOWMARCH_BOOLEAN, 0, 0, 0}, ""), "a boolean that was defined");
    uint8_t printed[8];
    count(tallowmarch_printed(&run, 0, printed, 8) == 6 && !memcmp(printed, "65535\n", 6), "what the program made of them");
    tallowmarch_close(&run);
}

static int stop;

static void *stopping(void *of) {
    (void)of;
    __atomic_store_n(&stop, 1, __ATOMIC_RELAXED);
    return NULL;
}

/* Slices until their steps are made, until the run is over, and until another thread stops them. */
static void stops(void) {
    tallowmarch_standing run = TALLOWMARCH_STANDING;
    tallowmarch_counts counts;
    pthread_t other;
    count(tallowmarch_advance_until(&run, 5, 5, &stop) == TALLOWMARCH_CLOSED, "an empty handle that is advanced in slices");
    count(start(&run, "{ } loop", small(10)) == 0, "a run to stop");
    count(tallowmarch_advance_until(&run, 1000, 300, &stop) == TALLOWMARCH_STEPS_OUT, "slices until their steps are made");
    count(tallowmarch_counts_of(&run, TALLOWMARCH_NUMBERS(counts)) == 0 && counts.steps == 1000, "as many steps as were asked for");
    count(tallowmarch_advance_until(&run, 0, 5, &stop) == TALLOWMARCH_OUT_OF_RANGE && tallowmarch_advance_until(&run, 5, 0, &stop) == TALLOWMARCH_OUT_OF_RANGE,
          "slices of no step");
    if (pthread_create(&other, NULL, stopping, NULL)) exit(2);
    count(tallowmarch_advance_until(&run, 4000000000u, 1000, &stop) == TALLOWMARCH_STEPS_OUT && stop, "slices that another thread stops");
    pthread_join(other, NULL);
    tallowmarch_counts_of(&run, TALLOWMARCH_NUMBERS(counts));
    uint64_t before = counts.steps;
    count(tallowmarch_advance_until(&run, 500, 100, &stop) == TALLOWMARCH_STEPS_OUT && tallowmarch_counts_of(&run, TALLOWMARCH_NUMBERS(counts)) == 0 &&
              counts.steps == before + 100, "one slice of a run that is to stop");
    tallowmarch_close(&run);
    stop = 0;
    count(start(&run, "1 =", small(10)) == 0 && tallowmarch_advance_until(&run, 1000, 2, &stop) == TALLOWMARCH_FINISHED, "slices until the run is over");
    tallowmarch_close(&run);
}

/* Each allocation refused in turn: no block is lost, what was printed is a beginning, and where memory is to be had again the run goes on. */
static void refusals(void) {
    static struct made whole;
    tallowmarch_settings settings = small(10);
    const char *text = texts[1];
    whole.code = tallowmarch_run((const uint8_t *)text, strlen(text), TALLOWMARCH_NUMBERS(settings), whole.printed, BYTES, whole.entries, ENTRIES,
                                 TALLOWMARCH_NUMBERS(whole.counts));
    long lost = 0, differ = 0, unstarted = 0, few = 0;
    for (long at = 0; at < 100000; at++) {
        tallowmarch_standing run = TALLOWMARCH_STANDING;
        static uint8_t printed[BYTES];
        left = at;
        asked = 0;
        uint32_t code = start(&run, text, settings);
        if (code) {
            unstarted++;
            differ += code != TALLOWMARCH_NO_ROOM || run.full != 0;
        } else {
            do code = tallowmarch_advance(&run, 97);
            while (code == TALLOWMARCH_STEPS_OUT);
            if (code == TALLOWMARCH_MEMORY) {
                few++;
                left = 1L << 40;
                do code = tallowmarch_advance(&run, 97);
                while (code == TALLOWMARCH_STEPS_OUT);
            }
            size_t bytes = tallowmarch_printed(&run, 0, printed, BYTES);
            differ += code != whole.code || bytes != whole.counts.bytes || memcmp(printed, whole.printed, bytes);
        }
        tallowmarch_close(&run);
        lost += standing != 0;
        if (asked <= at) break;
    }
    left = 1L << 40;
    count(unstarted > 5 && few > 0, "allocations that are refused");
    count(lost == 0, "a block was lost");
    count(differ == 0, "a run that memory was refused to");
}

static tallowmarch_standing handed[4];
static pthread_mutex_t locks[4] = {PTHREAD_MUTEX_INITIALIZER, PTHREAD_MUTEX_INITIALIZER, PTHREAD_MUTEX_INITIALIZER, PTHREAD_MUTEX_INITIALIZER};

static void *passing(void *of) {
    (void)of;
    for (int at = 0; at < 400; at++) {
        pthread_mutex_lock(&locks[at % 4]);
        tallowmarch_advance(&handed[at % 4], 37);
        pthread_mutex_unlock(&locks[at % 4]);
    }
    return NULL;
}

/* Four runs that are handed among eight threads. */
static void threads(void) {
    static struct made whole, made;
    tallowmarch_settings settings = small(10);
    pthread_t started[8];
    sliced(&whole, texts[1], strlen(texts[1]), settings, 5000);
    for (int at = 0; at < 4; at++) count(start(&handed[at], texts[1], settings) == 0, "a run for threads");
    for (int at = 0; at < 8; at++)
        if (pthread_create(&started[at], NULL, passing, NULL)) exit(2);
    for (int at = 0; at < 8; at++) pthread_join(started[at], NULL);
    for (int at = 0; at < 4; at++) {
        memset(&made, 0x5a, sizeof made);
        made.code = tallowmarch_advance(&handed[at], 1);
        tallowmarch_printed(&handed[at], 0, made.printed, BYTES);
        tallowmarch_entries(&handed[at], 0, made.entries, ENTRIES);
        tallowmarch_counts_of(&handed[at], TALLOWMARCH_NUMBERS(made.counts));
        tallowmarch_close(&handed[at]);
        count(!memcmp(&made, &whole, sizeof whole), "a run that was handed among threads");
    }
}

int main(int words, char **word) {
    if (words > 2) {
        seed = (uint32_t)atoi(word[1]);
        return of_files(words - 2, word + 2);
    }
    codes();
    values();
    values_moved();
    definitions();
    stops();
    slices();
    refusals();
    threads();
    count(standing == 0, "a block stands at the end");
    printf("%d passed, %d failed\n", passed, failed);
    return failed > 0;
}
