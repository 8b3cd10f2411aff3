/* Tallowmarch: runs PostScript Level 2 programs in the process of its host.
 *
 * A call runs a program from its beginning to its end, or to the end of its budget of steps, and then hands out what the program printed,
 * the schedule of its contexts, and counts. What was printed is proved to be what the definition of the language says of that schedule.
 *
 * State.    A call keeps nothing, but for a run that stands in a handle of the host's (`tallowmarch_start`): else there is nothing to open,
 *           to free or to close, and calls don't see one another. It reads no file, no clock and no variable of the environment, and
 *           prints nothing.
 * Threads.  Any number of threads may call at once, each with rooms of its own. A call starts no thread, takes no lock and never waits.
 * Time.     A call makes at most `steps` steps of the program, and those that it is given, and returns then. It can't be interrupted: a host
 *           that looks at a clock makes slices of a run that stands, and looks between them (`tallowmarch_advance`).
 * Memory.   All that a call takes from malloc it gives back before it returns. Where memory is refused to it, it says so by its code,
 *           and loses nothing. A host may give the memory itself: see the end of this file.
 * Stack.    Allow a call 256 KiB of its thread's stack: the deepest that was measured touched 149. No proof speaks of it.
 *
 * Pointers. Each is read or written during the call alone. None may be NULL, also not where the number of its items is 0: point to
 *           anything then. Rooms that are written (`printed`, `schedule`, `counts`) overlap neither each other nor what is read. No
 *           other thread may use what a call writes, nor write what it reads, until it returns.
 * Where not. Not from a signal handler, and not in the child of a process with threads between fork and exec.
 *
 * Nothing checks that a caller keeps to this: a call that doesn't is as undefined as memcpy's would be.
 */
#ifndef TALLOWMARCH_H
#define TALLOWMARCH_H

#include <stddef.h>
#include <stdint.h>

#ifdef __cplusplus
extern "C" {
#endif

/* The version of this header: 10000 for each major number, 100 for each minor one, 1 for each patch. */
#define TALLOWMARCH_VERSION 400

/* What a call returns. Below 16 there was a run: its bytes, entries and counts are handed out. From 16 on there was none, and the rooms and
 * the counts are as they were. The codes of runs are the exit statuses of dpsrun. From 22 on a value of a run that stands wasn't told, or not all of it, or a definition has no text.
 */
enum tallowmarch_code {
    TALLOWMARCH_FINISHED = 0,      /* each context finished, and no error was reported */
    TALLOWMARCH_FAULTED = 1,       /* each context finished, and at least one line of an error was printed */
    TALLOWMARCH_ALL_WAITING = 3,   /* a context is left, and all that are left wait: none will ever go on */
    TALLOWMARCH_STEPS_OUT = 4,     /* a context is ready, and the steps are used up */
    TALLOWMARCH_MEMORY = 5,        /* memory was refused, or more was to be printed than `output`, or the schedule to have more entries than
                                      `entries`; what was made so far is handed out */
    TALLOWMARCH_OUT_OF_RANGE = 16, /* `space`, `quantum` or `steps` is out of its range */
    TALLOWMARCH_NO_ROOM = 17,      /* no memory to start with */
    TALLOWMARCH_OTHER_SCHEDULE = 18, /* the schedule to go on from isn't that of a run of this program by these settings */
    TALLOWMARCH_BAD_ENTRY = 19,    /* an entry of the given schedule is none: its context or its steps are 0, or it shows a pair below 1 */
    TALLOWMARCH_CLOSED = 20,       /* no run stands in the handle */
    TALLOWMARCH_OPEN = 21,         /* a run stands in the handle already */
    TALLOWMARCH_NO_CONTEXT = 22,   /* no context has the identifier, or it is ended */
    TALLOWMARCH_NO_VALUE = 23,     /* the context has no value there */
    TALLOWMARCH_SMALL_ROOM = 24,   /* the room has no place for all bytes of the value */
    TALLOWMARCH_BAD_NAME = 25,     /* the name is none that a program can have */
    TALLOWMARCH_LONG_STRING = 26,  /* the string has more than 65535 bytes */
    TALLOWMARCH_TOO_LARGE = 27     /* the run takes more words in all than a memory that only grows has */
};

/* What a code says, in a few words that stand for ever: "a code of another version" where this header doesn't know it. */
static inline const char *tallowmarch_code_text(uint32_t code) {
    switch (code) {
    case TALLOWMARCH_FINISHED: return "finished";
    case TALLOWMARCH_FAULTED: return "finished with an error";
    case TALLOWMARCH_ALL_WAITING: return "waits for ever";
    case TALLOWMARCH_STEPS_OUT: return "stopped: its steps were used up";
    case TALLOWMARCH_MEMORY: return "stopped: its memory, output or entries were used up";
    case TALLOWMARCH_OUT_OF_RANGE: return "a number of the settings is out of its range";
    case TALLOWMARCH_NO_ROOM: return "out of memory";
    case TALLOWMARCH_OTHER_SCHEDULE: return "the schedule is not that of a run by these settings";
    case TALLOWMARCH_BAD_ENTRY: return "an entry of the schedule is none";
    case TALLOWMARCH_CLOSED: return "no run stands in the handle";
    case TALLOWMARCH_OPEN: return "a run stands in the handle already";
    case TALLOWMARCH_NO_CONTEXT: return "no context has this identifier";
    case TALLOWMARCH_NO_VALUE: return "the context has no value there";
    case TALLOWMARCH_SMALL_ROOM: return "the room has no place for the value's bytes";
    case TALLOWMARCH_BAD_NAME: return "the name is none that a program can have";
    case TALLOWMARCH_LONG_STRING: return "the string is too long";
    case TALLOWMARCH_TOO_LARGE: return "the run is too large to be made again";
    default: return "a code of another version";
    }
}

/* Two numbers that who wrote the program can't guess, as from getentropy: with them it can't make the table of names slow. They change nothing
 * of what is printed, and may be the same for each run where the programs are one's own.
 */
typedef struct tallowmarch_keys {
    uint64_t first;
    uint64_t second;
} tallowmarch_keys;

/* What is asked for: numbers in this order, and a later version has more of them behind these. A call is told how many of them its host knows, and
 * takes the usual ones of TALLOWMARCH_SETTINGS for the others. So a host that was compiled against an older header goes on working; and one that
 * asks an older library for what that doesn't know gets TALLOWMARCH_OUT_OF_RANGE, where the number isn't 0.
 */
typedef struct tallowmarch_settings {
    uint64_t space;   /* the words, of 8 bytes, that the program's objects may take: 4096 to 1048576 */
    uint64_t quantum; /* the most steps of a context's turn: 1 to 65535 */
    uint64_t steps;   /* the most steps of the run: 1 to 4294967295 */
    uint64_t plain;   /* 0: the space is collected while the program runs. Else: memory that grows and is never collected, where `space` is
                         not used, but must be in its range */
    uint64_t output;  /* the most bytes that the run may print; 0: no bound. A step that would print past it is not made, and ends the run */
    uint64_t entries; /* the most entries that the run's schedule may have; 0: no bound. A step that wants one more is not made, and ends the
                         run. So it bounds what a program that changes its contexts at each step makes its host keep */
    tallowmarch_keys keys;
} tallowmarch_settings;

/* A collected space of 65536 words, turns of 100 steps, as many steps as there may be, no bound on the output or the entries, and keys that are no
 * secret.
 */
#define TALLOWMARCH_SETTINGS {65536, 100, UINT32_MAX, 0, 0, 0, {0, 0}}

/* Neighbouring steps of one context in a schedule. A call that is given another number than those told here gives TALLOWMARCH_BAD_ENTRY; so
 * these are the entries that a line of `dpsrun --replay` can have.
 */
typedef struct tallowmarch_entry {
    uint32_t context; /* the context's identifier, from 1 */
    uint32_t steps;   /* how many steps, at least 1 */
    uint32_t refused; /* not 0: the last step finds no memory for an object, and raises VMerror if it wants one */
    uint32_t shown;   /* not 0: a vmstatus in the last step shows `used` and `size` */
    int32_t used;     /* the words that are used: from 1, if they are shown */
    int32_t size;     /* the words that there are: from 1, if they are shown */
} tallowmarch_entry;

/* How much a run came to, whatever there was room for: numbers in this order, of which a call writes as many as its host knows, and leaves what it
 * doesn't know itself.
 */
typedef struct tallowmarch_counts {
    uint64_t bytes;   /* the bytes that it printed */
    uint64_t entries; /* the entries of its schedule */
    uint64_t steps;   /* its steps; 2^64-1 where there are more */
    uint64_t flips;   /* the collector's cycles; 0 without a collector */
    uint64_t taken;   /* the stores that the collector had to follow; 0 without a collector */
} tallowmarch_counts;

/* Settings, or counts, as a call takes them: where their numbers stand, and how many they are. */
#define TALLOWMARCH_NUMBERS(of) (uint64_t *)&(of), sizeof(of) / sizeof(uint64_t)

/* The version of the library. A host must not call one that isn't of its header's first number; where that is 0, not of its second one either. */
uint32_t tallowmarch_version(void);

/* Whether a library of a version is one for a host that was compiled with this header. */
static inline int tallowmarch_fits(uint32_t version) {
    return version / 10000 == TALLOWMARCH_VERSION / 10000 && (version >= 10000 || version / 100 == TALLOWMARCH_VERSION / 100);
}

/* Runs a program of `length` bytes, by so many numbers of settings: `TALLOWMARCH_NUMBERS(settings)` gives both.
 *
 * Of the bytes that it prints the first are written to `printed`, as many as it has room for; `bytes` of the counts tells how many there were,
 * also where that is more. What lies behind the last one that is written stays. The same holds of the entries, of `schedule` and of `entries`.
 * The rooms are counted in items, and may be 0 items large, that of the counts too.
 *
 * The same program with the same settings makes the same run, whatever the keys, as long as no memory is refused. So where a room was too
 * small the call may be made again with a larger one.
 */
uint32_t tallowmarch_run(const uint8_t *program, size_t length, const uint64_t *settings, size_t settings_known, uint8_t *printed,
                         size_t printed_room, tallowmarch_entry *schedule, size_t schedule_room, uint64_t *counts, size_t counts_room);

/* Goes on from a schedule of `given_length` entries, which a run of the same program by the same settings was handed: makes a run that begins
 * with its steps and has at most `steps` of the settings more behind them, up to 4294967295 together. What is handed out is that whole run,
 * from its start; so it prints what the given run did, and then more. `output` and `entries` may be larger than before, and `keys` may be
 * others; with another `quantum` or `space` it goes on as far as what steps are shown and refused stays the same. The given steps are made
 * again: where a host doubles its budgets, all calls together make at most some three times the steps of the last one.
 *
 * With TALLOWMARCH_MEMORY memory may have been wanted before all given steps were made: then as many are handed out. With
 * TALLOWMARCH_OTHER_SCHEDULE the run didn't begin with them. That is told when it is over, after as many steps as were asked for at most. With
 * TALLOWMARCH_BAD_ENTRY one of the entries is none, and no step was made.
 */
uint32_t tallowmarch_go_on(const uint8_t *program, size_t length, const uint64_t *settings, size_t settings_known, const tallowmarch_entry *given,
                           size_t given_length, uint8_t *printed, size_t printed_room, tallowmarch_entry *schedule, size_t schedule_room,
                           uint64_t *counts, size_t counts_room);

/* Follows a schedule of `given_length` entries, from a run of the same program by whatever settings, over memory that grows and is never
 * collected. It prints what that run printed. Of the settings here only `output` and `keys` count. The schedule that is handed out is the given
 * one; or, with TALLOWMARCH_MEMORY, as much of it as was followed. Steps of contexts that aren't ready are passed over. The code is
 * TALLOWMARCH_STEPS_OUT where a context is ready at the end, and TALLOWMARCH_BAD_ENTRY where one of the entries is none. It is
 * TALLOWMARCH_OUT_OF_RANGE only where one of the first three settings has more than 32 bits, or one that isn't known isn't 0. A call takes
 * time for each step of the schedule that a context makes.
 */
uint32_t tallowmarch_replay(const uint8_t *program, size_t length, const uint64_t *settings, size_t settings_known, const tallowmarch_entry *given,
                            size_t given_length, uint8_t *printed, size_t printed_room, tallowmarch_entry *schedule, size_t schedule_room,
                            uint64_t *counts, size_t counts_room);

/* Where an error was raised. */
typedef struct tallowmarch_place {
    uint64_t step;   /* the number of the step in the run's schedule, from 1 */
    uint64_t line;   /* the line and the column in the program, from 1; a column is a byte. Both are 0 where what raised it doesn't stand there */
    uint64_t column;
    uint64_t offset; /* the byte of the program, from 0; 0 too where it doesn't stand there */
} tallowmarch_place;

/* Tells where a context raised its last error under the steps of a schedule of `given_length` entries, from a run of this program by whatever
 * settings; also an error that was caught. For this the steps are made again, over memory that grows and is never collected, so a call takes some ten
 * times as long as the run. Of the settings here only `output` and `keys` count.
 *
 * 0: the place is told. TALLOWMARCH_NO_VALUE: the context raised no error, or isn't left behind the steps. TALLOWMARCH_BAD_ENTRY: one of the entries
 * is none. TALLOWMARCH_NO_ROOM: memory was refused. TALLOWMARCH_TOO_LARGE: the run takes more words in all than 16,777,215.
 * TALLOWMARCH_OUT_OF_RANGE: as for tallowmarch_replay. In these cases the place stays as it was.
 */
uint32_t tallowmarch_error_place(const uint8_t *program, size_t length, const uint64_t *settings, size_t settings_known,
                                 const tallowmarch_entry *given, size_t given_length, uint32_t context, tallowmarch_place *place);

/* Give the text of a definition, which a host puts before a program: so what it hands in is a part of the program, and `dpsrun --replay` follows a
 * record of the run from that text. It is `/NAME VALUE def` and a line feed, where a string stands as hexadecimal digits, so that it may have any
 * bytes; one text may follow another. The first bytes of the text are written to `room`, as many as it has room for, and `*size` tells how many there
 * are. A text has at most 160 bytes, and one of a string two more for each of the string's.
 *
 * 0: it is written. TALLOWMARCH_BAD_NAME: a name has no white space and none of ( ) < > [ ] { } / %, and at most 127 bytes. TALLOWMARCH_LONG_STRING:
 * a string has at most 65535 bytes. TALLOWMARCH_NO_ROOM: memory was refused. In these three cases nothing is written.
 */
uint32_t tallowmarch_define_integer(const uint8_t *name, size_t length, int32_t number, uint8_t *room, size_t count, uint64_t *size);
uint32_t tallowmarch_define_boolean(const uint8_t *name, size_t length, uint32_t truth, uint8_t *room, size_t count, uint64_t *size);
uint32_t tallowmarch_define_string(const uint8_t *name, size_t length, const uint8_t *bytes, size_t bytes_length, uint8_t *room, size_t count,
                                   uint64_t *size);

/* A run that stands between calls: start it, make slices of it, look at what it came to, and close it.
 *
 * A handle is a struct of the host's: {0} at first, and after tallowmarch_close. A run that stands is a block of memory that the handle
 * owns, with all that the block refers to. So while one stands
 *   - the handle is neither copied nor written to, and it isn't dropped without tallowmarch_close: else all of the run's memory is lost;
 *   - it is given to one call at a time. It may be handed from thread to thread, as under a lock or by a join;
 *   - the program's bytes aren't needed any more: the run has a copy.
 */
typedef struct tallowmarch_standing {
    void *at;      /* the library's */
    uint32_t full; /* 0 where no run stands; the library's */
} tallowmarch_standing;

#define TALLOWMARCH_STANDING {NULL, 0}

/* Starts a run, and makes no step of it. 0: it stands. TALLOWMARCH_OPEN: a run stands there already, and goes on standing. With
 * TALLOWMARCH_OUT_OF_RANGE and TALLOWMARCH_NO_ROOM none stands. Of the settings `plain` must be 0, and `steps` at least 1; it isn't looked at
 * otherwise, since each slice has steps of its own. `output` and `entries` bound the whole run.
 */
uint32_t tallowmarch_start(const uint8_t *program, size_t length, const uint64_t *settings, size_t settings_known, tallowmarch_standing *run);

/* Makes a slice: at most `steps` steps more, up to 4294967295 in all. The code is that of the whole run, as if it ended here: with
 * TALLOWMARCH_STEPS_OUT it may go on, with TALLOWMARCH_MEMORY it tries again what memory was refused to, and with those below the next slice
 * tells the same. What the run prints, and its schedule, don't depend on where slices lie: a turn that a slice ends in goes on with the next.
 * TALLOWMARCH_OUT_OF_RANGE: `steps` is 0. TALLOWMARCH_CLOSED: no run stands.
 */
uint32_t tallowmarch_advance(tallowmarch_standing *run, uint32_t steps);

/* Makes slices of `slice` steps until `steps` are made in all, until the run comes to another end, or until `*stop` isn't 0 behind one of them: another
 * thread, or a signal handler, may set it at any time, as by `__atomic_store_n(stop, 1, __ATOMIC_RELAXED)`. One slice is made in any case. The codes are
 * those of tallowmarch_advance; of a run that was stopped it is TALLOWMARCH_STEPS_OUT, and it may go on.
 */
static inline uint32_t tallowmarch_advance_until(tallowmarch_standing *run, uint32_t steps, uint32_t slice, const int *stop) {
    uint32_t code;
    do {
        const uint32_t now = steps < slice ? steps : slice;
        code = tallowmarch_advance(run, now);
        steps -= now;
    } while (code == TALLOWMARCH_STEPS_OUT && steps > 0 && !__atomic_load_n(stop, __ATOMIC_RELAXED));
    return code;
}

/* Writes the bytes that the run printed from the place `from` on to `room`, as many as there is room for, and tells how many it printed in all so
 * far: 0 where no run stands. So a host that took so many bytes asks with their number for those behind them.
 */
size_t tallowmarch_printed(tallowmarch_standing *run, size_t from, uint8_t *room, size_t count);

/* Writes the entries of the run's schedule from the place `from` on, as many as there is room for, and tells how many there are in all so far: 0
 * where no run stands. The next slice may add steps to the last of them: take it again from its place on. A call takes time for each entry before.
 */
size_t tallowmarch_entries(tallowmarch_standing *run, size_t from, tallowmarch_entry *room, size_t count);

/* Tells how much the run came to so far, and 0. TALLOWMARCH_CLOSED: no run stands, and nothing is written. */
uint32_t tallowmarch_counts_of(tallowmarch_standing *run, uint64_t *counts, size_t counts_room);

/* What a value is (PLRM2, 3.3.2). */
enum tallowmarch_kind {
    TALLOWMARCH_INTEGER = 1,
    TALLOWMARCH_BOOLEAN = 2,
    TALLOWMARCH_NULL = 3,
    TALLOWMARCH_MARK = 4,
    TALLOWMARCH_NAME = 5,
    TALLOWMARCH_OPERATOR = 6,
    TALLOWMARCH_ARRAY = 7, /* an executable one is a procedure */
    TALLOWMARCH_STRING = 8,
    TALLOWMARCH_DICTIONARY = 9,
    TALLOWMARCH_LOCK = 10,
    TALLOWMARCH_CONDITION = 11
};

/* A value. */
typedef struct tallowmarch_value {
    uint32_t kind;       /* an enum tallowmarch_kind */
    uint32_t executable; /* 1 where it is executable, and else 0 */
    int64_t number;      /* an integer; of a boolean 1 or 0; of any other value 0 */
    uint64_t length;     /* the bytes of a string, of a name, or of an operator's name; the elements of an array; the pairs of a dictionary; of any
                            other value 0 */
} tallowmarch_value;

/* Tells of an operand of a context of the run: of the topmost one at `depth` 0, and of one below so many others. Contexts count from 1, which is the
 * one that the program begins in. The bytes of a string, of a name, or of an operator's name are written to the front of `room`, if it has place
 * for all `length` of them; other values have none. A value may be looked at whatever its access.
 *
 * 0: the value is told, and its bytes are written. TALLOWMARCH_SMALL_ROOM: it is told, and the room stays as it was, since it has place for `count` bytes
 * alone: call again with one for `length`. TALLOWMARCH_NO_CONTEXT: no context has the identifier, or it is ended. TALLOWMARCH_NO_VALUE: the context
 * has no such operand. TALLOWMARCH_CLOSED: no run stands. In these three cases value and room stay as they were. The run stays in any case: what is
 * told is what it has behind the last slice.
 */
uint32_t tallowmarch_operand(tallowmarch_standing *run, uint32_t context, size_t depth, tallowmarch_value *value, uint8_t *room, size_t count);

/* Tells of what `userdict` has under a name of `length` bytes, where a program's definitions go unless it begins another dictionary. Codes and rooms are
 * those of tallowmarch_operand: TALLOWMARCH_NO_VALUE where it has nothing under that name. All contexts share `userdict`, so any may be named that
 * is left.
 */
uint32_t tallowmarch_definition(tallowmarch_standing *run, uint32_t context, const uint8_t *name, size_t length, tallowmarch_value *value, uint8_t *room,
                                size_t count);

/* Tell of the last error of a context, which its `$error` keeps also when it was caught, or the context is finished: of what stands there under
 * `errorname`, the error's name, and under `command`, what raised it. Both are null before the first error. A program may change what stands there, so
 * look at the kind. Codes and rooms are those of tallowmarch_operand.
 */
uint32_t tallowmarch_error_name(tallowmarch_standing *run, uint32_t context, tallowmarch_value *value, uint8_t *room, size_t count);
uint32_t tallowmarch_error_command(tallowmarch_standing *run, uint32_t context, tallowmarch_value *value, uint8_t *room, size_t count);

/* Gives all memory of the run back. No run stands then; where none stood nothing happens. */
void tallowmarch_close(tallowmarch_standing *run);

/* Memory of the host's own. The library takes its memory by these three functions. It brings them, over malloc, realloc and free; a program
 * that is linked with it, with the archive or with the shared object, may define all three itself, and they are then called instead, on the
 * thread that called the library. So a host can count the memory of a run, bound it (tallowmarch_quota.h does), or take it from a place of its own. A module that is
 * loaded into a program, as by dlopen, gives its own functions to the library only where it is linked with the archive.
 *
 * A block is aligned to `align`, which is a power of two up to 16, and its `size` in bytes may be 0. Where `is_given` is 0 no block is given,
 * `at` must then be some pointer that is not NULL, and a block that was to be resized stays.
 *
 * `old_size` are the first bytes of a block that are in use: the smaller of it and `size` has to be kept, and what lies behind may be lost. It
 * is at most the size that was asked for, and mostly less: so a host that counts what it gave keeps the size itself, as in front of the block.
 * rattle_dealloc is called once for each block that stands, and tells no size.
 */
typedef struct tallowmarch_block {
    uint64_t is_given; /* 1 or 0 */
    void *at;          /* never NULL */
} tallowmarch_block;

tallowmarch_block rattle_alloc(size_t size, size_t align);
tallowmarch_block rattle_realloc(void *at, size_t old_size, size_t size, size_t align);
void rattle_dealloc(void *at);

#ifdef __cplusplus
}
#endif

#endif
