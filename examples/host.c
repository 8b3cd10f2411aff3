/* A host that runs programs which it doesn't trust: each on a thread of its own, with a quota of memory, of output and of steps. Then it records
 * a race of two contexts, and makes it again.
 *
 *     tools/library && cc examples/host.c -Iout -Lout -ltallowmarch -o out/host && out/host
 */
#define TALLOWMARCH_QUOTA_FUNCTIONS
#include "tallowmarch_quota.h"

#include <pthread.h>
#include <stdio.h>
#include <stdlib.h>
#include <string.h>

/* The most bytes that a program may print. */
#define MOST_OUTPUT 1000

/* A program that somebody sent, with its quotas, and what came of it. */
struct job {
    const char *what, *program;
    tallowmarch_quota memory;
    uint32_t steps;
    pthread_t thread;
    uint32_t code;
    uint8_t printed[MOST_OUTPUT];
    tallowmarch_counts counts;
};

static void *run(void *of) {
    struct job *job = of;
    tallowmarch_settings settings = TALLOWMARCH_SETTINGS;
    tallowmarch_entry none;
    settings.space = 4096;
    settings.steps = job->steps;
    settings.output = MOST_OUTPUT;
    tallowmarch_use(&job->memory);
    job->code = tallowmarch_run((const uint8_t *)job->program, strlen(job->program), TALLOWMARCH_NUMBERS(settings), job->printed,
                                MOST_OUTPUT, &none, 0, TALLOWMARCH_NUMBERS(job->counts));
    return NULL;
}

static void show(const struct job *job) {
    size_t shown = job->counts.bytes < 64 ? (size_t)job->counts.bytes : 64;
    if (shown && job->printed[shown - 1] == '\n') shown--;
    printf("%s: %s after %llu steps\n", job->what, tallowmarch_code_text(job->code), (unsigned long long)job->counts.steps);
    printf("    it printed %llu bytes%s", (unsigned long long)job->counts.bytes, shown ? ": " : "");
    for (size_t at = 0; at < shown; at++) putchar(job->printed[at] == '\n' ? ' ' : job->printed[at]);
    puts(shown == 64 ? " .." : "");
    if (job->memory.blocks) printf("    %zu blocks of memory were lost\n", job->memory.blocks);
}

/* Two contexts add to one counter, and forget to lock it: who is late depends on their turns. */
static const uint8_t race[] =
    "/counter [0] def /add-one {counter 0 get 1 add counter exch 0 exch put} def\n"
    "mark {add-one} fork mark {add-one} fork join cleartomark join cleartomark counter 0 get =\n";

static int record_and_replay(uint32_t quantum) {
    tallowmarch_settings settings = TALLOWMARCH_SETTINGS;
    tallowmarch_entry schedule[256], none;
    tallowmarch_counts counts, again;
    uint8_t printed[16], same[16];
    settings.quantum = quantum;
    uint32_t code = tallowmarch_run(race, sizeof race - 1, TALLOWMARCH_NUMBERS(settings), printed, sizeof printed, schedule, 256,
                                    TALLOWMARCH_NUMBERS(counts));
    if (code != TALLOWMARCH_FINISHED || counts.entries > 256 || counts.bytes > sizeof printed) return 1;
    code = tallowmarch_replay(race, sizeof race - 1, TALLOWMARCH_NUMBERS(settings), schedule, counts.entries, same, sizeof same, &none, 0,
                              TALLOWMARCH_NUMBERS(again));
    if (code != TALLOWMARCH_FINISHED || again.bytes != counts.bytes || memcmp(printed, same, counts.bytes)) return 1;
    printf("by turns of %u: %llu entries, which print %.*s when they are followed\n", quantum, (unsigned long long)counts.entries,
           (int)counts.bytes - 1, (const char *)same);
    return 0;
}

int main(void) {
    static struct job jobs[] = {
        {.what = "a sum", .program = "1 2 add =", .memory = {.limit = 4 << 20}, .steps = 1000},
        {.what = "a loop without end", .program = "0 {1 add dup =} loop", .memory = {.limit = 4 << 20}, .steps = 1000},
        {.what = "an error", .program = "1 0 idiv", .memory = {.limit = 4 << 20}, .steps = 1000},
        {.what = "a flood of output", .program = "{(0123456789) print} loop", .memory = {.limit = 4 << 20}, .steps = UINT32_MAX},
        {.what = "a heap without end", .program = "[] {[exch] dup length pop} loop", .memory = {.limit = 4 << 20}, .steps = 1000000},
        {.what = "names without end", .program = "0 {1 add dup 9 string cvs cvn pop} loop", .memory = {.limit = 1 << 20}, .steps = 1000000},
        {.what = "a context that waits", .program = "lock dup {condition wait} monitor", .memory = {.limit = 4 << 20}, .steps = 1000},
    };
    const size_t count = sizeof jobs / sizeof *jobs;
    if (tallowmarch_version() != TALLOWMARCH_VERSION) return fprintf(stderr, "the library is of another version\n"), 2;
    for (size_t at = 0; at < count; at++)
        if (pthread_create(&jobs[at].thread, NULL, run, &jobs[at])) return perror("a thread"), 2;
    for (size_t at = 0; at < count; at++) {
        pthread_join(jobs[at].thread, NULL);
        show(&jobs[at]);
    }
    return record_and_replay(100) || record_and_replay(3);
}
