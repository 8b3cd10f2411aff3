/* Quotas of memory for the runs of a host: all that a call takes counts against the quota that its thread uses, and what would pass it is refused.
 *
 * This is C of the host's side: no proof speaks of it. Include it where quotas are used, and in one file of the program behind
 *
 *     #define TALLOWMARCH_QUOTA_FUNCTIONS
 *
 * which defines there the three functions by which the library takes memory, over malloc, realloc and free. Then
 *
 *     tallowmarch_quota quota = {.limit = 4 << 20};
 *     tallowmarch_use(&quota);
 *     code = tallowmarch_advance(&run, 1000);
 *     tallowmarch_use(NULL);
 *
 * makes a slice of a run that has 4 MiB. Where memory is refused the run ends with TALLOWMARCH_MEMORY, or doesn't begin, with TALLOWMARCH_NO_ROOM. It
 * goes on where the limit is raised. A quota counts the blocks that were taken while it was used, whoever gives them back; so it stands as long as
 * one of them does, and belongs to one thread at a time, as a run that stands does.
 */
#ifndef TALLOWMARCH_QUOTA_H
#define TALLOWMARCH_QUOTA_H

#include "tallowmarch.h"

#ifdef __cplusplus
extern "C" {
#endif

typedef struct tallowmarch_quota {
    size_t limit;  /* the most bytes that may be taken */
    size_t used;   /* those that are taken now */
    size_t most;   /* the most that were at once */
    size_t blocks; /* how many blocks these are */
} tallowmarch_quota;

/* Has the calls of this thread use a quota, or none, where NULL is given: then nothing is counted or refused. Gives the one that was used before. */
tallowmarch_quota *tallowmarch_use(tallowmarch_quota *quota);

#ifdef TALLOWMARCH_QUOTA_FUNCTIONS

#include <stdlib.h>

/* In front of each block stand its size and its quota. */
typedef union tallowmarch_before {
    struct {
        size_t size;
        tallowmarch_quota *of;
    } is;
    char aligned[16];
} tallowmarch_before;

static __thread tallowmarch_quota *tallowmarch_used;

tallowmarch_quota *tallowmarch_use(tallowmarch_quota *quota) {
    tallowmarch_quota *before = tallowmarch_used;
    tallowmarch_used = quota;
    return before;
}

/* A block of so many bytes in place of one, or of none, that took so many; where it is refused that one stays. */
static tallowmarch_block tallowmarch_resized(tallowmarch_before *whole, size_t before, size_t size, tallowmarch_quota *of) {
    tallowmarch_block none = {0, &tallowmarch_used};
    if (size > SIZE_MAX - sizeof *whole || (of && size > before && size - before > of->limit - (of->used < of->limit ? of->used : of->limit))) return none;
    tallowmarch_before *at = (tallowmarch_before *)realloc(whole, sizeof *whole + size);
    if (!at) return none;
    if (of) {
        of->used += size - before;
        of->blocks += !whole;
        if (of->used > of->most) of->most = of->used;
    }
    at->is.size = size;
    at->is.of = of;
    tallowmarch_block given = {1, at + 1};
    return given;
}

tallowmarch_block rattle_alloc(size_t size, size_t align) {
    (void)align;
    return tallowmarch_resized(NULL, 0, size, tallowmarch_used);
}

tallowmarch_block rattle_realloc(void *at, size_t old_size, size_t size, size_t align) {
    tallowmarch_before *whole = (tallowmarch_before *)at - 1;
    (void)old_size, (void)align;
    return tallowmarch_resized(whole, whole->is.size, size, whole->is.of);
}

void rattle_dealloc(void *at) {
    tallowmarch_before *whole = (tallowmarch_before *)at - 1;
    tallowmarch_quota *of = whole->is.of;
    if (of) {
        of->used -= whole->is.size;
        of->blocks--;
    }
    free(whole);
}

#endif

#ifdef __cplusplus
}
#endif

#endif
