/* Tries quotas of memory (tallowmarch_quota.h): what is refused, that a run goes on where its limit is raised, and that all is counted back. tools/embedded
 * builds and runs it. It tells what differs; the last line is 'N passed, M failed'.
 */
#define TALLOWMARCH_QUOTA_FUNCTIONS
#include "tallowmarch_quota.h"

#include "counting.h"

#include <stdio.h>
#include <string.h>

static uint32_t start(tallowmarch_standing *run, const char *text) {
    tallowmarch_settings settings = TALLOWMARCH_SETTINGS;
    settings.space = 4096;
    return tallowmarch_start((const uint8_t *)text, strlen(text), TALLOWMARCH_NUMBERS(settings), run);
}

int main(void) {
    tallowmarch_standing run = TALLOWMARCH_STANDING, other = TALLOWMARCH_STANDING;
    tallowmarch_quota quota = {.limit = 1000}, second = {.limit = 4 << 20};
    tallowmarch_counts counts;
    count(tallowmarch_use(&quota) == NULL, "a thread that used no quota");
    count(start(&run, "1 =") == TALLOWMARCH_NO_ROOM && quota.used == 0 && quota.blocks == 0 && quota.most <= 1000, "a run that does not begin");
    quota.limit = 800000;
    count(start(&run, "1 1 100000 { = } for") == 0 && quota.used > 65536, "a run that begins");
    size_t begun = quota.used;
    uint32_t code = tallowmarch_advance(&run, 1000000);
    count(code == TALLOWMARCH_MEMORY && quota.most <= 800000 && begun < quota.used, "a run whose memory is used up");
    count(tallowmarch_advance(&run, 1000000) == TALLOWMARCH_MEMORY, "one that tries again");
    quota.limit = 4 << 20;
    count(tallowmarch_advance(&run, 1000000) == TALLOWMARCH_FINISHED, "one whose limit is raised");
    count(tallowmarch_counts_of(&run, TALLOWMARCH_NUMBERS(counts)) == 0 && counts.bytes == 588895, "what it printed");
    count(tallowmarch_use(&second) == &quota, "the quota before");
    count(start(&other, "2 =") == 0 && second.blocks > 0, "a run of another quota");
    size_t used = second.used;
    tallowmarch_close(&run);
    count(quota.used == 0 && quota.blocks == 0 && second.used == used, "a run that is closed where another quota is used");
    quota.limit = 10;
    count(tallowmarch_use(NULL) == &second, "the quota before");
    count(tallowmarch_advance(&other, 100) == TALLOWMARCH_FINISHED && second.used >= used, "a run goes on with its quota where none is used");
    tallowmarch_close(&other);
    count(second.used == 0 && second.blocks == 0, "a block stands at the end");
    printf("%d passed, %d failed\n", passed, failed);
    return failed > 0;
}
