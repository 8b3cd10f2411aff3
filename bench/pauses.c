/* What bench/pauses calls on entry to some functions of dpsrun and on return from them: it notes when, and writes all of it to file
   descriptor 9 at the end. It includes no header, since the kit has none. */
typedef unsigned long long number;

enum { HOLD_OF_COLLECTOR, ROOM_FOR_A_STEP, HOLD_OF_WORKER, END_OF_CYCLE, KINDS };
enum { MOST = 1 << 22, WRITE = 1, CLOCK_GETTIME = 228, MONOTONIC = 1, ALL = 9 };

struct note {
    number kind, from, to;
};

static struct note notes[MOST];
static number count, begun[KINDS], first_tick, first_time;

static long call(number what, number a, const void *b, number c) {
    long told;
    __asm__ volatile("syscall" : "=a"(told) : "a"(what), "D"(a), "S"(b), "d"(c) : "rcx", "r11", "memory");
    return told;
}

static number nanoseconds(void) {
    long time[2];
    call(CLOCK_GETTIME, MONOTONIC, time, 0);
    return time[0] * 1000000000ull + time[1];
}

void pauses_enter(number kind) {
    if (!first_tick) {
        first_time = nanoseconds();
        first_tick = __builtin_ia32_rdtsc();
    }
    begun[kind] = __builtin_ia32_rdtsc();
}

void pauses_leave(number kind) {
    number to = __builtin_ia32_rdtsc(), at = __atomic_fetch_add(&count, 1, __ATOMIC_SEQ_CST);
    if (at < MOST) {
        notes[at] = (struct note){kind, begun[kind], to};
    }
}

/* Ticks become nanoseconds since the first. */
void pauses_end(void) {
    number ticks = __builtin_ia32_rdtsc() - first_tick, time = nanoseconds() - first_time, n = count < MOST ? count : MOST;
    for (number i = 0; i < n; i++) {
        notes[i].from = (number)((double)(notes[i].from - first_tick) * time / ticks);
        notes[i].to = (number)((double)(notes[i].to - first_tick) * time / ticks);
    }
    const char *bytes = (const char *)notes;
    for (number left = n * sizeof *notes; left;) {
        long wrote = call(WRITE, ALL, bytes, left);
        if (wrote <= 0) {
            return;
        }
        bytes += wrote;
        left -= wrote;
    }
}
