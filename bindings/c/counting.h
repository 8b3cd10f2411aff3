/* How the hosts in C that try the library count: what differs is told. */
#ifndef COUNTING_H
#define COUNTING_H

#include <stdio.h>

static int passed, failed;

static void count(int so, const char *what) {
    if (so) {
        passed++;
    } else {
        failed++;
        printf("%s\n", what);
    }
}

#endif
