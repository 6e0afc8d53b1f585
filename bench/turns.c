/* Times two loops side by side; see turns.h. */
#define _GNU_SOURCE
#include "turns.h"
#include <sched.h>
#include <stddef.h>
#include <stdio.h>
#include <stdlib.h>
#include <time.h>

enum { CALLS = 10000, FEW = CALLS / 50, SLOW = 500000 };

static double now(void) {
    struct timespec time;
    clock_gettime(CLOCK_MONOTONIC, &time);
    return (double)time.tv_sec * 1e9 + (double)time.tv_nsec;
}

/* The nanoseconds of one call, if they are fewer than the least so far. Where a few calls take long, no more
   are timed. */
static void run(const struct timed *row, uint64_t (*loop)(uint64_t), double *least) {
    uint64_t wrong, calls;
    double start = now(), each;
    row->prepare();
    wrong = loop(FEW);
    calls = now() - start < SLOW ? CALLS : FEW;
    start = now();
    wrong += loop(calls);
    each = (now() - start) / (double)calls;
    if (wrong != 0) {
        printf("%s: %lu calls answered otherwise\n", row->name, (unsigned long)wrong);
        exit(1);
    }
    if (*least == 0 || each < *least) *least = each;
}

/* The last of the processors that the program may use. */
static void pin(void) {
    cpu_set_t set;
    size_t i, last = 0;
    if (sched_getaffinity(0, sizeof set, &set) != 0) return;
    for (i = 0; i < CPU_SETSIZE; i++) if (CPU_ISSET(i, &set)) last = i;
    CPU_ZERO(&set);
    CPU_SET(last, &set);
    if (sched_setaffinity(0, sizeof set, &set) != 0) perror("not pinned to a processor");
}

void take_turns(const struct timed *rows, int count, int rounds, const char *first, const char *second) {
    double *least = calloc(2 * (size_t)count, sizeof *least);
    int round, i;
    if (least == NULL) exit(1);
    pin();
    for (round = 0; round < rounds; round++) {
        for (i = 0; i < count; i++) {
            if (round % 2 == 0) run(&rows[i], rows[i].first, &least[2 * i]);
            run(&rows[i], rows[i].second, &least[2 * i + 1]);
            if (round % 2 != 0) run(&rows[i], rows[i].first, &least[2 * i]);
        }
    }
    printf("%-40s %12s %12s %8s\n", "operation", first, second, "ratio");
    for (i = 0; i < count; i++) {
        double one = least[2 * i], other = least[2 * i + 1];
        printf("%-40s %12.1f %12.1f %8.2f\n", rows[i].name, one, other, other / one);
    }
    free(least);
}
