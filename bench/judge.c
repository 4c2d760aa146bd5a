/* A schedule of nearly 2,048 segments over a span near the limit of H, judged by segments beside plain C that judges every tick. */
#include <inttypes.h>
#include <stdint.h>
#include <stdio.h>
#include <time.h>

#include "../include/cowriedash.h"

enum { ROWS = 2 };

static const uint32_t tasks[] = {1, 1000000, 1000000, 1, 999000, 999000};
static uint64_t segments[4 * 2048];

static double now(void) {
    struct timespec t;
    clock_gettime(CLOCK_PROCESS_CPUTIME_ID, &t);
    return t.tv_sec + t.tv_nsec / 1e9;
}

/* Each job at its arrival, the first row's before the second's: the segments are in order since arrivals are. */
static size_t make(uint64_t span) {
    uint64_t next[ROWS] = {0, 0}, clock = 0;
    size_t n = 0;
    for (;;) {
        int row = next[1] < next[0];
        if (span <= next[row]) return n;
        if (clock < next[row]) clock = next[row];
        segments[n++] = 0, segments[n++] = row, segments[n++] = clock, segments[n++] = clock + 1;
        clock++;
        next[row] += tasks[3 * row + 1];
    }
}

/* 1 where no rule is broken before the span: tasks alone, tick by tick. */
static int every_tick(size_t n, uint64_t span) {
    uint64_t owed[ROWS] = {0, 0}, due[ROWS] = {0, 0};
    size_t at = 0;
    for (uint64_t t = 0; t <= span; t++) {
        for (int i = 0; i < ROWS; i++) {
            if (due[i] == t && owed[i]) return 0;
            if (t < span && t % tasks[3 * i + 1] == 0) owed[i] += tasks[3 * i], due[i] = t + tasks[3 * i + 2];
        }
        while (at < n && segments[at + 3] <= t) at += 4;
        if (t < span && at < n && segments[at + 2] <= t) {
            if (!owed[segments[at + 1]]) return 0;
            owed[segments[at + 1]]--;
        }
    }
    return 1;
}

int main(void) {
    const uint64_t span = 999000000;
    uint64_t out[3];
    size_t n = make(span);
    double a = now();
    cowriedash_judge(tasks, 6, NULL, 0, segments, n, span, out);
    double b = now();
    int fine = every_tick(n, span);
    double c = now();
    printf("%-42s %9s %11s %14s %14s\n", "a schedule judged", "segments", "span", "cowriedash", "C, every tick");
    printf("%-42s %9zu %11" PRIu64 " %11.4f ms %11.4f ms%s\n", out[0] == 0 ? "accepted" : "not accepted", n / 4, span, (b - a) * 1e3, (c - b) * 1e3,
           fine == (out[0] == 0) ? "" : "   DIFFERENT ANSWERS");
    return 0;
}
