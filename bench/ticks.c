/* The scheduler beside a plain C scheduler with the same rule, in one run. `plain` only ticks; `tested` also makes the tests of
   refusals 6 to 11 before each tick, as the proved step does. Every row arrives at tick 0, and then each runs in its turn. */
#include <stddef.h>
#include <stdint.h>
#include <stdio.h>
#include <string.h>
#include <time.h>

uint64_t harness_ticks(const uint32_t *tasks, size_t nt, const uint32_t *handlers, size_t nh, const uint32_t *first, size_t nf,
                       const uint32_t *rest, size_t nr, uint32_t ticks);

struct run {
    uint32_t tasks[192], handlers[32];
    size_t n, m;
    uint64_t clock, next[80], due[64], owed[80];
    int over;
    long late;
};

static int tested(const struct run *r, const uint32_t *w, size_t count) {
    size_t all = r->n + r->m;
    if (r->n == 0 || 64 < r->n || 16 < r->m) return 6;
    for (size_t i = 0; i < r->n; i++) {
        const uint32_t *t = r->tasks + 3 * i;
        if (t[0] == 0 || 1000000 < t[0] || t[1] == 0 || 1000000 < t[1] || t[2] == 0 || t[1] < t[2]) return 6;
    }
    for (size_t i = 0; i < 2 * r->m; i++)
        if (r->handlers[i] == 0 || 1000000 < r->handlers[i]) return 6;
    for (size_t i = 3 * r->n; i < 192; i++)
        if (r->tasks[i]) return 6;
    for (size_t i = 2 * r->m; i < 32; i++)
        if (r->handlers[i]) return 6;
    for (size_t i = all; i < 80; i++)
        if (r->next[i] || r->owed[i]) return 6;
    for (size_t i = r->n; i < 64; i++)
        if (r->due[i]) return 6;
    if (1000000000 < r->clock) return 6;
    for (size_t i = 0; i < r->n; i++) {
        const uint32_t *t = r->tasks + 3 * i;
        if (r->clock + t[1] < r->next[i] || t[0] < r->owed[i]) return 6;
        if (r->clock + t[2] < r->due[i] || r->next[i] < r->due[i]) return 6;
        if (r->owed[i] && (r->over ? r->due[i] < r->clock : r->due[i] <= r->clock)) return 6;
    }
    for (size_t i = 0; i < r->m; i++)
        if (r->clock + r->handlers[2 * i + 1] < r->next[r->n + i] || r->clock * r->handlers[2 * i] < r->owed[r->n + i]) return 6;
    if (r->over) return 7;
    if (r->late >= 0) return 6;
    if (r->clock == 1000000000) return 8;
    if (count != all) return 9;
    for (size_t i = 0; i < all; i++)
        if (w[i] && r->clock < r->next[i]) return 10;
    for (size_t i = 0; i < all; i++)
        if ((i < r->n ? r->tasks[3 * i] : r->handlers[2 * (i - r->n)]) < w[i]) return 11;
    return 0;
}

/* One tick; 1 if it was not idle. */
static int tick(struct run *r, const uint32_t *w) {
    size_t best = r->n, ran = 80;
    for (size_t i = 0; i < r->n + r->m; i++)
        if (w[i]) {
            r->owed[i] += w[i];
            r->next[i] = r->clock + (i < r->n ? r->tasks[3 * i + 1] : r->handlers[2 * (i - r->n) + 1]);
            if (i < r->n) r->due[i] = r->clock + r->tasks[3 * i + 2];
        }
    for (size_t i = r->n; i < r->n + r->m && ran == 80; i++)
        if (r->owed[i]) ran = i;
    if (ran == 80) {
        for (size_t i = 0; i < r->n; i++)
            if (r->owed[i] && (best == r->n || r->due[i] < r->due[best])) best = i;
        if (best < r->n) ran = best;
    }
    if (ran < 80) r->owed[ran]--;
    r->clock++;
    for (size_t i = 0; i < r->n && !r->over; i++)
        if (r->owed[i] && r->due[i] == r->clock) r->over = 1, r->late = (long)i;
    return ran < 80;
}

static uint64_t run_c(const uint32_t *t, size_t nt, const uint32_t *h, size_t nh, const uint32_t *first, const uint32_t *rest, uint32_t ticks, int test) {
    struct run r;
    uint64_t busy = 0;
    memset(&r, 0, sizeof r);
    memcpy(r.tasks, t, nt * 4);
    memcpy(r.handlers, h, nh * 4);
    r.n = nt / 3, r.m = nh / 2, r.late = -1;
    tick(&r, first);
    for (uint32_t i = 0; i < ticks; i++) {
        if (test && tested(&r, rest, r.n + r.m)) continue;
        busy += (uint64_t)tick(&r, rest);
    }
    return busy;
}

static double now(void) {
    struct timespec t;
    clock_gettime(CLOCK_MONOTONIC, &t);
    return t.tv_sec + t.tv_nsec / 1e9;
}

static void compare(const char *name, const uint32_t *t, size_t nt, const uint32_t *h, size_t nh, uint32_t ticks) {
    uint32_t first[80], rest[80] = {0};
    size_t rows = nt / 3 + nh / 2;
    for (size_t i = 0; i < rows; i++) first[i] = i < nt / 3 ? t[3 * i] : h[2 * (i - nt / 3)];
    double best[3] = {1e9, 1e9, 1e9};
    int same = 1;
    /* in turn, and the best of each: what else runs on the machine slows all three */
    for (int turn = 0; turn < 7; turn++) {
        double a = now();
        uint64_t ours = harness_ticks(t, nt, h, nh, first, rows, rest, rows, ticks);
        double b = now();
        uint64_t plain = run_c(t, nt, h, nh, first, rest, ticks, 0);
        double c = now();
        uint64_t tested = run_c(t, nt, h, nh, first, rest, ticks, 1);
        double d = now();
        if (b - a < best[0]) best[0] = b - a;
        if (c - b < best[1]) best[1] = c - b;
        if (d - c < best[2]) best[2] = d - c;
        same &= ours == plain && plain == tested;
    }
    printf("%-28s %8.2f M/s   %8.2f M/s ratio %5.2f   %8.2f M/s ratio %5.2f%s\n", name, ticks / best[0] / 1e6, ticks / best[2] / 1e6,
           best[0] / best[2], ticks / best[1] / 1e6, best[0] / best[1], same ? "" : "   DIFFERENT");
}

int main(void) {
    uint32_t t[192], h[32];
    for (size_t i = 0; i < 192; i += 3) t[i] = 5000, t[i + 1] = t[i + 2] = 1000000;
    for (size_t i = 0; i < 32; i += 2) h[i] = 1000, h[i + 1] = 1000000;
    printf("%-28s %12s   %12s %11s   %12s\n", "ticks a second", "cowriedash", "C, tested", "", "C, plain");
    compare("64 tasks and 16 handlers", t, 192, h, 32, 300000);
    compare("2 tasks and 1 handler", t, 6, h, 2, 900000);
    return 0;
}
