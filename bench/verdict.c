/* The verdict and a question about f beside plain C programs with the same answers, in one run. `carried` is the best that we can write:
   rows in order of their next events, those with the same events in one, the first event taken and put back in its place. `divided`
   asks each row at each length, by division, as the search did before. */
#include <inttypes.h>
#include <stddef.h>
#include <stdint.h>
#include <stdio.h>
#include <string.h>
#include <time.h>

#include "../include/cowriedash.h"
#include "walks.h"

static uint64_t gcd(uint64_t a, uint64_t b) {
    while (b) {
        uint64_t r = a % b;
        a = b;
        b = r;
    }
    return a;
}

static int outside(const uint32_t *s, size_t n, size_t width) {
    for (size_t i = 0; i < n; i += width)
        if (s[i] == 0 || 1000000 < s[i] || s[i + 1] == 0 || 1000000 < s[i + 1]) return 1;
    return 0;
}

static int deadline_outside(const uint32_t *t, size_t n) {
    for (size_t i = 0; i < n; i += 3)
        if (t[i + 2] == 0 || t[i + 1] < t[i + 2]) return 1;
    return 0;
}

typedef uint64_t search(const uint32_t *t, size_t nt, const uint32_t *h, size_t nh, uint64_t end, int looks, uint64_t *out);

static uint64_t common(const uint32_t *t, size_t nt, const uint32_t *h, size_t nh) {
    uint64_t H = 1;
    for (size_t i = 0; i < nt; i += 3) H = H / gcd(H, t[i + 1]) * t[i + 1];
    for (size_t i = 0; i < nh; i += 2) H = H / gcd(H, h[i + 1]) * h[i + 1];
    return H;
}

static uint64_t work(uint64_t H, const uint32_t *s, size_t n, size_t width) {
    uint64_t W = 0;
    for (size_t i = 0; i < n; i += width) W += s[i] * (H / s[i + 1]);
    return W;
}

/* How far the last search went: to the shortest interval that fails, to the idle point or to its end. */
static uint64_t reached;

/* The numbers of the verdict; `looks` as 1 ends the search at the idle point too. */
static void plain(search *walk, const uint32_t *t, size_t nt, const uint32_t *h, size_t nh, int looks, uint64_t *out) {
    uint64_t H, W, B = 0, end;
    if (nt % 3 || nh % 2 || nt == 0 || 192 < nt || 32 < nh) return;
    if (outside(t, nt, 3) || outside(h, nh, 2) || deadline_outside(t, nt)) return;
    H = common(t, nt, h, nh);
    W = work(H, t, nt, 3) + work(H, h, nh, 2);
    for (size_t i = 0; i < nt; i += 3) B += t[i] * (H / t[i + 1]) * (t[i + 1] - t[i + 2]);
    for (size_t i = 0; i < nh; i += 2) B += h[i] * H;
    memset(out, 0, COWRIEDASH_NUMBERS * sizeof *out);
    out[5] = 1000000 * (W / H) + (1000000 * (W % H) + (H - 1)) / H;
    end = H <= W ? H : B == 0 ? 0 : (B - 1) / (H - W);
    if (H < end) end = H;
    reached = walk(t, nt, h, nh, end, looks && W < H, out);
    out[7] = tested + out[0];
}

static double now(void) {
    struct timespec t;
    clock_gettime(CLOCK_PROCESS_CPUTIME_ID, &t);
    return t.tv_sec + t.tv_nsec / 1e9;
}

/* All but the count of lengths, which a walk that does not look for the idle point has otherwise. */
static int alike(const uint64_t *a, const uint64_t *b) { return !memcmp(a, b, 7 * sizeof *a); }

static void row(const char *name, const char *word, const double best[3], int same) {
    printf("%-42s %-6s %9" PRIu64 " %11.4f ms %11.4f ms %5.2f", name, word, reached, best[0] * 1e3, best[1] * 1e3, best[0] / best[1]);
    if (best[2] < 1e9) printf(" %13.4f ms %7.1f", best[2] * 1e3, best[2] / best[0]);
    printf("%s\n", same ? "" : "   DIFFERENT ANSWERS");
    fflush(stdout);
}

/* In turn, and the best of each, of `calls` calls a turn: what else runs on the machine slows all three. Without `old` the old walk is left
   out: it would take minutes. */
static void compare(const char *name, const uint32_t *t, size_t nt, const uint32_t *h, size_t nh, int turns, int calls, int old) {
    uint64_t ours[COWRIEDASH_NUMBERS], theirs[COWRIEDASH_NUMBERS], before[COWRIEDASH_NUMBERS], upto;
    double best[3] = {1e9, 1e9, 1e9};
    for (int turn = 0; turn < turns; turn++) {
        double a = now();
        for (int i = 0; i < calls; i++) cowriedash_verdict(t, nt, h, nh, ours);
        double b = now();
        for (int i = 0; i < calls; i++) plain(carried, t, nt, h, nh, 1, theirs);
        double c = now();
        upto = reached;
        for (int i = 0; old && i < calls; i++) plain(divided, t, nt, h, nh, 0, before);
        double d = now();
        reached = upto;
        if (b - a < best[0] * calls) best[0] = (b - a) / calls;
        if (c - b < best[1] * calls) best[1] = (c - b) / calls;
        if (old && d - c < best[2] * calls) best[2] = (d - c) / calls;
    }
    row(name, ours[0] ? "misses" : "fits", best, !memcmp(ours, theirs, sizeof ours) && (!old || alike(ours, before)));
}

/* A table with W below H: the lengths tested up to the end that the facts allow, and up to the idle point; then cowriedash beside the C that
   does not look for it. */
static void drain(const char *name, const uint32_t *t, size_t nt, const uint32_t *h, size_t nh, int turns, int calls) {
    uint64_t ours[COWRIEDASH_NUMBERS], theirs[COWRIEDASH_NUMBERS], far, all, near, few;
    double best[2] = {1e9, 1e9};
    for (int turn = 0; turn < turns; turn++) {
        double a = now();
        for (int i = 0; i < calls; i++) cowriedash_verdict(t, nt, h, nh, ours);
        double b = now();
        for (int i = 0; i < calls; i++) plain(carried, t, nt, h, nh, 0, theirs);
        double c = now();
        if (b - a < best[0] * calls) best[0] = (b - a) / calls;
        if (c - b < best[1] * calls) best[1] = (c - b) / calls;
    }
    far = reached, all = tested;
    plain(carried, t, nt, h, nh, 1, theirs);
    near = reached, few = tested;
    printf("%-42s %11" PRIu64 " %11" PRIu64 " %11" PRIu64 " %11" PRIu64 " %11.4f ms %11.4f ms %7.3f%s\n", name, far, all, near, few, best[0] * 1e3,
           best[1] * 1e3, best[0] / best[1], alike(ours, theirs) ? "" : "   DIFFERENT ANSWERS");
    fflush(stdout);
}

static void ask(const char *name, const uint32_t *h, size_t nh, uint64_t l) {
    const uint32_t t[] = {1, 1, 1};
    uint64_t ours[3], theirs, old;
    double a = now();
    cowriedash_handler_demand(t, 3, h, nh, l, ours);
    double b = now();
    theirs = carried_f(h, nh, l);
    double c = now();
    old = handled(h, nh, 0, 0, l);
    double d = now(), best[3] = {b - a, c - b, d - c};
    reached = l;
    row(name, "", best, ours[0] == 0 && ours[1] == theirs && theirs == old);
}

/* ---- the tables */

/* The last task's cost, so that W is H. */
static void fill(uint32_t *t, size_t nt, const uint32_t *h, size_t nh) {
    uint64_t H = common(t, nt, h, nh);
    t[nt - 3] = (uint32_t)((H - work(H, t, nt - 3, 3) - work(H, h, nh, 2)) / (H / t[nt - 2]));
}

/* 63 tasks 1/64 with deadlines 2 to 64 and one of 14,998/960,832; a handler 1/64,064: each event moves behind 62 others. */
static void densest(uint32_t *t, uint32_t *h) {
    for (uint32_t i = 0; i < 63; i++) t[3 * i] = 1, t[3 * i + 1] = 64, t[3 * i + 2] = 2 + i;
    t[189] = 14998, t[190] = t[191] = 960832;
    h[0] = 1, h[1] = 64064;
}

/* 48 tasks 1/64 with deadlines 17 to 64, a/p and b/q, and 8 handlers 1/960. */
static void dense(uint32_t *t, uint32_t *h, uint32_t a, uint32_t p, uint32_t b, uint32_t q) {
    for (uint32_t i = 0; i < 48; i++) t[3 * i] = 1, t[3 * i + 1] = 64, t[3 * i + 2] = 17 + i;
    t[144] = a, t[145] = t[146] = p, t[147] = b, t[148] = t[149] = q;
    for (size_t i = 0; i < 16; i += 2) h[i] = 1, h[i + 1] = 960;
}

/* 32 tasks of one period, 31 of another and one that fills the rest; 16 handlers. Deadlines are the periods, or no two alike. */
static void like(uint32_t *t, uint32_t *h, uint32_t c, uint32_t p, uint32_t q, uint32_t shorter) {
    for (uint32_t i = 0; i < 64; i++) {
        t[3 * i] = i % 2 ? 1 : c;
        t[3 * i + 1] = i % 2 ? q : p;
        t[3 * i + 2] = t[3 * i + 1] - shorter * (i / 2);
    }
    t[190] = t[191] = 1000000;
    for (size_t i = 0; i < 32; i += 2) h[i] = 1, h[i + 1] = i % 4 ? 1000000 : 15625;
}

/* 1/2, 62 tasks 4,000/1,000,000 with deadlines from 938,000 on, one that fills the rest; one handler, since two would miss at 2. */
static void beside(uint32_t *t, uint32_t *h) {
    t[0] = 1, t[1] = t[2] = 2;
    for (uint32_t i = 1; i < 63; i++) t[3 * i] = 4000, t[3 * i + 1] = 1000000, t[3 * i + 2] = 937000 + 1000 * i;
    t[190] = t[191] = 1000000;
    h[0] = 1, h[1] = 1000000;
    fill(t, 192, h, 2);
}

/* 64 tasks whose periods are the greatest divisors of 720,720, no two alike; a handler of that period too. A tick is left in H. */
static void unlike(uint32_t *t, uint32_t *h) {
    size_t n = 0;
    for (uint32_t p = 4620; p <= 720720; p++)
        if (720720 % p == 0) t[n] = 100, t[n + 1] = t[n + 2] = p, n += 3;
    h[0] = 1, h[1] = 720720;
    fill(t, n, h, 2);
    t[n - 3]--;
}

static void heading(void) {
    printf("%-42s %-6s %9s %14s %14s %5s %16s %7s\n", "table", "", "up to", "cowriedash", "C, carried", "ratio", "C, divided", "times");
}

/* Tables whose H is near its limit, searched whole. */
static void whole(void) {
    uint32_t many[192], few[32];
    /* periods 2 and twice the pairwise products of the primes 683, 691 and 701: H = 661,678,106 */
    uint32_t t[] = {1, 2, 2, 373279, 943906, 943905, 100101, 957566, 957566, 1, 968782, 968782}, h[] = {1, 968782};
    heading();
    densest(many, few);
    compare("63 of 1/64, 1 handler, W = H - 2", many, 192, few, 2, 1, 1, 0);
    dense(many, few, 118318, 979200, 118438, 980160);
    compare("48 of 1/64, 8 handlers, W = H - 2", many, 150, few, 16, 1, 1, 0);
    compare("period 2 and products of primes, W = H", t, 12, h, 0, 1, 1, 0);
    t[5] = 943906;
    compare("the same, one of them a handler", t, 9, h, 2, 1, 1, 0);
    like(many, few, 31, 1998, 160, 0);
    many[0] = 38;
    fill(many, 192, few, 32);
    compare("64 and 16 with like periods, W = H", many, 192, few, 32, 1, 1, 0);
    like(many, few, 31, 1998, 160, 1);
    many[0] = 38;
    fill(many, 192, few, 32);
    compare("the same, no two deadlines alike", many, 192, few, 32, 1, 1, 0);
}

int main(int argc, char **argv) {
    uint32_t many[192], few[32];
    if (argc == 2 && !strcmp(argv[1], "whole")) {
        whole();
        return 0;
    }
    heading();
    {
        uint32_t t[] = {2, 5, 5, 4, 8, 8}, h[] = {1, 4};
        compare("case 9", t, 6, h, 2, 20, 500, 1);
    }
    {
        uint32_t t[] = {1, 10,  8,   2, 20,  20,  2,  25,  20,  3,  40,  40,  4,  50,   50,
                        6, 100, 80, 8, 200, 200, 15, 250, 200, 20, 500, 500, 40, 1000, 1000};
        uint32_t h[] = {1, 10, 1, 20, 1, 50, 2, 125};
        compare("ten tasks and four handlers, a usual board", t, 30, h, 8, 20, 500, 1);
    }
    for (size_t i = 0; i < 64; i++) many[3 * i] = 19, many[3 * i + 1] = many[3 * i + 2] = 1000 + 250 * (i % 4);
    for (size_t i = 0; i < 32; i += 2) few[i] = 3, few[i + 1] = 500 + 125 * (i % 4);
    compare("64 tasks and 16 handlers, overfull", many, 192, few, 32, 20, 500, 1);
    like(many, few, 1, 64, 625, 0);
    fill(many, 192, few, 32);
    compare("64 and 16 with like periods, W = H", many, 192, few, 32, 5, 20, 1);
    like(many, few, 1, 64, 625, 1);
    fill(many, 192, few, 32);
    compare("the same, no two deadlines alike", many, 192, few, 32, 2, 1, 1);
    beside(many, few);
    compare("period 2 beside 63 slow, 1 handler, W = H", many, 192, few, 2, 2, 1, 1);
    dense(many, few, 3594, 29760, 3714, 30720);
    compare("48 of 1/64, 8 handlers, W = H - 2", many, 150, few, 16, 2, 1, 1);
    {
        uint32_t t[] = {300, 1000, 1000, 300, 999, 999}, h[] = {390, 1001};
        compare("H near its limit, load 990,000", t, 6, h, 2, 20, 200, 1);
        t[2] = 800;
        compare("the same, one deadline short", t, 6, h, 2, 20, 200, 1);
    }
    {
        uint32_t t[] = {499999, 1000000, 1000000}, h[] = {1, 2, 1, 1000000};
        compare("handler at every second tick, W = H", t, 3, h, 4, 2, 1, 1);
    }
    {
        uint32_t h[] = {1, 20, 2, 50, 5, 333, 7, 1000};
        ask("f at 1,000,000,000, four handlers", h, 8, 1000000000);
    }
    printf("\n%-42s %11s %11s %11s %11s %14s %14s %7s\n", "W below H, the idle point", "end", "lengths", "idle point", "lengths", "cowriedash",
           "C, to the end", "ratio");
    {
        uint32_t t[] = {300, 1000, 1000, 300, 999, 999}, h[] = {390, 1001};
        drain("H near its limit, load 990,000", t, 6, h, 2, 20, 200);
        t[0] = 309;
        drain("the same, load 999,000", t, 6, h, 2, 20, 20);
    }
    unlike(many, few);
    drain("64 different periods, W = H - 1", many, 192, few, 2, 20, 20);
    dense(many, few, 3594, 29760, 3714, 30720);
    drain("48 of 1/64, 8 handlers, W = H - 2", many, 150, few, 16, 2, 1);
    {
        uint32_t t[] = {499998, 1000000, 1000000}, h[] = {1, 2, 1, 1000000};
        drain("handler at every second tick, W = H - 1", t, 3, h, 4, 2, 1);
    }
    return 0;
}
