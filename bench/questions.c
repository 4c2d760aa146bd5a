/* f at lengths near the limit, asked of the proved library, of plain C that counts whole periods of the handlers too, and of plain C that
   walks from arrival to arrival, as the library once did. Each is asked until a tenth of a second has passed, or once. */
#include <stdint.h>
#include <stdio.h>
#include <time.h>

#include "../include/cowriedash.h"

enum { LIMIT = 1000000000 };

static const uint32_t task[] = {1, 1000000, 1000000};

static double now(void) {
    struct timespec t;
    clock_gettime(CLOCK_MONOTONIC, &t);
    return t.tv_sec + t.tv_nsec / 1e9;
}

static uint64_t gcd(uint64_t a, uint64_t b) { return b == 0 ? a : gcd(b, a % b); }

/* f at l along the arrivals: the next arrival of each row is carried. */
static uint64_t walked(const uint32_t *h, size_t n, uint64_t l) {
    uint64_t next[16] = {0}, at = 0, taken = 0, called = 0;
    while (at < l) {
        uint64_t soon = l;
        for (size_t i = 0; i < n; i += 2) {
            if (next[i / 2] == at) {
                called += h[i];
                next[i / 2] += h[i + 1];
            }
            if (next[i / 2] < soon) soon = next[i / 2];
        }
        taken += called - taken < soon - at ? called - taken : soon - at;
        at = soon;
    }
    return taken;
}

/* The same by whole periods of the handlers. */
static uint64_t counted(const uint32_t *h, size_t n, uint64_t l) {
    uint64_t own = 1, work = 0;
    for (size_t i = 0; i < n; i += 2) {
        own = own / gcd(own, h[i + 1]) * h[i + 1];
        if (own > l) return walked(h, n, l);
    }
    for (size_t i = 0; i < n; i += 2) work += h[i] * (own / h[i + 1]);
    return own <= work ? l : l / own * work + walked(h, n, l % own);
}

static uint64_t proved(const uint32_t *h, size_t n, uint64_t l) {
    uint64_t out[3];
    cowriedash_handler_demand(task, 3, h, n, l, out);
    return out[1];
}

/* Seconds of one question, and its answer. */
static double timed(uint64_t (*f)(const uint32_t *, size_t, uint64_t), const uint32_t *h, size_t n, uint64_t l, uint64_t *answer) {
    double start = now(), passed;
    int turns = 0;
    do {
        *answer = f(h, n, l);
        turns++;
        passed = now() - start;
    } while (passed < 0.1);
    return passed / turns;
}

static int shown(const char *what, const uint32_t *h, size_t n, uint64_t l) {
    uint64_t a, b, c;
    double library = timed(proved, h, n, l, &a), plain = timed(counted, h, n, l, &b), walk = timed(walked, h, n, l, &c);
    printf("%-44s %11llu %12.3f us %12.3f us %6.2f %14.3f us\n", what, (unsigned long long)l, library * 1e6, plain * 1e6, library / plain,
           walk * 1e6);
    if (a == b && b == c) return 0;
    printf("the answers differ: %llu, %llu, %llu\n", (unsigned long long)a, (unsigned long long)b, (unsigned long long)c);
    return 1;
}

int main(void) {
    static const uint32_t fast[] = {1, 2};
    uint32_t short_period[32], long_period[32], overfull[32];
    for (uint32_t i = 0; i < 16; i++) {
        uint32_t periods[] = {200, 300, 400, 500, 600, 1000, 1200, 1500, 2000, 2500, 3000, 4000, 5000, 6000, 7500, 10000};
        short_period[2 * i] = long_period[2 * i] = 1 + i % 3;
        overfull[2 * i] = 1 + i * 40;
        short_period[2 * i + 1] = overfull[2 * i + 1] = periods[i];
        long_period[2 * i + 1] = 999000 + 61 * i;
    }
    static const uint32_t apart[] = {1, 2, 3, 999983, 5, 999979};
    printf("%-44s %11s %15s %15s %6s %17s\n", "handlers", "length", "library", "plain C", "ratio", "walk in C");
    return shown("one fast handler", fast, 2, LIMIT) | shown("sixteen, a short common period", short_period, 32, LIMIT) |
           shown("sixteen, a long common period", long_period, 32, LIMIT) | shown("sixteen, overfull", overfull, 32, LIMIT) |
           shown("a short period, a multiple above the limit", apart, 6, LIMIT / 100);
}
