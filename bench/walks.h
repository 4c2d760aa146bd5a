/* Two walks in plain C for the verdict's search and for f: `carried` and `divided` (bench/verdict.c says which is which). Both go over test
   lengths in increasing order up to `end`, with f carried along, and leave the shortest that fails in out, with f and D there. Where it
   looks, `carried` ends too once all has drained. Both say how far they went, and count the lengths that they tested. */
#include <stddef.h>
#include <stdint.h>

/* ---- events carried */

struct entry {
    uint64_t next, cost, period;
};

/* The events of the rows s in order, deadlines or arrivals; behind them one that never comes. */
static void begin(struct entry *q, const uint32_t *s, size_t n, size_t width, int deadlines) {
    size_t m = 0;
    for (size_t i = 0; i < n; i += width) {
        struct entry e = {deadlines ? s[i + 2] : 1, s[i], s[i + 1]};
        size_t k = 0;
        while (k < m && (q[k].next != e.next || q[k].period != e.period)) k++;
        if (k < m) {
            q[k].cost += e.cost;
            continue;
        }
        for (k = m++; 0 < k && e.next < q[k - 1].next; k--) q[k] = q[k - 1];
        q[k] = e;
    }
    q[m].next = UINT64_MAX;
}

/* Every event up to tick n; the sum with their costs. */
static inline uint64_t take_to(struct entry *q, uint64_t sum, uint64_t n) {
    while (q->next <= n) {
        struct entry e = *q, *p = q;
        sum += e.cost;
        e.next += e.period;
        for (; p[1].next < e.next; p++) *p = p[1];
        *p = e;
    }
    return sum;
}

static inline uint64_t take(struct entry *q, uint64_t sum) { return take_to(q, sum, q->next); }

struct progress {
    uint64_t at, taken, called;
};

static inline void rest(struct progress *p, uint64_t m) {
    uint64_t f = p->taken + (m - p->at);
    p->taken = f < p->called ? f : p->called;
    p->at = m;
}

static inline void to(struct entry *q, struct progress *p, uint64_t m) {
    while (q->next <= m) {
        rest(p, q->next - 1);
        p->called = take(q, p->called);
    }
    rest(p, m);
}

/* How many lengths the last search tested. */
static uint64_t tested;

static uint64_t carried(const uint32_t *t, size_t nt, const uint32_t *h, size_t nh, uint64_t end, int looks, uint64_t *out) {
    struct entry due[65], calls[17], a[65], b[17];
    struct progress p = {0, 0, 0};
    uint64_t d = 0, asked;
    begin(due, t, nt, 3, 1);
    begin(calls, h, nh, 2, 0);
    begin(a, t, nt, 3, 0);
    begin(b, h, nh, 2, 0);
    asked = take_to(b, take_to(a, 0, 1), 1);
    for (tested = 0; due->next <= end; tested++) {
        uint64_t n = due->next;
        while (looks && asked < n) {
            uint64_t more = take_to(b, take_to(a, asked, asked), asked);
            if (more == asked) return asked;
            asked = more;
        }
        to(calls, &p, n);
        d = take(due, d);
        if (n < p.taken + d) {
            out[0] = 1, out[2] = n, out[3] = p.taken, out[4] = d, out[6] = p.called - p.taken;
            return n;
        }
    }
    return end;
}

static uint64_t carried_f(const uint32_t *h, size_t nh, uint64_t l) {
    struct entry calls[17];
    struct progress p = {0, 0, 0};
    begin(calls, h, nh, 2, 0);
    to(calls, &p, l);
    return p.taken;
}

/* ---- a division a row */

static uint64_t called(const uint32_t *h, size_t n, uint64_t l) {
    uint64_t sum = 0;
    for (size_t i = 0; i + 1 < n; i += 2) sum += h[i] * ((l + h[i + 1] - 1) / h[i + 1]);
    return sum;
}

/* jobs of a task that have their deadline within l ticks */
static uint64_t jobs(const uint32_t *t, uint64_t l) { return l < t[2] ? 0 : (l - t[2]) / t[1] + 1; }

static uint64_t due(const uint32_t *t, size_t n, uint64_t l) {
    uint64_t sum = 0;
    for (size_t i = 0; i + 2 < n; i += 3) sum += t[i] * jobs(t + i, l);
    return sum;
}

static uint64_t next_deadline(const uint32_t *t, size_t n, uint64_t at, uint64_t top) {
    for (size_t i = 0; i + 2 < n; i += 3) {
        uint64_t own = t[i + 2] + jobs(t + i, at) * t[i + 1];
        if (own < top) top = own;
    }
    return top;
}

static uint64_t next_arrival(const uint32_t *h, size_t n, uint64_t at, uint64_t top) {
    for (size_t i = 0; i + 1 < n; i += 2) {
        uint64_t own = (at / h[i + 1] + 1) * h[i + 1];
        if (own < top) top = own;
    }
    return top;
}

static uint64_t handled(const uint32_t *h, size_t n, uint64_t at, uint64_t f, uint64_t m) {
    while (at < m) {
        uint64_t work = called(h, n, at + 1);
        if (f < work) {
            uint64_t busy = work - f < m - at ? work - f : m - at;
            f += busy;
            at += busy;
        } else {
            at = next_arrival(h, n, at, m);
        }
    }
    return f;
}

static uint64_t divided(const uint32_t *t, size_t nt, const uint32_t *h, size_t nh, uint64_t end, int looks, uint64_t *out) {
    uint64_t l = 0, f = 0;
    (void)looks;
    for (tested = 0; l < end; tested++) {
        uint64_t n = next_deadline(t, nt, l, end + 1), d;
        if (end < n) break;
        f = handled(h, nh, l, f, n);
        d = due(t, nt, n);
        if (n < f + d) {
            out[0] = 1, out[2] = n, out[3] = f, out[4] = d, out[6] = called(h, nh, n) - f;
            return n;
        }
        l = n;
    }
    return end;
}
