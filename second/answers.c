/* The proved libraries at the far end of a pipe: a question in, its answer out, so that the second program links none of them.
   A question is its number (1 verdict, 2 handler demand, 3 task demand, 4 margin, 5 fresh, 6 step, 7 responses, 8 step by priority,
   9 rows of a guard, 10 trim, 11 charges, 12 judge a schedule) and what it asks about. 100 more, and the table is held by column. */
#include <stdint.h>
#include <stdio.h>
#include <stdlib.h>

#include "../include/cowriedash.h"

typedef void fresh(const uint32_t *tasks, size_t tasks_count, const uint32_t *handlers, size_t handlers_count, uint32_t t[192],
                   uint32_t h[32], uint64_t next[80], uint64_t due[64], uint64_t owed[80], uint64_t figures[9]);
fresh harness_fresh, harness_fresh_by_column;
void harness_step(const uint32_t t[192], const uint32_t h[32], uint64_t next[80], uint64_t due[64], uint64_t owed[80],
                  uint64_t figures[9], const uint32_t *arrivals, size_t count);
void harness_step_by_priority(const uint32_t t[192], const uint32_t h[32], uint64_t next[80], uint64_t due[64], uint64_t owed[80],
                              uint64_t figures[9], const uint32_t *arrivals, size_t count);


enum { MOST = 1 << 16 };

static uint32_t tasks[MOST], handlers[MOST];
static uint64_t segments[MOST];
static size_t tasks_count, handlers_count, segments_count;

/* The other end is gone: nothing is left to answer. */
static void get(void *at, size_t size) {
    if (size > 0 && fread(at, size, 1, stdin) != 1) exit(0);
}

static void put(const void *at, size_t size) {
    if (fwrite(at, size, 1, stdout) != 1) exit(1);
}

static uint64_t number(void) {
    uint64_t n;
    get(&n, sizeof n);
    return n;
}

static size_t list(uint32_t *at) {
    uint64_t count = number();
    if (count > MOST) exit(1);
    get(at, count * sizeof *at);
    return count;
}

static void schedule(void) {
    segments_count = number();
    if (segments_count > MOST) exit(1);
    get(segments, segments_count * sizeof *segments);
}

static void table(void) {
    tasks_count = list(tasks);
    handlers_count = list(handlers);
}

/* A run, laid out as the harness has it. */
static struct {
    uint32_t t[192], h[32];
    uint64_t next[80], due[64], owed[80], figures[9];
} run;

static void answer(uint64_t question) {
    int by_column = question > 100;
    uint64_t out[COWRIEDASH_NUMBERS] = {0};
    uint64_t lengths[COWRIEDASH_TASKS_MOST];
    int64_t ticks = 0;
    uint32_t counts[COWRIEDASH_COUNTS];
    bool bursty;
    switch (question % 100) {
    case 1:
        table();
        (by_column ? cowriedash_verdict_by_column : cowriedash_verdict)(tasks, tasks_count, handlers, handlers_count, out);
        put(out, sizeof out);
        break;
    case 2:
        table();
        (by_column ? cowriedash_handler_demand_by_column : cowriedash_handler_demand)(tasks, tasks_count, handlers, handlers_count, number(), out);
        put(out, 3 * sizeof *out);
        break;
    case 3:
        table();
        (by_column ? cowriedash_task_demand_by_column : cowriedash_task_demand)(tasks, tasks_count, handlers, handlers_count, number(), out);
        put(out, 2 * sizeof *out);
        break;
    case 4:
        table();
        out[0] = (by_column ? cowriedash_margin_by_column : cowriedash_margin)(tasks, tasks_count, handlers, handlers_count, number(), &ticks, &out[1]);
        put(out, 2 * sizeof *out);
        put(&ticks, sizeof ticks);
        break;
    case 5:
        table();
        (by_column ? harness_fresh_by_column : harness_fresh)(tasks, tasks_count, handlers, handlers_count, run.t, run.h, run.next, run.due, run.owed, run.figures);
        put(&run, sizeof run);
        break;
    case 6:
        get(&run, sizeof run);
        tasks_count = list(tasks);
        harness_step(run.t, run.h, run.next, run.due, run.owed, run.figures, tasks, tasks_count);
        put(&run, sizeof run);
        break;
    case 7:
        table();
        out[0] = (by_column ? cowriedash_responses_by_column : cowriedash_responses)(tasks, tasks_count, handlers, handlers_count, lengths);
        put(out, sizeof *out);
        put(lengths, sizeof lengths);
        break;
    case 8:
        get(&run, sizeof run);
        tasks_count = list(tasks);
        harness_step_by_priority(run.t, run.h, run.next, run.due, run.owed, run.figures, tasks, tasks_count);
        put(&run, sizeof run);
        break;
    case 9:
        bursty = number() != 0;
        get(counts, sizeof counts);
        cowriedash_guard_rows(bursty, counts, out);
        put(out, 4 * sizeof *out);
        break;
    case 10:
        table();
        (by_column ? cowriedash_trim_by_column : cowriedash_trim)(tasks, tasks_count, handlers, handlers_count, number(), out);
        put(out, COWRIEDASH_TRIM_NUMBERS * sizeof *out);
        break;
    case 11:
        table();
        cowriedash_charges(tasks, tasks_count, handlers, handlers_count, number(), out);
        put(out, COWRIEDASH_CHARGES * sizeof *out);
        break;
    case 12:
        table();
        schedule();
        cowriedash_judge(tasks, tasks_count, handlers, handlers_count, segments, segments_count, number(), out);
        put(out, 3 * sizeof *out);
        break;
    default:
        exit(1);
    }
    fflush(stdout);
}

int main(void) {
    for (;;) answer(number());
}
