/* Do tasks 2/5 and 4/8, each due by its next arrival, fit beside a handler 1/4? And what are the rows of a guard?
   And what would task 1 have to cost? */
#include <inttypes.h>
#include <stdio.h>

#include "cowriedash.h"

int main(void) {
    const uint32_t tasks[] = {2, 5, 5, 4, 8, 8}, handlers[] = {1, 4};
    /* A guard that lets 15 interrupts through every 40,000 ticks: N, int, flip, setup (it has none), work, expire, count, clear, gap. */
    const uint32_t guard[COWRIEDASH_COUNTS] = {15, 79, 5, 0, 600, 79, 12, 5, 40000};
    uint64_t sheet[COWRIEDASH_NUMBERS], left, response[COWRIEDASH_TASKS_MOST], rows[4], trimmed[COWRIEDASH_TRIM_NUMBERS];
    int64_t margin;
    /* The same tasks as the kernel's build keeps them: all costs, all periods, all deadlines. */
    const uint32_t columns[] = {2, 4, 5, 8, 5, 8};

    cowriedash_verdict(tasks, 6, handlers, 2, sheet);
    if (sheet[0] == COWRIEDASH_MISSES)
        printf("misses at %" PRIu64 ": handlers %" PRIu64 ", tasks %" PRIu64 ", left %" PRIu64 "\n", sheet[2], sheet[3], sheet[4], sheet[6]);
    if (cowriedash_margin(tasks, 6, handlers, 2, 8, &margin, &left) == 0)
        printf("margin at 8: %" PRId64 ", left %" PRIu64 "\n", margin, left);
    if (cowriedash_responses(tasks, 6, handlers, 2, response) == 0)
        printf("by priority: task 0 within %" PRIu64 ", task 1 %s\n", response[0], response[1] ? "in time" : "not in time");
    cowriedash_verdict_by_column(columns, 6, handlers, 2, sheet);
    printf("by column: %s at %" PRIu64 "\n", sheet[0] == COWRIEDASH_MISSES ? "misses" : "fits", sheet[2]);
    cowriedash_guard_rows(true, guard, rows);
    if (rows[0] == 0)
        printf("guard: interrupt %" PRIu64 "/%" PRIu64 ", timer %" PRIu64 "/%" PRIu64 "\n", rows[1], rows[3], rows[2], rows[3]);
    cowriedash_trim(tasks, 6, handlers, 2, 1, trimmed);
    if (trimmed[0] == 0 && trimmed[2] > 0)
        printf("task 1 fits with cost %" PRIu64 " for %" PRIu64 "\n", trimmed[2], trimmed[1]);
    return 0;
}
