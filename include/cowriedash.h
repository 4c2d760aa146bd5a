/* Cowriedash for C: the verdict on a table, the two demands, the responses by fixed priority, the rows of guarded interrupts and the
   greatest cost of a task that fits, without the scheduler.

   A table is two lists of 32-bit numbers: tasks in threes (cost, period, deadline, cost, ..), each deadline from 1 to
   its period, and handlers in twos (cost, period, cost, ..).
   A count is the count of numbers, not of rows; a list with the count 0 may be NULL. Pointers must be valid for as many numbers as are
   named. Every input gets an answer; nothing lent is changed but `out` and `left`, which must not overlap the lists or each other. They are
   filled by every call: after a refused one with the refusal's number and 0 everywhere else.
   Nothing is kept between calls, so that any number of threads may call at once, each with its own `out`; no memory is asked for, and a few
   kilobytes of stack are enough.
   Running time: microseconds to milliseconds for a usual table. A verdict goes through the deadlines of tasks and the arrivals of handlers
   up to H; a demand and a margin through the arrivals within one common period of the handlers, or up to l where that is longer. So seconds
   pass, and in the worst tables about a minute, where H or l is near its limit and a period is short. A call cannot be interrupted.
   Link with libcowriedash.a, which is for Linux on x86-64 (README.md says how it is made). */
#ifndef COWRIEDASH_H
#define COWRIEDASH_H

#include <stdbool.h>
#include <stddef.h>
#include <stdint.h>

#ifdef __cplusplus
extern "C" {
#endif

/* What out[0] of cowriedash_verdict says. */
enum { COWRIEDASH_FITS = 0, COWRIEDASH_MISSES = 1, COWRIEDASH_REFUSED = 2 };

/* How many numbers a verdict has. */
enum { COWRIEDASH_NUMBERS = 8 };

/* out: fits, misses or refused; the refusal's number (1, 2, 3, 13 or 4) or 0; the shortest interval that fails; handler demand
   there; task demand there; the load in millionths, rounded up; the handlers' work left over at the end of that interval;
   how many test lengths there are up to the end of the search. What does not apply is 0. */
void cowriedash_verdict(const uint32_t *tasks, size_t tasks_count, const uint32_t *handlers, size_t handlers_count,
                        uint64_t out[COWRIEDASH_NUMBERS]);

/* out: the refusal's number (1, 2, 3, 13 or 5) or 0; the ticks of an interval of l that handlers take; their work left over at its end.
   Both are 0 if refused. */
void cowriedash_handler_demand(const uint32_t *tasks, size_t tasks_count, const uint32_t *handlers,
                               size_t handlers_count, uint64_t l, uint64_t out[3]);

/* out: the refusal's number (1, 2, 3, 13 or 5) or 0; the work of tasks due within l ticks, 0 if refused. */
void cowriedash_task_demand(const uint32_t *tasks, size_t tasks_count, const uint32_t *handlers, size_t handlers_count,
                            uint64_t l, uint64_t out[2]);

/* Returns the refusal's number (1, 2, 3, 13 or 5) or 0; out: l less both demands, below 0 exactly where the interval
   fails; left: the handlers' work left over at its end. Both are 0 if refused. */
uint32_t cowriedash_margin(const uint32_t *tasks, size_t tasks_count, const uint32_t *handlers, size_t handlers_count,
                           uint64_t l, int64_t *out, uint64_t *left);

/* The most tasks of a table, and so the places of out. */
enum { COWRIEDASH_TASKS_MOST = 64 };

/* By fixed priority, the shorter period first, the lower row on a tie. Returns the refusal's number (1, 2, 3 or 13) or 0; out: for each
   task the least length from 1 to its deadline with room for all that handlers, the tasks above it and itself may ask within it, 0 where
   there is none, past the last task and if refused. H may be of any size. At most a million turns, each through all rows. */
uint32_t cowriedash_responses(const uint32_t *tasks, size_t tasks_count, const uint32_t *handlers, size_t handlers_count,
                              uint64_t out[64]);

/* How many counts a guard has: N, int, flip, setup, work, expire, count, clear, gap, in this order. */
enum { COWRIEDASH_COUNTS = 9 };

/* The two handler rows of a guard that limits a device's interrupts in software, from measured tick counts. A strict guard has no N, count
   or clear, a bursty one no setup: what stands there is not read. out: the refusal's number (14 or 3) or 0; the cost of the interrupt's
   row; that of the timer's; the period of both, which is the gap. All three are 0 if refused. */
void cowriedash_guard_rows(bool bursty, const uint32_t counts[COWRIEDASH_COUNTS], uint64_t out[4]);

/* How many numbers a trimmed table has. */
enum { COWRIEDASH_TRIM_NUMBERS = 3 };

/* The greatest cost of the task at row, counted from 0, from 1 up to its present one, at which the table fits, all else kept. out: the
   refusal's number (1, 2, 3, 13, 4 or 18, a named task that isn't in the table) or 0; the present cost; the new one, equal to it where the
   table fits already, 0 where no cost from 1 fits. The list itself is not changed. Takes the time of 22 verdicts at most. */
void cowriedash_trim(const uint32_t *tasks, size_t tasks_count, const uint32_t *handlers, size_t handlers_count, size_t row,
                     uint64_t out[COWRIEDASH_TRIM_NUMBERS]);

/* How many numbers tell a table that is charged in three ways. */
enum { COWRIEDASH_CHARGES = 7 };

/* Three ways of charging handlers, with a quantum of 1 to 100,000 ticks. out: the exact verdict's word (0 fits, 1 misses, 2 refused), the
   refusal's number (19, a quantum out of range, before any other; 1, 2, 3, 13 or 4) or 0, and its load in millionths; then word (0 fits, 1
   misses, 3 none) and load of the charge by whole quanta, each task's cost in quanta of which handlers leave the useful part, and of the
   charge by task, each cost with what handlers take of its period, both without handlers. None, with load 0, where a deadline is not its
   period, the table is refused or, by quanta, nothing of a quantum is useful. */
void cowriedash_charges(const uint32_t *tasks, size_t tasks_count, const uint32_t *handlers, size_t handlers_count, uint64_t quantum,
                        uint64_t out[COWRIEDASH_CHARGES]);

/* How many numbers tell a judged schedule. */
enum { COWRIEDASH_JUDGED = 3 };

/* A schedule made elsewhere, up to a span from 1 to H, every row of the table arriving at 0 and each period at full cost. A segment is four
   numbers: kind (0 a task, 1 a handler), row counted from 0 within its kind, from, to; it has the ticks from, from + 1, .., to - 1. At most
   2,048 segments, in time order; segments_count counts numbers. out: 0 accepted, 1 broken, 2 refused; the refusal's number (1, 2, 3, 13, 4, then 16,
   then 17) or 0; the first tick at which a rule is broken, of unfinished work its deadline, or 0. Time goes with segments and rows, not with the span. */
void cowriedash_judge(const uint32_t *tasks, size_t tasks_count, const uint32_t *handlers, size_t handlers_count, const uint64_t *segments,
                      size_t segments_count, uint64_t span, uint64_t out[COWRIEDASH_JUDGED]);

/* The calls on a table for one held by column: tasks as all costs, then all periods, then all deadlines; handlers as all costs, then all
   periods. Each answers what the call without by_column answers for the same rows one after the other, refusals included; a count of tasks that is no
   multiple of 3, or one of handlers that is none of 2, is refusal 1 in both. At most 224 numbers are copied, on the stack. */
void cowriedash_verdict_by_column(const uint32_t *tasks, size_t tasks_count, const uint32_t *handlers, size_t handlers_count,
                                  uint64_t out[COWRIEDASH_NUMBERS]);
void cowriedash_handler_demand_by_column(const uint32_t *tasks, size_t tasks_count, const uint32_t *handlers,
                                         size_t handlers_count, uint64_t l, uint64_t out[3]);
void cowriedash_task_demand_by_column(const uint32_t *tasks, size_t tasks_count, const uint32_t *handlers,
                                      size_t handlers_count, uint64_t l, uint64_t out[2]);
uint32_t cowriedash_margin_by_column(const uint32_t *tasks, size_t tasks_count, const uint32_t *handlers,
                                     size_t handlers_count, uint64_t l, int64_t *out, uint64_t *left);
uint32_t cowriedash_responses_by_column(const uint32_t *tasks, size_t tasks_count, const uint32_t *handlers,
                                        size_t handlers_count, uint64_t out[64]);
void cowriedash_trim_by_column(const uint32_t *tasks, size_t tasks_count, const uint32_t *handlers, size_t handlers_count,
                               size_t row, uint64_t out[COWRIEDASH_TRIM_NUMBERS]);

#ifdef __cplusplus
}
#endif

#endif
