//! The slow second program: 01's rules read plainly, with nothing shared with the proved code.
//! Every number is 128 bits wide; every sum is done by going through the ticks.

use crate::idle;
use std::collections::HashSet;

pub const FIGURE: u128 = 1_000_000;
pub const LIMIT: u128 = 1_000_000_000;

/// How many numbers a sheet has, that of its word with them.
pub const NUMBERS: usize = 8;

#[derive(Clone, Copy, Debug, PartialEq)]
pub struct Task {
    pub cost: u128,
    pub period: u128,
    pub deadline: u128,
}

#[derive(Clone, Copy, Debug, PartialEq)]
pub struct Handler {
    pub cost: u128,
    pub period: u128,
}

/// The tasks of a flat list: three numbers each.
pub fn tasks_of(list: &[u32]) -> Vec<Task> {
    list.chunks_exact(3).map(|r| Task { cost: r[0] as u128, period: r[1] as u128, deadline: r[2] as u128 }).collect()
}

/// The handlers of a flat list: two numbers each.
pub fn handlers_of(list: &[u32]) -> Vec<Handler> {
    list.chunks_exact(2).map(|r| Handler { cost: r[0] as u128, period: r[1] as u128 }).collect()
}

/// Refusals 1, 2, 3 and 13 of a table, in this order, 0 for none.
pub fn table_refusal(tasks: &[u32], handlers: &[u32]) -> u32 {
    if tasks.len() % 3 != 0 || handlers.len() % 2 != 0 {
        return 1;
    }
    let (t, h) = (tasks_of(tasks), handlers_of(handlers));
    if t.is_empty() || t.len() > 64 || h.len() > 16 {
        return 2;
    }
    let bad = |x: u128| x == 0 || x > FIGURE;
    if t.iter().any(|r| bad(r.cost) || bad(r.period)) || h.iter().any(|r| bad(r.cost) || bad(r.period)) {
        return 3;
    }
    if t.iter().any(|r| r.deadline == 0 || r.deadline > r.period) {
        return 13;
    }
    0
}

/// The refusal of a question about an interval: 1, 2, 3, 13 or 5, 0 for none.
pub fn asked_refusal(tasks: &[u32], handlers: &[u32], l: u64) -> u32 {
    match table_refusal(tasks, handlers) {
        0 if l as u128 > LIMIT => 5,
        k => k,
    }
}

/// f, tick by tick, by the recurrence. The work called for grows with each arrival.
#[derive(Default)]
pub struct Handled {
    tick: u128,
    work: u128,
    pub ticks: u128,
}

impl Handled {
    /// Called for and not done: what handlers leave over.
    pub fn left(&self) -> u128 {
        self.work - self.ticks
    }

    fn next(&mut self, handlers: &[Handler]) {
        for h in handlers {
            if self.tick % h.period == 0 {
                self.work += h.cost;
            }
        }
        if self.ticks < self.work {
            self.ticks += 1;
        }
        self.tick += 1;
    }
}

/// f(l), and what handlers leave over.
pub fn handled(handlers: &[Handler], l: u128) -> Handled {
    let mut f = Handled::default();
    (0..l).for_each(|_| f.next(handlers));
    f
}

/// D(l): each task's deadlines up to l, counted, the first job arriving at 0.
pub fn due(tasks: &[Task], l: u128) -> u128 {
    let mut work = 0;
    for t in tasks {
        let mut at = t.deadline;
        while at <= l {
            work += t.cost;
            at += t.period;
        }
    }
    work
}

/// H by trial: the least multiple of the longest period that all periods divide, or none up to the limit.
pub fn period(all: &[u128]) -> Option<u128> {
    let longest = *all.iter().max()?;
    let mut h = longest;
    while h <= LIMIT {
        if all.iter().all(|p| h % p == 0) {
            return Some(h);
        }
        h += longest;
    }
    None
}

/// A readable table with its H and W.
pub struct Figures {
    pub tasks: Vec<Task>,
    pub handlers: Vec<Handler>,
    pub hyper: u128,
    pub whole: u128,
}

/// H and W of a table, or its refusal.
pub fn figures(tasks: &[u32], handlers: &[u32]) -> Result<Figures, u32> {
    match table_refusal(tasks, handlers) {
        0 => {}
        k => return Err(k),
    }
    let (tasks, handlers) = (tasks_of(tasks), handlers_of(handlers));
    let periods: Vec<u128> = tasks.iter().map(|r| r.period).chain(handlers.iter().map(|r| r.period)).collect();
    let Some(hyper) = period(&periods) else { return Err(4) };
    let costs = tasks.iter().map(|r| r.cost).chain(handlers.iter().map(|r| r.cost));
    let whole = costs.zip(&periods).map(|(c, p)| c * (hyper / p)).sum();
    Ok(Figures { tasks, handlers, hyper, whole })
}

/// The distinct lengths up to `end` at which some task has a deadline: a set of them all.
fn tested(tasks: &[Task], end: u128) -> u64 {
    let mut lengths = HashSet::new();
    for t in tasks {
        lengths.extend((t.deadline..=end).step_by(t.period as usize));
    }
    lengths.len() as u64
}

/// The numbers of a refusal: all but its own are 0.
pub fn refused(number: u32) -> [u64; NUMBERS] {
    let mut sheet = [0; NUMBERS];
    sheet[..2].copy_from_slice(&[2, number as u64]);
    sheet
}

/// The numbers of a sheet: 0 fits, 1 misses, 2 refused; code, interval, handler, task, load, left, tested.
/// Where a blind search would have to go further than `patience`, the length to which it would have to go.
pub fn verdict(tasks: &[u32], handlers: &[u32], patience: u128) -> Result<[u64; NUMBERS], u128> {
    let table = match figures(tasks, handlers) {
        Ok(table) => table,
        Err(k) => return Ok(refused(k)),
    };
    let Figures { tasks, handlers, hyper, whole } = &table;
    let (hyper, whole) = (*hyper, *whole);
    let mut load = 1_000_000 * whole / hyper;
    if load * hyper < 1_000_000 * whole {
        load += 1;
    }
    // Blind: every length, twice as far as H, and only a table that is not overfull may end without a failure.
    let end = (2 * hyper).min(patience);
    let mut f = Handled::default();
    let mut d = 0;
    for l in 1..=end {
        f.next(handlers);
        for task in tasks {
            if l >= task.deadline && (l - task.deadline) % task.period == 0 {
                d += task.cost;
            }
        }
        if f.ticks + d > l {
            return Ok([1, 0, l as u64, f.ticks as u64, d as u64, load as u64, f.left() as u64, tested(tasks, l)]);
        }
    }
    if end < 2 * hyper {
        return Err(2 * hyper);
    }
    Ok([0, 0, 0, 0, 0, load as u64, 0, tested(tasks, idle::yes_end(&table))])
}
