//! Schedules to judge: our own and others that keep the rules, whole or with a tick or a segment changed, and hostile lists.

use crate::model::{self, Figures};
use crate::random::Random;
use crate::scheduler::{self, Answer, By, Ran};
use crate::tables::{self, Table};

pub struct Drawn {
    pub table: Table,
    /// Four a segment: kind, row, from, to.
    pub numbers: Vec<u64>,
    pub span: u64,
    /// Our own scheduler's, whole and as it is.
    pub own: bool,
}

/// The most ticks that are drawn.
const DRAWN: u64 = 800;
/// About the longest H in slower ticks.
const LONG: u64 = 45_000;

/// Who has a tick: kind and row.
type Tick = Option<(u64, u64)>;

/// The work that a row brings at a clock.
fn work(cost: u32, period: u32, clock: u64) -> u32 {
    if clock % period as u64 == 0 {
        cost
    } else {
        0
    }
}

/// Our own scheduler's ticks up to the span, or until a task is late.
fn own(table: &Table, span: u64) -> Vec<Tick> {
    let mut run = scheduler::fresh(&table.tasks, &table.handlers);
    let mut ticks = vec![];
    for clock in 0..span {
        let tasks = table.tasks.chunks(3).map(|r| work(r[0], r[1], clock));
        let arrivals: Vec<u32> = tasks.chain(table.handlers.chunks(2).map(|r| work(r[0], r[1], clock))).collect();
        let (after, answer) = scheduler::step(&run, &arrivals, By::Deadline);
        match answer {
            Answer::Ticked(Ran::Task(row), _) => ticks.push(Some((0, row))),
            Answer::Ticked(Ran::Handler(row), _) => ticks.push(Some((1, row))),
            Answer::Ticked(Ran::Idle, _) => ticks.push(None),
            Answer::Refused(_) => break,
        }
        run = after;
    }
    ticks
}

/// Ticks that keep the rules but perhaps for deadlines: any handler that is owed work, else any such task, now and then none.
fn another(random: &mut Random, table: &Table, span: u64) -> Vec<Tick> {
    let tasks = table.tasks.chunks(3).zip(0..).map(|(r, i)| ((0, i), r[0], r[1], 0));
    let handlers = table.handlers.chunks(2).zip(0..).map(|(r, i)| ((1, i), r[0], r[1], 0));
    let mut rows: Vec<((u64, u64), u32, u32, u64)> = tasks.chain(handlers).collect();
    let lazy = random.one_of(&[4, 20, 1_000]);
    let mut ticks = vec![];
    for clock in 0..span {
        for (_, cost, period, owed) in &mut rows {
            *owed += work(*cost, *period, clock) as u64;
        }
        let owed = |kind| rows.iter().enumerate().filter(move |(_, r)| r.0 .0 == kind && r.3 > 0).map(|(at, _)| at).collect::<Vec<_>>();
        let mut able = owed(1);
        if able.is_empty() && !random.chance(lazy) {
            able = owed(0);
        }
        // The first of them more often, so that segments are longer than a tick.
        let at = if random.chance(4) { random.below(able.len().max(1) as u64) as usize } else { 0 };
        ticks.push(able.get(at).map(|&place| {
            rows[place].3 -= 1;
            rows[place].0
        }));
    }
    ticks
}

/// One tick given to any row or to none, or changed with another.
fn change_tick(random: &mut Random, ticks: &mut [Tick]) {
    if ticks.is_empty() {
        return;
    }
    let (at, other) = (random.below(ticks.len() as u64) as usize, random.below(ticks.len() as u64) as usize);
    match random.below(3) {
        0 => ticks[at] = None,
        1 => ticks[at] = Some((random.below(2), random.below(3))),
        _ => ticks.swap(at, other),
    }
}

/// Neighbouring ticks of one row joined, but cut with a chance of one in so many.
fn joined(random: &mut Random, ticks: &[Tick], cut: u64) -> Vec<[u64; 4]> {
    let mut list: Vec<[u64; 4]> = vec![];
    for (tick, clock) in ticks.iter().zip(0..) {
        let Some((kind, row)) = *tick else { continue };
        match list.last_mut() {
            Some(last) if last[..2] == [kind, row] && last[3] == clock && !random.chance(cut) => last[3] += 1,
            _ => list.push([kind, row, clock, clock + 1]),
        }
    }
    list
}

/// One segment dropped, doubled, given to another row, made longer or shorter, moved, or changed with another.
fn change_segment(random: &mut Random, list: &mut Vec<[u64; 4]>) {
    if list.is_empty() {
        let from = random.below(10);
        list.push([random.below(2), random.below(3), from, from + random.below(4)]);
    }
    let count = list.len() as u64;
    let (at, other) = (random.below(count) as usize, random.below(count) as usize);
    let by = random.one_of(&[1, 1, 2, 3]);
    let earlier = |n: &mut u64| *n = n.saturating_sub(by);
    match random.below(12) {
        0 => drop(list.remove(at)),
        1 => list.insert(at, list[at]),
        2 => list[at][1] = random.below(4),
        3 => list[at][0] = 1 - list[at][0],
        4 => list[at][3] += by,
        5 => earlier(&mut list[at][3]),
        6 => list[at][2] += by,
        7 => earlier(&mut list[at][2]),
        8 => list[at][2..].iter_mut().for_each(|n| *n += by),
        9 => list[at][2..].iter_mut().for_each(earlier),
        10 => list.swap(at, other),
        // All from here on later, as after a gap.
        _ => list[at..].iter_mut().for_each(|s| s[2..].iter_mut().for_each(|n| *n += by)),
    }
}

/// A number more or less, or one at the end of a range.
fn hostile(random: &mut Random, numbers: &mut Vec<u64>) {
    let any = random.one_of(&[0, 1, 2, 16, 64, 4_294_967_296, 9_999_999_999, 10_000_000_000, u64::MAX - 1, u64::MAX]);
    match random.below(3) {
        0 => numbers.push(any),
        1 => drop(numbers.pop()),
        _ if numbers.is_empty() => numbers.extend([any, 0, 0, 1]),
        _ => {
            let at = random.below(numbers.len() as u64) as usize;
            numbers[at] = any;
        }
    }
}

/// A span near a deadline, near H, anywhere, or at the end of a range.
fn span_of(random: &mut Random, figures: &Figures) -> u64 {
    let hyper = figures.hyper as u64;
    let task = figures.tasks[random.below(figures.tasks.len() as u64) as usize];
    let near = task.deadline as u64 + task.period as u64 * random.below(4);
    match random.below(12) {
        0 => random.one_of(&[0, 1, 2, 999_999_999, 1_000_000_000, 1_000_000_001, 4_294_967_297, u64::MAX]),
        1 => hyper + 1 - random.below(3),
        2 => hyper,
        3..=6 => near.min(hyper) + 1 - random.below(3),
        _ => random.from_to(1, hyper.min(150)),
    }
}

/// A schedule of this table, in which one thing or another may be wrong.
pub fn of_table(random: &mut Random, table: &Table) -> Drawn {
    let mut table = Table { tasks: table.tasks.clone(), handlers: table.handlers.clone() };
    let Ok(figures) = model::figures(&table.tasks, &table.handlers) else {
        let numbers = [0, 0, random.below(3), random.from_to(1, 9)][..random.one_of(&[0, 3, 4])].to_vec();
        return Drawn { table, numbers, span: random.below(12), own: false };
    };
    let mut span = span_of(random, &figures);
    let length = span.min(DRAWN);
    let whole = length == span;
    let by_us = random.chance(2);
    let mut ticks = if by_us { own(&table, length) } else { another(random, &table, length) };
    let wrong = random.below(10);
    if matches!(wrong, 1..=3) {
        change_tick(random, &mut ticks);
    }
    let cut = random.one_of(&[3, 20, 1_000]);
    let mut list = joined(random, &ticks, cut);
    // The same in slower ticks, whose segments are longer, now and then by far.
    let slower = match figures.hyper as u64 {
        1_000.. => 1,
        hyper if random.chance(300) => LONG / hyper,
        _ => random.one_of(&[1, 1, 1, 2, 7]),
    };
    table.tasks.iter_mut().chain(&mut table.handlers).for_each(|n| *n = n.saturating_mul(slower as u32));
    list.iter_mut().for_each(|s| s[2..].iter_mut().for_each(|n| *n *= slower));
    span = span.saturating_mul(slower);
    if matches!(wrong, 4 | 5) {
        change_segment(random, &mut list);
    }
    let mut numbers = list.concat();
    if wrong == 6 && random.chance(2) {
        hostile(random, &mut numbers);
    }
    let own = by_us && whole && !matches!(wrong, 1..=6);
    Drawn { table, numbers, span, own }
}

/// A small table, two times in three with longer periods, so that more of them fit.
pub fn light(random: &mut Random) -> Table {
    let mut table = tables::small(random);
    let slower = random.from_to(1, 3) as u32;
    table.tasks.chunks_exact_mut(3).for_each(|r| r[1..].iter_mut().for_each(|n| *n *= slower));
    table.handlers.chunks_exact_mut(2).for_each(|r| r[1] *= slower);
    table
}

pub fn small(random: &mut Random) -> Drawn {
    let table = light(random);
    of_table(random, &table)
}

/// Around 2,048 segments, each of a tick, that are all of a task's one job.
pub fn many(random: &mut Random) -> Drawn {
    let count = random.from_to(2_047, 2_049);
    let table = Table { tasks: vec![count as u32, 4_096, random.from_to(count, 4_096) as u32], handlers: vec![] };
    let apart = random.below(2);
    let numbers = (0..count).flat_map(|at| [0, 0, at + apart, at + apart + 1]).collect();
    Drawn { table, numbers, span: random.from_to(count, 4_096), own: false }
}
