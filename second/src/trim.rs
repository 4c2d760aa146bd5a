//! Trimming (02, M-112): the greatest cost of a named task, from 1 up to its present one, at which the table fits, all else kept.

use crate::model;
use crate::proved;
use crate::random::Random;
use crate::tables::{self, Table};

/// How far a verdict is searched.
pub const PATIENCE: u128 = 3_000;
/// The greatest cost below which each one is tried.
pub const COSTS: u32 = 300;

#[derive(Default)]
pub struct Counts {
    pub all: u64,
    pub kept: u64,
    pub lowered: u64,
    pub none: u64,
    /// Refused tables, and those of them that lack the task.
    pub refused: u64,
    pub missing: u64,
}

/// The refusal's number or 0, the present cost, and the new one or 0 for none: every cost is tried, from the present one downward.
/// Where a blind search would have to go further than `patience`, that length; where there are more than `costs` of them, their count.
pub fn trim(table: &Table, row: u64, patience: u128, costs: u32) -> Result<[u64; 3], u128> {
    if let Err(k) = model::figures(&table.tasks, &table.handlers) {
        return Ok([k as u64, 0, 0]);
    }
    let tasks: Vec<&[u32]> = table.tasks.chunks_exact(3).collect();
    if row >= tasks.len() as u64 {
        return Ok([18, 0, 0]);
    }
    let old = tasks[row as usize][0];
    if old > costs {
        return Err(old as u128);
    }
    let mut lowered = table.tasks.clone();
    for cost in (1..=old).rev() {
        lowered[3 * row as usize] = cost;
        if model::verdict(&lowered, &table.handlers, patience)?[0] == 0 {
            return Ok([0, old as u64, cost as u64]);
        }
    }
    Ok([0, old as u64, 0])
}

/// Both answers for a task of a table; an error shows them.
fn check(table: &Table, row: u64, counts: &mut Counts) -> Result<(), String> {
    let Ok(want) = trim(table, row, PATIENCE, COSTS) else { return Ok(()) };
    let got = proved::trim(&table.tasks, &table.handlers, row);
    if got != want {
        let Table { tasks, handlers } = table;
        return Err(format!("task {row} of tasks {tasks:?}, handlers {handlers:?}: proved {got:?}, second program {want:?}"));
    }
    counts.all += 1;
    match want {
        [18, ..] => counts.missing += 1,
        [0, _, 0] => counts.none += 1,
        [0, old, new] if old == new => counts.kept += 1,
        [0, ..] => counts.lowered += 1,
        _ => {}
    }
    counts.refused += (want[0] > 0) as u64;
    Ok(())
}

/// A small table in slower ticks, so that there is room, and any cost for one of its tasks.
pub fn heavy(random: &mut Random) -> (Table, u64) {
    let mut table = tables::small(random);
    let slower = random.from_to(2, 4) as u32;
    table.tasks.chunks_exact_mut(3).for_each(|r| r[1..].iter_mut().for_each(|n| *n *= slower));
    table.handlers.chunks_exact_mut(2).for_each(|r| r[1] *= slower);
    let row = random.below(table.tasks.len() as u64 / 3);
    table.tasks[3 * row as usize] = random.from_to(1, 60) as u32;
    (table, row)
}

/// A task of this table, or one past its last, and one of a table that fits with less; an error shows what differs.
pub fn compare(random: &mut Random, table: &Table, counts: &mut Counts) -> Result<(), String> {
    let tasks = table.tasks.len() as u64 / 3;
    let row = match random.below(8) {
        0 => random.one_of(&[tasks, tasks + 1, 64, u32::MAX as u64, u64::MAX]),
        _ => random.below(tasks.max(1)),
    };
    check(table, row, counts)?;
    let (table, row) = heavy(random);
    check(&table, row, counts)
}
