//! Rows for guarded interrupts (02, M-107): what two handler rows a guard has, and that a milder guard keeps a yes.

use crate::model::FIGURE;
use crate::proved;
use crate::random::Random;
use crate::tables::{self, Table};

/// A guard by its counts: N, int, flip, setup, work, expire, count, clear, gap. A strict one has no N, count or clear, a bursty one no
/// setup.
#[derive(Clone, Debug)]
pub struct Guard {
    pub bursty: bool,
    pub counts: [u32; 9],
}

#[derive(Default)]
pub struct Counts {
    /// Guards with rows, refused by 14 and by 3.
    pub rows: u64,
    pub burst: u64,
    pub outside: u64,
    /// Tables with a yes that a milder guard kept.
    pub kept: u64,
}

/// The refusal's number or 0, the cost of the interrupt, that of the timer, the period of both.
pub fn rows(guard: &Guard) -> Vec<u64> {
    let [n, int, flip, setup, work, expire, count, clear, gap] = guard.counts.map(u128::from);
    let (interrupt, timer) = if guard.bursty {
        if !(1..=1_000).contains(&n) {
            return vec![14, 0, 0, 0];
        }
        // One interrupt of the burst after the other, then the flip.
        let burst: u128 = (0..n).map(|_| int + work + count).sum();
        (burst + flip, expire + clear + flip)
    } else {
        (int + flip + setup + work, expire + flip)
    };
    if [interrupt, timer, gap].iter().any(|&figure| figure < 1 || figure > FIGURE) {
        return vec![3, 0, 0, 0];
    }
    vec![0, interrupt as u64, timer as u64, gap as u64]
}

/// A count at the end of a range, near it, or of any size.
fn count(random: &mut Random, most: u64) -> u32 {
    match random.below(8) {
        0 => random.one_of(&[0, 1, 999, 1_000, 1_001, 999_999, 1_000_000, 1_000_001, u32::MAX - 1, u32::MAX]),
        _ => random.from_to(0, most) as u32,
    }
}

pub fn any(random: &mut Random) -> Guard {
    let most = random.one_of(&[1, 9, 300, 1_000, 250_000, 500_000, u32::MAX as u64]);
    let mut counts = [(); 9].map(|()| count(random, most));
    // A usual N and gap, so that most guards reach the sums.
    if !random.chance(4) {
        counts[0] = random.one_of(&[0, 1, 2, 15, 999, 1_000, 1_001]);
    }
    if !random.chance(4) {
        counts[8] = random.from_to(1, FIGURE as u64) as u32;
    }
    // The last cost is what lacks to a sum of 1,000,000, or one more or less.
    if random.chance(4) {
        let short = (FIGURE as u64).saturating_sub(counts[1] as u64 + counts[2] as u64 + counts[3] as u64);
        counts[4] = (short + random.below(3)).saturating_sub(1) as u32;
        counts[0] = 1;
        counts[6] = counts[3];
    }
    Guard { bursty: random.chance(2), counts }
}

/// The rows of a guard; an error says what differs.
pub fn compare(random: &mut Random, counts: &mut Counts) -> Result<(), String> {
    let guard = any(random);
    let (got, want) = (proved::guard_rows(guard.bursty, &guard.counts), rows(&guard));
    if got != want {
        return Err(format!("{guard:?}: proved {got:?}, second program {want:?}"));
    }
    match want[0] {
        0 => counts.rows += 1,
        14 => counts.burst += 1,
        _ => counts.outside += 1,
    }
    Ok(())
}

/// The handlers with two rows, of these costs and this period, put in at places i and then j.
fn with_rows(handlers: &[u32], i: usize, j: usize, rows: &[u64]) -> Vec<u32> {
    let mut all: Vec<[u32; 2]> = handlers.chunks_exact(2).map(|r| [r[0], r[1]]).collect();
    all.insert(i, [rows[1] as u32, rows[3] as u32]);
    all.insert(j, [rows[2] as u32, rows[3] as u32]);
    all.concat()
}

/// A table that holds a guard's rows and fits, with those of a milder guard in their place; an error says what became of the yes.
pub fn lower(random: &mut Random, counts: &mut Counts) -> Result<(), String> {
    let Table { mut tasks, mut handlers } = tables::small(random);
    // Room for two rows more.
    let slower = random.from_to(1, 8) as u32;
    tasks.chunks_exact_mut(3).for_each(|r| r[1..].iter_mut().for_each(|n| *n *= slower));
    handlers.chunks_exact_mut(2).for_each(|r| r[1] *= slower);
    let mut guard = Guard { bursty: random.chance(2), counts: [(); 9].map(|()| random.from_to(0, 2) as u32) };
    guard.counts[0] = random.from_to(1, 4) as u32;
    guard.counts[8] = random.one_of(&[24, 60, 120, 240, 720]);
    // All but the gap may be lowered.
    let mut milder = guard.clone();
    milder.counts[..8].iter_mut().for_each(|n| *n -= random.below(*n as u64 + 1) as u32);
    let places = handlers.len() as u64 / 2;
    let (i, j) = (random.from_to(0, places) as usize, random.from_to(0, places + 1) as usize);
    let (old, new) = (rows(&guard), rows(&milder));
    if old[0] > 0 || new[0] > 0 {
        return Ok(());
    }
    let (was, is) = (with_rows(&handlers, i, j, &old), with_rows(&handlers, i, j, &new));
    if proved::verdict(&tasks, &was)[0] != 0 {
        return Ok(());
    }
    let sheet = proved::verdict(&tasks, &is);
    if sheet[0] != 0 {
        return Err(format!("tasks {tasks:?}: handlers {was:?} of {guard:?} fit, {is:?} of {milder:?} are told {sheet:?}"));
    }
    counts.kept += 1;
    Ok(())
}
