//! Tables to compare on: small ones that a blind search can settle, and hostile ones at the ends of the ranges.

use crate::random::Random;

pub struct Table {
    pub tasks: Vec<u32>,
    pub handlers: Vec<u32>,
}

/// Periods whose common multiple stays small.
const SMALL: [u32; 14] = [1, 2, 3, 4, 5, 6, 8, 9, 10, 12, 15, 16, 20, 24];

fn row(random: &mut Random, heavy: u64) -> [u32; 2] {
    let period = random.one_of(&SMALL);
    let cost = random.from_to(1, (period as u64 / heavy).max(1)) as u32;
    [cost, period]
}

/// A deadline of a task: its period, any up to it, or half of it.
fn deadline(random: &mut Random, plain: bool, period: u32) -> u32 {
    if plain || period < 2 {
        return period;
    }
    match random.below(4) {
        0 => period,
        1 => (period / 2).max(1),
        _ => random.from_to(1, period as u64) as u32,
    }
}

/// A readable table that is often near full, its deadlines short or its periods.
pub fn small(random: &mut Random) -> Table {
    let (t, h) = (random.from_to(1, 5), random.below(4));
    let heavy = random.from_to(1, 2 * (t + h));
    let plain = random.chance(3);
    let tasks = (0..t)
        .flat_map(|_| {
            let [cost, period] = row(random, heavy);
            [cost, period, deadline(random, plain, period)]
        })
        .collect();
    let handlers = (0..h).flat_map(|_| row(random, heavy * 2)).collect();
    Table { tasks, handlers }
}

/// A figure at or near the end of a range.
fn edge(random: &mut Random) -> u32 {
    random.one_of(&[0, 1, 1, 2, 3, 7, 999, 1000, 999_999, 1_000_000, 1_000_000, 1_000_001, u32::MAX])
}

/// A table at the ends of the ranges, refused or not.
pub fn hostile(random: &mut Random) -> Table {
    let t = random.one_of(&[0, 1, 2, 3, 63, 64, 65, 128, 200]);
    let h = random.one_of(&[0, 0, 1, 2, 15, 16, 17, 40]);
    let odd = random.chance(8);
    let fill = |random: &mut Random, n: usize, width: usize| -> Vec<u32> {
        let same = [edge(random), edge(random), edge(random)];
        let alike = !random.chance(3);
        (0..width * n).map(|i| if alike { same[i % width] } else { edge(random) }).collect()
    };
    let mut tasks = fill(random, t, 3);
    let mut handlers = fill(random, h, 2);
    if random.chance(2) {
        tasks.chunks_exact_mut(3).for_each(|r| r[2] = r[1]);
    }
    if odd && random.chance(2) {
        tasks.extend(random.one_of(&[&[1][..], &[1, 1][..]]));
    } else if odd {
        handlers.push(1);
    }
    Table { tasks, handlers }
}

/// Readable figures of any size; H is often above its limit.
pub fn wide(random: &mut Random) -> Table {
    let any = |random: &mut Random| -> u32 {
        let digits = random.from_to(1, 6) as u32;
        random.from_to(1, 10u64.pow(digits)) as u32
    };
    let (t, h) = (random.from_to(1, 3), random.below(3));
    let plain = random.chance(2);
    let tasks = (0..t)
        .flat_map(|_| {
            let (cost, period) = (any(random), any(random));
            [cost, period, deadline(random, plain, period)]
        })
        .collect();
    let handlers = (0..2 * h).map(|_| any(random)).collect();
    Table { tasks, handlers }
}
