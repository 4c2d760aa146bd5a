//! Three ways of charging handlers (02, M-113; documents 000 and 001), the loads as fractions.

use crate::model;
use crate::proved;
use crate::random::Random;
use crate::tables::Table;

const FITS: u64 = 0;
const MISSES: u64 = 1;
pub const REFUSED: u64 = 2;
pub const NONE: u64 = 3;

/// How far an exact verdict is searched.
const PATIENCE: u128 = 20_000;

#[derive(Default)]
pub struct Counts {
    pub all: u64,
    /// Tables with both other charges, tables that both call a miss while they fit, that one of them calls a fit while they miss, and
    /// tables refused by 19.
    pub charged: u64,
    pub stricter: u64,
    pub milder: u64,
    pub outside: u64,
}

/// Formula 2 of document 001: its cost for each whole period within l ticks, and for what is left of them its cost or, where that is less,
/// all of it.
fn bound(handler: &model::Handler, l: u128) -> u128 {
    let whole = l / handler.period;
    let rest = l - whole * handler.period;
    whole * handler.cost + if rest < handler.cost { rest } else { handler.cost }
}

/// A fraction, added to others without a common multiple in mind.
#[derive(Clone, Copy)]
struct Fraction {
    over: u128,
    under: u128,
}

fn gcd(a: u128, b: u128) -> u128 {
    if b == 0 {
        a
    } else {
        gcd(b, a % b)
    }
}

impl Fraction {
    fn plus(self, other: Fraction) -> Fraction {
        let over = self.over * other.under + other.over * self.under;
        let under = self.under * other.under;
        let common = gcd(over, under);
        Fraction { over: over / common, under: under / common }
    }
    /// In millionths, rounded up.
    fn millionths(self) -> u128 {
        (1_000_000 * self.over).div_ceil(self.under)
    }
}

/// The word and the load of tasks with these costs, without handlers.
fn charged(tasks: &[model::Task], cost: impl Fn(&model::Task) -> u128) -> [u64; 2] {
    let zero = Fraction { over: 0, under: 1 };
    let load = tasks.iter().fold(zero, |sum, t| sum.plus(Fraction { over: cost(t), under: t.period })).millionths();
    [if load <= 1_000_000 { FITS } else { MISSES }, load as u64]
}

/// The charges by whole quanta and by task of a table that is readable.
fn others(table: &Table, quantum: u64) -> [[u64; 2]; 2] {
    let tasks = model::tasks_of(&table.tasks);
    let handlers = model::handlers_of(&table.handlers);
    if tasks.iter().any(|t| t.deadline != t.period) {
        return [[NONE, 0]; 2];
    }
    let taken = |l: u128| handlers.iter().map(|h| bound(h, l)).sum::<u128>();
    let by_task = charged(&tasks, |t| t.cost + taken(t.period));
    let quantum = quantum as i128;
    let useful = quantum - taken(quantum as u128) as i128;
    if useful <= 0 {
        return [[NONE, 0], by_task];
    }
    [charged(&tasks, |t| quantum as u128 * t.cost.div_ceil(useful as u128)), by_task]
}

/// The exact verdict's word, number and load, and word and load of both others; nothing where a blind search would have to go on for long.
pub fn figures(table: &Table, quantum: u64) -> Option<[u64; 7]> {
    if quantum == 0 || quantum > 100_000 {
        return Some([REFUSED, 19, 0, NONE, 0, NONE, 0]);
    }
    let exact = model::verdict(&table.tasks, &table.handlers, PATIENCE).ok()?;
    let [[a, b], [c, d]] = if exact[0] == REFUSED { [[NONE, 0]; 2] } else { others(table, quantum) };
    Some([exact[0], exact[1], exact[5], a, b, c, d])
}

/// Both answers for a table; an error shows them.
pub fn compare(random: &mut Random, table: &Table, counts: &mut Counts) -> Result<(), String> {
    let quantum = match random.below(8) {
        0 => random.one_of(&[0, 100_001, u32::MAX as u64 + 5, u64::MAX]),
        1 => random.one_of(&[1, 2, 99_999, 100_000]),
        2 => random.from_to(1, 100_000),
        _ => random.from_to(1, 60),
    };
    // Whole periods as deadlines, since most tables have short ones and then say nothing.
    let mut table = Table { tasks: table.tasks.clone(), handlers: table.handlers.clone() };
    if !random.chance(4) {
        table.tasks.chunks_exact_mut(3).for_each(|r| r[2] = r[1]);
    }
    let Some(want) = figures(&table, quantum) else { return Ok(()) };
    let got = proved::charges(&table.tasks, &table.handlers, quantum);
    if got != want {
        let Table { tasks, handlers } = table;
        return Err(format!("quantum {quantum} of tasks {tasks:?}, handlers {handlers:?}: proved {got:?}, second program {want:?}"));
    }
    counts.all += 1;
    counts.charged += (want[3] < REFUSED && want[5] < REFUSED) as u64;
    counts.stricter += (want[0] == FITS && want[3] == MISSES && want[5] == MISSES) as u64;
    counts.milder += (want[0] == MISSES && (want[3] == FITS || want[5] == FITS)) as u64;
    counts.outside += (want[1] == 19) as u64;
    Ok(())
}
