//! The idle point (02, M-105), by trying every length from 1, and what 02 says of it.

use crate::model::{Figures, Handler, Task};

/// The least length from 1 to `end` at which A plus the sum of cost times (length / period rounded up) over tasks is at most the length:
/// every row asks for its cost in ticks 0, period, 2 * period and so on.
pub fn point(tasks: &[Task], handlers: &[Handler], end: u128) -> Option<u128> {
    let rows: Vec<(u128, u128)> =
        tasks.iter().map(|t| (t.cost, t.period)).chain(handlers.iter().map(|h| (h.cost, h.period))).collect();
    let mut asked = 0;
    (1..=end).find(|l| {
        asked += rows.iter().filter(|(_, period)| (l - 1) % period == 0).map(|(cost, _)| cost).sum::<u128>();
        asked <= *l
    })
}

/// Where the search ends on a yes (02, M-109): the smallest of H, the idle point and, where W is below H, the greatest length that the last
/// search fact admits, or 0.
pub fn yes_end(f: &Figures) -> u128 {
    let idle = point(&f.tasks, &f.handlers, f.hyper).expect("an idle point, since the table fits");
    if f.whole == f.hyper {
        return idle.min(f.hyper);
    }
    let costs: u128 = f.handlers.iter().map(|h| h.cost).sum();
    let short: u128 = f.tasks.iter().map(|t| t.cost * (f.hyper / t.period) * (t.period - t.deadline)).sum();
    let admitted = |l: &u128| l * (f.hyper - f.whole) < costs * f.hyper + short;
    let last = (0..=f.hyper).rev().find(admitted).unwrap_or(0);
    last.min(idle)
}

/// Whether there is an idle point; an error where it lies elsewhere than W and H say, or where a length beyond it is the shortest that
/// fails. `failing` is that length, 0 for none.
pub fn claims(f: &Figures, failing: u128) -> Result<bool, String> {
    match point(&f.tasks, &f.handlers, f.hyper) {
        None if f.whole <= f.hyper => Err("no idle point up to H, though W is at most H".into()),
        Some(z) if f.whole > f.hyper => Err(format!("idle point {z}, though W is above H")),
        Some(z) if f.whole == f.hyper && z != f.hyper => Err(format!("idle point {z}, though W is H")),
        Some(z) if failing > z => Err(format!("idle point {z}, yet the shortest length that fails is {failing}")),
        found => Ok(found.is_some()),
    }
}
