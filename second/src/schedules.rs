//! A schedule made elsewhere (02, M-110), judged tick by tick.

use crate::drawn::{self, Drawn};
use crate::model::{self, Figures};
use crate::proved;
use crate::random::Random;
use crate::tables::Table;

/// How many ticks are walked.
const PATIENCE: u128 = 100_000;

const ACCEPTED: u64 = 0;
const BROKEN: u64 = 1;
const REFUSED: u64 = 2;

#[derive(Default)]
pub struct Counts {
    pub all: u64,
    pub accepted: u64,
    pub broken: u64,
    /// Refused schedules, and those of them by 16 and by 17.
    pub refused: u64,
    pub torn: u64,
    pub outside: u64,
    /// Our own schedules that were judged as the verdict says.
    pub own: u64,
}

impl Counts {
    pub fn add(&mut self, answer: [u64; 3]) {
        self.all += 1;
        match answer[0] {
            ACCEPTED => self.accepted += 1,
            BROKEN => self.broken += 1,
            _ => self.refused += 1,
        }
        self.torn += (answer[1] == 16) as u64;
        self.outside += (answer[1] == 17) as u64;
    }
}

/// A row that has the ticks from, from + 1, .., to - 1.
pub struct Segment {
    pub handler: bool,
    pub row: u64,
    pub from: u64,
    pub to: u64,
}

/// The segments of a list, four numbers each: kind (0 a task, 1 a handler), row, from, to. Nothing where a kind is neither, or a number is
/// left over.
pub fn segments_of(numbers: &[u64]) -> Option<Vec<Segment>> {
    if numbers.len() % 4 != 0 {
        return None;
    }
    let segment = |s: &[u64]| (s[0] < 2).then(|| Segment { handler: s[0] == 1, row: s[1], from: s[2], to: s[3] });
    numbers.chunks(4).map(segment).collect()
}

/// Refusal 16 of segments, clause by clause.
fn unreadable(table: &Figures, segments: &[Segment], span: u64) -> bool {
    if segments.len() > 2_048 {
        return true;
    }
    let rows = |s: &Segment| if s.handler { table.handlers.len() } else { table.tasks.len() };
    if segments.iter().any(|s| s.row >= rows(s) as u64 || s.from >= s.to || s.to > span) {
        return true;
    }
    // No segment begins before one that stands in front of it has ended.
    segments.iter().enumerate().any(|(i, s)| segments[..i].iter().any(|before| s.from < before.to))
}

/// A row of the table on its way through the ticks: work that arrived, that was done, and that is past its deadline.
struct Row {
    handler: bool,
    row: u64,
    cost: u128,
    period: u128,
    /// A handler has none.
    deadline: Option<u128>,
    arrived: u128,
    done: u128,
    due: u128,
}

fn rows(table: &Figures) -> Vec<Row> {
    let row = |handler, row, cost, period, deadline| Row { handler, row, cost, period, deadline, arrived: 0, done: 0, due: 0 };
    let tasks = table.tasks.iter().enumerate().map(|(i, t)| row(false, i as u64, t.cost, t.period, Some(t.deadline)));
    let handlers = table.handlers.iter().enumerate().map(|(i, h)| row(true, i as u64, h.cost, h.period, None));
    tasks.chain(handlers).collect()
}

/// The first tick at which a rule is broken, or none up to the span; an error where more ticks would have to be walked.
fn first_broken(table: &Figures, segments: &[Segment], span: u128) -> Result<Option<u128>, ()> {
    let mut rows = rows(table);
    for clock in 0..=span {
        if clock > PATIENCE {
            return Err(());
        }
        // Jobs whose deadline is this clock, and all before them, must be complete.
        for r in &mut rows {
            if r.deadline.is_some_and(|d| clock >= d && (clock - d) % r.period == 0) {
                r.due += r.cost;
            }
            if r.done < r.due {
                return Ok(Some(clock));
            }
        }
        if clock == span {
            break;
        }
        rows.iter_mut().filter(|r| clock % r.period == 0).for_each(|r| r.arrived += r.cost);
        let handler_owed = rows.iter().any(|r| r.handler && r.arrived > r.done);
        let running = segments.iter().find(|s| s.from as u128 <= clock && clock < s.to as u128);
        if handler_owed && !running.is_some_and(|s| s.handler) {
            return Ok(Some(clock));
        }
        if let Some(s) = running {
            let r = rows.iter_mut().find(|r| r.handler == s.handler && r.row == s.row).expect("a row of the table");
            if r.arrived == r.done {
                return Ok(Some(clock));
            }
            r.done += 1;
        }
    }
    Ok(None)
}

/// The word's number, the refusal's and the first broken tick; segments that could not be read are none. Nothing where the walk is long.
pub fn judge(table: &Table, segments: Option<&[Segment]>, span: u64) -> Option<[u64; 3]> {
    let refused = |k: u32| Some([REFUSED, k as u64, 0]);
    let figures = match model::figures(&table.tasks, &table.handlers) {
        Ok(figures) => figures,
        Err(k) => return refused(k),
    };
    let Some(segments) = segments.filter(|list| !unreadable(&figures, list, span)) else { return refused(16) };
    if span == 0 || span as u128 > figures.hyper {
        return refused(17);
    }
    match first_broken(&figures, segments, span as u128) {
        Ok(None) => Some([ACCEPTED, 0, 0]),
        Ok(Some(tick)) => Some([BROKEN, 0, tick as u64]),
        Err(()) => None,
    }
}

/// Our own schedule is accepted, or broken at the length that the verdict names, where that lies within the span.
fn as_the_verdict(drawn: &Drawn, answer: [u64; 3]) -> Option<bool> {
    if !drawn.own || answer[0] == REFUSED {
        return None;
    }
    let sheet = model::verdict(&drawn.table.tasks, &drawn.table.handlers, PATIENCE).ok()?;
    let fails = sheet[0] == 1 && sheet[2] <= drawn.span;
    Some(answer == if fails { [BROKEN, 0, sheet[2]] } else { [ACCEPTED, 0, 0] })
}

/// Both answers for a schedule; an error shows them.
fn check(drawn: &Drawn, counts: &mut Counts) -> Result<(), String> {
    let Drawn { table, numbers, span, .. } = drawn;
    let Some(want) = judge(table, segments_of(numbers).as_deref(), *span) else { return Ok(()) };
    let got = proved::judge(&table.tasks, &table.handlers, numbers, *span);
    let shown = || format!("span {span} of segments {numbers:?}, tasks {:?}, handlers {:?}", table.tasks, table.handlers);
    if got != want {
        return Err(format!("{}: proved {got:?}, second program {want:?}", shown()));
    }
    match as_the_verdict(drawn, want) {
        Some(false) => return Err(format!("{}: {want:?} of our own schedule is not what the verdict says", shown())),
        told => counts.own += told.is_some() as u64,
    }
    counts.add(want);
    Ok(())
}

/// A schedule of this table, and two of small ones; an error shows what differs.
pub fn compare(random: &mut Random, table: &Table, counts: &mut Counts) -> Result<(), String> {
    check(&drawn::of_table(random, table), counts)?;
    check(&drawn::small(random), counts)?;
    let drawn = if random.chance(100) { drawn::many(random) } else { drawn::small(random) };
    check(&drawn, counts)
}
