//! Whole runs of the proved scheduler beside the plain one, tick by tick, with legal and illegal arrivals, and single
//! steps of runs made of any numbers at all.

use crate::proved::{Answered, Laid};
use crate::random::Random;
use crate::scheduler::{self, Answer, By, Ran, Run};
use crate::tables::{self, Table};

fn late(number: u64) -> Option<u64> {
    number.checked_sub(1)
}

/// The bytes of a run, as the harness lays it out.
const RUN: usize = 4 * (192 + 32) + 8 * (80 + 64 + 80 + 9);

/// A run and the figures behind it, from an answer.
fn laid(mut answer: Answered) -> (Run, Vec<u64>) {
    let (tasks, handlers) = (answer.words(192), answer.words(32));
    let (next, due, owed) = (answer.longs(80), answer.longs(64), answer.longs(80));
    let g = answer.longs(9);
    let run = Run {
        tasks,
        handlers,
        task_count: g[0],
        handler_count: g[1],
        clock: g[2],
        next,
        due,
        owed,
        over: g[3] != 0,
        late: late(g[4]),
    };
    (run, g)
}

/// The proved fresh run, and its refusal.
fn proved_fresh(table: &Table) -> (Run, u64) {
    let (run, g) = laid(Laid::question(5).list(&table.tasks).list(&table.handlers).answer(RUN));
    (run, g[5])
}

/// The proved step.
fn proved_step(run: &Run, arrivals: &[u32], by: By) -> (Run, Answer) {
    let figures = [run.task_count, run.handler_count, run.clock, run.over as u64, run.late.map_or(0, |i| i + 1), 0, 0, 0, 0];
    let number = if by == By::Deadline { 6 } else { 8 };
    let question = Laid::question(number).words(&run.tasks).words(&run.handlers).longs(&run.next).longs(&run.due).longs(&run.owed);
    let (after, g) = laid(question.longs(&figures).list(arrivals).answer(RUN));
    let ran = match g[6] {
        1 => Ran::Handler(g[7]),
        2 => Ran::Task(g[7]),
        _ => Ran::Idle,
    };
    let answer = if g[5] == 0 { Answer::Ticked(ran, late(g[8])) } else { Answer::Refused(g[5] as u32) };
    (after, answer)
}

#[derive(Default)]
pub struct Counts {
    pub runs: u64,
    pub ticks: u64,
    /// Of these, steps by priority.
    pub ranked: u64,
    pub late: u64,
    pub refused: [u64; 12],
}

/// A difference: what it is, and the run and arrivals that show it.
pub type Difference = String;

fn same_step(run: &Run, arrivals: &[u32], by: By, counts: &mut Counts) -> Result<(Run, Answer), Difference> {
    let (ours, theirs) = (proved_step(run, arrivals, by), scheduler::step(run, arrivals, by));
    if ours != theirs {
        return Err(format!("step by {by:?} of {run:?} with {arrivals:?}: proved {ours:?}, second program {theirs:?}"));
    }
    counts.ticks += 1;
    counts.ranked += (by == By::Priority) as u64;
    match theirs.1 {
        Answer::Refused(k) => counts.refused[k as usize] += 1,
        Answer::Ticked(_, Some(_)) => counts.late += 1,
        Answer::Ticked(_, None) => {}
    }
    Ok(theirs)
}

/// Arrivals: as soon as they may and at full cost, or by chance; now and then one that is illegal.
fn arrivals(random: &mut Random, run: &Run, eager: bool) -> Vec<u32> {
    let n = run.task_count as usize;
    let rows = n + run.handler_count as usize;
    let mut list: Vec<u32> = (0..rows)
        .map(|k| {
            let cost = if k < n { run.tasks[3 * k] } else { run.handlers[2 * (k - n)] };
            let legal = run.next[k] <= run.clock;
            if legal && (eager || random.chance(3)) {
                if eager { cost } else { random.from_to(1, cost as u64) as u32 }
            } else {
                0
            }
        })
        .collect();
    if random.chance(40) {
        let k = random.below(rows as u64) as usize;
        list[k] = random.one_of(&[1, 2, 1_000_001, u32::MAX]);
    }
    if random.chance(60) {
        if random.chance(2) { list.push(0) } else { list.pop(); }
    }
    list
}

/// A whole run of a table from fresh.
pub fn whole(random: &mut Random, table: &Table, ticks: u64, by: By, counts: &mut Counts) -> Result<(), Difference> {
    let (mut run, code) = proved_fresh(table);
    let refusal = crate::model::table_refusal(&table.tasks, &table.handlers);
    if code != refusal as u64 {
        return Err(format!("fresh: proved refusal {code}, second program {refusal}"));
    }
    if refusal != 0 {
        return Ok(());
    }
    let fresh = scheduler::fresh(&table.tasks, &table.handlers);
    if run != fresh {
        return Err(format!("fresh: proved {run:?}, second program {fresh:?}"));
    }
    counts.runs += 1;
    let eager = random.chance(2);
    for _ in 0..ticks {
        let list = arrivals(random, &run, eager);
        let (after, _) = same_step(&run, &list, by, counts)?;
        run = after;
        if run.over && random.chance(2) {
            break;
        }
    }
    Ok(())
}

/// One step of a run that was made elsewhere: some figure of a good run is changed.
pub fn made_elsewhere(random: &mut Random, counts: &mut Counts) -> Result<(), Difference> {
    let table = tables::small(random);
    let mut run = scheduler::fresh(&table.tasks, &table.handlers);
    let by = random.one_of(&[By::Deadline, By::Priority]);
    for _ in 0..random.below(12) {
        let eager = random.chance(2);
        let list = arrivals(random, &run, eager);
        run = scheduler::step(&run, &list, by).0;
    }
    let any = [0, 1, 2, 3, 10, 63, 64, 65, 79, 80, 81, 1_000_000, 999_999_999, 1_000_000_000, 1_000_000_001, u64::MAX];
    for _ in 0..random.from_to(0, 2) {
        let value = random.one_of(&any);
        let near = run.clock.saturating_add(random.below(4));
        match random.below(10) {
            0 => run.task_count = value,
            1 => run.handler_count = value,
            2 => run.clock = value,
            3 => run.next[random.below(80) as usize] = random.one_of(&[value, near]),
            4 => run.due[random.below(64) as usize] = random.one_of(&[value, near]),
            5 => run.owed[random.below(80) as usize] = random.one_of(&[value, near]),
            6 => run.over = !run.over,
            7 => {
                let few = random.below(4);
                run.late = late(random.one_of(&[value, few]));
            }
            8 => run.tasks[random.below(192) as usize] = value as u32,
            _ => run.handlers[random.below(32) as usize] = value as u32,
        }
    }
    let rows = (run.task_count.min(80) + run.handler_count.min(80)) as usize;
    let list: Vec<u32> = (0..rows).map(|_| random.one_of(&[0, 0, 1])).collect();
    same_step(&run, &list, by, counts).map(|_| ())
}
