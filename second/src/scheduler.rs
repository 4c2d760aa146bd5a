//! One tick of the scheduler, read plainly from the paper. A run is whatever numbers it is given.

use crate::model::{LIMIT, FIGURE};

#[derive(Clone, Debug, PartialEq)]
pub struct Run {
    /// Flat tables with their padding: 192 numbers, three a task, and 32, two a handler.
    pub tasks: Vec<u32>,
    pub handlers: Vec<u32>,
    pub task_count: u64,
    pub handler_count: u64,
    pub clock: u64,
    /// Next legal arrival and work owed, handlers behind tasks: 80 places each; deadlines, of tasks only: 64.
    pub next: Vec<u64>,
    pub due: Vec<u64>,
    pub owed: Vec<u64>,
    pub over: bool,
    /// The late row, if one is named.
    pub late: Option<u64>,
}

#[derive(Clone, Copy, Debug, PartialEq)]
pub enum Ran {
    Handler(u64),
    Task(u64),
    Idle,
}

#[derive(Clone, Debug, PartialEq)]
pub enum Answer {
    Ticked(Ran, Option<u64>),
    Refused(u32),
}

struct Row {
    cost: u128,
    period: u128,
    /// A handler has its period to run.
    deadline: u128,
    next: u128,
    /// Of a task the deadline of its last job.
    due: u128,
    owed: u128,
}

fn rows(run: &Run) -> (Vec<Row>, Vec<Row>) {
    let (n, m) = (run.task_count as usize, run.handler_count as usize);
    let row = |flat: &[u32], place: usize| Row {
        cost: flat[0] as u128,
        period: flat[1] as u128,
        deadline: *flat.last().unwrap() as u128,
        next: run.next[place] as u128,
        due: if place < n { run.due[place] as u128 } else { 0 },
        owed: run.owed[place] as u128,
    };
    let tasks = (0..n).map(|i| row(&run.tasks[3 * i..3 * i + 3], i)).collect();
    let handlers = (0..m).map(|i| row(&run.handlers[2 * i..2 * i + 2], n + i)).collect();
    (tasks, handlers)
}

/// The first task owed work whose deadline is the clock.
fn first_late(tasks: &[Row], clock: u128) -> Option<u64> {
    tasks.iter().position(|t| t.owed > 0 && t.due == clock).map(|i| i as u64)
}

/// Refusal 6, clause by clause.
pub fn out_of_bounds(run: &Run) -> bool {
    if run.task_count == 0 || run.task_count > 64 || run.handler_count > 16 {
        return true;
    }
    let (n, m) = (run.task_count as usize, run.handler_count as usize);
    let bad = |x: &u32| *x == 0 || *x as u128 > FIGURE;
    if run.tasks[..3 * n].chunks(3).any(|t| bad(&t[0]) || bad(&t[1]) || t[2] == 0 || t[2] > t[1]) {
        return true;
    }
    if run.handlers[..2 * m].iter().any(bad) {
        return true;
    }
    if run.tasks[3 * n..].iter().any(|x| *x != 0) || run.handlers[2 * m..].iter().any(|x| *x != 0) {
        return true;
    }
    if run.next[n + m..].iter().any(|x| *x != 0) || run.owed[n + m..].iter().any(|x| *x != 0) {
        return true;
    }
    if run.due[n..].iter().any(|x| *x != 0) {
        return true;
    }
    let clock = run.clock as u128;
    if clock > LIMIT {
        return true;
    }
    let (tasks, handlers) = rows(run);
    if tasks.iter().chain(&handlers).any(|r| r.next > clock + r.period) {
        return true;
    }
    if tasks.iter().any(|t| t.owed > t.cost) || handlers.iter().any(|h| h.owed > clock * h.cost) {
        return true;
    }
    if tasks.iter().any(|t| t.due > t.next || t.due > clock + t.deadline) {
        return true;
    }
    let passed = |t: &Row| if run.over { t.due < clock } else { t.due <= clock };
    if tasks.iter().any(|t| t.owed > 0 && passed(t)) {
        return true;
    }
    if run.over {
        run.late.is_none() || run.late != first_late(&tasks, clock)
    } else {
        run.late.is_some()
    }
}

fn refusal(run: &Run, arrivals: &[u32]) -> u32 {
    if out_of_bounds(run) {
        return 6;
    }
    if run.over {
        return 7;
    }
    if run.clock as u128 == LIMIT {
        return 8;
    }
    if arrivals.len() as u64 != run.task_count + run.handler_count {
        return 9;
    }
    let (tasks, handlers) = rows(run);
    let all = || tasks.iter().chain(&handlers).zip(arrivals);
    if all().any(|(r, &w)| w > 0 && r.next > run.clock as u128) {
        return 10;
    }
    if all().any(|(r, &w)| w as u128 > r.cost) {
        return 11;
    }
    0
}

/// By which number tasks are chosen.
#[derive(Clone, Copy, Debug, PartialEq)]
pub enum By {
    Deadline,
    Priority,
}

/// A step: the run that comes back, and the answer.
pub fn step(run: &Run, arrivals: &[u32], by: By) -> (Run, Answer) {
    let code = refusal(run, arrivals);
    if code != 0 {
        return (run.clone(), Answer::Refused(code));
    }
    let mut after = run.clone();
    let n = run.task_count as usize;
    for (place, &w) in arrivals.iter().enumerate() {
        if w > 0 {
            let period = if place < n { run.tasks[3 * place + 1] } else { run.handlers[2 * (place - n) + 1] };
            after.owed[place] += w as u64;
            after.next[place] = run.clock + period as u64;
            if place < n {
                after.due[place] = run.clock + run.tasks[3 * place + 2] as u64;
            }
        }
    }
    let (tasks, handlers) = rows(&after);
    let ran = if let Some(i) = handlers.iter().position(|h| h.owed > 0) {
        Ran::Handler(i as u64)
    } else {
        // The earliest deadline, or the shortest period; the lowest row on a tie.
        let key = |t: &Row| if by == By::Deadline { t.due } else { t.period };
        let mut owed: Vec<(u128, usize)> = tasks.iter().enumerate().filter(|(_, t)| t.owed > 0).map(|(i, t)| (key(t), i)).collect();
        owed.sort();
        owed.first().map_or(Ran::Idle, |&(_, i)| Ran::Task(i as u64))
    };
    match ran {
        Ran::Handler(i) => after.owed[n + i as usize] -= 1,
        Ran::Task(i) => after.owed[i as usize] -= 1,
        Ran::Idle => {}
    }
    after.clock += 1;
    let (tasks, _) = rows(&after);
    after.late = first_late(&tasks, after.clock as u128);
    after.over = after.late.is_some();
    let late = after.late;
    (after, Answer::Ticked(ran, late))
}

/// A fresh run of a table that meets none of refusals 1 to 3 and 13.
pub fn fresh(tasks: &[u32], handlers: &[u32]) -> Run {
    let padded = |list: &[u32], n: usize| list.iter().copied().chain(std::iter::repeat(0)).take(n).collect();
    Run {
        tasks: padded(tasks, 192),
        handlers: padded(handlers, 32),
        task_count: tasks.len() as u64 / 3,
        handler_count: handlers.len() as u64 / 2,
        clock: 0,
        next: vec![0; 80],
        due: vec![0; 64],
        owed: vec![0; 80],
        over: false,
        late: None,
    }
}
