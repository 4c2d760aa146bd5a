//! Fixed priorities, read plainly from the request: every length from 1 up to the deadline is tried.

use crate::files;
use crate::model::{self, Handler, Task};

/// Has task j's job to run before task i's, or is it that task?
fn counts_for(tasks: &[Task], i: usize, j: usize) -> bool {
    let (mine, theirs) = (tasks[i].period, tasks[j].period);
    j == i || theirs < mine || (theirs == mine && j < i)
}

/// l / period rounded up.
fn rounded_up(l: u128, period: u128) -> u128 {
    if l % period == 0 { l / period } else { l / period + 1 }
}

/// A(l), and the sum of cost times (l / period rounded up) over task i and those above it.
fn asked(tasks: &[Task], handlers: &[Handler], i: usize, l: u128) -> u128 {
    let called: u128 = handlers.iter().map(|h| h.cost * rounded_up(l, h.period)).sum();
    let above = (0..tasks.len()).filter(|&j| counts_for(tasks, i, j));
    called + above.map(|j| tasks[j].cost * rounded_up(l, tasks[j].period)).sum::<u128>()
}

/// The refusal's number or 0, and for each task the least length from 1 to its deadline with room for what is asked, 0 for none. Nothing
/// where more than `patience` sums would have to be made for a task.
pub fn responses(tasks: &[u32], handlers: &[u32], patience: u128) -> Option<(u32, Vec<u64>)> {
    let code = model::table_refusal(tasks, handlers);
    if code != 0 {
        return Some((code, vec![]));
    }
    let (t, h) = (model::tasks_of(tasks), model::handlers_of(handlers));
    let mut all = vec![];
    for i in 0..t.len() {
        let least = (1..=t[i].deadline.min(patience)).find(|&l| l >= asked(&t, &h, i, l));
        if least.is_none() && t[i].deadline > patience {
            return None;
        }
        all.push(least.unwrap_or(0) as u64);
    }
    Some((0, all))
}

/// The lines that the program must print of a file.
pub fn lines(bytes: &[u8], patience: u128) -> Option<String> {
    let header = "verdict,code,task,response\r\n";
    let refused = |k: u32| Some(format!("{header}refused,{k},0,0\r\n"));
    let Some(said) = files::read(bytes) else { return refused(12) };
    let (code, all) = responses(&said.table.tasks, &said.table.handlers, patience)?;
    match code {
        0 if said.misplaced => return refused(13),
        0 => {}
        k => return refused(k),
    }
    let line = |(i, &l): (usize, &u64)| format!("{},0,{i},{l}\r\n", if l > 0 { "fits" } else { "misses" });
    Some(header.to_string() + &all.iter().enumerate().map(line).collect::<String>())
}
