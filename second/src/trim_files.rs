//! Table files trimmed (02, M-112): read by the plain reader, and written again line by line.

use crate::files;
use crate::model;
use crate::random::Random;
use crate::trim;

/// The row that a word names: T and the row among tasks in decimal, from 0.
fn row_of(word: &str) -> Option<u64> {
    let row = word.strip_prefix('T')?.parse().ok()?;
    // A sign, or a zero in front, is not how a number is written.
    (word == format!("T{row}")).then_some(row)
}

/// The file with another cost for a task: the second field of that task's line.
fn with_cost(text: &str, row: u64, cost: u64) -> String {
    let mut before = row;
    let mut lines: Vec<String> = text.split("\r\n").map(String::from).collect();
    for line in &mut lines {
        if !line.starts_with("task,") {
            continue;
        }
        if before == 0 {
            let mut fields: Vec<&str> = line.split(',').collect();
            let cost = cost.to_string();
            fields[1] = &cost;
            *line = fields.join(",");
            break;
        }
        before -= 1;
    }
    lines.join("\r\n")
}

/// What the program must print of a task of a file, or the length to which a blind search would have to go to tell.
pub fn lines(bytes: &[u8], word: &str, patience: u128, costs: u32) -> Result<String, u128> {
    let header = "task,code,old,new\r\n";
    let refused = |k: u64| Ok(format!("{header}0,{k},0,0\r\n"));
    let Some(said) = files::read(bytes) else { return refused(12) };
    let own = model::table_refusal(&said.table.tasks, &said.table.handlers);
    if own == 0 && said.misplaced {
        return refused(13);
    }
    // No table has so many tasks.
    let row = row_of(word).unwrap_or(u64::MAX);
    Ok(match trim::trim(&said.table, row, patience, costs)? {
        [0, old, 0] => format!("{header}{row},0,{old},none\r\n"),
        [0, old, new] => {
            let text = std::str::from_utf8(bytes).expect("a file that was read");
            format!("{header}{row},0,{old},{new}\r\n{}", with_cost(text, row, new))
        }
        [k, ..] => return refused(k),
    })
}

#[derive(Default)]
pub struct Counts {
    pub all: u64,
    /// New files, and those of them with a lower cost; tasks with no cost that fits; files that break the layout; words that name no task.
    pub files: u64,
    pub lowered: u64,
    pub none: u64,
    pub broken: u64,
    pub missing: u64,
}

/// Words that name no task of any table, or one past the last.
const NO_TASKS: [&str; 16] = [
    "", "T", "t0", "H0", "0", "T00", "T01", "T+1", "T-0", "T 0", "T0 ", "T1x", "TT0", "T64", "T4294967296", "T18446744073709551616",
];

/// The name of a task, or now and then a word that names none.
fn word(random: &mut Random, row: u64) -> String {
    if !random.chance(8) {
        return format!("T{row}");
    }
    random.one_of(&NO_TASKS).into()
}

/// A file, whole or damaged, and a word for one of its tasks, through the program; an error shows what differs.
pub fn compare(random: &mut Random, program: &str, counts: &mut Counts) -> Result<(), String> {
    let (file, row) = if random.chance(3) {
        (files::file(random), random.below(4))
    } else {
        let (table, row) = trim::heavy(random);
        (files::text_of(random, &table, 8), row)
    };
    let word = word(random, row);
    let Ok(want) = lines(&file, &word, trim::PATIENCE, trim::COSTS) else { return Ok(()) };
    let got = files::run_with(program, &[&word], &file);
    if got != want {
        let file = String::from_utf8_lossy(&file);
        return Err(format!("task {word:?} of file {file:?}: proved {got:?}, second program {want:?}"));
    }
    counts.all += 1;
    let figures: Vec<&str> = want.split("\r\n").nth(1).expect("a second line").split(',').collect();
    match figures[..] {
        [_, "12", ..] => counts.broken += 1,
        [_, "18", ..] => counts.missing += 1,
        [_, "0", _, "none"] => counts.none += 1,
        [_, "0", old, new] => {
            counts.files += 1;
            counts.lowered += (old != new) as u64;
        }
        _ => {}
    }
    Ok(())
}
