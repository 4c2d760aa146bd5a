//! Files through the program `fit` beside a plain reading of the layout.

use crate::model::{self, refused};
use crate::random::Random;
use crate::tables::{self, Table};
use std::io::Write;
use std::process::{Command, Stdio};

/// What a file says: its table, and whether a handler has a deadline.
pub struct Said {
    pub table: Table,
    pub misplaced: bool,
}

/// A number of 1 to 7 digits with no leading zero.
fn number(field: &str) -> Option<u32> {
    let digits = !field.is_empty() && field.len() <= 7 && field.bytes().all(|b| b.is_ascii_digit());
    if !digits || (field.len() > 1 && field.starts_with('0')) {
        return None;
    }
    field.parse().ok()
}

/// The rows of a file, or nothing where it breaks the layout.
pub fn read(bytes: &[u8]) -> Option<Said> {
    if bytes.len() > 4096 {
        return None;
    }
    let text = std::str::from_utf8(bytes).ok()?;
    let text = text.strip_suffix("\r\n").unwrap_or(text);
    let mut lines = text.split("\r\n");
    let columns = match lines.next()? {
        "kind,cost,period" => 3,
        "kind,cost,period,deadline" => 4,
        _ => return None,
    };
    let mut said = Said { table: Table { tasks: vec![], handlers: vec![] }, misplaced: false };
    for line in lines {
        let fields: Vec<&str> = line.split(',').collect();
        if fields.len() != columns {
            return None;
        }
        let (cost, period) = (number(fields[1])?, number(fields[2])?);
        match (fields[0], fields.get(3)) {
            ("task", None) => said.table.tasks.extend([cost, period, period]),
            ("task", Some(deadline)) => said.table.tasks.extend([cost, period, number(deadline)?]),
            ("handler", last) => {
                said.table.handlers.extend([cost, period]);
                if let Some(field) = last.filter(|f| !f.is_empty()) {
                    number(field)?;
                    said.misplaced = true;
                }
            }
            _ => return None,
        }
    }
    Some(said)
}

/// The two lines that the program must print, or the length to which a blind search would have to go to tell.
pub fn sheet(bytes: &[u8], patience: u128) -> Result<String, u128> {
    let g = match read(bytes) {
        None => refused(12),
        Some(said) if said.misplaced => {
            let own = model::table_refusal(&said.table.tasks, &said.table.handlers);
            refused(if own == 0 { 13 } else { own })
        }
        Some(said) => model::verdict(&said.table.tasks, &said.table.handlers, patience)?,
    };
    let word = ["fits", "misses", "refused"][g[0] as usize];
    let numbers: Vec<String> = g[1..].iter().map(u64::to_string).collect();
    Ok(format!("verdict,code,interval,handler,task,load,left,tested\r\n{word},{}\r\n", numbers.join(",")))
}

/// A table as text, and then perhaps damaged.
pub fn file(random: &mut Random) -> Vec<u8> {
    let table = if random.chance(4) { tables::hostile(random) } else { tables::small(random) };
    text_of(random, &table, 2)
}

/// A table as text under either header, its rows in any order of kinds, damaged with a chance of one in so many.
pub fn text_of(random: &mut Random, table: &Table, damaged: u64) -> Vec<u8> {
    let old = random.chance(3);
    let mut rows: Vec<String> = Vec::new();
    for r in table.tasks.chunks_exact(3) {
        rows.push(if old { format!("task,{},{}", r[0], r[1]) } else { format!("task,{},{},{}", r[0], r[1], r[2]) });
    }
    for r in table.handlers.chunks_exact(2) {
        let last = if old { "" } else if random.chance(30) { ",1" } else { "," };
        rows.push(format!("handler,{},{}{last}", r[0], r[1]));
    }
    for i in (1..rows.len()).rev() {
        rows.swap(i, random.below(i as u64 + 1) as usize);
    }
    let mut text = String::from(if old { "kind,cost,period" } else { "kind,cost,period,deadline" });
    for row in rows {
        text += "\r\n";
        text += &row;
    }
    if random.chance(2) {
        text += "\r\n";
    }
    let mut bytes = text.into_bytes();
    if random.chance(damaged) {
        damage(random, &mut bytes);
    }
    bytes
}

/// One or two bytes more, fewer or others, or the end cut off.
pub fn damage(random: &mut Random, bytes: &mut Vec<u8>) {
    for _ in 0..random.from_to(1, 2) {
        let at = random.below(bytes.len() as u64 + 1) as usize;
        let byte = random.one_of(b"\r\n,0159 \"tThk\0\xEF");
        match random.below(4) {
            0 => bytes.insert(at, byte),
            1 if at < bytes.len() => bytes[at] = byte,
            2 if at < bytes.len() => {
                bytes.remove(at);
            }
            _ => bytes.truncate(at),
        }
    }
}

/// What the program prints for a file.
pub fn run(program: &str, bytes: &[u8]) -> String {
    run_with(program, &[], bytes)
}

/// The same with arguments.
pub fn run_with(program: &str, arguments: &[&str], bytes: &[u8]) -> String {
    let mut command = Command::new(program);
    command.args(arguments).stdin(Stdio::piped()).stdout(Stdio::piped()).stderr(Stdio::null());
    let mut child = command.spawn().expect("the program");
    // A program that has read 4,097 bytes may end before all is written.
    let _ = child.stdin.take().expect("its standard input").write_all(bytes);
    let output = child.wait_with_output().expect("its output");
    String::from_utf8_lossy(&output.stdout).into_owned()
}
