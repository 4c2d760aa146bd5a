//! Files of schedules through the program `judge_schedule` (02, M-110), beside a plain reading of their layout.

use crate::drawn;
use crate::files;
use crate::model;
use crate::random::Random;
use crate::schedules::{self, Counts, Segment};
use crate::tables::{self, Table};
use std::path::Path;

/// A number of 1 to 10 digits with no leading zero.
fn number(field: &str) -> Option<u64> {
    let n: u64 = field.parse().ok()?;
    (field.len() <= 10 && n.to_string() == field).then_some(n)
}

/// The segments of a file, or nothing where it breaks the layout.
fn read(bytes: &[u8]) -> Option<Vec<Segment>> {
    let text = std::str::from_utf8(bytes).ok()?;
    let mut lines: Vec<&str> = text.split("\r\n").collect();
    // The last line may lack its CRLF, so what stands behind the last one is a line only if it is something.
    if lines.last() == Some(&"") {
        lines.pop();
    }
    if lines.is_empty() || lines.remove(0) != "row,from,to" {
        return None;
    }
    let segment = |line: &str| {
        let [name, from, to] = line.split(',').collect::<Vec<_>>()[..] else { return None };
        let handler = name.starts_with('H');
        let row = number(name.strip_prefix(if handler { 'H' } else { 'T' })?)?;
        Some(Segment { handler, row, from: number(from)?, to: number(to)? })
    };
    lines.into_iter().map(segment).collect()
}

/// The numbers that the program must say of a table file, a schedule file and a span; nothing where the walk is long.
fn figures(table: &[u8], schedule: &[u8], span: &str) -> Option<[u64; 3]> {
    let Some(said) = files::read(table) else { return Some([2, 12, 0]) };
    if said.misplaced && model::table_refusal(&said.table.tasks, &said.table.handlers) == 0 {
        return Some([2, 13, 0]);
    }
    // What is no number is no span: no segment ends after it, and it is above every H.
    schedules::judge(&said.table, read(schedule).as_deref(), number(span).unwrap_or(u64::MAX))
}

/// The lines of these numbers.
fn lines([word, code, tick]: [u64; 3]) -> String {
    let word = ["accepted", "broken", "refused"][word as usize];
    format!("schedule,code,tick\r\n{word},{code},{tick}\r\n")
}

/// A schedule as text, one of its numbers perhaps written in a way that no number is, damaged with a chance of one in six.
fn text_of(random: &mut Random, numbers: &[u64]) -> Vec<u8> {
    let mut text = String::from("row,from,to");
    let odd = if random.chance(8) { random.below(numbers.len() as u64 / 4 + 1) as usize } else { usize::MAX };
    for (at, s) in numbers.chunks(4).enumerate() {
        let letter = ["T", "H"].get(s[0] as usize).unwrap_or(&"");
        let mut rest: Vec<String> = s[1..].iter().map(u64::to_string).collect();
        if at == odd && rest.len() == 3 {
            rest[random.below(3) as usize].insert_str(0, random.one_of(&["0", "00", "+", "-", " ", "\""]));
        }
        text += &format!("\r\n{letter}{}", rest.join(","));
    }
    if random.chance(2) {
        text += "\r\n";
    }
    let mut bytes = text.into_bytes();
    if random.chance(6) {
        files::damage(random, &mut bytes);
    }
    bytes
}

/// Words that are no span, or one that is out of range.
const NO_SPANS: [&str; 14] = [
    "", "0", "00", "07", "+7", "-1", "7 ", " 7", "7x", "x", "1000000001", "9999999999", "10000000000", "18446744073709551623",
];

/// A table file, a schedule file and a word for the span.
fn made(random: &mut Random) -> (Vec<u8>, Vec<u8>, String) {
    let many = random.chance(60);
    let table = if many {
        drawn::many(random).table
    } else if random.chance(12) {
        tables::hostile(random)
    } else {
        drawn::light(random)
    };
    let file = files::text_of(random, &table, 16);
    // The table as the file says it, since one header has no deadlines.
    let table = files::read(&file).map_or(Table { tasks: vec![], handlers: vec![] }, |said| said.table);
    let mut drawn = if many { drawn::many(random) } else { drawn::of_table(random, &table) };
    let mut span = if random.chance(16) { random.one_of(&NO_SPANS).into() } else { drawn.span.to_string() };
    if random.chance(16) {
        // Figures as long as they may be, or longer, under a span that they do not pass.
        let to = random.one_of(&[999_999_999, 1_000_000_000, 9_999_999_999, 10_000_000_000]);
        drawn.numbers.extend([0, 0, 999_999_998, to]);
        span = random.one_of(&["999999999", "1000000000", "9999999999", "10000000000", "x"]).into();
    }
    (file, text_of(random, &drawn.numbers), span)
}

/// So many schedule files in a folder, through the program; an error shows what differs.
fn compare_in(random: &mut Random, count: u64, program: &str, folder: &Path, counts: &mut Counts) -> Result<(), String> {
    let name = folder.join("schedule.csv");
    let name = name.to_str().ok_or("the name of a folder that is no text")?;
    for _ in 0..count {
        let (table, schedule, span) = made(random);
        let Some(want) = figures(&table, &schedule, &span) else { continue };
        std::fs::write(name, &schedule).map_err(|e| e.to_string())?;
        let got = files::run_with(program, &[name, &span], &table);
        if got != lines(want) {
            let (table, schedule) = (String::from_utf8_lossy(&table), String::from_utf8_lossy(&schedule));
            let shown = format!("span {span:?} of schedule {schedule:?}, table {table:?}");
            return Err(format!("{shown}: proved {got:?}, second program {:?}", lines(want)));
        }
        counts.add(want);
    }
    Ok(())
}

/// The same in a folder of their own, which is gone afterwards.
pub fn compare(random: &mut Random, count: u64, program: &str) -> Result<Counts, String> {
    let folder = std::env::temp_dir().join(format!("schedules-{}", std::process::id()));
    std::fs::create_dir(&folder).map_err(|e| e.to_string())?;
    let mut counts = Counts::default();
    let told = compare_in(random, count, program, &folder, &mut counts);
    std::fs::remove_dir_all(&folder).map_err(|e| e.to_string())?;
    told.map(|()| counts)
}
