//! Lists of table files through the program `charge_tables` (02, M-113), beside a plain reading of the list.

use crate::charges;
use crate::files;
use crate::model;
use crate::random::Random;

fn word(number: u64) -> &'static str {
    ["fits", "misses", "refused", "none"][number as usize]
}

/// A field as RFC 4180 writes it.
fn field(name: &str) -> String {
    if name.contains(|c| ",\"\r\n".contains(c)) {
        format!("\"{}\"", name.replace('"', "\"\""))
    } else {
        name.into()
    }
}

/// The figures of a file that was read, or nothing where a search would have to go on for long.
fn of_file(bytes: &[u8], quantum: u64) -> Option<[u64; 7]> {
    let refused = |k: u64| Some([charges::REFUSED, k, 0, charges::NONE, 0, charges::NONE, 0]);
    let Some(said) = files::read(bytes) else { return refused(12) };
    if said.misplaced && model::table_refusal(&said.table.tasks, &said.table.handlers) == 0 {
        return refused(13);
    }
    charges::figures(&said.table, quantum)
}

/// What the program must print of a list and an argument.
pub fn lines(list: &[u8], argument: &str) -> Option<String> {
    let mut text = String::from("name,exact,code,load,quantum,quantum load,task,task load\r\n");
    let quantum: u64 = argument.parse().ok().filter(|q: &u64| q.to_string() == argument).unwrap_or(0);
    if quantum == 0 || quantum > 100_000 {
        return Some(text + ",refused,19,0,none,0,none,0\r\n");
    }
    let list = std::str::from_utf8(list).ok()?;
    let mut counts = [[0; 3]; 3];
    let mut names: Vec<&str> = list.split('\n').collect();
    // Behind the last LF there is no line.
    if names.last() == Some(&"") {
        names.pop();
    }
    for name in names {
        let name = name.strip_suffix('\r').unwrap_or(name);
        let figures = match std::fs::read(name) {
            Ok(bytes) => of_file(&bytes, quantum)?,
            Err(_) => [charges::REFUSED, 12, 0, charges::NONE, 0, charges::NONE, 0],
        };
        let [exact, code, load, a, b, c, d] = figures;
        text += &format!("{},{},{code},{load},{},{b},{},{d}\r\n", field(name), word(exact), word(a), word(c));
        for (way, word) in [exact, a, c].into_iter().enumerate() {
            counts[way][word.min(2) as usize] += 1;
        }
    }
    text += "charge,fits,misses,none\r\n";
    for (way, [fits, misses, none]) in ["exact", "quantum", "task"].into_iter().zip(counts) {
        text += &format!("{way},{fits},{misses},{none}\r\n");
    }
    Some(text)
}

/// A few files, some damaged, some missing, in a folder of their own, and a list that names them in any form; an error shows what differs.
pub fn compare(random: &mut Random, program: &str, folder: &std::path::Path) -> Result<usize, String> {
    let mut list = String::new();
    let mut count = 0;
    for at in 0..random.below(6) {
        let name = folder.join(random.one_of(&["a", "b,c", "d\"e\"", "f g", "", "none"]).to_string() + &at.to_string());
        match random.below(6) {
            0 => {}
            1 => drop(std::fs::create_dir(&name)),
            _ => std::fs::write(&name, files::file(random)).map_err(|e| e.to_string())?,
        }
        list += name.to_str().unwrap_or("");
        list += random.one_of(&["\n", "\r\n", "\n\n", "\n"]);
        count += 1;
    }
    if random.chance(3) {
        list = list.trim_end_matches('\n').into();
    }
    let argument = random.one_of(&["1", "4", "10", "100", "100000", "0", "100001", "", "04", "+4", "4 ", "x", "18446744073709551620"]);
    let argument = argument.to_string();
    let Some(want) = lines(list.as_bytes(), &argument) else { return Ok(0) };
    let got = files::run_with(program, &[&argument], list.as_bytes());
    if got != want {
        return Err(format!("quantum {argument:?} of list {list:?}: proved {got:?}, second program {want:?}"));
    }
    Ok(count)
}
