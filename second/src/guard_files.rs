//! Files of guards through the program `guard_rows` beside a plain reading of the layout (02, M-107).

use crate::files;
use crate::guards::{self, Guard};
use crate::random::Random;

const HEADER: &str = "guard,n,int,flip,setup,work,expire,count,clear,gap";

/// The fields that a kind lacks, from n on.
fn lacks(bursty: bool) -> &'static [usize] {
    if bursty {
        &[3]
    } else {
        &[0, 6, 7]
    }
}

/// A number of 1 to 10 digits with no leading zero; one past 32 bits is as good as the greatest of them.
fn number(field: &str) -> Option<u32> {
    let digits = !field.is_empty() && field.len() <= 10 && field.bytes().all(|b| b.is_ascii_digit());
    if !digits || (field.len() > 1 && field.starts_with('0')) {
        return None;
    }
    let wide: u64 = field.parse().ok()?;
    Some(wide.min(u32::MAX as u64) as u32)
}

fn guard(line: &str) -> Option<Guard> {
    let fields: Vec<&str> = line.split(',').collect();
    let bursty = match fields[0] {
        "strict" => false,
        "bursty" => true,
        _ => return None,
    };
    if fields.len() != 10 {
        return None;
    }
    let mut counts = [0; 9];
    for (i, field) in fields[1..].iter().enumerate() {
        if !lacks(bursty).contains(&i) {
            counts[i] = number(field)?;
        } else if !field.is_empty() {
            return None;
        }
    }
    Some(Guard { bursty, counts })
}

/// The guards of a file, or nothing where it breaks the layout.
fn read(bytes: &[u8]) -> Option<Vec<Guard>> {
    if bytes.len() > 4096 {
        return None;
    }
    let text = std::str::from_utf8(bytes).ok()?;
    let text = text.strip_suffix("\r\n").unwrap_or(text);
    let mut lines = text.split("\r\n");
    if lines.next()? != HEADER {
        return None;
    }
    lines.map(guard).collect()
}

fn refused(number: u64, place: usize) -> String {
    format!("guards,code,guard\r\nrefused,{number},{place}\r\n")
}

/// The lines that the program must print.
pub fn lines(bytes: &[u8]) -> String {
    let Some(all) = read(bytes) else { return refused(12, 0) };
    if all.len() > 8 {
        return refused(2, 0);
    }
    let mut text = String::from("kind,cost,period,deadline\r\n");
    for (place, guard) in all.iter().enumerate() {
        let rows = guards::rows(guard);
        if rows[0] != 0 {
            return refused(rows[0], place);
        }
        text += &format!("handler,{},{},\r\nhandler,{},{},\r\n", rows[1], rows[3], rows[2], rows[3]);
    }
    text
}

/// A few guards as text, and then perhaps damaged.
pub fn file(random: &mut Random) -> Vec<u8> {
    let mut text = String::from(HEADER);
    let count = if random.chance(8) { random.from_to(7, 10) } else { random.from_to(0, 4) };
    for _ in 0..count {
        let guard = guards::any(random);
        text += if guard.bursty { "\r\nbursty" } else { "\r\nstrict" };
        for (i, n) in guard.counts.iter().enumerate() {
            // Now and then a number that 32 bits do not hold.
            let wide = if random.chance(60) { random.from_to(u32::MAX as u64, 99_999_999_999) } else { *n as u64 };
            text += &if lacks(guard.bursty).contains(&i) { ",".into() } else { format!(",{wide}") };
        }
    }
    if random.chance(2) {
        text += "\r\n";
    }
    let mut bytes = text.into_bytes();
    if random.chance(3) {
        files::damage(random, &mut bytes);
    }
    bytes
}
