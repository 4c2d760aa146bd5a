//! Tables held by column (02, M-111): every call must answer such a table as it answers the same rows one after the other.

use crate::proved::Laid;
use crate::random::Random;
use crate::tables::Table;

/// All costs, then all periods, then all deadlines. Numbers that make no whole rows have no columns: any order will do.
fn by_column(list: &[u32], width: usize) -> Vec<u32> {
    if list.len() % width > 0 {
        return list.iter().rev().copied().collect();
    }
    (0..width).flat_map(|figure| list.chunks(width).map(move |row| row[figure])).collect()
}

/// Each question by its number, with the size of its answer: verdict, handler demand, task demand, margin, fresh, responses, trim.
const QUESTIONS: [(u64, usize); 7] = [(1, 64), (2, 24), (3, 16), (4, 24), (5, 2760), (7, 520), (10, 24)];

/// What the number of a question has on top where the table is held by column.
const BY_COLUMN: u64 = 100;

fn answer(question: u64, size: usize, table: &Table, l: u64) -> Vec<u8> {
    let asked = Laid::question(question).list(&table.tasks).list(&table.handlers);
    // The length that is asked about, or the row of the task.
    let asked = if matches!(question % BY_COLUMN, 2 | 3 | 4 | 10) { asked.number(l) } else { asked };
    asked.answer(size).rest()
}

/// A row more or a number fewer, now and then.
fn uneven(random: &mut Random, list: &[u32]) -> Vec<u32> {
    let mut list = list.to_vec();
    if random.chance(6) {
        list.pop();
    } else if random.chance(6) {
        list.push(1);
    }
    list
}

/// All calls on a table and on the same held by column; an error says which differ.
pub fn compare(random: &mut Random, table: &Table) -> Result<(), String> {
    let rows = Table { tasks: uneven(random, &table.tasks), handlers: uneven(random, &table.handlers) };
    let columns = Table { tasks: by_column(&rows.tasks, 3), handlers: by_column(&rows.handlers, 2) };
    let l = random.one_of(&[0, 1, 7, 100, 1_000, 1_000_000_001]);
    for (question, size) in QUESTIONS {
        if answer(question, size, &rows, l) != answer(BY_COLUMN + question, size, &columns, l) {
            return Err(format!("question {question} at {l} of {:?}, {:?}", columns.tasks, columns.handlers));
        }
    }
    Ok(())
}
