//! The same board in finer ticks, or with its rows in another order (02, M-104): what its sheet and its responses must then be.

use crate::proved;
use crate::random::Random;
use crate::tables::Table;

/// Every cost, period and deadline times k; none where a number passes 32 bits.
fn finer(table: &Table, k: u32) -> Option<Table> {
    let times = |list: &[u32]| list.iter().map(|n| n.checked_mul(k)).collect::<Option<Vec<u32>>>();
    Some(Table { tasks: times(&table.tasks)?, handlers: times(&table.handlers)? })
}

/// The rows of a list, of `width` numbers each, in any order.
fn shuffled(random: &mut Random, list: &[u32], width: usize) -> Vec<u32> {
    let mut rows: Vec<&[u32]> = list.chunks(width).collect();
    for i in (1..rows.len()).rev() {
        rows.swap(i, random.below(i as u64 + 1) as usize);
    }
    rows.concat()
}

/// A task whose period no other has keeps its response, wherever its row went.
fn own_response(table: &Table, other: &Table) -> Result<(), String> {
    let (_, least) = proved::responses(&table.tasks, &table.handlers);
    let (_, got) = proved::responses(&other.tasks, &other.handlers);
    let places = |t: &Table, period: u32| (0..t.tasks.len() / 3).filter(|i| t.tasks[3 * i + 1] == period).collect::<Vec<_>>();
    for period in table.tasks.chunks(3).map(|row| row[1]) {
        if let ([i], [j]) = (&places(table, period)[..], &places(other, period)[..]) {
            if least[*i] != got[*j] {
                return Err(format!("response {} of period {period} became {} in another order", least[*i], got[*j]));
            }
        }
    }
    Ok(())
}

/// Whether a readable table was compared; an error says what differs.
pub fn compare(random: &mut Random, table: &Table) -> Result<bool, String> {
    let sheet = proved::verdict(&table.tasks, &table.handlers);
    if sheet[0] == 2 {
        return Ok(false);
    }
    let other = Table { tasks: shuffled(random, &table.tasks, 3), handlers: shuffled(random, &table.handlers, 2) };
    let got = proved::verdict(&other.tasks, &other.handlers);
    if got != sheet {
        return Err(format!("{sheet:?} became {got:?} with the rows in the order {:?}, {:?}", other.tasks, other.handlers));
    }
    own_response(table, &other)?;
    let k = random.from_to(1, 7) as u32;
    let Some(fine) = finer(table, k) else { return Ok(true) };
    let got = proved::verdict(&fine.tasks, &fine.handlers);
    let mut want = sheet.clone();
    // The interval, both demands and what is left over; the word, the load and the count stay.
    [2, 3, 4, 6].iter().for_each(|&i| want[i] *= k as u64);
    if got[0] < 2 && got != want {
        return Err(format!("{sheet:?} became {got:?} in ticks {k} times finer"));
    }
    let (_, least) = proved::responses(&table.tasks, &table.handlers);
    let (code, got) = proved::responses(&fine.tasks, &fine.handlers);
    let want: Vec<u64> = least.iter().map(|l| l * k as u64).collect();
    if code == 0 && got != want {
        return Err(format!("responses {least:?} became {got:?} in ticks {k} times finer"));
    }
    Ok(true)
}
