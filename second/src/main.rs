//! Compares the proved library with the slow second program on many tables.
//!     second SEED COUNT FIT ANSWERS BY_PRIORITY GUARD_ROWS TRIM_TABLE CHARGE_TABLES JUDGE_SCHEDULE
//!                                      COUNT tables of each kind through the program ANSWERS (second/answers.c), and as many files
//!                                      through the programs FIT, BY_PRIORITY, GUARD_ROWS, TRIM_TABLE and JUDGE_SCHEDULE, and lists through
//!                                      CHARGE_TABLES; ends with status 1 at the first difference, and prints what shows it
//!     second trim PATIENCE TASK        reads a table file from standard input and prints what `trim_table` must print of that task, every
//!                                      cost from the present one downward tried
//!     second guards PATIENCE           reads a file of guards from standard input and prints the lines that `guard_rows` must print
//!     second priority PATIENCE         the same of the lines that `by_priority` must print; every length up to the deadline is tried
//!     second fit PATIENCE              reads a table file from standard input and prints the lines that `fit` must print, or, where no length up
//!                                      to PATIENCE fails and that settles nothing, `patience PATIENCE LENGTH`: how far it would have to go

mod charge_lists;
mod charges;
mod columns;
mod drawn;
mod files;
mod guard_files;
mod guards;
mod idle;
mod model;
mod priority;
mod proved;
mod random;
mod schedule_files;
mod scheduler;
mod schedules;
mod steps;
mod tables;
mod trim;
mod trim_files;
mod units;

use random::Random;
use std::io::Read;
use std::process::exit;
use tables::Table;

/// How far a blind search goes.
const PATIENCE: u128 = 20_000;

#[derive(Default)]
struct Counts {
    tables: u64,
    verdicts: u64,
    /// Of these, readable tables with a deadline before the next arrival.
    short: u64,
    fits: u64,
    misses: u64,
    refused: u64,
    /// Tables with an idle point, and tables without one.
    idle: [u64; 2],
    questions: u64,
    /// Tables whose responses were compared, and tasks that have one and that have none.
    ranked: u64,
    in_time: u64,
    late: u64,
    /// Tables compared with themselves in finer ticks and in another order.
    again: u64,
    /// Tables compared with themselves held by column.
    columns: u64,
}

fn differ(what: &str, table: &Table, ours: String, theirs: String) -> ! {
    println!("DIFFERENT {what}: proved {ours}, second program {theirs}");
    println!("tasks {:?}", table.tasks);
    println!("handlers {:?}", table.handlers);
    exit(1);
}

/// Both demands and the margin at a length.
fn ask(table: &Table, l: u64, counts: &mut Counts) {
    let (t, h) = (&table.tasks, &table.handlers);
    let code = model::asked_refusal(t, h, l);
    let (f, left, d) = if code == 0 && l as u128 <= PATIENCE {
        let l = l as u128;
        let f = model::handled(&model::handlers_of(h), l);
        (f.ticks, f.left(), model::due(&model::tasks_of(t), l))
    } else if code == 0 {
        return;
    } else {
        (0, 0, 0)
    };
    let want = [code as u64, f as u64, left as u64];
    let got = proved::handler_demand(t, h, l);
    if got != want {
        differ(&format!("handler demand at {l}"), table, format!("{got:?}"), format!("{want:?}"));
    }
    let want = [code as u64, d as u64];
    let got = proved::task_demand(t, h, l);
    if got != want {
        differ(&format!("task demand at {l}"), table, format!("{got:?}"), format!("{want:?}"));
    }
    let margin = if code == 0 { l as i128 - f as i128 - d as i128 } else { 0 };
    let want = (code as u64, left as u64, margin as i64);
    let got = proved::margin(t, h, l);
    if got != want {
        differ(&format!("margin at {l}"), table, format!("{got:?}"), format!("{want:?}"));
    }
    counts.questions += 1;
}

/// f around whole periods of a few handlers, whose work in one is below its ticks, as many, or above.
fn ask_wholes(random: &mut Random, counts: &mut Counts) {
    let mut handlers = vec![];
    for _ in 0..random.from_to(1, 3) {
        let period = random.from_to(1, 12) as u32;
        let cost = random.from_to(1, period as u64 / 2 + 1) as u32;
        handlers.extend([cost, period]);
    }
    let table = Table { tasks: vec![1, 1_000, 1_000], handlers };
    let periods = |l: &u64| table.handlers.chunks_exact(2).all(|r| l % r[1] as u64 == 0);
    let own = (1..).find(periods).unwrap();
    for near in [0, own, own * random.from_to(1, PATIENCE as u64 / own)] {
        for l in [near.saturating_sub(1), near, near + 1] {
            if l as u128 <= PATIENCE {
                ask(&table, l, counts);
            }
        }
    }
}

/// f at the limit, tick by tick.
fn ask_limit(counts: &mut Counts) {
    let handlers = vec![2, 6, 1, 4];
    let f = model::handled(&model::handlers_of(&handlers), model::LIMIT);
    let want = [0, f.ticks as u64, f.left() as u64];
    let table = Table { tasks: vec![1, 1_000, 1_000], handlers };
    let got = proved::handler_demand(&table.tasks, &table.handlers, model::LIMIT as u64);
    if got != want {
        differ("handler demand at the limit", &table, format!("{got:?}"), format!("{want:?}"));
    }
    counts.questions += 1;
}

fn judge(table: &Table, counts: &mut Counts) {
    counts.tables += 1;
    let Ok(want) = model::verdict(&table.tasks, &table.handlers, PATIENCE) else { return };
    let got = proved::verdict(&table.tasks, &table.handlers);
    if got != want {
        differ("verdict", table, format!("{got:?}"), format!("{want:?}"));
    }
    counts.verdicts += 1;
    let short = |t: &model::Task| t.deadline < t.period;
    counts.short += (want[0] < 2 && model::tasks_of(&table.tasks).iter().any(short)) as u64;
    match want[0] {
        0 => counts.fits += 1,
        1 => counts.misses += 1,
        _ => counts.refused += 1,
    }
    let Ok(figures) = model::figures(&table.tasks, &table.handlers) else { return };
    if figures.hyper > PATIENCE {
        return;
    }
    match idle::claims(&figures, want[2] as u128) {
        Ok(found) => counts.idle[!found as usize] += 1,
        Err(what) => differ(&what, table, format!("{got:?}"), format!("{want:?}")),
    }
}

/// How many lengths are tried for a response.
const LENGTHS: u128 = 1_000;

/// The responses by fixed priority.
fn rank(table: &Table, counts: &mut Counts) {
    let Some((code, mut want)) = priority::responses(&table.tasks, &table.handlers, LENGTHS) else { return };
    counts.in_time += want.iter().filter(|&&l| l > 0).count() as u64;
    counts.late += want.iter().filter(|&&l| l == 0).count() as u64;
    want.resize(64, 0);
    let got = proved::responses(&table.tasks, &table.handlers);
    if got != (code, want.clone()) {
        differ("responses", table, format!("{got:?}"), format!("{:?}", (code, want)));
    }
    counts.ranked += 1;
}

/// Whole runs, by deadline and by priority, and steps of runs made elsewhere.
fn run_all(random: &mut Random, table: &Table, steps: &mut steps::Counts) {
    for by in [scheduler::By::Deadline, scheduler::By::Priority] {
        if let Err(what) = steps::whole(random, table, 60, by, steps) {
            differ(&what, table, String::new(), String::new());
        }
    }
    for _ in 0..3 {
        if let Err(what) = steps::made_elsewhere(random, steps) {
            differ(&what, table, String::new(), String::new());
        }
    }
}

/// Rows of guards, and tables that a milder guard must keep.
fn guard(random: &mut Random, guards: &mut guards::Counts) {
    for compared in [guards::compare, guards::compare, guards::compare, guards::lower] {
        if let Err(what) = compared(random, guards) {
            println!("DIFFERENT guard: {what}");
            exit(1);
        }
    }
}

/// The greatest cost of a task at which the table fits.
fn trim(random: &mut Random, table: &Table, trimmed: &mut trim::Counts) {
    if let Err(what) = trim::compare(random, table, trimmed) {
        println!("DIFFERENT trimmed: {what}");
        exit(1);
    }
}

/// Three ways of charging a table's handlers.
fn charge(random: &mut Random, table: &Table, charged: &mut charges::Counts) {
    if let Err(what) = charges::compare(random, table, charged) {
        println!("DIFFERENT charges: {what}");
        exit(1);
    }
}

/// Schedules made elsewhere, judged tick by tick.
fn judge_schedules(random: &mut Random, table: &Table, judged: &mut schedules::Counts) {
    if let Err(what) = schedules::compare(random, table, judged) {
        println!("DIFFERENT schedule: {what}");
        exit(1);
    }
}

/// Schedule files through a program, damaged ones among them.
fn judge_all(random: &mut Random, count: u64, program: &str) -> schedules::Counts {
    schedule_files::compare(random, count, program).unwrap_or_else(|what| {
        println!("DIFFERENT schedule file: {what}");
        exit(1);
    })
}

/// Lists of files through a program. How many files they name.
fn charge_all(random: &mut Random, count: u64, program: &str) -> usize {
    let folder = std::env::temp_dir().join(format!("charges-{}", std::process::id()));
    let mut named = 0;
    for _ in 0..count {
        std::fs::create_dir(&folder).expect("a folder for the files of a list");
        let told = charge_lists::compare(random, program, &folder);
        std::fs::remove_dir_all(&folder).expect("the folder to go again");
        match told {
            Ok(files) => named += files,
            Err(what) => {
                println!("DIFFERENT list: {what}");
                exit(1);
            }
        }
    }
    named
}

/// Files through a program, damaged ones among them. How many were compared, and how many of them break the layout.
fn read_all(random: &mut Random, count: u64, program: &str, made: fn(&mut Random) -> Vec<u8>, lines: fn(&[u8]) -> Option<String>) -> (u64, u64) {
    let (mut compared, mut broken) = (0, 0);
    for _ in 0..count {
        let file = made(random);
        let Some(want) = lines(&file) else { continue };
        let got = files::run(program, &file);
        if got != want {
            println!("DIFFERENT sheet: proved {got:?}, second program {want:?}");
            println!("file {:?}", String::from_utf8_lossy(&file));
            exit(1);
        }
        compared += 1;
        broken += want.contains("refused,12,") as u64;
    }
    (compared, broken)
}

/// Files trimmed by a program, damaged ones among them.
fn trim_all(random: &mut Random, count: u64, program: &str) -> trim_files::Counts {
    let mut counts = trim_files::Counts::default();
    for _ in 0..count {
        if let Err(what) = trim_files::compare(random, program, &mut counts) {
            println!("DIFFERENT trimmed file: {what}");
            exit(1);
        }
    }
    counts
}

/// What a program must print of the table file on standard input.
fn print_lines(command: &str, patience: u128, task: &str) {
    let mut file = vec![];
    // One byte more than a file may have, so that a longer one is known as such.
    if let Err(error) = std::io::stdin().take(4097).read_to_end(&mut file) {
        eprintln!("second: standard input could not be read to its end: {error}");
        exit(3);
    }
    match command {
        "fit" | "trim" => {
            let told = if command == "fit" { files::sheet(&file, patience) } else { trim_files::lines(&file, task, patience, u32::MAX) };
            match told {
                Ok(lines) => print!("{lines}"),
                Err(length) => println!("patience {patience} {length}"),
            }
        }
        "guards" => print!("{}", guard_files::lines(&file)),
        // No deadline is longer than a million ticks.
        _ => print!("{}", priority::lines(&file, model::FIGURE).unwrap()),
    }
}

fn main() {
    let words: Vec<String> = std::env::args().skip(1).collect();
    if let [command, patience, task @ ..] = &words[..] {
        match (command.as_str(), patience.parse(), task) {
            (command @ ("fit" | "priority" | "guards"), Ok(patience), []) => return print_lines(command, patience, ""),
            ("trim", Ok(patience), [task]) => return print_lines("trim", patience, task),
            _ => {}
        }
    }
    let numbers: Vec<u64> = words.iter().filter_map(|a| a.parse().ok()).collect();
    let ([seed, count], [_, _, program, answers, ranked, guarded, trimming, charging, judging]) = (&numbers[..], &words[..]) else {
        eprintln!("usage: second SEED COUNT FIT ANSWERS BY_PRIORITY GUARD_ROWS TRIM_TABLE CHARGE_TABLES JUDGE_SCHEDULE,");
        eprintln!("or second fit, priority or guards PATIENCE, or second trim PATIENCE TASK");
        exit(2);
    };
    proved::start(answers);
    let (seed, count) = (*seed, *count);
    let mut random = Random::new(seed);
    let mut counts = Counts::default();
    let mut steps = steps::Counts::default();
    let mut guards = guards::Counts::default();
    let mut trimmed = trim::Counts::default();
    let mut charged = charges::Counts::default();
    let mut judged = schedules::Counts::default();
    for _ in 0..count {
        for kind in [tables::small, tables::hostile, tables::wide] {
            let table = kind(&mut random);
            judge(&table, &mut counts);
            rank(&table, &mut counts);
            match units::compare(&mut random, &table) {
                Ok(compared) => counts.again += compared as u64,
                Err(what) => differ("in other ticks or another order", &table, what, "the same board".into()),
            }
            match columns::compare(&mut random, &table) {
                Ok(()) => counts.columns += 1,
                Err(what) => differ("by column", &table, what, "the same in row order".into()),
            }
            for _ in 0..3 {
                let l = random.from_to(0, 300);
                ask(&table, l, &mut counts);
            }
            let l = random.one_of(&[0, 1, 999, 9_999, 1_000_000_001, u64::MAX]);
            ask(&table, l, &mut counts);
            run_all(&mut random, &table, &mut steps);
            guard(&mut random, &mut guards);
            trim(&mut random, &table, &mut trimmed);
            charge(&mut random, &table, &mut charged);
            judge_schedules(&mut random, &table, &mut judged);
        }
        ask_wholes(&mut random, &mut counts);
    }
    if seed == 1 {
        ask_limit(&mut counts);
    }
    println!(
        "seed {seed}: {} tables, {} verdicts compared ({} fits, {} misses, {} refused; {} with short deadlines), {} questions compared, 0 differences",
        counts.tables, counts.verdicts, counts.fits, counts.misses, counts.refused, counts.short, counts.questions
    );
    println!("seed {seed}: {} tables alike in finer ticks and in another order, 0 differences", counts.again);
    println!("seed {seed}: {} tables alike by column and by row, uneven ones among them, 0 differences", counts.columns);
    println!("seed {seed}: {} idle points where W and H put them, {} tables without one, 0 differences", counts.idle[0], counts.idle[1]);
    println!(
        "seed {seed}: {} runs, {} steps compared ({} by priority; {} late, refused 6 to 11: {:?}), 0 differences",
        steps.runs, steps.ticks, steps.ranked, steps.late, &steps.refused[6..]
    );
    println!(
        "seed {seed}: responses of {} tables compared ({} tasks have one, {} have none), 0 differences",
        counts.ranked, counts.in_time, counts.late
    );
    println!(
        "seed {seed}: {} guards compared ({} with rows, {} refused by 14, {} by 3), {} tables that a milder one kept, 0 differences",
        guards.rows + guards.burst + guards.outside,
        guards.rows,
        guards.burst,
        guards.outside,
        guards.kept
    );
    println!(
        "seed {seed}: {} tables trimmed ({} as they are, {} lowered, {} with no cost that fits, {} refused, {} of them by 18), 0 differences",
        trimmed.all, trimmed.kept, trimmed.lowered, trimmed.none, trimmed.refused, trimmed.missing
    );
    println!(
        "seed {seed}: {} tables charged in three ways ({} with both others, {} fit while both miss, {} miss while one fits, {} refused by 19), 0 differences",
        charged.all, charged.charged, charged.stricter, charged.milder, charged.outside
    );
    println!(
        "seed {seed}: {} schedules judged ({} accepted, {} broken, {} refused, {} of them by 16 and {} by 17; {} of our own as the verdict says), 0 differences",
        judged.all, judged.accepted, judged.broken, judged.refused, judged.torn, judged.outside, judged.own
    );
    let (compared, broken) = read_all(&mut random, count, program, files::file, |file| files::sheet(file, PATIENCE).ok());
    println!("seed {seed}: {compared} files compared ({broken} broken), 0 differences");
    let (compared, broken) = read_all(&mut random, count, ranked, files::file, |file| priority::lines(file, LENGTHS));
    println!("seed {seed}: {compared} files compared by priority ({broken} broken), 0 differences");
    let (compared, broken) = read_all(&mut random, count, guarded, guard_files::file, |file| Some(guard_files::lines(file)));
    println!("seed {seed}: {compared} files of guards compared ({broken} broken), 0 differences");
    let files = trim_all(&mut random, count, trimming);
    println!(
        "seed {seed}: {} files trimmed ({} new ones, {} of them with a lower cost; {} with none, {} broken, {} refused by 18), 0 differences",
        files.all, files.files, files.lowered, files.none, files.broken, files.missing
    );
    let named = charge_all(&mut random, count / 5, charging);
    println!("seed {seed}: {} lists that name {named} files charged, 0 differences", count / 5);
    let files = judge_all(&mut random, count, judging);
    println!(
        "seed {seed}: {} schedule files judged ({} accepted, {} broken, {} refused, {} of them by 16 and {} by 17), 0 differences",
        files.all, files.accepted, files.broken, files.refused, files.torn, files.outside
    );
}
