//! Instructions: of a single step by kind, the library's inner step beside the
//! second implementation on a hall in memory; of the longest settle's tries;
//! and of the check. Valgrind's callgrind counts them, so that they are the
//! same in every run on a machine.
//!
//! This program starts itself under callgrind, which counts inside the
//! functions of `COUNTED` alone. A part of the count ends where
//! `bench_part_ends` is called. The library's step alone is what a list of one
//! action takes beyond an empty list, on the same hall: the check of the hall,
//! which `hall_steps` begins with, is in both.

use crate::inner;
use crate::inputs::{self, Run, Settle, Snapshot};
use crate::plain;
use compare::library;
use reference::stored::{self, LENGTH};
use reference::{open_built_in, Answer, Hall};
use std::hint::black_box;
use std::path::PathBuf;
use std::process::{Command, Stdio};
use std::{env, fs};

/// The most calls that are counted of a kind in a run, evenly spread.
const CALLS: usize = 128;

/// Parts of the count for each row: the library, what of it is left out, Rust.
const PARTS: usize = 3;

/// The functions inside which instructions are counted.
const COUNTED: [&str; 4] = [
    "hall_steps",
    "hall_check",
    "bench_rust_step",
    "bench_rust_check",
];

/// Which calls a row is about.
const KINDS: [&str; 15] = [
    "submit",
    "label",
    "send entry",
    "send summary",
    "form",
    "enter",
    "place",
    "receive entry",
    "receive summary",
    "notice entry",
    "notice summary",
    "confirm",
    "deliver",
    "refused receive",
    "refused notice",
];

/// The row of a call. A call that is refused for its words is in none.
fn kind(k: u32, answer: Answer) -> Option<&'static str> {
    let name = match (k, answer) {
        (8, Answer::Refused(32..)) => "refused receive",
        (9, Answer::Refused(32..)) => "refused notice",
        (_, Answer::Refused(_)) => return None,
        (8, Answer::Entry { .. }) => "receive entry",
        (8, _) => "receive summary",
        (9, Answer::Entry { .. }) => "notice entry",
        (9, _) => "notice summary",
        (1..=7, _) => KINDS[k as usize - 1],
        (10, _) => "confirm",
        (_, _) => "deliver",
    };
    Some(name)
}

/// The second implementation's step, for callgrind to find.
#[no_mangle]
#[inline(never)]
pub fn bench_rust_step(hall: &mut Hall, action: &[u32; 4]) {
    let &[k, r, a, b] = action;
    black_box(&hall.step(k, r, a, b));
}

/// The check in plain Rust, for callgrind to find.
#[no_mangle]
#[inline(never)]
pub fn bench_rust_check(hall: &[u8]) {
    assert!(black_box(plain::is_hall(hall)));
}

/// Where a part of the count ends, for callgrind to find.
#[no_mangle]
#[inline(never)]
pub fn bench_part_ends() {
    black_box(());
}

/// Which actions of a run have a kind.
fn places(run: &Run, wanted: &str) -> Vec<usize> {
    let mut hall = open_built_in(run.n, run.founders).expect("the opening is taken");
    let mut places = Vec::new();
    for (place, &[k, r, a, b]) in run.actions.iter().enumerate() {
        if kind(k, hall.step(k, r, a, b)) == Some(wanted) {
            places.push(place);
        }
    }
    let count = places.len().min(CALLS);
    (0..count)
        .map(|i| places[i * places.len() / count])
        .collect()
}

/// The stored forms of the halls before these actions.
fn halls_before(run: &Run, places: &[usize]) -> Vec<Vec<u8>> {
    let mut hall = open_built_in(run.n, run.founders).expect("the opening is taken");
    let mut halls = Vec::new();
    let mut wanted = places.iter().peekable();
    for (place, &[k, r, a, b]) in run.actions.iter().enumerate() {
        if wanted.next_if_eq(&&place).is_some() {
            halls.push(stored::form(&hall));
        }
        hall.step(k, r, a, b);
    }
    halls
}

/// A part: the library's steps from each of the halls.
fn library_part<'a>(halls: &[Vec<u8>], actions: impl Fn(usize) -> &'a [[u32; 4]]) {
    let mut bytes = vec![0; LENGTH];
    for (i, hall) in halls.iter().enumerate() {
        bytes.copy_from_slice(hall);
        assert_eq!(inner::steps(&mut bytes, black_box(actions(i))), 0);
    }
    bench_part_ends();
}

/// A part: the run in memory, in which these actions are counted.
fn rust_part(run: &Run, places: &[usize]) {
    let mut hall = open_built_in(run.n, run.founders).expect("the opening is taken");
    let mut counted = places.iter().peekable();
    for (place, action) in run.actions.iter().enumerate() {
        if counted.next_if_eq(&&place).is_some() {
            bench_rust_step(&mut hall, action);
        } else {
            let &[k, r, a, b] = action;
            hall.step(k, r, a, b);
        }
    }
    bench_part_ends();
}

/// Names the row of the last parts on standard output.
fn name_row(heading: &str, calls: usize, row: &str) {
    println!("{heading}\t{calls}\t{row}");
}

fn heading(run: &Run) -> String {
    format!("Inner step by kind, {}: instructions a call", run.name)
}

/// The row of a kind.
fn count_kind(run: &Run, kind: &str) {
    let places = places(run, kind);
    if places.is_empty() {
        return;
    }
    let halls = halls_before(run, &places);
    library_part(&halls, |i| std::slice::from_ref(&run.actions[places[i]]));
    library_part(&halls, |_| &[]);
    rust_part(run, &places);
    let row = format!("{kind}, {}", run.name);
    name_row(&heading(run), places.len(), &row);
}

/// The row of all actions of a run, refused ones too.
fn count_all(run: &Run) {
    let halls = halls_before(run, &[0]);
    library_part(&halls, |_| &run.actions);
    library_part(&halls, |_| &[]);
    let places: Vec<usize> = (0..run.actions.len()).collect();
    rust_part(run, &places);
    let row = format!("all actions, {}", run.name);
    name_row(&heading(run), places.len(), &row);
}

/// The row of all tries of a settle.
fn count_settle(settle: &Settle) {
    let halls = [stored::form(&settle.hall)];
    library_part(&halls, |_| &settle.tries);
    library_part(&halls, |_| &[]);
    let mut hall = settle.hall.clone();
    for action in &settle.tries {
        bench_rust_step(&mut hall, action);
    }
    bench_part_ends();
    let tries = settle.tries.len();
    name_row(
        "Longest settle: instructions a try",
        tries,
        "all tries, longest settle",
    );
}

/// The row of the check.
fn count_checks(name: &str, halls: &[Snapshot]) {
    for hall in halls {
        assert_eq!(library::check_of(hall.lent.area()), 0);
    }
    bench_part_ends();
    bench_part_ends();
    for hall in halls {
        bench_rust_check(hall.lent.area());
    }
    bench_part_ends();
    let row = format!("check of {name}");
    name_row("Check: instructions a call", halls.len(), &row);
}

/// What this program does under callgrind.
pub fn parts(runs: &[Run], halls_of: &Run) {
    for run in runs {
        KINDS.iter().for_each(|kind| count_kind(run, kind));
        count_all(run);
    }
    count_settle(&inputs::longest_settle());
    for (name, halls) in inputs::halls(halls_of) {
        count_checks(name, &halls);
    }
}

/// Instructions of a call, and the heading of the table that they stand in.
pub struct Count {
    pub heading: String,
    pub name: String,
    pub library: f64,
    pub rust: f64,
}

/// The path of valgrind, if there is one.
fn valgrind() -> Option<PathBuf> {
    let folders = env::var_os("PATH")?;
    let mut paths = env::split_paths(&folders).map(|folder| folder.join("valgrind"));
    paths.find(|path| path.is_file())
}

/// The sums of all parts of callgrind's output.
fn sums(output: &str) -> Result<Vec<u64>, String> {
    let sums = output
        .lines()
        .filter_map(|line| line.strip_prefix("totals: "));
    let numbers: Result<Vec<u64>, _> = sums.map(|sum| sum.trim().parse()).collect();
    numbers.map_err(|error| format!("callgrind's output: {error}"))
}

/// The counts of the rows that this program printed, none of them 0. What comes
/// behind their parts is the program's end.
fn counts(rows: &str, sums: &[u64]) -> Option<Vec<Count>> {
    let rows: Vec<&str> = rows.lines().collect();
    if sums.len() < PARTS * rows.len() {
        return None;
    }
    let count = |(row, parts): (&&str, &[u64])| {
        let (heading, row) = row.split_once('\t')?;
        let (calls, name) = row.split_once('\t')?;
        let calls: f64 = calls.parse().ok()?;
        let each = |sum: u64| (sum > 0).then_some(sum as f64 / calls);
        Some(Count {
            heading: heading.to_string(),
            name: name.to_string(),
            library: each(parts[0].checked_sub(parts[1])?)?,
            rust: each(parts[2])?,
        })
    };
    rows.iter()
        .zip(sums.chunks_exact(PARTS))
        .map(count)
        .collect()
}

/// Runs this program under callgrind. Nothing if valgrind is missing.
pub fn counted() -> Result<Option<Vec<Count>>, String> {
    let Some(valgrind) = valgrind() else {
        return Ok(None);
    };
    let program = env::current_exe().map_err(|error| error.to_string())?;
    let file = env::temp_dir().join(format!("bench-{}.callgrind", std::process::id()));
    let mut command = Command::new(valgrind);
    // Words of the environment would stand on the stack and move it.
    command.env_clear().arg("--tool=callgrind");
    command.args(COUNTED.map(|name| format!("--toggle-collect={name}")));
    command.args(["--dump-before=bench_part_ends", "--combine-dumps=yes"]);
    command.arg(format!("--callgrind-out-file={}", file.display()));
    command.arg(program).arg("--count").stderr(Stdio::piped());
    let ended = command.output().map_err(|error| error.to_string())?;
    let output = fs::read_to_string(&file);
    let _ = fs::remove_file(&file);
    if !ended.status.success() {
        let said = String::from_utf8_lossy(&ended.stderr);
        return Err(format!("callgrind fails:\n{said}"));
    }
    let output = output.map_err(|error| format!("callgrind's output: {error}"))?;
    let rows = String::from_utf8_lossy(&ended.stdout);
    let counts = counts(&rows, &sums(&output)?);
    counts
        .map(Some)
        .ok_or("callgrind's output does not have the parts that were counted".to_string())
}
