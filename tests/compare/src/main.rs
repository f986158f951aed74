//! The library's C interface beside the second implementation: the same calls
//! on the same bytes give the same numbers, answers and bytes.
//!
//!     compare [--times K] [--part K] [--seed S] [--every-value] [--threads T] [--from NAME]
//!             [--stop]
//!
//! `--times K` takes K times as many seeds, `--part K` one in K, `--seed S`
//! starts them at S instead of 1, `--every-value` sets each byte of a hall to
//! all other values, `--from NAME` leaves out the tests before the one with that
//! name and does not ask what came, and `--stop` ends after the first test that failed. A failure names its
//! test and seed. The last line is 'N passed, M failed'.

use compare::counts::Counts;
use compare::pair::Difference;
use compare::{
    bench, courses, damage, decisions, events, files, flaws, listings, margins, offsets, openings,
    runs, settles, stepbacks, vectors,
};
use std::env;
use std::process::ExitCode;
use std::sync::atomic::{AtomicU64, Ordering};
use std::sync::Mutex;
use std::thread;
use std::time::Instant;

/// A test takes a seed, counts its calls, and says what differs.
type Test = fn(u64, &mut Counts) -> Result<(), Difference>;

/// A test with its name, its number of seeds, 1 if it uses none, and the events
/// that it must meet by itself.
type Row = (&'static str, Test, u64, &'static [&'static [&'static str]]);

const REACHED: [&[&str]; 2] = [&decisions::REACHED, &events::BY_ROW];
const RANDOM: [&[&str]; 2] = [&decisions::RANDOM, &events::BY_ROW];

const SETTLES: [&[&str]; 1] = [&courses::ANY];
const ODD_SETTLES: [&[&str]; 2] = [&courses::ANY, &courses::RANDOM];

const TESTS: [Row; 35] = [
    ("offsets by hand", offsets::by_hand, 1, &[]),
    ("vectors", vectors::all, 1, &[]),
    ("recorded settles", vectors::settles, 1, &[]),
    ("counted settles", settles::counted, 1, &[]),
    ("all openings", openings::all, 1, &[]),
    ("openings with votes", openings::votes, 1, &[]),
    ("any openings", openings::any, 32, &[]),
    ("margins", margins::all, 1, &[]),
    ("margins of different votes", margins::of_different, 4, &[]),
    ("offsets of halls", offsets::of_halls, 1_000, &[]),
    ("settled runs", settles::opened, 600, &SETTLES),
    ("odd settles", settles::odd, 400, &ODD_SETTLES),
    ("opened halls", runs::opened, 320, &REACHED),
    ("odd halls", runs::odd, 400, &[&events::BY_ROW]),
    ("exchanges", runs::exchanges, 100, &RANDOM),
    ("bytes of numbers", damage::numbers, 1, &[]),
    ("bytes of votes", damage::votes, 1, &[]),
    ("damaged bytes", damage::some_values, 48, &[]),
    ("damaged records", damage::records, 100, &[]),
    ("lengths", damage::lengths, 100, &[]),
    ("held runs", stepbacks::opened, 160, &[]),
    ("odd held runs", stepbacks::odd, 100, &[]),
    ("the longest held settle", stepbacks::longest_settle, 1, &[]),
    ("foreign writes", stepbacks::foreign, 160, &[]),
    ("invented slots", stepbacks::invented, 160, &[]),
    ("buffers of other halls", stepbacks::other_halls, 100, &[]),
    ("damaged buffers", stepbacks::damaged, 32, &[]),
    ("lengths of buffers", stepbacks::lengths, 16, &[]),
    ("flawed buffers", stepbacks::flawed, 160, &[]),
    ("run files of vectors", files::vectors, 1, &[]),
    ("damaged run files", files::damaged, 400, &[]),
    ("written run files", files::written, 200, &[]),
    ("offsets of 64 bits", files::high_words, 1, &[]),
    ("listings of vectors", listings::vectors, 1, &[]),
    ("listings", listings::any, 200, &[]),
];

/// In place of "damaged bytes", on request.
const EVERY_VALUE: Row = ("every value of every byte", damage::all_values, 256, &[]);

/// A test ends when this many seeds have failed.
const ENOUGH: usize = 5;

struct Options {
    times: u64,
    part: u64,
    first_seed: u64,
    every_value: bool,
    threads: usize,
    from: Option<String>,
    stop: bool,
}

fn options() -> Result<Options, String> {
    let mut options = Options {
        times: 1,
        part: 1,
        first_seed: 1,
        every_value: false,
        threads: thread::available_parallelism().map_or(1, usize::from),
        from: None,
        stop: false,
    };
    let mut words = env::args().skip(1);
    while let Some(word) = words.next() {
        let mut number = || {
            let number = words.next().and_then(|text| text.parse::<u64>().ok());
            number.ok_or(format!("{word} takes a number"))
        };
        match word.as_str() {
            "--times" => options.times = number()?,
            "--part" => options.part = number()?.max(1),
            "--seed" => options.first_seed = number()?,
            "--threads" => options.threads = number()?.max(1) as usize,
            "--from" => options.from = words.next(),
            "--every-value" => options.every_value = true,
            "--stop" => options.stop = true,
            _ => return Err(format!("{word} is no option")),
        }
    }
    Ok(options)
}

/// What came of a test.
struct Outcome {
    counts: Counts,
    /// The seeds that failed, with what differs.
    failures: Vec<(u64, Difference)>,
}

/// Runs a test with seeds from `first` on, on several threads.
fn run(test: Test, first: u64, seeds: u64, threads: usize) -> Outcome {
    let next = AtomicU64::new(first);
    let outcome = Mutex::new(Outcome {
        counts: Counts::default(),
        failures: Vec::new(),
    });
    let work = || loop {
        let seed = next.fetch_add(1, Ordering::Relaxed);
        if seed >= first + seeds {
            return;
        }
        let mut counts = Counts::default();
        let result = test(seed, &mut counts);
        let mut outcome = outcome.lock().expect("no test panics");
        outcome.counts.add(counts);
        if let Err(what) = result {
            outcome.failures.push((seed, what));
            if outcome.failures.len() == ENOUGH {
                next.store(first + seeds, Ordering::Relaxed);
            }
        }
    };
    thread::scope(|scope| {
        for _ in 0..threads {
            scope.spawn(work);
        }
    });
    outcome.into_inner().expect("no test panics")
}

/// Prints a test's seeds and failures; whether it passed.
fn report(name: &str, first: u64, seeds: u64, outcome: &Outcome, seconds: f64) -> bool {
    let calls = outcome.counts.calls;
    let last = first + seeds - 1;
    println!("{name}: seeds {first} to {last}, {calls} calls, {seconds:.1} s");
    for (seed, what) in &outcome.failures {
        println!("  failed: seed {seed}: {what}");
    }
    if calls == 0 {
        println!("  failed: no call was made");
    }
    outcome.failures.is_empty() && calls != 0
}

/// Whether everything that must have come did come; `missing` is what did not in
/// single tests.
fn report_counts(counts: &Counts, mut missing: Vec<String>) -> bool {
    println!("through the C interface:\n{counts}");
    let mut events = events::EVENTS.to_vec();
    events.extend([damage::STILL_A_HALL, damage::NO_HALL, damage::SETTLED]);
    events.extend(margins::EVENTS);
    events.extend(files::EVENTS);
    events.extend(listings::EVENTS);
    events.extend(bench::EVENTS);
    events.extend(stepbacks::EVENTS);
    events.extend([flaws::STEP, flaws::SETTLE, flaws::BACK].as_flattened());
    missing.extend(counts.missing_answers());
    missing.extend(counts.missing_events(&events));
    for what in &missing {
        println!("  failed: never came: {what}");
    }
    missing.is_empty()
}

fn main() -> ExitCode {
    let options = match options() {
        Ok(options) => options,
        Err(what) => {
            println!("{what}\n0 passed, 1 failed");
            return ExitCode::FAILURE;
        }
    };
    let mut sum = Counts::default();
    let mut missing = Vec::new();
    let mut passed = 0;
    let mut failed = 0;
    let is_first = |row: &Row| options.from.as_deref().is_none_or(|from| from == row.0);
    for row in TESTS.into_iter().skip_while(|row| !is_first(row)) {
        let (name, test, seeds, own_events) = match row.0 {
            "damaged bytes" if options.every_value => EVERY_VALUE,
            _ => row,
        };
        // A test of one seed uses none.
        let (first, seeds) = match seeds {
            1 => (1, 1),
            _ => (
                options.first_seed,
                (seeds * options.times).div_ceil(options.part),
            ),
        };
        let begin = Instant::now();
        let outcome = run(test, first, seeds, options.threads);
        let seconds = begin.elapsed().as_secs_f64();
        let well = report(name, first, seeds, &outcome, seconds);
        let own_events = own_events.concat();
        for event in &own_events {
            println!("  {event}: {}", outcome.counts.of_event(event));
        }
        let not_met = outcome.counts.missing_events(&own_events).into_iter();
        missing.extend(not_met.map(|event| format!("{name}: {event}")));
        sum.add(outcome.counts);
        *(if well { &mut passed } else { &mut failed }) += 1;
        if options.stop && !well {
            break;
        }
    }
    if failed == 0 && options.from.is_none() {
        let well = report_counts(&sum, missing);
        *(if well { &mut passed } else { &mut failed }) += 1;
    }
    println!("{passed} passed, {failed} failed");
    if failed == 0 {
        ExitCode::SUCCESS
    } else {
        ExitCode::FAILURE
    }
}
