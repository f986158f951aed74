//! The library beside plain Rust on the same inputs, in one run: times, and
//! instructions by kind. `run` builds both for release and starts this program.
//!
//!     bench --replay PROGRAM --reference PROGRAM [--passes K] [--compare FILE]
//!
//! Every time is the least of K passes, in which both sides take turns. The
//! tables go to standard output, and notes to standard error. With --compare
//! they have the figures of FILE, an earlier output, beside the new ones.

mod count;
mod earlier;
mod held;
mod inner;
mod inputs;
mod plain;
mod programs;
mod table;
mod times;

use earlier::Earlier;
use inputs::Run;
use std::env;
use std::path::PathBuf;
use std::process::exit;
use table::{Output, Table, Unit};

const USAGE: &str =
    "usage: bench --replay PROGRAM --reference PROGRAM [--passes K] [--compare FILE]";

struct Options {
    passes: u32,
    replay: PathBuf,
    reference: PathBuf,
    compare: Option<PathBuf>,
    /// What this program does under callgrind.
    count: bool,
}

fn options() -> Option<Options> {
    let mut options = Options {
        passes: 5,
        replay: PathBuf::new(),
        reference: PathBuf::new(),
        compare: None,
        count: false,
    };
    let mut words = env::args().skip(1);
    while let Some(word) = words.next() {
        match word.as_str() {
            "--passes" => options.passes = words.next()?.parse().ok().filter(|&k| k > 0)?,
            "--replay" => options.replay = words.next()?.into(),
            "--reference" => options.reference = words.next()?.into(),
            "--compare" => options.compare = Some(words.next()?.into()),
            "--count" => options.count = true,
            _ => return None,
        }
    }
    Some(options)
}

/// Ends the program with a message.
fn fail(status: i32, message: &str) -> ! {
    eprintln!("{message}");
    exit(status)
}

/// Prints the tables of instructions.
fn print_counts(output: &mut Output) {
    let counts = match count::counted() {
        Ok(Some(counts)) => counts,
        Ok(None) => return eprintln!("valgrind is not there: no instructions are counted"),
        Err(why) => fail(1, &format!("bench: {why}")),
    };
    for counts in counts.chunk_by(|one, next| one.heading == next.heading) {
        let mut table = Table::new(&counts[0].heading, Unit::Instructions, 1);
        for count in counts {
            table.add(count.name.clone(), count.library, count.rust);
        }
        output.print(&table);
    }
}

fn main() {
    let Some(options) = options() else {
        fail(2, USAGE)
    };
    let runs = [Run::random(3, 1), Run::random(8, 2), Run::settled()];
    if options.count {
        return count::parts(&runs, &runs[1]);
    }
    let read = |file: &PathBuf| {
        Earlier::read(file).unwrap_or_else(|why| fail(2, &format!("bench: {why}")))
    };
    let mut output = Output::new(options.compare.as_ref().map(read));

    eprintln!("seeds 1 and 2 for runs of N = 3 and N = 8, 3 for random halls");
    let passes = options.passes;
    eprintln!("times are the least of {passes} passes");
    let [three, eight, _] = &runs;
    output.print(&times::steps(passes, &[three, eight]));
    output.print(&held::steps(passes, &runs));
    output.print(&held::steps_back(passes, &runs));
    if inner::LINKED {
        output.print(&times::inner_steps(passes, &runs));
    }
    output.print(&times::longest_settle(passes));
    output.print(&times::settled_hall(passes));
    let [pages, checks] = times::pages_and_checks(passes, eight);
    output.print(&pages);
    output.print(&checks);
    let [replay, reference] = [&options.replay, &options.reference];
    output.print(&times::replays(passes, replay, reference, eight));
    if inner::LINKED {
        print_counts(&mut output);
    } else {
        eprintln!("not built: the library bench_api (step without check)");
    }
    output.end();
}
