//! The run files of tests/vectors, replayed through the C interface: the
//! listing of the answers is the stored one, and for those of settles what a
//! settle then gives, with all pages.

use crate::counts::Counts;
use crate::pair::{Difference, Pair};
use reference::calls::{ANSWER_LENGTH, WORDS};
use reference::stored::LENGTH;
use reference::{read_run_file, Opening};
use std::fs;
use std::path::{Path, PathBuf};

/// There are at least so many runs with a listing, and with a settle.
const LEAST: usize = 196;
const LEAST_SETTLES: usize = 40;

/// The run files of tests/vectors.
pub fn run_files() -> Vec<PathBuf> {
    run_files_in("../vectors")
}

/// The run files of a folder beside this package.
fn run_files_in(folder: &str) -> Vec<PathBuf> {
    let folder = Path::new(env!("CARGO_MANIFEST_DIR")).join(folder);
    let files = fs::read_dir(&folder).expect("the folder can be read");
    let paths = files.map(|file| file.expect("a file").path());
    let mut runs: Vec<_> = paths
        .filter(|path| path.extension().is_some_and(|found| found == "run"))
        .collect();
    runs.sort();
    runs
}

/// The end of an action's line.
fn answer_text(number: u32, [case, a, b, c, d, e, ..]: [u32; WORDS]) -> String {
    match (number, case) {
        (0, 0) => "ok".to_string(),
        (0, 1) => format!("entry {b}.{c}.{d} {e}"),
        (0, 2) => format!("summary {a} {b} {c} {d} {e}"),
        (0, 3) => format!("from {a} {b}"),
        (0, _) => format!("case {case}"),
        _ => format!("refused {number}"),
    }
}

/// A hall opened by the library.
fn opened(opening: &Opening, counts: &mut Counts) -> Result<Pair, Difference> {
    let mut pair = Pair::of_bytes(vec![0; LENGTH], LENGTH);
    pair.open(opening.n, opening.founders, opening.row(), counts)?;
    Ok(pair)
}

/// The listing of a run by the library's answers.
fn listing(file: &[u8], counts: &mut Counts) -> Result<String, Difference> {
    let (opening, actions) = match read_run_file(file) {
        Ok(run) => run,
        Err(number) => return Ok(format!("refused {number}\n")),
    };
    let mut pair = opened(&opening, counts)?;
    let mut text = format!("hall {}\n", opening.n);
    let mut refused = 0;
    for (place, &action) in (1..).zip(&actions) {
        let (number, words) = pair.answer(action, ANSWER_LENGTH, counts)?;
        refused += usize::from(number != 0);
        let answer = answer_text(number, words);
        text.push_str(&format!("{place} {} {answer}\n", action[0]));
    }
    let accepted = actions.len() - refused;
    text.push_str(&format!("end {accepted} {refused}\n"));
    Ok(text)
}

/// The thirteen words of a page; the fourth is signed.
fn page_text(words: [u32; WORDS]) -> String {
    let word = |place: usize| match place {
        3 => format!(" {}", words[place] as i32),
        _ => format!(" {}", words[place]),
    };
    (0..13).map(word).collect()
}

/// What a settle after a run gives, and every page then, by the library.
fn settled(file: &[u8], counts: &mut Counts) -> Result<String, Difference> {
    let (opening, actions) = read_run_file(file).map_err(|number| format!("refused {number}"))?;
    let mut pair = opened(&opening, counts)?;
    for action in actions {
        pair.step(action, ANSWER_LENGTH, counts)?;
    }
    let mut text = match pair.settle(ANSWER_LENGTH, counts)? {
        (0, [count, ..]) => format!("settled {count}\n"),
        (number, _) => format!("refused {number}\n"),
    };
    for r in 1..=opening.n {
        for place in 0.. {
            match pair.page(r, place, ANSWER_LENGTH, counts)? {
                (0, words) => text.push_str(&format!("page {r} {place}:{}\n", page_text(words))),
                _ => break,
            }
        }
    }
    Ok(text)
}

/// What a run gives as text.
type Text = fn(&[u8], &mut Counts) -> Result<String, Difference>;

/// Each run gives the text in the file beside it.
fn compare(
    runs: Vec<PathBuf>,
    least: usize,
    (text, extension): (Text, &str),
    counts: &mut Counts,
) -> Result<(), Difference> {
    if runs.len() < least {
        return Err(format!("only {} vectors", runs.len()));
    }
    for run in runs {
        let name = run.file_name().unwrap_or_default().to_string_lossy();
        let file = fs::read(&run).map_err(|error| format!("{name}: {error}"))?;
        let wanted = fs::read_to_string(run.with_extension(extension));
        let wanted = wanted.map_err(|error| format!("{name}: {error}"))?;
        let given = text(&file, counts).map_err(|what| format!("{name}: {what}"))?;
        if given != wanted {
            let lines = given.lines().zip(wanted.lines());
            let line = lines.take_while(|(given, wanted)| given == wanted).count();
            return Err(format!("{name}: line {} differs", line + 1));
        }
    }
    Ok(())
}

/// The run files with a listing.
pub fn all(_: u64, counts: &mut Counts) -> Result<(), Difference> {
    compare(run_files(), LEAST, (listing, "out"), counts)
}

/// Those with what a settle after the run gives.
pub fn settles(_: u64, counts: &mut Counts) -> Result<(), Difference> {
    let runs = run_files_in("../vectors/settles");
    compare(runs, LEAST_SETTLES, (settled, "settled"), counts)
}
