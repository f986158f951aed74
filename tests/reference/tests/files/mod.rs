//! A folder of run files, each beside the text that it must give.

use std::env;
use std::fs;
use std::path::{Path, PathBuf};

pub struct Folder {
    path: PathBuf,
    /// There are at least so many run files.
    least: usize,
}

impl Folder {
    /// The folder that a variable names, else a default one, both seen from this
    /// package; the variable with _LEAST states how many run files there must be
    /// at least, else that is a default as well.
    pub fn named(variable: &str, path: &str, least: usize) -> Folder {
        let path = env::var_os(variable).unwrap_or_else(|| path.into());
        let least = match env::var(format!("{variable}_LEAST")) {
            Ok(text) => text.parse().expect("the least count is a number"),
            Err(_) => least,
        };
        Folder {
            path: Path::new(env!("CARGO_MANIFEST_DIR")).join(path),
            least,
        }
    }

    /// The files with an ending, sorted by name.
    fn files_ending(&self, ending: &str) -> Vec<PathBuf> {
        let entries = fs::read_dir(&self.path)
            .unwrap_or_else(|error| panic!("{}: {error}", self.path.display()));
        let mut files: Vec<PathBuf> = entries
            .map(|entry| entry.expect("the directory can be read").path())
            .filter(|path| path.extension().is_some_and(|found| found == ending))
            .collect();
        files.sort();
        files
    }

    /// The run files; fails if there are none or too few.
    pub fn run_files(&self) -> Vec<PathBuf> {
        let runs = self.files_ending("run");
        assert!(!runs.is_empty(), "no vector in {}", self.path.display());
        assert!(runs.len() >= self.least, "only {} vectors", runs.len());
        runs
    }

    /// Fails unless every run file gives the file with its name and an ending.
    pub fn every_run_gives(&self, ending: &str, give: impl Fn(&[u8]) -> Vec<u8>) {
        let mut failures = Vec::new();
        for run in self.run_files() {
            let wanted = bytes_of(&run.with_extension(ending));
            let given = give(&bytes_of(&run));
            if given != wanted {
                let difference = first_difference(&given, &wanted);
                failures.push(format!("{}: {difference}", run.display()));
            }
        }
        assert!(failures.is_empty(), "{}", failures.join("\n"));
    }

    /// Fails unless every file with an ending has its run file.
    pub fn every_one_has_its_run(&self, ending: &str) {
        for file in self.files_ending(ending) {
            assert!(file.with_extension("run").is_file(), "{}", file.display());
        }
    }
}

pub fn bytes_of(path: &Path) -> Vec<u8> {
    fs::read(path).unwrap_or_else(|error| panic!("{}: {error}", path.display()))
}

/// The first line in which two texts differ, for the message of a failure.
fn first_difference(given: &[u8], wanted: &[u8]) -> String {
    let given = String::from_utf8_lossy(given).into_owned();
    let wanted = String::from_utf8_lossy(wanted).into_owned();
    let same = given
        .lines()
        .zip(wanted.lines())
        .take_while(|(g, w)| g == w);
    let line = same.count();
    let at = |text: &str| text.lines().nth(line).unwrap_or("nothing").to_string();
    format!(
        "line {}: gave {}, wanted {}",
        line + 1,
        at(&given),
        at(&wanted)
    )
}
