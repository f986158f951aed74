//! The replay program beside that of the second implementation, each a process
//! that reads a run file and writes its listing.

use crate::inputs::Run;
use crate::table::Table;
use std::fs::{self, File};
use std::path::Path;
use std::process::{Command, Stdio};

fn listing(program: &Path, file: &Path) -> Vec<u8> {
    let input = File::open(file).expect("the run file can be read");
    let mut command = Command::new(program);
    let output = command.stdin(Stdio::from(input)).output();
    output.expect("the program runs").stdout
}

/// The row of the first actions of a run.
pub fn row(table: &mut Table, replay: &Path, reference: &Path, run: &Run, actions: usize) {
    let name = format!("replay of {actions} actions, whole programs");
    if !replay.exists() {
        eprintln!("not built: {name}");
        return;
    }
    let folder = std::env::temp_dir();
    let file = folder.join(format!("bench-{}-{actions}.run", std::process::id()));
    fs::write(&file, run.file(actions)).expect("the run file can be written");
    assert!(
        listing(replay, &file) == listing(reference, &file),
        "the listings differ"
    );
    table.compare(
        name,
        1,
        || listing(replay, &file),
        || listing(reference, &file),
    );
    fs::remove_file(&file).expect("the run file can be removed");
}
