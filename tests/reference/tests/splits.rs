//! The run files `split-1` and on of tests/vectors: halls that split and heal.
//! Each says which choices of the representative it tells from HL3's.

use reference::choice::{greatest_number, least_number, length_first, longest_order, Choice};
use reference::{open, read_run_file, Answer};
use std::fs;
use std::path::Path;

/// Whether a file tells HL3's choice from three others: 01's, the least number
/// among those with the greatest highest primary, and the length first.
const SPLITS: [(&str, [bool; 3]); 11] = [
    // The longer order at the lower number, received against the order of the
    // labels: in a primary view, and without a quorum.
    ("split-1", [true, false, false]),
    ("split-2", [true, true, false]),
    // Three sources: the longest order at none of the outer numbers; at two of
    // them; the same at all three, where no choice shows.
    ("split-3", [true, true, false]),
    ("split-4", [true, false, false]),
    ("split-5", [false, false, false]),
    // A longer order with a lower highest primary: in a primary view, and
    // without a quorum.
    ("split-6", [true, false, true]),
    ("split-7", [true, true, true]),
    // What one source has confirmed begins the longer order of another.
    ("split-8", [true, false, false]),
    // The longest order goes through two views without a quorum.
    ("split-9", [true, true, false]),
    // The longest order is of a primary view that is completed after a higher
    // one.
    ("split-10", [true, false, true]),
    // The greatest view numbers.
    ("split-11", [true, true, false]),
];

/// The answers of a run with a choice.
fn answers(name: &str, choice: Choice) -> Vec<Answer> {
    let folder = Path::new(env!("CARGO_MANIFEST_DIR")).join("../vectors");
    let file = fs::read(folder.join(name).with_extension("run"));
    let file = file.unwrap_or_else(|error| panic!("{name}: {error}"));
    let (opening, actions) = read_run_file(&file).expect("the file is taken");
    let hall = open(opening.n, opening.founders, opening.row());
    let mut hall = hall.expect("the opening is taken");
    let step = |&action| hall.step_with(choice, action);
    actions.iter().map(step).collect()
}

#[test]
fn splits_tell_choices_apart() {
    let others: [Choice; 3] = [greatest_number, least_number, length_first];
    for (name, told) in SPLITS {
        let right = answers(name, longest_order);
        let differs = others.map(|other| answers(name, other) != right);
        assert_eq!(differs, told, "{name}");
    }
}
