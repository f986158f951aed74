//! The stored form reads back, and the three calls on bytes are those of a hall.

use reference::{
    built_in_votes, calls, open, open_built_in, open_whole, read_run_file, stored, Hall,
};
use std::fs;
use std::path::Path;

/// The halls along the run of a vector, every `stride` actions.
fn halls_of(name: &str, stride: usize) -> Vec<Hall> {
    let path = Path::new(env!("CARGO_MANIFEST_DIR"))
        .join("../vectors")
        .join(name)
        .with_extension("run");
    let (opening, actions) = read_run_file(&fs::read(path).unwrap()).unwrap();
    let mut hall = open(opening.n, opening.founders, opening.row()).unwrap();
    let mut halls = vec![hall.clone()];
    for (place, &[k, r, a, b]) in actions.iter().enumerate() {
        hall.step(k, r, a, b);
        if place % stride == 0 {
            halls.push(hall.clone());
        }
    }
    halls
}

#[test]
fn the_length_is_that_of_the_document() {
    assert_eq!(stored::LENGTH, 59_731);
}

#[test]
fn opened_halls_read_back() {
    for n in 1..=8 {
        for founders in 0..1 << n {
            let hall = open_built_in(n, founders).unwrap();
            assert_eq!(stored::read(&stored::form(&hall)), Some(hall));
        }
    }
}

#[test]
fn halls_of_runs_read_back() {
    let names = ["long-1", "long-2", "long-3", "long-4", "a2-long-1"];
    for name in names.into_iter().chain(["a4-long-1", "a4-mixed-2"]) {
        for hall in halls_of(name, 50) {
            assert_eq!(stored::read(&stored::form(&hall)), Some(hall));
        }
    }
}

/// What is read writes the same bytes, also where a byte was changed.
#[test]
fn a_form_is_the_only_one() {
    let hall = halls_of("long-3", 1_000).pop().unwrap();
    let mut bytes = stored::form(&hall);
    let mut still_halls = 0;
    for at in 0..stored::LENGTH {
        let byte = bytes[at];
        for other in [byte ^ 1, byte.wrapping_add(1), 255] {
            bytes[at] = other;
            if let Some(read) = stored::read(&bytes) {
                assert_eq!(stored::form(&read), bytes);
                still_halls += usize::from(other != byte);
            }
        }
        bytes[at] = byte;
    }
    assert!(still_halls > 100);
}

/// Each of the four bytes of a number may be anything: of a view that nobody has
/// entered, of a label, of a recorder's highest primary and of a summary's.
#[test]
fn numbers_of_four_bytes() {
    let mut hall = open_whole(1);
    hall.step(1, 1, 5, 0);
    hall.step(2, 1, 0, 0);
    hall.step(5, 0, 2, 1);
    hall.step(6, 1, 2, 0);
    hall.step(4, 1, 0, 0);
    hall.step(5, 0, 3, 1);
    let form = stored::form(&hall);
    for (at, number) in [(12, 3), (168, 1), (941, 1), (3_493, 1)] {
        assert_eq!(form[at..at + 4], [number, 0, 0, 0]);
        for at in at..at + 4 {
            let mut bytes = form.clone();
            bytes[at] = 255;
            let read = stored::read(&bytes).expect("it is a hall");
            assert_eq!(stored::form(&read), bytes);
        }
    }
}

#[test]
fn calls_keep_to_their_slices() {
    let mut bytes = vec![7; stored::LENGTH + 3];
    let mut answer = vec![9; calls::ANSWER_LENGTH + 2];
    let short = stored::LENGTH - 1;
    let row = built_in_votes(3);
    assert_eq!(calls::open(&mut bytes[..short], 3, 8, [0; 8]), 16);
    assert_eq!(calls::open(&mut bytes[..short], 3, 0, [0; 8]), 41);
    assert_eq!(calls::open(&mut bytes[..short], 3, 0, row), 18);
    assert_eq!(bytes, vec![7; stored::LENGTH + 3]);
    assert_eq!(calls::step(&mut bytes, [12, 0, 0, 0], &mut answer), 11);
    assert_eq!(calls::step(&mut bytes, [1, 9, 0, 0], &mut answer), 31);
    assert_eq!(calls::open(&mut bytes, 3, 0, row), 0);
    assert_eq!(bytes[stored::LENGTH..], [7; 3]);
    let opened = bytes.clone();
    assert_eq!(
        calls::step(&mut bytes[..short], [1, 1, 5, 0], &mut answer),
        31
    );
    assert_eq!(calls::step(&mut bytes, [1, 4, 5, 0], &mut answer[..63]), 12);
    assert_eq!(calls::step(&mut bytes, [1, 1, 5, 0], &mut answer[..63]), 18);
    assert_eq!(calls::page(&bytes, 4, 1, &mut answer[..63]), 12);
    assert_eq!(calls::page(&bytes, 3, 1, &mut answer[..63]), 38);
    assert_eq!(calls::page(&bytes, 3, 0, &mut answer[..63]), 18);
    assert_eq!(
        (&bytes, &answer),
        (&opened, &vec![9; calls::ANSWER_LENGTH + 2])
    );
    assert_eq!(calls::step(&mut bytes, [1, 1, 5, 0], &mut answer), 0);
    assert_eq!(answer[..calls::ANSWER_LENGTH], [0; calls::ANSWER_LENGTH]);
    assert_eq!(answer[calls::ANSWER_LENGTH..], [9; 2]);
    assert_eq!(bytes[162], 1);
}
