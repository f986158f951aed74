//! The tables of held steps, held settles and steps back, beside the library's
//! own calls that hold nothing and beside the second implementation on bytes.

use crate::inputs::Run;
use crate::table::{Table, Unit};
use crate::times::{library_steps, opened};
use compare::library::{self, Lent};
use reference::calls::{self, ANSWER_LENGTH};
use reference::stored::{self, LENGTH};
use reference::undo::{self, MOST_HELD};
use reference::{built_in_votes, Hall};
use std::cell::RefCell;
use std::hint::black_box;

/// How often the newest actions are taken back in a pass.
const ROUNDS: usize = 16;

/// The bytes of a hall and of an undo buffer.
type Bytes = (Vec<u8>, Vec<u8>);

/// The same two in slices for the library, and room for an answer.
struct Bench {
    hall: Lent,
    undo: Lent,
    answer: Lent,
}

impl Bench {
    /// A hall, and an empty buffer.
    fn new(hall: Lent) -> Bench {
        Bench {
            hall,
            undo: Lent::new(&[0; undo::LENGTH], undo::LENGTH),
            answer: Lent::new(&[0; ANSWER_LENGTH], ANSWER_LENGTH),
        }
    }

    fn set(&mut self, (hall, undo): &Bytes) {
        self.hall.area_mut().copy_from_slice(hall);
        self.undo.area_mut().copy_from_slice(undo);
    }

    fn bytes(&self) -> Bytes {
        (self.hall.area().to_vec(), self.undo.area().to_vec())
    }

    fn step(&mut self, action: [u32; 4]) -> u32 {
        library::step(&mut self.hall, action, &mut self.answer)
    }

    fn step_held(&mut self, action: [u32; 4]) -> u32 {
        library::step_held(&mut self.hall, &mut self.undo, action, &mut self.answer)
    }

    fn settle(&mut self) -> u32 {
        library::settle(&mut self.hall, &mut self.answer)
    }

    fn settle_held(&mut self) -> u32 {
        library::settle_held(&mut self.hall, &mut self.undo, &mut self.answer)
    }

    fn step_back(&mut self) -> u32 {
        library::step_back(&mut self.hall, &mut self.undo)
    }
}

/// The library's held step, over a whole run.
fn library_held_steps(run: &Run) -> Bytes {
    let mut bench = Bench::new(opened(run));
    for &action in &run.actions {
        black_box(bench.step_held(action));
    }
    bench.bytes()
}

/// The second implementation's, which reads and writes both slices.
fn rust_held_steps(run: &Run) -> Bytes {
    let (mut hall, mut undo) = (vec![0; LENGTH], vec![0; undo::LENGTH]);
    let votes = built_in_votes(run.n);
    assert_eq!(calls::open(&mut hall, run.n, run.founders, votes), 0);
    let mut answer = [0; ANSWER_LENGTH];
    for &action in &run.actions {
        black_box(calls::step_held(&mut hall, &mut undo, action, &mut answer));
    }
    (hall, undo)
}

/// Held steps of whole runs.
pub fn steps(passes: u32, runs: &[Run]) -> Table {
    let heading = "Held step: microseconds a call";
    let mut table = Table::new(heading, Unit::Microseconds, passes);
    for run in runs {
        let (name, calls) = (&run.name, run.actions.len());
        assert!(
            library_held_steps(run) == rust_held_steps(run),
            "the last bytes differ"
        );
        table.compare(
            format!("held step beside step, {name}"),
            calls,
            || library_held_steps(run),
            || library_steps(run),
        );
        table.compare(
            format!("held step, {name}: read, step, write"),
            calls,
            || library_held_steps(run),
            || rust_held_steps(run),
        );
    }
    table
}

/// The actions that a full buffer holds, oldest first.
fn held_actions(undo: &[u8]) -> Vec<[u32; 4]> {
    assert_eq!(usize::from(undo[0]), MOST_HELD);
    let slots = undo[1..].chunks_exact((undo::LENGTH - 1) / MOST_HELD);
    let word = |slot: &[u8], i: usize| {
        let bytes = slot[4 * i..4 * i + 4].try_into();
        u32::from_le_bytes(bytes.expect("four bytes"))
    };
    slots
        .map(|slot| [0, 1, 2, 3].map(|i| word(slot, i)))
        .collect()
}

/// The rows of a bench on which as many actions are held as can be: all are
/// taken back, beside the same actions taken as steps.
fn back_rows(table: &mut Table, name: &str, last: &Bytes) {
    let actions = held_actions(&last.1);
    let bench = RefCell::new(Bench::new(Lent::new(&last.0, LENGTH)));
    let back = || {
        let mut bench = bench.borrow_mut();
        let mut numbers = 0;
        for _ in 0..ROUNDS {
            bench.set(last);
            numbers += actions.iter().map(|_| bench.step_back()).sum::<u32>();
        }
        numbers
    };
    let rust = || {
        let mut bytes = last.clone();
        let mut numbers = 0;
        for _ in 0..ROUNDS {
            bytes.0.copy_from_slice(&last.0);
            bytes.1.copy_from_slice(&last.1);
            let (hall, undo) = (&mut bytes.0, &mut bytes.1);
            numbers += actions
                .iter()
                .map(|_| calls::step_back(hall, undo))
                .sum::<u32>();
        }
        assert_eq!(numbers, 0);
        bytes
    };
    assert_eq!(back(), 0);
    let first = bench.borrow().bytes();
    assert!(first == rust(), "the first bytes differ");
    let steps = || {
        let mut bench = bench.borrow_mut();
        let mut numbers = 0;
        for _ in 0..ROUNDS {
            bench.set(&first);
            numbers += actions
                .iter()
                .map(|&action| bench.step(action))
                .sum::<u32>();
        }
        numbers
    };
    assert_eq!(steps(), 0);
    assert!(bench.borrow().hall.area() == last.0, "the steps differ");
    let calls = ROUNDS * MOST_HELD;
    table.compare(
        format!("step back beside step, 16 in turn, {name}"),
        calls,
        back,
        steps,
    );
    table.compare(
        format!("step back, 16 in turn, {name}: read, step back, write"),
        calls,
        back,
        rust,
    );
}

/// All steps back that can be taken at the end of runs.
pub fn steps_back(passes: u32, runs: &[Run]) -> Table {
    let heading = "Step back: microseconds a call";
    let mut table = Table::new(heading, Unit::Microseconds, passes);
    for run in runs {
        back_rows(&mut table, &run.name, &library_held_steps(run));
    }
    table
}

/// The row of held settles beside settles of a hall. Both sides begin with a
/// copy of that hall, the held one with an empty buffer too.
pub fn settle_row(table: &mut Table, name: String, calls: usize, start: &Hall) {
    let first = (stored::form(start), vec![0; undo::LENGTH]);
    let bench = RefCell::new(Bench::new(Lent::new(&first.0, LENGTH)));
    let held = || {
        let mut bench = bench.borrow_mut();
        let mut numbers = 0;
        for _ in 0..calls {
            bench.set(&first);
            numbers += bench.settle_held();
        }
        numbers
    };
    let settle = || {
        let mut bench = bench.borrow_mut();
        let mut numbers = 0;
        for _ in 0..calls {
            bench.hall.area_mut().copy_from_slice(&first.0);
            numbers += bench.settle();
        }
        numbers
    };
    assert_eq!(held(), 0);
    let mut wanted = first.clone();
    let mut answer = [0; ANSWER_LENGTH];
    assert_eq!(
        calls::settle_held(&mut wanted.0, &mut wanted.1, &mut answer),
        0
    );
    assert!(bench.borrow().bytes() == wanted, "the last bytes differ");
    assert_eq!(settle(), 0);
    assert!(bench.borrow().hall.area() == wanted.0, "the halls differ");
    table.compare(name, calls, held, settle);
}
