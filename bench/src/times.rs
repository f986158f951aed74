//! The tables of times.

use crate::held;
use crate::inner;
use crate::inputs::{self, Run, Snapshot, HALLS};
use crate::plain;
use crate::programs;
use crate::table::{Table, Unit};
use compare::library::{self, Lent};
use reference::calls::{self, ANSWER_LENGTH};
use reference::stored::{self, LENGTH};
use reference::{built_in_votes, open_built_in, Hall};
use std::cell::RefCell;
use std::hint::black_box;
use std::path::Path;

/// A slice for the library, with a hall opened in it.
pub fn opened(run: &Run) -> Lent {
    let mut lent = Lent::new(&[0; LENGTH], LENGTH);
    let votes = built_in_votes(run.n);
    assert_eq!(library::open(&mut lent, run.n, run.founders, votes), 0);
    lent
}

/// The library's public step, over a whole run.
pub fn library_steps(run: &Run) -> Vec<u8> {
    let mut hall = opened(run);
    let mut answer = Lent::new(&[0; ANSWER_LENGTH], ANSWER_LENGTH);
    for &action in &run.actions {
        black_box(library::step(&mut hall, action, &mut answer));
    }
    hall.area().to_vec()
}

/// The second implementation on bytes: it reads them into a hall with all
/// checks, steps, and writes them all.
fn rust_steps(run: &Run) -> Vec<u8> {
    let mut hall = vec![0; LENGTH];
    let votes = built_in_votes(run.n);
    assert_eq!(calls::open(&mut hall, run.n, run.founders, votes), 0);
    let mut answer = [0; ANSWER_LENGTH];
    for &action in &run.actions {
        black_box(calls::step(&mut hall, action, &mut answer));
    }
    hall
}

/// The least that Rust can do: the check in place, on the nearest of the halls
/// along the run, and the step on a hall that is kept in memory.
fn rust_least_steps(run: &Run, along: &[Snapshot]) -> Vec<u8> {
    let mut hall = open_built_in(run.n, run.founders).expect("the opening is taken");
    let stride = run.actions.len().div_ceil(along.len());
    for (place, &[k, r, a, b]) in run.actions.iter().enumerate() {
        black_box(plain::is_hall(black_box(along[place / stride].lent.area())));
        black_box(hall.step(k, r, a, b));
    }
    stored::form(&hall)
}

/// The second implementation on a hall in memory, without bytes or checks.
fn rust_inner_steps(mut hall: Hall, actions: &[[u32; 4]]) -> Hall {
    for &[k, r, a, b] in actions {
        black_box(hall.step(k, r, a, b));
    }
    hall
}

/// Public steps.
pub fn steps(passes: u32, runs: &[&Run]) -> Table {
    let mut table = Table::new("Step: microseconds a call", Unit::Microseconds, passes);
    for run in runs {
        let wanted = rust_steps(run);
        let along = inputs::along(run, HALLS);
        assert_eq!(library_steps(run), wanted, "the last bytes differ");
        let name = |what: &str| format!("step, {}: {what}", run.name);
        let calls = run.actions.len();
        table.compare(
            name("read, step, write"),
            calls,
            || library_steps(run),
            || rust_steps(run),
        );
        table.compare(
            name("check in place, step in memory"),
            calls,
            || library_steps(run),
            || rust_least_steps(run, &along),
        );
    }
    table
}

/// Times the library's steps on bytes that are checked once beside steps in
/// memory, from the same hall. Both sides begin with a copy of that hall.
fn compare_inner(
    table: &mut Table,
    name: String,
    calls: usize,
    start: &Hall,
    actions: &[[u32; 4]],
) {
    let bytes = stored::form(start);
    let hall = RefCell::new(bytes.clone());
    let steps = || {
        let mut hall = hall.borrow_mut();
        hall.copy_from_slice(&bytes);
        inner::steps(&mut hall, black_box(actions))
    };
    assert_eq!(steps(), 0);
    let wanted = stored::form(&rust_inner_steps(start.clone(), actions));
    assert_eq!(*hall.borrow(), wanted, "the last bytes differ");
    let rust = || rust_inner_steps(start.clone(), black_box(actions));
    table.compare(name, calls, steps, rust);
}

/// Steps without a check.
pub fn inner_steps(passes: u32, runs: &[Run]) -> Table {
    let mut table = Table::new("Inner step: nanoseconds a call", Unit::Nanoseconds, passes);
    for run in runs {
        let start = open_built_in(run.n, run.founders).expect("the opening is taken");
        let name = format!("step, {} without check: step in memory", run.name);
        compare_inner(&mut table, name, run.actions.len(), &start, &run.actions);
    }
    table
}

/// Times the library's settle of a hall beside the second implementation's on a
/// hall in memory. Both sides begin with a copy of that hall.
fn compare_settle(table: &mut Table, name: String, start: &Hall) {
    let bytes = stored::form(start);
    let hall = RefCell::new(Lent::new(&bytes, LENGTH));
    let mut answer = Lent::new(&[0; ANSWER_LENGTH], ANSWER_LENGTH);
    let mut settle = || {
        let mut hall = hall.borrow_mut();
        hall.area_mut().copy_from_slice(&bytes);
        library::settle(&mut hall, &mut answer)
    };
    let rust = || {
        let mut hall = start.clone();
        black_box(hall.settle()).expect("the hall settles");
        hall
    };
    assert_eq!(settle(), 0);
    assert_eq!(
        hall.borrow().area(),
        stored::form(&rust()),
        "the last bytes differ"
    );
    table.compare(name, 1, settle, rust);
}

/// All tries of the longest settle: as steps without a check, and in its call,
/// held and not.
pub fn longest_settle(passes: u32) -> Table {
    let heading = "Longest settle: milliseconds for all tries";
    let mut table = Table::new(heading, Unit::Milliseconds, passes);
    let settle = inputs::longest_settle();
    let (tries, taken) = (settle.tries.len(), settle.taken);
    if inner::LINKED {
        let name = format!("settle, {tries} tries, {taken} taken: step in memory");
        compare_inner(&mut table, name, 1, &settle.hall, &settle.tries);
    }
    let name = format!("settle call, {taken} steps: settle in memory");
    compare_settle(&mut table, name, &settle.hall);
    let name = format!("held settle call beside settle call, {taken} steps");
    held::settle_row(&mut table, name, 1, &settle.hall);
    table
}

/// Settles of a full hall in which nothing is left to do.
pub fn settled_hall(passes: u32) -> Table {
    let mut table = Table::new("Settle: microseconds a call", Unit::Microseconds, passes);
    let mut hall = inputs::longest_settle().hall;
    hall.settle().expect("the hall settles");
    let mut bytes = stored::form(&hall);
    let mut lent = Lent::new(&bytes, LENGTH);
    let mut answer = Lent::new(&[0; ANSWER_LENGTH], ANSWER_LENGTH);
    let mut settle = || library::settle(&mut lent, &mut answer);
    let mut rust = || calls::settle(&mut bytes, &mut [0; ANSWER_LENGTH]);
    assert_eq!((settle(), rust()), (0, 0));
    table.compare(
        "settle, a settled hall: read, settle, write".to_string(),
        HALLS,
        || (0..HALLS).map(|_| settle()).sum::<u32>(),
        || (0..HALLS).map(|_| rust()).sum::<u32>(),
    );
    let name = "held settle beside settle, a settled hall";
    held::settle_row(&mut table, name.to_string(), HALLS, &hall);
    table
}

/// Halls that are timed one after another, some times over in a pass if they
/// are few.
struct Halls {
    name: &'static str,
    halls: Vec<Snapshot>,
    page: Lent,
}

impl Halls {
    fn new(name: &'static str, halls: Vec<Snapshot>) -> Halls {
        Halls {
            name,
            halls,
            page: Lent::new(&[0; ANSWER_LENGTH], ANSWER_LENGTH),
        }
    }

    fn calls(&self) -> usize {
        HALLS.max(self.halls.len())
    }

    /// Which hall each call of a pass is on.
    fn order(&self) -> impl Iterator<Item = usize> {
        let count = self.halls.len();
        (0..self.calls()).map(move |call| call % count)
    }

    /// The bytes of the halls, one for each call.
    fn slices(&self) -> impl Iterator<Item = &[u8]> {
        self.order().map(|i| black_box(self.halls[i].lent.area()))
    }

    fn library_pages(&mut self) -> u32 {
        let mut numbers = 0;
        for i in self.order() {
            let hall = &mut self.halls[i];
            numbers += library::page(&mut hall.lent, hall.recorder, hall.place, &mut self.page);
        }
        numbers
    }

    fn rust_pages(&self) -> u32 {
        let mut page = [0; ANSWER_LENGTH];
        let mut numbers = 0;
        for i in self.order() {
            let hall = &self.halls[i];
            let bytes = black_box(hall.lent.area());
            numbers += calls::page(bytes, hall.recorder, hall.place, &mut page);
        }
        numbers
    }

    fn library_checks(&self) -> u32 {
        self.slices().map(library::check_of).sum()
    }

    fn rust_checks(&self) -> usize {
        self.slices().filter(|hall| plain::is_hall(hall)).count()
    }

    fn hashes(&self) -> u64 {
        self.slices().fold(0, |sum, hall| sum ^ plain::fnv1a(hall))
    }

    fn page_rows(&mut self, table: &mut Table) {
        assert_eq!(self.library_pages(), 0);
        assert_eq!(self.rust_pages(), 0);
        let (name, calls) = (self.name, self.calls());
        let row = |what: &str| format!("{what}, {name}");
        let halls = RefCell::new(self);
        table.compare(
            row("page: read, page"),
            calls,
            || halls.borrow_mut().library_pages(),
            || halls.borrow().rust_pages(),
        );
        table.compare(
            row("page: check in place alone"),
            calls,
            || halls.borrow_mut().library_pages(),
            || halls.borrow().rust_checks(),
        );
        table.compare(
            row("page beside FNV-1a"),
            calls,
            || halls.borrow_mut().library_pages(),
            || halls.borrow().hashes(),
        );
    }

    fn check_rows(&self, table: &mut Table) {
        assert_eq!(self.library_checks(), 0);
        assert_eq!(self.rust_checks(), self.calls());
        let row = |what: &str| format!("{what}, {}", self.name);
        table.compare(
            row("check: check in place"),
            self.calls(),
            || self.library_checks(),
            || self.rust_checks(),
        );
        table.compare(
            row("check beside FNV-1a"),
            self.calls(),
            || self.library_checks(),
            || self.hashes(),
        );
    }
}

/// Pages and checks of halls of all kinds; pages not of empty ones.
pub fn pages_and_checks(passes: u32, run: &Run) -> [Table; 2] {
    let halls = inputs::halls(run);
    inputs::checks_agree(halls.iter().flat_map(|(_, halls)| halls));
    let mut halls = halls.map(|(name, halls)| Halls::new(name, halls));
    let mut pages = Table::new("Page: microseconds a call", Unit::Microseconds, passes);
    for halls in &mut halls[2..] {
        halls.page_rows(&mut pages);
    }
    let mut checks = Table::new("Check: microseconds a call", Unit::Microseconds, passes);
    for halls in &halls {
        halls.check_rows(&mut checks);
    }
    [pages, checks]
}

/// Whole programs.
pub fn replays(passes: u32, replay: &Path, reference: &Path, run: &Run) -> Table {
    let heading = "Replay: microseconds for a whole program";
    let mut table = Table::new(heading, Unit::Microseconds, passes);
    for actions in [500, 1_000, 2_000, 4_094] {
        programs::row(&mut table, replay, reference, run, actions);
    }
    table
}
