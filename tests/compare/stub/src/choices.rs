//! Mistakes in the choice of the representative.

use crate::{faulty, put};
use reference::actions::{RECEIVE, SAFE};
use reference::choice::{
    greatest_by, greatest_number, least_of_longest, length_first, longest_order, Source,
};
use reference::{refusal, stored, Answer, Hall};
use std::cell::RefCell;
use std::cmp::Reverse;

thread_local! {
    /// The hall before a step, and the step's kind.
    static BEFORE: RefCell<Option<(Hall, u32)>> = const { RefCell::new(None) };
}

/// Whether 01's choice is made by a step of kind K in a view.
fn by_number(hall: &Hall, k: u32, view: u32) -> bool {
    let index = hall.view_index(view);
    let primary = index.is_some_and(|index| hall.is_primary(&hall.views[index]));
    faulty("the representative by the greatest number")
        || k == RECEIVE && faulty("the representative of a receive by the greatest number")
        || k == SAFE && faulty("the representative of a notice by the greatest number")
        || !primary && faulty("the representative without a quorum by the greatest number")
}

/// The source that the step takes.
fn chosen<'a>(view: u32, sources: &[Source<'a>]) -> Source<'a> {
    BEFORE.with_borrow(|before| {
        let (hall, k) = before.as_ref().expect("a step is taken");
        chosen_at(hall, *k, view, sources)
    })
}

/// The source that a step of kind K takes, rightly or by a mistake.
fn chosen_at<'a>(hall: &Hall, k: u32, view: u32, sources: &[Source<'a>]) -> Source<'a> {
    if by_number(hall, k, view) {
        greatest_number(view, sources)
    } else if faulty("the length before the highest primary") {
        length_first(view, sources)
    } else if faulty("the least number of orders as long") {
        least_of_longest(view, sources)
    } else if faulty("the shortest order represents") {
        greatest_by(sources, |source| {
            (source.high(), Reverse(source.length()), source.number)
        })
    } else if faulty("the representative by the present orders") {
        greatest_by(sources, |source| {
            let present = hall.recorder(source.number).order.len();
            (source.high(), present, source.number)
        })
    } else if faulty("the representative chosen without the top byte") {
        greatest_by(sources, |source| {
            (source.high() & 0xff_ffff, source.length(), source.number)
        })
    } else {
        longest_order(view, sources)
    }
}

/// A step with that choice, with room for its answer.
pub fn step(old: &Hall, action: [u32; 4], bytes: &mut [u8], answer: &mut [u8]) -> u32 {
    let k = action[0];
    let mut hall = old.clone();
    if k == RECEIVE && faulty("40 also by the greatest number's order") {
        let full = Answer::Refused(refusal::FULL);
        if old.clone().step_with(greatest_number, action) == full {
            return refusal::FULL;
        }
    }
    BEFORE.set(Some((old.clone(), k)));
    let answered = hall.step_with(chosen, action);
    match answered.plain() {
        Ok(words) => {
            put(answer, words);
            stored::write(&hall, bytes);
            0
        }
        Err(number) => number,
    }
}
