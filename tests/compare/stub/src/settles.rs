//! Mistakes in a settle.

use crate::{faulty, put};
use reference::actions::{CONFIRM, ENTER, LABEL, PLACE, RECEIVE, SEND_ENTRY, SEND_SUMMARY};
use reference::calls::{ANSWER_LENGTH, WORDS};
use reference::hall::{all_recorders, built_in_votes, is_quorum, margin};
use reference::settle::{turn_actions, KINDS, MOST_STEPS};
use reference::stored::{self, LENGTH};
use reference::{refusal, Hall, View};
use std::cmp::Reverse;

/// Settles the hall in a slice, rightly or by a mistake.
pub fn settle(bytes: &mut [u8], answer: &mut [u8]) -> u32 {
    let short = answer.len() < ANSWER_LENGTH;
    let Some(old) = stored::read(bytes) else {
        return no_hall(bytes, short);
    };
    let mut course = match view_to_settle(&old) {
        Ok(view) => Course::new(&old, view),
        Err(refusal::NOT_PRIMARY) if short && faulty("18 before 42") => {
            return refusal::SHORT_SLICE
        }
        Err(number) => return number,
    };
    match course.run() {
        Ok(()) if short => without_room(&course, bytes),
        Ok(()) => settled(&course, bytes, answer),
        Err(_) if short && faulty("18 before 40") => refusal::SHORT_SLICE,
        Err(number) => stopped(&course, number, bytes, answer),
    }
}

/// The number for bytes that are no hall.
fn no_hall(bytes: &[u8], short: bool) -> u32 {
    let without_views = bytes.get(1) == Some(&0);
    if faulty("42 for bytes that are no hall") || without_views && faulty("42 before 31") {
        refusal::NOT_PRIMARY
    } else if short && faulty("18 before 31") {
        refusal::SHORT_SLICE
    } else {
        refusal::STORED_FORM
    }
}

/// The view that is settled, or 42.
fn view_to_settle(hall: &Hall) -> Result<&View, u32> {
    let views = hall.views.iter();
    let view = if faulty("settled in the current view of recorder 1") {
        hall.current_index(1).map(|index| &hall.views[index])
    } else if faulty("the greatest primary view settled") {
        views.rev().find(|view| hall.is_primary(view))
    } else if faulty("the greatest view that was entered settled") {
        let entered = |number| hall.recorders.iter().any(|r| r.current == number);
        views.rev().find(|view| entered(view.number))
    } else if faulty("the view with the greatest low byte settled") {
        views.max_by_key(|view| view.number & 255)
    } else {
        hall.greatest_view()
    };
    let view = view.ok_or(refusal::NOT_PRIMARY)?;
    if seems_primary(hall, view) {
        return Ok(view);
    }
    if faulty("40 before 42") {
        Course::new(hall, view).run()?;
    }
    Err(refusal::NOT_PRIMARY)
}

fn seems_primary(hall: &Hall, view: &View) -> bool {
    if faulty("42 only without a view") {
        true
    } else if faulty("a margin of 0 settled") {
        margin(&hall.votes, view.members) >= 0
    } else if faulty("42 by the built-in row") {
        is_quorum(&built_in_votes(hall.n), view.members)
    } else {
        hall.is_primary(view)
    }
}

/// The kinds of a turn.
fn kinds() -> [u32; 9] {
    let mut kinds = KINDS;
    if faulty("labels before sends in a settle") {
        kinds.swap(2, 3);
    } else if faulty("places before labels in a settle") {
        kinds.swap(3, 4);
    } else if faulty("receipts before places in a settle") {
        kinds.swap(4, 5);
    } else if faulty("notices before receipts in a settle") {
        kinds.swap(5, 6);
    } else if faulty("the kinds of a settle by their numbers") {
        kinds.sort_unstable();
    }
    kinds
}

/// Whether a kind is left out.
fn left_out(kind: u32) -> bool {
    kind == LABEL && faulty("kind 2 left out of a settle")
        || kind == ENTER && faulty("kind 6 left out of a settle")
        || kind >= CONFIRM && faulty("kinds 10 and 11 left out of a settle")
}

/// Whether any recorder settles, in its own view.
fn outsiders_settle() -> bool {
    faulty("recorders outside the view settle")
}

/// The recorders that take steps in a view.
fn members(hall: &Hall, view: &View) -> u32 {
    if faulty("the members of the first view settle") {
        hall.views[0].members
    } else if outsiders_settle() {
        all_recorders(hall.n)
    } else if faulty("recorder 8 left out of a settle") {
        view.members & 0x7f
    } else {
        view.members
    }
}

/// The actions that a turn tries.
fn actions(hall: &Hall, view: &View) -> Vec<[u32; 4]> {
    let tried = turn_actions(view.number, members(hall, view));
    let mut actions: Vec<_> = tried.filter(|&[k, ..]| !left_out(k)).collect();
    let kinds = kinds();
    let place = |k: u32| kinds.iter().position(|&kind| kind == k);
    if faulty("the highest recorder first") {
        actions.sort_by_key(|&[k, r, ..]| (place(k), Reverse(r)));
    } else if faulty("a settle recorder by recorder") {
        actions.sort_by_key(|&[k, r, ..]| (r, place(k)));
    } else {
        actions.sort_by_key(|&[k, r, ..]| (place(k), r));
    }
    actions
}

/// Whether 40 is given only after all actions of a turn are tried.
fn full_is_last() -> bool {
    faulty("40 only where no action is allowed")
}

/// A settle in a view, step by step.
struct Course {
    hall: Hall,
    view: u32,
    actions: Vec<[u32; 4]>,
    steps: usize,
}

impl Course {
    fn new(hall: &Hall, view: &View) -> Course {
        Course {
            hall: hall.clone(),
            view: view.number,
            actions: actions(hall, view),
            steps: 0,
        }
    }

    /// Turns until no action is allowed, or 40.
    fn run(&mut self) -> Result<(), u32> {
        let mut from = 0;
        while let Some(place) = self.turn(from)? {
            self.steps += 1;
            if faulty("a settle of one step") {
                break;
            }
            if faulty("the search of a settle not begun again") {
                from = place;
            }
            if faulty("no earlier kind in a settle after a later one") {
                let kind = self.actions[place][0];
                let first = self.actions.iter().position(|&[k, ..]| k == kind);
                self.actions.drain(..first.unwrap_or(0));
            }
            if self.steps == MOST_STEPS - 1 && faulty("2,391 steps at most") {
                break;
            }
        }
        Ok(())
    }

    /// Takes the first allowed action from a place on, and gives its place.
    fn turn(&mut self, from: usize) -> Result<Option<usize>, u32> {
        let places = 0..self.actions.len();
        let mut met = false;
        for place in places.clone().skip(from).chain(places.take(from)) {
            match self.try_action(self.actions[place]) {
                0 => return Ok(Some(place)),
                refusal::FULL if self.passes_over(place) => met = true,
                refusal::FULL => return Err(refusal::FULL),
                refusal::NOT_READY if faulty("39 ends a settle") => break,
                _ if faulty("the first refused action ends a settle") => break,
                _ => (),
            }
        }
        if met && full_is_last() {
            return Err(refusal::FULL);
        }
        Ok(None)
    }

    /// The number of a step that is tried.
    fn try_action(&mut self, [k, r, a, b]: [u32; 4]) -> u32 {
        let elsewhere = k != ENTER && self.hall.recorder(r).current != self.view;
        if elsewhere && !outsiders_settle() {
            return refusal::NOT_MEMBER;
        }
        let answer = self.hall.step(k, r, a, b);
        answer.plain().err().unwrap_or(0)
    }

    /// Whether the 40 of an action does not end the settle.
    fn passes_over(&self, place: usize) -> bool {
        let kind = self.actions[place][0];
        faulty("40 passed over in a settle")
            || full_is_last()
            || faulty("40 only before an allowed action") && !self.allows_after(place)
            || self.steps == 0 && faulty("40 at the first turn passed over")
            || self.steps != 0 && faulty("40 after a step passed over")
            || kind == LABEL && faulty("40 at kind 2 passed over")
            || kind == SEND_ENTRY && faulty("40 at kind 3 passed over")
            || kind == SEND_SUMMARY && faulty("40 at kind 4 passed over")
            || kind == PLACE && faulty("40 at kind 7 passed over")
            || kind == RECEIVE && faulty("40 at kind 8 passed over")
    }

    /// Whether an action after a place is allowed.
    fn allows_after(&self, place: usize) -> bool {
        let mut hall = self.hall.clone();
        let mut later = self.actions[place + 1..].iter();
        later.any(|&[k, r, a, b]| hall.step(k, r, a, b).plain().is_ok())
    }
}

/// The end of a settle that has no room for its answer.
fn without_room(course: &Course, bytes: &mut [u8]) -> u32 {
    if faulty("settled without room for the answer") {
        stored::write(&course.hall, bytes);
    }
    refusal::SHORT_SLICE
}

/// The end of a settle that is refused after some steps.
fn stopped(course: &Course, number: u32, bytes: &mut [u8], answer: &mut [u8]) -> u32 {
    let kept = faulty("the steps before a 40 kept");
    if kept || faulty("bytes written before a 40") {
        stored::write(&course.hall, bytes);
    }
    if kept || faulty("the answer written at a 40") {
        put(answer, answer_words(course));
    }
    if kept {
        0
    } else {
        number
    }
}

/// The words of a settle's answer.
fn answer_words(course: &Course) -> [u32; WORDS] {
    let mut words = [0; WORDS];
    words[0] = course.steps as u32;
    if faulty("the count without the last step") {
        words[0] = words[0].saturating_sub(1);
    } else if faulty("the count as a byte") {
        words[0] &= 255;
    } else if faulty("the count in word 1") {
        words.swap(0, 1);
    } else if faulty("the greatest view in word 1") {
        words[1] = course.view;
    }
    words
}

/// The end of a settle.
fn settled(course: &Course, bytes: &mut [u8], answer: &mut [u8]) -> u32 {
    if course.steps == 0 && faulty("a settle of no step refused") {
        return refusal::NOTHING;
    }
    let written = if faulty("only the count of a settle written") {
        4
    } else {
        answer.len()
    };
    put(&mut answer[..written], answer_words(course));
    if faulty("a byte past the answer of a settle") && answer.len() > ANSWER_LENGTH {
        answer[ANSWER_LENGTH] = 0;
    }
    if !faulty("the hall as before a settle") {
        stored::write(&course.hall, bytes);
    }
    if faulty("a byte past a settled hall") && bytes.len() > LENGTH {
        bytes[LENGTH] ^= 1;
    }
    0
}
