//! Mistakes in numbers of views, which take all of their four bytes.

use crate::faulty;
use reference::hall::{at_mark, Label, Message};
use reference::Hall;
use std::collections::BTreeSet;

/// What is looked at of a number.
type Look = fn(u32) -> u32;

fn low_byte(number: u32) -> u32 {
    number & 0xff
}

fn without_top_byte(number: u32) -> u32 {
    number & 0xff_ffff
}

fn labels(hall: &Hall) -> impl Iterator<Item = Label> + '_ {
    hall.entries.iter().filter_map(|entry| entry.label)
}

/// What is looked at of a label whose view's top byte is not.
fn cut(label: Label) -> (u32, u32, u32) {
    (without_top_byte(label.view), label.seq, label.sender)
}

/// 31 for bytes that are a hall.
pub fn too_strict(hall: &Hall) -> bool {
    let too_long = |number: u32| number != without_top_byte(number);
    let mut seats = hall.views.iter().flat_map(|view| &view.seats);
    if faulty("a view's number asked to fit three bytes") {
        hall.views.iter().any(|view| too_long(view.number))
    } else if faulty("a label's view asked to fit three bytes") {
        labels(hall).any(|label| too_long(label.view))
    } else if faulty("a highest primary asked to fit three bytes") {
        let mut recorders = hall.recorders.iter();
        recorders.any(|recorder| too_long(recorder.high))
    } else if faulty("a summary's highest primary asked to fit three bytes") {
        seats.any(|seat| matches!(&seat.summary, Some(sent) if too_long(sent.high)))
    } else if faulty("labels told apart without the view's top byte") {
        let different: BTreeSet<_> = labels(hall).map(cut).collect();
        different.len() < labels(hall).count()
    } else {
        false
    }
}

/// The first formed view whose number looks like a number, or this itself.
fn look_alike(hall: &Hall, number: u32, look: Look) -> u32 {
    let mut formed = hall.views.iter().map(|view| view.number);
    let found = formed.find(|&other| look(other) == look(number));
    found.unwrap_or(number)
}

/// The action that an action is taken for.
pub fn misread(hall: &Hall, [k, r, a, b]: [u32; 4]) -> [u32; 4] {
    let names_view = matches!(k, 5..=7);
    let seeks_view = matches!(k, 6 | 7) && a != 0;
    let a = if names_view && faulty("a view number past a byte refused") && a > 255 {
        0
    } else if seeks_view && faulty("a view looked up by its low byte") {
        look_alike(hall, a, low_byte)
    } else if seeks_view && faulty("a view looked up without its top byte") {
        look_alike(hall, a, without_top_byte)
    } else {
        a
    };
    [k, r, a, b]
}

/// Whether a new number is taken as above the last one.
fn seems_above(new: u32, last: u32) -> bool {
    if faulty("a new number compared by its low byte") {
        low_byte(new) > low_byte(last)
    } else if faulty("a new number compared without its top byte") {
        without_top_byte(new) > without_top_byte(last)
    } else if faulty("a new number compared as a signed one") {
        new as i32 > last as i32
    } else if faulty("a new number compared with one more than the last") {
        new >= last.wrapping_add(1)
    } else {
        new > last
    }
}

/// Whether the next label of R is taken as one that exists.
fn seems_to_exist(hall: &Hall, r: u32) -> bool {
    let recorder = hall.recorder(r);
    let next = Label {
        view: recorder.current,
        seq: recorder.next_seq,
        sender: r,
    };
    faulty("a new label looked for without the view's top byte")
        && labels(hall).any(|label| cut(label) == cut(next))
}

/// A wrong number of a step: a refusal of what is allowed, or 0 for what is not.
pub fn wrong_number(hall: &Hall, [k, r, a, b]: [u32; 4]) -> Option<u32> {
    if !matches!(k, 2 | 5 | 6) {
        return None;
    }
    let right = hall.clone().step(k, r, a, b).plain().err().unwrap_or(0);
    let number = match (k, right) {
        (2, 0) if seems_to_exist(hall, r) => 40,
        (5, 0 | 33) => {
            let last = hall.views.last().map_or(0, |view| view.number);
            if seems_above(a, last) {
                0
            } else {
                33
            }
        }
        (6, 0) if faulty("a view to enter compared by its low byte") => {
            if low_byte(a) > low_byte(hall.recorder(r).current) {
                0
            } else {
                36
            }
        }
        _ => right,
    };
    (number != right).then_some(number)
}

fn cut_labels(hall: &mut Hall, look: Look) {
    let labels = hall.entries.iter_mut();
    for label in labels.filter_map(|entry| entry.label.as_mut()) {
        label.view = look(label.view);
    }
}

/// Changes a hall so that a step of kind K at R goes wrong; nothing if it does
/// not.
pub fn mislead(hall: &mut Hall, k: u32, r: u32) -> Option<()> {
    let index = hall.current_index(r)?;
    let view = &hall.views[index];
    let queued = at_mark(&view.queue, view.seat(r).receive);
    let summary = k == 8 && queued.is_some_and(|queued| queued.message == Message::Summary);
    if k == 3 && faulty("an entry sent in a view with the same low byte") {
        let current = look_alike(hall, view.number, low_byte);
        hall.recorder_mut(r).current = current;
    } else if summary && faulty("labels ordered by the view's low byte") {
        cut_labels(hall, low_byte);
    } else if summary && faulty("labels ordered without the view's top byte") {
        cut_labels(hall, without_top_byte);
    } else {
        return None;
    }
    Some(())
}
