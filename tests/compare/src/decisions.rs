//! What decides whose order is taken where kind 8 or 9 takes one: another
//! choice would have taken that of another source. It shows if the step would
//! then have left another hall, or none.

use reference::choice::{greatest_number, least_of_longest, length_first, longest_order, Choice};
use reference::exchange::{exchanged_entries, heard_sources};
use reference::hall::recorder_bit;
use reference::{Hall, Phase, Recorder, View};

/// A step whose source another choice would not have taken.
struct Decision {
    other: Choice,
    came: &'static str,
    shows: &'static str,
}

/// By the longest order, against the greater number.
const RECEIVE_LONGEST: Decision = Decision {
    other: greatest_number,
    came: "receive: the longest order decided",
    shows: "receive: the longest order decided, and it shows",
};
const SAFE_LONGEST: Decision = Decision {
    other: greatest_number,
    came: "safe: the longest order decided",
    shows: "safe: the longest order decided, and it shows",
};
/// By the number, of several orders as long.
const RECEIVE_NUMBER: Decision = Decision {
    other: least_of_longest,
    came: "receive: equal length, the number decided",
    shows: "receive: equal length, the number decided, and it shows",
};
const SAFE_NUMBER: Decision = Decision {
    other: least_of_longest,
    came: "safe: equal length, the number decided",
    shows: "safe: equal length, the number decided, and it shows",
};
/// By the highest primary, against a longer order.
const RECEIVE_PRIMARY: Decision = Decision {
    other: length_first,
    came: "receive: the highest primary decided",
    shows: "receive: the highest primary decided, and it shows",
};
const SAFE_PRIMARY: Decision = Decision {
    other: length_first,
    came: "safe: the highest primary decided",
    shows: "safe: the highest primary decided, and it shows",
};

const RECEIVE: [Decision; 3] = [RECEIVE_LONGEST, RECEIVE_NUMBER, RECEIVE_PRIMARY];
const SAFE: [Decision; 3] = [SAFE_LONGEST, SAFE_NUMBER, SAFE_PRIMARY];

/// What must come on halls reached from an opening. There sources with the same
/// highest primary that have orders as long have the same order, and all
/// entries of an order are known in its summary, so that the notices make the
/// same labels safe with any source: neither can show.
pub const REACHED: [&str; 6] = [
    RECEIVE_LONGEST.shows,
    RECEIVE_NUMBER.came,
    RECEIVE_PRIMARY.shows,
    SAFE_LONGEST.came,
    SAFE_NUMBER.came,
    SAFE_PRIMARY.came,
];

/// Where it decides about 40: it is given because of the longest order, or
/// would be because of the greater number.
const OVER_BY_LONGEST: &str = "receive: the longest order alone is too long";
const OVER_BY_NUMBER: &str = "receive: the order of the greater number alone is too long";

/// What must come on random halls: here each of them shows.
pub const RANDOM: [&str; 8] = [
    RECEIVE_LONGEST.shows,
    RECEIVE_NUMBER.shows,
    RECEIVE_PRIMARY.shows,
    SAFE_LONGEST.shows,
    SAFE_NUMBER.shows,
    SAFE_PRIMARY.shows,
    OVER_BY_LONGEST,
    OVER_BY_NUMBER,
];

/// What decides at a recorder that gets the summary of a source, by kind 8 or
/// as a notice; nothing where no order is taken.
pub fn of(
    hall: &Hall,
    recorder: &Recorder,
    view: &View,
    kind: u32,
    source: u32,
) -> Vec<&'static str> {
    if kind == 8 {
        let heard = recorder.heard | recorder_bit(source);
        let complete = recorder.phase == Phase::Collect && heard == view.members;
        let heard = if complete { heard } else { 0 };
        let taken = |choice: Choice| hall.established(view, heard, choice);
        let mut events = decided(&RECEIVE, view, heard, taken);
        if events.contains(&RECEIVE_LONGEST.shows) {
            match (taken(longest_order), taken(greatest_number)) {
                (Err(_), Ok(_)) => events.push(OVER_BY_LONGEST),
                (Ok(_), Err(_)) => events.push(OVER_BY_NUMBER),
                _ => (),
            }
        }
        return events;
    }
    let safe = recorder.safe_sources | recorder_bit(source);
    let complete = safe == view.members && hall.is_primary(view);
    let heard = if complete { recorder.heard } else { 0 };
    let labels = |choice: Choice| recorder.safe_labels | exchanged_entries(view, heard, choice);
    decided(&SAFE, view, heard, labels)
}

/// The decisions among the heard sources, given what a choice leads to.
fn decided<Left: PartialEq>(
    decisions: &[Decision],
    view: &View,
    heard: u32,
    left: impl Fn(Choice) -> Left,
) -> Vec<&'static str> {
    let sources = heard_sources(view, heard);
    if sources.is_empty() {
        return Vec::new();
    }
    let takes = |choice: Choice| choice(view.number, &sources).number;
    let mut events = Vec::new();
    for decision in decisions {
        if takes(decision.other) != takes(longest_order) {
            events.push(decision.came);
            if left(decision.other) != left(longest_order) {
                events.push(decision.shows);
            }
        }
    }
    events
}
