//! Steps of special interest, told apart by the hall before and after them, so
//! that the tests can ask that each of them came.

use crate::decisions;
use reference::choice::longest_order;
use reference::exchange::{exchanged_entries, heard_sources};
use reference::hall::{at_mark, built_in_votes, entry_set, is_quorum, LAST_SEQ, MOST_LABELS};
use reference::{Hall, Label, Message, Phase, Recorder, Seat, View};

/// The events that all calls together must meet; `decisions` has those that
/// calls on reached and on random halls must meet each.
pub const EVENTS: [&str; 24] = [
    LAST_NUMBER,
    ABOVE_BY_HIGH_BYTES,
    BELOW_BY_HIGH_BYTES,
    TOP_BYTE_NOT_FORMED,
    TOP_BYTE_OF_LABEL,
    SEQUENCE_FULL,
    BUFFER_FULL,
    LABEL_EXISTS,
    SUMMARY_SENT,
    PENDING_FULL,
    ORDER_FULL,
    BUILT_TOO_LONG,
    COMPLETED_PRIMARY,
    COMPLETED_OTHER,
    HEARD_AGAIN,
    ENTRY_PRIMARY,
    ENTRY_OTHER,
    SAFE_PRIMARY,
    SAFE_OTHER,
    NOTICE_ALL_HEARD,
    NOTICE_SOME_HEARD,
    NOTICE_NONE_HEARD,
    NOTICE_LONG,
    NOTICE_OTHER,
];

/// Where a view is primary by the hall's row and not by the built-in one, and
/// the other way round: at each step that asks whether it is. Calls on reached
/// and on random halls must meet them each.
pub const BY_ROW: [&str; 8] = [
    ENTRY_BY_ROW,
    ENTRY_BY_BUILT_IN,
    COMPLETED_BY_ROW,
    COMPLETED_BY_BUILT_IN,
    SAFE_BY_ROW,
    SAFE_BY_BUILT_IN,
    NOTICE_BY_ROW,
    NOTICE_BY_BUILT_IN,
];

const LAST_NUMBER: &str = "form: the last number";
const ABOVE_BY_HIGH_BYTES: &str = "form: the low byte is not above all formed ones";
const BELOW_BY_HIGH_BYTES: &str = "form: only the low byte is above all formed ones";
const TOP_BYTE_NOT_FORMED: &str = "enter, place: formed but for the top byte";
const TOP_BYTE_OF_LABEL: &str = "label: the label exists but for the top byte";
const SEQUENCE_FULL: &str = "label: the sequence number is 65";
const BUFFER_FULL: &str = "label: the buffer is full";
const LABEL_EXISTS: &str = "label: the label exists";
const SUMMARY_SENT: &str = "send summary: one was sent";
const PENDING_FULL: &str = "send summary: pending is full";
const ORDER_FULL: &str = "receive: an entry meets a full order";
const BUILT_TOO_LONG: &str = "receive: the built order is too long";
const COMPLETED_PRIMARY: &str = "receive: the last summary, primary";
const COMPLETED_OTHER: &str = "receive: the last summary, not primary";
const HEARD_AGAIN: &str = "receive: a summary heard before";
const ENTRY_PRIMARY: &str = "receive: an entry, primary";
const ENTRY_OTHER: &str = "receive: an entry, not primary";
const SAFE_PRIMARY: &str = "safe: an entry, primary";
const SAFE_OTHER: &str = "safe: an entry, not primary";
const NOTICE_ALL_HEARD: &str = "safe: the last summary, all heard";
const NOTICE_SOME_HEARD: &str = "safe: the last summary, some heard";
const NOTICE_NONE_HEARD: &str = "safe: the last summary, none heard";
const NOTICE_LONG: &str = "safe: the last summary, of an order past 64";
const NOTICE_OTHER: &str = "safe: the last summary, not primary";
const ENTRY_BY_ROW: &str = "receive: an entry, primary by the row alone";
const ENTRY_BY_BUILT_IN: &str = "receive: an entry, primary by the built-in row alone";
const COMPLETED_BY_ROW: &str = "receive: the last summary, primary by the row alone";
const COMPLETED_BY_BUILT_IN: &str = "receive: the last summary, primary by the built-in row alone";
const SAFE_BY_ROW: &str = "safe: an entry, primary by the row alone";
const SAFE_BY_BUILT_IN: &str = "safe: an entry, primary by the built-in row alone";
const NOTICE_BY_ROW: &str = "safe: the last summary, primary by the row alone";
const NOTICE_BY_BUILT_IN: &str = "safe: the last summary, primary by the built-in row alone";

/// What is kept of the hall before a step of kinds 2, 4, 8 and 9.
pub struct Before {
    next_seq: u32,
    buffer: usize,
    phase: Phase,
    heard: u32,
    safe_sources: u32,
    summary_sent: bool,
    members: u32,
    primary: bool,
    /// Whether the built-in row would say otherwise.
    by_row: bool,
    /// The message at the mark of kinds 8 and 9, and its source.
    message: Option<(Message, u32)>,
    /// How long the order would be that the heard summaries build.
    built: usize,
    /// What decides whose order it is.
    decided: Vec<&'static str>,
}

/// How long the order is that the summaries of some sources build.
fn built_length(view: &View, heard: u32) -> usize {
    let sources = heard_sources(view, heard);
    if sources.is_empty() {
        return 0;
    }
    let order = &longest_order(view.number, &sources).summary.order;
    let built = exchanged_entries(view, heard, longest_order);
    order.len() + (built & !entry_set(order)).count_ones() as usize
}

fn look(hall: &Hall, recorder: &Recorder, view: &View, seat: &Seat, kind: u32) -> Before {
    let mark = if kind == 8 { seat.receive } else { seat.safe };
    let queued = at_mark(&view.queue, mark);
    let summary = queued.filter(|queued| queued.message == Message::Summary);
    let primary = hall.is_primary(view);
    Before {
        next_seq: recorder.next_seq,
        buffer: recorder.buffer.len(),
        phase: recorder.phase,
        heard: recorder.heard,
        safe_sources: recorder.safe_sources,
        summary_sent: seat.summary.is_some(),
        members: view.members,
        primary,
        by_row: primary != is_quorum(&built_in_votes(hall.n), view.members),
        message: queued.map(|q| (q.message, q.source)),
        built: match summary {
            Some(_) if kind == 9 => built_length(view, recorder.heard),
            _ => 0,
        },
        decided: match summary {
            Some(queued) => decisions::of(hall, recorder, view, kind, queued.source),
            None => Vec::new(),
        },
    }
}

/// Looks at the hall before a step.
pub fn before(hall: Option<&Hall>, [k, r, _, _]: [u32; 4]) -> Option<Before> {
    let hall = hall?;
    if !matches!(k, 2 | 4 | 8 | 9) || !(1..=hall.n).contains(&r) {
        return None;
    }
    let view = &hall.views[hall.current_index(r)?];
    Some(look(hall, hall.recorder(r), view, view.seat(r), k))
}

/// The events of a step.
pub fn events(
    before: Option<Before>,
    hall: Option<&Hall>,
    action: [u32; 4],
    number: u32,
) -> Vec<&'static str> {
    let event = event(before.as_ref(), hall, action, number);
    let differs = before.as_ref().is_some_and(|before| before.by_row);
    let by_row = event.filter(|_| differs).and_then(by_row);
    // What decides about 40 decides as well.
    let before = before.filter(|_| matches!(number, 0 | 40));
    let decided = before.map_or(Vec::new(), |before| before.decided);
    event.into_iter().chain(by_row).chain(decided).collect()
}

/// The event of a step where the built-in row would say otherwise.
fn by_row(event: &'static str) -> Option<&'static str> {
    Some(match event {
        ENTRY_PRIMARY => ENTRY_BY_ROW,
        ENTRY_OTHER => ENTRY_BY_BUILT_IN,
        COMPLETED_PRIMARY => COMPLETED_BY_ROW,
        COMPLETED_OTHER => COMPLETED_BY_BUILT_IN,
        SAFE_PRIMARY => SAFE_BY_ROW,
        SAFE_OTHER => SAFE_BY_BUILT_IN,
        NOTICE_ALL_HEARD | NOTICE_SOME_HEARD | NOTICE_LONG => NOTICE_BY_ROW,
        NOTICE_OTHER => NOTICE_BY_BUILT_IN,
        _ => return None,
    })
}

/// The event of a step by its kind and number, if it has one.
fn event(
    before: Option<&Before>,
    hall: Option<&Hall>,
    [k, r, a, _]: [u32; 4],
    number: u32,
) -> Option<&'static str> {
    if matches!(k, 5..=7) {
        return named(hall?, k, a, number);
    }
    let before = before?;
    match (k, number) {
        (2, 0) => labelled(hall?, r),
        (2, 40) => Some(full_label(before)),
        (4, 40) if before.summary_sent => Some(SUMMARY_SENT),
        (4, 40) => Some(PENDING_FULL),
        (8, 40) => match before.message?.0 {
            Message::Entry(_) => Some(ORDER_FULL),
            Message::Summary => Some(BUILT_TOO_LONG),
        },
        (8, 0) => received(before, hall?.recorder(r)),
        (9, 0) => noticed(before),
        _ => None,
    }
}

/// The event of a step that names view A, by the hall after it.
fn named(hall: &Hall, k: u32, a: u32, number: u32) -> Option<&'static str> {
    let low = |number: u32| number & 0xff;
    let mut formed = hall.views.iter().map(|view| view.number);
    match (k, number) {
        (5, 0) if a == u32::MAX => Some(LAST_NUMBER),
        (5, 0) if formed.any(|other| other != a && low(other) >= low(a)) => {
            Some(ABOVE_BY_HIGH_BYTES)
        }
        (5, 33) if formed.all(|other| low(other) < low(a)) => Some(BELOW_BY_HIGH_BYTES),
        (6 | 7, 34) if formed.any(|other| top_byte_apart(other, a)) => Some(TOP_BYTE_NOT_FORMED),
        _ => None,
    }
}

/// Whether two numbers differ in the top byte alone.
fn top_byte_apart(one: u32, other: u32) -> bool {
    one != other && one << 8 == other << 8
}

/// The event of a label that R was given just now.
fn labelled(hall: &Hall, r: u32) -> Option<&'static str> {
    let recorder = hall.recorder(r);
    let near = |label: Label| {
        top_byte_apart(label.view, recorder.current)
            && (label.seq + 1, label.sender) == (recorder.next_seq, r)
    };
    let mut labels = hall.entries.iter().filter_map(|entry| entry.label);
    labels.any(near).then_some(TOP_BYTE_OF_LABEL)
}

fn full_label(before: &Before) -> &'static str {
    if before.next_seq > LAST_SEQ {
        SEQUENCE_FULL
    } else if before.buffer >= MOST_LABELS {
        BUFFER_FULL
    } else {
        LABEL_EXISTS
    }
}

fn received(before: &Before, after: &Recorder) -> Option<&'static str> {
    match (before.message?, before.primary) {
        ((Message::Entry(_), _), true) => Some(ENTRY_PRIMARY),
        ((Message::Entry(_), _), false) => Some(ENTRY_OTHER),
        _ if before.phase == Phase::Collect && after.phase == Phase::Normal => {
            Some(if before.primary {
                COMPLETED_PRIMARY
            } else {
                COMPLETED_OTHER
            })
        }
        ((Message::Summary, source), _) if before.heard >> (source - 1) & 1 != 0 => {
            Some(HEARD_AGAIN)
        }
        _ => None,
    }
}

fn noticed(before: &Before) -> Option<&'static str> {
    let (message, source) = before.message?;
    if let Message::Entry(_) = message {
        return Some(if before.primary {
            SAFE_PRIMARY
        } else {
            SAFE_OTHER
        });
    }
    let last = before.safe_sources | 1 << (source - 1) == before.members;
    if !last {
        return None;
    }
    if !before.primary {
        return Some(NOTICE_OTHER);
    }
    Some(match before.heard {
        0 => NOTICE_NONE_HEARD,
        _ if before.built > MOST_LABELS => NOTICE_LONG,
        heard if heard == before.members => NOTICE_ALL_HEARD,
        _ => NOTICE_SOME_HEARD,
    })
}
