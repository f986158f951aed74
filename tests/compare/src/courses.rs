//! How settles go, told apart by the hall before them, so that the tests can ask
//! that each of these came.

use reference::actions::{ENTER, LABEL, PLACE, RECEIVE, SEND_ENTRY, SEND_SUMMARY};
use reference::hall::{built_in_votes, is_quorum, margin, MOST_LABELS};
use reference::settle::{turn_actions, KINDS};
use reference::{refusal, Entry, Hall, View};

/// What settles of reached halls must meet, and those of random halls.
pub const ANY: [&str; 11] = [
    NO_STEP,
    ALL_ENTER,
    SENT_SUMMARY,
    EARLIER_ENTRY,
    OUTSIDER,
    BY_ROW,
    BY_BUILT_IN,
    EARLIER_PRIMARY,
    NO_MARGIN,
    SHORT_SETTLED,
    SHORT_NOT_PRIMARY,
];

/// What settles of random halls must meet besides.
pub const RANDOM: [&str; 13] = [
    FULL_LABEL,
    FULL_SEND_ENTRY,
    FULL_SEND_SUMMARY,
    FULL_PLACE,
    FULL_RECEIVE,
    FULL_AT_ONCE,
    FULL_AFTER_A_STEP,
    FULL_BEFORE_ALLOWED,
    FULL_NONE_ALLOWED,
    NO_VIEW,
    NOT_PRIMARY_AND_FULL,
    FULL_BUFFER,
    SHORT_FULL,
];

const NO_STEP: &str = "settle: no step";
const ALL_ENTER: &str = "settle: all members enter";
const SENT_SUMMARY: &str = "settle: a summary is sent";
const EARLIER_ENTRY: &str = "settle: an entry of an earlier view is delivered";
const OUTSIDER: &str = "settle: a recorder outside the view could step";
const FULL_BUFFER: &str = "settle: more entries wait than the buffer has room for";
const BY_ROW: &str = "settle: primary by the row alone";
const BY_BUILT_IN: &str = "settle: 42, primary by the built-in row alone";
const EARLIER_PRIMARY: &str = "settle: 42, an earlier view is primary";
const NO_MARGIN: &str = "settle: 42, a margin of 0";
const NO_VIEW: &str = "settle: 42, no view";
const NOT_PRIMARY_AND_FULL: &str = "settle: 42, it would meet 40";
const FULL_LABEL: &str = "settle: 40 at kind 2";
const FULL_SEND_ENTRY: &str = "settle: 40 at kind 3";
const FULL_SEND_SUMMARY: &str = "settle: 40 at kind 4";
const FULL_PLACE: &str = "settle: 40 at kind 7";
const FULL_RECEIVE: &str = "settle: 40 at kind 8";
const FULL_AT_ONCE: &str = "settle: 40 at the first turn";
const FULL_AFTER_A_STEP: &str = "settle: 40 after a step";
const FULL_BEFORE_ALLOWED: &str = "settle: 40 before an allowed action";
const FULL_NONE_ALLOWED: &str = "settle: 40 where no action is allowed";
const SHORT_SETTLED: &str = "settle: 18, it would take steps";
const SHORT_NOT_PRIMARY: &str = "settle: 42 without room";
const SHORT_FULL: &str = "settle: 40 without room";

/// The events of a settle, given whether there is room for its answer.
pub fn events(hall: Option<&Hall>, room: bool) -> Vec<&'static str> {
    let Some(hall) = hall else {
        return Vec::new();
    };
    let Some(view) = hall.greatest_view() else {
        return vec![NO_VIEW];
    };
    let mut after = hall.clone();
    match after.settle() {
        Ok(steps) if room => settled(hall, view, &after, &steps),
        Ok(steps) if steps.is_empty() => Vec::new(),
        Ok(_) => vec![SHORT_SETTLED],
        Err(refusal::FULL) if room => full(hall, view),
        Err(refusal::FULL) => vec![SHORT_FULL],
        Err(_) if room => not_primary(hall, view),
        Err(_) => vec![SHORT_NOT_PRIMARY],
    }
}

/// The names whose condition holds.
fn holding<const COUNT: usize>(events: [(&'static str, bool); COUNT]) -> Vec<&'static str> {
    let held = events.into_iter().filter(|&(_, holds)| holds);
    held.map(|(event, _)| event).collect()
}

fn primary_by_built_in(hall: &Hall, view: &View) -> bool {
    is_quorum(&built_in_votes(hall.n), view.members)
}

/// The number of a step.
fn number(hall: &mut Hall, [k, r, a, b]: [u32; 4]) -> u32 {
    hall.step(k, r, a, b).plain().err().unwrap_or(0)
}

fn settled(hall: &Hall, view: &View, after: &Hall, steps: &[[u32; 4]]) -> Vec<&'static str> {
    let of_kind = |kind: u32| steps.iter().filter(move |step| step[0] == kind);
    let entered = of_kind(ENTER).count() as u32;
    holding([
        (NO_STEP, steps.is_empty()),
        (ALL_ENTER, entered == view.members.count_ones()),
        (SENT_SUMMARY, of_kind(SEND_SUMMARY).next().is_some()),
        (EARLIER_ENTRY, delivers_earlier(hall, view, after)),
        (
            FULL_BUFFER,
            of_kind(LABEL).any(|&[_, r, ..]| outgrows_buffer(hall, r)),
        ),
        (OUTSIDER, outsider_steps(view, after)),
        (BY_ROW, !primary_by_built_in(hall, view)),
    ])
}

/// Whether a settle delivers an entry that was labelled in an earlier view.
fn delivers_earlier(hall: &Hall, view: &View, after: &Hall) -> bool {
    let mut recorders = hall.recorders.iter().zip(&after.recorders);
    recorders.any(|(old, new)| {
        let reported = new.order.iter().take(new.report as usize - 1);
        let mut delivered = reported.skip(old.report as usize - 1);
        delivered.any(|&entry| after.label_of(entry).view < view.number)
    })
}

/// Whether R's buffer has no room for all entries that wait.
fn outgrows_buffer(hall: &Hall, r: u32) -> bool {
    let waits = |entry: &&Entry| entry.sender == r && entry.label.is_none();
    let waiting = hall.entries.iter().filter(waits).count();
    hall.recorder(r).buffer.len() + waiting > MOST_LABELS
}

/// Whether a recorder that is no member could take a step of a settle.
fn outsider_steps(view: &View, after: &Hall) -> bool {
    let mut hall = after.clone();
    let outsiders = (1..=hall.n).filter(|&r| !view.has(r));
    let mut steps = outsiders.flat_map(|r| KINDS.map(|k| [k, r, 0, 0]));
    steps.any(|step| number(&mut hall, step) == 0)
}

/// The hall at the last turn in a view, the number of steps before it, and
/// whether 40 ended it.
fn last_turn(hall: &Hall, view: &View) -> (Hall, usize, bool) {
    let mut hall = hall.clone();
    let mut steps = 0;
    loop {
        match hall.turn(view.number, view.members) {
            Ok(Some(_)) => steps += 1,
            end => return (hall, steps, end.is_err()),
        }
    }
}

fn full(hall: &Hall, view: &View) -> Vec<&'static str> {
    let (mut hall, steps, _) = last_turn(hall, view);
    let mut actions = turn_actions(view.number, view.members);
    let met = actions.find(|&action| number(&mut hall, action) == refusal::FULL);
    let [kind, ..] = met.expect("40 was met");
    let allowed = actions.any(|action| number(&mut hall, action) == 0);
    holding([
        (FULL_LABEL, kind == LABEL),
        (FULL_SEND_ENTRY, kind == SEND_ENTRY),
        (FULL_SEND_SUMMARY, kind == SEND_SUMMARY),
        (FULL_PLACE, kind == PLACE),
        (FULL_RECEIVE, kind == RECEIVE),
        (FULL_AT_ONCE, steps == 0),
        (FULL_AFTER_A_STEP, steps != 0),
        (FULL_BEFORE_ALLOWED, allowed),
        (FULL_NONE_ALLOWED, !allowed),
    ])
}

fn not_primary(hall: &Hall, view: &View) -> Vec<&'static str> {
    let (_, _, full) = last_turn(hall, view);
    holding([
        (BY_BUILT_IN, primary_by_built_in(hall, view)),
        (
            EARLIER_PRIMARY,
            hall.views.iter().any(|view| hall.is_primary(view)),
        ),
        (NO_MARGIN, margin(&hall.votes, view.members) == 0),
        (NOT_PRIMARY_AND_FULL, full),
    ])
}
