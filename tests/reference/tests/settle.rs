//! Settling the hall: the vectors, the counts, and what refuses it.
//!
//! HALL_SETTLES names the directory of the vectors; the default is
//! `../vectors/settles`, seen from this package. HALL_SETTLES_LEAST states how
//! many there must be at least; the default is `LEAST`.

mod files;
mod halls;

use files::{bytes_of, Folder};
use halls::{full_hall, labelled, queued, summary};
use reference::hall::{holds_recorder, MOST_LABELS, MOST_PENDING, MOST_QUEUED};
use reference::settle::MOST_STEPS;
use reference::{
    calls, open, open_built_in, read_run_file, refusal, stored, Answer, Entry, Hall, Message,
    Phase, Recorder,
};

const LEAST: usize = 40;
/// Kinds of calls, in the order in which a turn tries them.
const ORDER: [u32; 9] = [6, 4, 3, 2, 7, 8, 9, 10, 11];

type Call = [u32; 4];

fn vectors() -> Folder {
    Folder::named("HALL_SETTLES", "../vectors/settles", LEAST)
}

/// The hall after the run of a file.
fn hall_of(file: &[u8]) -> Hall {
    let (opening, actions) = read_run_file(file).expect("the file is taken");
    let hall = open(opening.n, opening.founders, opening.row());
    let mut hall = hall.expect("the opening is taken");
    for &[k, r, a, b] in &actions {
        hall.step(k, r, a, b);
    }
    hall
}

/// A hall opened by the founders' mask, with these calls accepted.
fn hall_with(n: u32, founders: u32, calls: &[Call]) -> Hall {
    let mut hall = open_built_in(n, founders).expect("the opening is taken");
    for &call in calls {
        assert!(is_accepted(&mut hall, call), "{call:?}");
    }
    hall
}

fn is_refused(answer: Answer) -> bool {
    matches!(answer, Answer::Refused(_))
}

fn is_accepted(hall: &mut Hall, [k, r, a, b]: Call) -> bool {
    !is_refused(hall.step(k, r, a, b))
}

fn submit(r: u32) -> Call {
    [1, r, 10 * r, 0]
}

/// Forms a view of a set.
fn form(number: u32, members: u32) -> Call {
    [5, 0, number, members]
}

/// The call of a kind at a recorder that needs no words A and B.
fn plain(kind: u32, r: u32) -> Call {
    [kind, r, 0, 0]
}

/// A settle that must be refused and change nothing.
fn assert_refused(hall: &mut Hall, number: u32) {
    assert!(hall.check());
    let kept = hall.clone();
    assert_eq!(hall.settle(), Err(number));
    assert_eq!(*hall, kept);
}

/// The steps of a settle that must be accepted, and leaves nothing to settle.
fn settled(hall: &mut Hall) -> Vec<Call> {
    let steps = hall.settle().expect("the hall settles");
    assert!(hall.check());
    let kept = hall.clone();
    assert_eq!(hall.settle(), Ok(vec![]));
    assert_eq!(*hall, kept);
    steps
}

/// What a recorder has delivered.
fn delivered(hall: &Hall, r: u32) -> Vec<u32> {
    let Recorder { order, report, .. } = hall.recorder(r);
    let value = |&entry: &usize| hall.entries[entry].value;
    order[..*report as usize - 1].iter().map(value).collect()
}

/// The settle of a hall and every page then, as a vector has them.
fn settled_text(mut hall: Hall) -> String {
    let kept = hall.clone();
    let mut text = match hall.settle() {
        Ok(steps) => format!("settled {}\n", steps.len()),
        Err(number) => {
            assert_eq!(hall, kept);
            format!("refused {number}\n")
        }
    };
    for (r, recorder) in (1..).zip(&hall.recorders) {
        for place in 0..=recorder.order.len() as u32 {
            text.push_str(&page_line(&hall, r, place));
        }
    }
    text
}

/// The thirteen words of a page, the margin signed.
fn page_line(hall: &Hall, r: u32, place: u32) -> String {
    let page = hall.page(r, place).expect("there is that place");
    let mut words = page.words().map(|word| word.to_string());
    words[3] = page.margin.to_string();
    format!("page {r} {place}: {}\n", words[..13].join(" "))
}

#[test]
fn every_settle_of_the_vectors() {
    let vectors = vectors();
    vectors.every_run_gives("settled", |file| settled_text(hall_of(file)).into_bytes());
    vectors.every_one_has_its_run("settled");
}

#[test]
fn one_submit_alone() {
    let mut hall = hall_with(1, 1, &[submit(1)]);
    let steps = settled(&mut hall);
    assert_eq!(steps.len(), 7);
    let kinds: Vec<u32> = steps.iter().map(|step| step[0]).collect();
    assert_eq!(kinds, [2, 3, 7, 8, 9, 10, 11]);
    assert_eq!(delivered(&hall, 1), [10]);
}

/// The hall of three with one submit at each, then these calls.
fn hall_of_three(calls: &[Call]) -> Hall {
    let submits = [1, 2, 3].map(submit);
    hall_with(3, 7, &[&submits, calls].concat())
}

/// Under each kind the lowest recorder comes first, and a label is sent before
/// the next one is given.
#[test]
fn one_submit_at_each_of_three() {
    let mut hall = hall_of_three(&[]);
    let mut wanted = Vec::new();
    for r in 1..=3 {
        wanted.extend([plain(2, r), plain(3, r)]);
    }
    wanted.extend([1, 2, 3].map(|r| [7, r, 1, 0]));
    for kind in 8..=11 {
        for r in 1..=3 {
            wanted.extend([plain(kind, r); 3]);
        }
    }
    assert_eq!(wanted.len(), 45);
    assert_eq!(settled(&mut hall), wanted);
    for r in 1..=3 {
        assert_eq!(delivered(&hall, r), [10, 20, 30]);
    }
}

#[test]
fn a_view_that_nobody_entered() {
    let mut hall = hall_of_three(&[form(2, 0b011)]);
    let outside = hall.recorder(3).clone();
    let steps = settled(&mut hall);
    assert_eq!(steps.len(), 36);
    assert_eq!(steps[..2], [[6, 1, 2, 0], [6, 2, 2, 0]]);
    for r in 1..=2 {
        assert_eq!(hall.recorder(r).current, 2);
        assert_eq!(delivered(&hall, r), [10, 20]);
    }
    assert_eq!(*hall.recorder(3), outside);
    assert_eq!(delivered(&hall, 3), []);
}

#[test]
fn a_view_of_all_without_entries() {
    let mut hall = hall_with(3, 7, &[form(2, 7)]);
    assert_eq!(settled(&mut hall).len(), 27);
    for recorder in &hall.recorders {
        assert_eq!((recorder.current, recorder.high), (2, 2));
        assert_eq!(recorder.phase, Phase::Normal);
    }
}

/// The number of steps is 0, as it is at a second settle after any other.
#[test]
fn nothing_to_settle() {
    let mut hall = hall_with(3, 7, &[]);
    let kept = hall.clone();
    assert!(settled(&mut hall).is_empty());
    assert_eq!(hall, kept);
    let mut seconds = 0;
    for run in vectors().run_files() {
        let mut hall = hall_of(&bytes_of(&run));
        if hall.settle().is_ok() {
            assert!(settled(&mut hall).is_empty());
            seconds += 1;
        }
    }
    assert!(seconds > 0);
}

#[test]
fn the_greatest_view_without_a_quorum() {
    // A lower view is primary, and its members are in it.
    let mut hall = hall_of_three(&[form(2, 0b011), [6, 1, 2, 0], [6, 2, 2, 0], form(3, 0b110)]);
    assert_refused(&mut hall, 42);
    // So it is where all members of the greatest have entered.
    let mut entered = hall.clone();
    for r in 2..=3 {
        assert!(is_accepted(&mut entered, [6, r, 3, 0]));
    }
    assert_refused(&mut entered, 42);
    // The hall's row decides, not the built-in one.
    let mut equal = hall.clone();
    equal.votes = [1, 1, 1, 0, 0, 0, 0, 0];
    assert_eq!(settled(&mut equal).len(), 36);
    // With a primary view after it the hall settles.
    assert!(is_accepted(&mut hall, form(4, 0b011)));
    assert_eq!(settled(&mut hall).len(), 36);
    // Founders.
    assert_refused(&mut hall_with(3, 0b110, &[submit(2)]), 42);
    // A hall that no run reaches.
    let mut hall = hall_with(3, 7, &[]);
    hall.views.clear();
    hall.recorders = vec![Recorder::starting(0); 3];
    assert_refused(&mut hall, 42);
}

#[test]
fn the_longest_settles() {
    assert_eq!(MOST_STEPS, 2_392);
    let at_each: Vec<Call> = (0..64).map(|k| submit(1 + k % 8)).collect();
    for submits in [at_each, vec![submit(1); 64], vec![submit(8); 64]] {
        let mut hall = hall_with(8, 255, &submits);
        let mut with_a_view = hall.clone();
        assert!(is_accepted(&mut with_a_view, form(2, 255)));
        assert_eq!(settled(&mut with_a_view).len(), 2_392);
        assert_eq!(settled(&mut hall).len(), 2_240);
        for hall in [hall, with_a_view] {
            assert!((1..=8).all(|r| delivered(&hall, r).len() == 64));
        }
    }
}

/// Entries in every state of view 1, and a member that has gone on to view 2
/// alone: the entries at 1 are ordered, in the buffer and waiting, those at 2 are
/// pending and waiting, those at 3 are queued and in the buffer.
fn scattered_hall() -> Hall {
    let values = [11, 12, 13, 21, 22, 31, 32];
    let submits = values.map(|value| [1, value / 10, value, 0]);
    let at_1 = [plain(2, 1), plain(3, 1), [7, 1, 1, 0], plain(2, 1)];
    let received = [plain(8, 1), plain(8, 2)];
    let at_2 = [plain(2, 2), plain(3, 2)];
    let at_3 = [plain(2, 3), plain(3, 3), [7, 3, 1, 0], plain(2, 3)];
    let in_view_2 = [form(2, 0b011), [6, 1, 2, 0], plain(4, 1), [7, 1, 2, 0]];
    let parts: [&[Call]; 6] = [&submits, &at_1, &received, &at_2, &at_3, &in_view_2];
    hall_with(3, 7, &parts.concat())
}

/// Those of the new view's members are delivered at them, and nothing moves in
/// an earlier view.
#[test]
fn entries_of_an_earlier_view() {
    let in_label_order = [11, 21, 31, 12, 32, 13, 22];
    for (members, count) in [(0b111, 87), (0b011, 48)] {
        let mut hall = scattered_hall();
        assert!(is_accepted(&mut hall, form(3, members)));
        let kept = hall.clone();
        assert_eq!(settled(&mut hall).len(), count);
        assert_eq!(hall.views[..2], kept.views[..2]);
        let mut of_members = in_label_order.to_vec();
        of_members.retain(|value| holds_recorder(members, value / 10));
        for r in (1..=3).filter(|&r| holds_recorder(members, r)) {
            assert_eq!(delivered(&hall, r), of_members);
        }
    }
}

/// Entry 63 has no label and waits at recorder 2.
fn wait_at_2(hall: &mut Hall) {
    hall.entries[63] = Entry {
        sender: 2,
        value: 5,
        label: None,
    };
}

/// A queue that is full, and that all have received and got notice of.
fn fill_queue(hall: &mut Hall) {
    let view = &mut hall.views[0];
    view.queue = vec![queued(1, Message::Entry(1)); MOST_QUEUED];
    for seat in &mut view.seats {
        (seat.receive, seat.safe) = (73, 73);
    }
}

/// With the queue full too, so that nothing pending is placed.
fn fill_pending_of_2(hall: &mut Hall) {
    fill_queue(hall);
    hall.views[0].seat_mut(2).pending = vec![Message::Entry(1); MOST_PENDING];
}

/// Recorder 1 has received the message that comes next at 2.
fn queue_before_2(hall: &mut Hall, source: u32, message: Message) {
    hall.views[0].queue = vec![queued(source, message)];
    hall.views[0].seat_mut(1).receive = 2;
}

/// Halls of two recorders where no call is allowed and one at recorder 2 is
/// refused with 40, by the kind of that call.
fn full_halls() -> Vec<(u32, Hall)> {
    let with = |kind: u32, change: fn(&mut Hall)| {
        let mut hall = full_hall(2);
        change(&mut hall);
        (kind, hall)
    };
    vec![
        // The sequence number.
        with(2, |hall| {
            wait_at_2(hall);
            hall.recorder_mut(2).next_seq = 65;
        }),
        // A label that exists already.
        with(2, |hall| {
            wait_at_2(hall);
            hall.entries[0] = labelled(1, 1, 2);
        }),
        // The buffer, whose head is not known and not sent.
        with(2, |hall| {
            wait_at_2(hall);
            hall.recorder_mut(2).buffer = vec![0; MOST_LABELS];
        }),
        with(3, |hall| {
            fill_pending_of_2(hall);
            hall.recorder_mut(2).buffer = vec![0];
            hall.recorder_mut(2).known = 1;
        }),
        // The summary's place, and the pending list.
        with(4, |hall| {
            hall.views[0].seat_mut(2).summary = Some(summary(0, vec![], 1, 0));
            hall.recorder_mut(2).phase = Phase::Send;
        }),
        with(4, |hall| {
            fill_pending_of_2(hall);
            hall.recorder_mut(2).phase = Phase::Send;
        }),
        with(7, |hall| {
            fill_queue(hall);
            hall.views[0].seat_mut(2).pending = vec![Message::Entry(2)];
        }),
        // An entry for a full order, and the last summary of an order too long.
        with(8, |hall| {
            queue_before_2(hall, 1, Message::Entry(5));
            hall.recorder_mut(2).order = vec![5; MOST_LABELS];
        }),
        with(8, |hall| {
            let view = &mut hall.views[0];
            view.seat_mut(1).summary = Some(summary(0b1110, vec![0; 62], 1, 0));
            view.seat_mut(2).summary = Some(summary(0, vec![], 1, 0));
            queue_before_2(hall, 2, Message::Summary);
            hall.recorder_mut(2).phase = Phase::Collect;
            hall.recorder_mut(2).heard = 0b01;
        }),
    ]
}

/// The calls of a turn in the greatest view with what each of them answers.
fn tried(hall: &Hall) -> Vec<(Call, Answer)> {
    let view = hall.views.last().expect("a view was formed");
    let mut copy = hall.clone();
    let mut answers = Vec::new();
    for kind in ORDER {
        let a = if kind == 6 || kind == 7 {
            view.number
        } else {
            0
        };
        for r in (1..=hall.n).filter(|&r| view.has(r)) {
            let answer = copy.step(kind, r, a, 0);
            if !is_refused(answer) {
                copy = hall.clone();
            }
            answers.push(([kind, r, a, 0], answer));
        }
    }
    answers
}

fn first_accepted(tried: &[(Call, Answer)]) -> Option<usize> {
    tried.iter().position(|&(_, answer)| !is_refused(answer))
}

fn first_full(tried: &[(Call, Answer)]) -> Option<usize> {
    let full = Answer::Refused(refusal::FULL);
    tried.iter().position(|&(_, answer)| answer == full)
}

/// The kind of the first call in a turn that is refused with 40.
fn full_kind(hall: &Hall) -> u32 {
    let tried = tried(hall);
    let ([kind, ..], _) = tried[first_full(&tried).expect("a call is refused with 40")];
    kind
}

#[test]
fn full_where_none_is_allowed() {
    let mut kinds = Vec::new();
    for (kind, mut hall) in full_halls() {
        assert_eq!(first_accepted(&tried(&hall)), None);
        assert_eq!(full_kind(&hall), kind);
        assert_refused(&mut hall, 40);
        kinds.push(kind);
    }
    kinds.dedup();
    assert_eq!(kinds, [2, 3, 4, 7, 8]);
}

/// Recorder 1 may deliver, which comes last in the order.
#[test]
fn full_before_an_allowed_action() {
    for (kind, mut hall) in full_halls() {
        let recorder = hall.recorder_mut(1);
        (recorder.known, recorder.order) = (1, vec![0]);
        recorder.confirm = 2;
        let tried = tried(&hall);
        let allowed = first_accepted(&tried).expect("a call is allowed");
        assert_eq!(tried[allowed].0, plain(11, 1));
        assert!(first_full(&tried) < Some(allowed));
        assert_eq!(full_kind(&hall), kind);
        assert_refused(&mut hall, 40);
    }
}

/// Recorder 1 may send an entry first; before kind 4, which comes earlier in the
/// order, it enters.
#[test]
fn full_after_steps() {
    for (kind, mut hall) in full_halls() {
        let recorder = hall.recorder_mut(1);
        if kind == 4 {
            recorder.current = 0;
        } else {
            (recorder.known, recorder.buffer) = (1, vec![0]);
        }
        let mut turned = hall.clone();
        let mut steps = 0;
        while let Ok(step) = turned.turn(1, 0b11) {
            assert!(step.is_some());
            steps += 1;
        }
        assert!(steps > 0);
        assert_eq!(full_kind(&turned), kind);
        assert_refused(&mut hall, 40);
    }
}

/// A call that would be refused with 40 is never tried if one before it makes
/// room: the sequence number is 1 again in the new view.
#[test]
fn full_after_an_allowed_action() {
    let mut hall = hall_with(1, 1, &[submit(1), form(2, 1)]);
    hall.recorder_mut(1).next_seq = 65;
    assert!(hall.check());
    assert_eq!(full_kind(&hall), 2);
    assert_eq!(settled(&mut hall)[0], [6, 1, 2, 0]);
    assert_eq!(delivered(&hall, 1), [10]);
}

/// A settle of bytes, whose answer has some room, that is refused and leaves them
/// all.
fn assert_bytes_refused(bytes: &[u8], room: usize, number: u32) {
    let mut lent = bytes.to_vec();
    let mut answer = vec![9; room];
    assert_eq!(calls::settle(&mut lent, &mut answer), number);
    assert_eq!(lent, bytes);
    assert_eq!(answer, vec![9; room]);
}

/// The same with rooms that are too small and with enough.
fn assert_refused_with_any_room(bytes: &[u8], number: u32) {
    for room in [0, 63, 64, 80] {
        assert_bytes_refused(bytes, room, number);
    }
}

#[test]
fn the_order_of_refusals() {
    let to_settle = hall_of_three(&[]);
    let without_a_quorum = hall_of_three(&[form(2, 0b110)]);
    let (_, full) = full_halls().swap_remove(0);
    // Both: the view without a quorum is that of recorder 2, where a call is full.
    let mut both = full.clone();
    both.views[0].members = 0b10;
    both.recorder_mut(1).current = 0;
    assert_eq!(full_kind(&both), 2);
    for hall in [&to_settle, &without_a_quorum, &full, &both] {
        let mut form = stored::form(hall);
        assert_refused_with_any_room(&form[..stored::LENGTH - 1], 31);
        form[0] = 9;
        assert_refused_with_any_room(&form, 31);
    }
    for hall in [&without_a_quorum, &both] {
        assert_refused_with_any_room(&stored::form(hall), 42);
    }
    assert_refused_with_any_room(&stored::form(&full), 40);
    for room in [0, 63] {
        assert_bytes_refused(&stored::form(&to_settle), room, 18);
    }
    for more in [0, 2] {
        assert_settles_bytes(to_settle.clone(), more, 45);
    }
}

/// A settle of lent bytes that fits, with some bytes more: the hall's form and
/// the answer are written, and nothing past them.
fn assert_settles_bytes(mut hall: Hall, more: usize, count: u32) {
    let mut bytes = [stored::form(&hall), vec![7; more]].concat();
    let mut answer = vec![9; calls::ANSWER_LENGTH + more];
    assert_eq!(calls::settle(&mut bytes, &mut answer), 0);
    settled(&mut hall);
    assert_eq!(bytes, [stored::form(&hall), vec![7; more]].concat());
    let (words, rest) = answer.split_at(calls::ANSWER_LENGTH);
    assert_eq!(words[..4], count.to_le_bytes());
    assert_eq!(words[4..], [0; calls::ANSWER_LENGTH - 4]);
    assert_eq!(rest, vec![9; more]);
}

/// The steps of a settle in the greatest view, by trying every call at each turn.
/// Whether a recorder is in that view is not asked: where no kind 6 is allowed,
/// all members are.
fn steps_by_trying(mut hall: Hall) -> Result<Vec<Call>, u32> {
    let mut steps = Vec::new();
    loop {
        let tried = tried(&hall);
        match (first_accepted(&tried), first_full(&tried)) {
            (None, None) => return Ok(steps),
            (None, Some(_)) => return Err(refusal::FULL),
            (Some(accepted), Some(full)) if full < accepted => return Err(refusal::FULL),
            (Some(accepted), _) => {
                let (call, _) = tried[accepted];
                assert!(is_accepted(&mut hall, call));
                steps.push(call);
            }
        }
    }
}

/// A hall that no run reaches, where each of the nine kinds is allowed: 6 at
/// recorder 3, 4 at recorder 2, the others at recorder 1.
fn busy_hall() -> Hall {
    let mut hall = full_hall(3);
    hall.entries[63].label = None;
    hall.recorders[2] = Recorder::starting(0);
    hall.recorder_mut(2).phase = Phase::Send;
    let recorder = hall.recorder_mut(1);
    (recorder.known, recorder.buffer) = (0b11, vec![0]);
    (recorder.order, recorder.safe_labels) = (vec![1, 2], 0b100);
    recorder.confirm = 2;
    let view = &mut hall.views[0];
    view.queue = vec![queued(1, Message::Entry(3)); 2];
    view.seat_mut(1).pending = vec![Message::Entry(4)];
    for seat in &mut view.seats {
        seat.receive = 2;
    }
    assert!(hall.check());
    for kind in ORDER {
        let is_allowed = |(call, answer): &(Call, Answer)| call[0] == kind && !is_refused(*answer);
        assert!(tried(&hall).iter().any(is_allowed), "kind {kind}");
    }
    hall
}

/// A settle takes the nine kinds alone, in their order, though a submit and a
/// new view would be allowed.
#[test]
fn later_kinds_are_never_taken() {
    let of_vectors = vectors().run_files().into_iter();
    let of_vectors = of_vectors.map(|run| hall_of(&bytes_of(&run)));
    let full = full_halls().into_iter().map(|(_, hall)| hall);
    let others = [scattered_hall(), busy_hall()];
    let mut both_allowed = 0;
    for mut hall in of_vectors.chain(full).chain(others) {
        let greatest = hall.views.last().expect("a view was formed");
        if !hall.is_primary(greatest) {
            continue;
        }
        let above = greatest.number.saturating_add(1);
        let by_trying = steps_by_trying(hall.clone());
        let steps = hall.settle();
        assert_eq!(steps, by_trying);
        for [kind, ..] in steps.into_iter().flatten() {
            assert!(kind != 1 && kind != 5);
        }
        let both = is_accepted(&mut hall, submit(1)) && is_accepted(&mut hall, form(above, 1));
        both_allowed += u32::from(both);
    }
    assert!(both_allowed > 0);
}
