//! The rules on valid halls that no run reaches, and which halls are valid.

mod halls;

use halls::{full_hall, labelled, queued, summary};
use reference::{
    built_in_votes, open_whole, Answer, Hall, Message, Phase, Recorder, Seat, Summary, View,
};

const DONE: Answer = Answer::Done;
/// The set of the entries 0 to 63.
const ALL_ENTRIES: u64 = u64::MAX;
/// Pairs of view numbers about the edges of their bytes and of their range.
const HIGHER_AND_LOWER: [(u32, u32); 5] = [
    (256, 255),
    (1 << 16, (1 << 16) - 1),
    (1 << 24, (1 << 24) - 1),
    (1 << 31, (1 << 31) - 1),
    (u32::MAX, u32::MAX - 1),
];

/// Sends and queues a summary of a source in the hall's first view.
fn put_summary(hall: &mut Hall, source: u32, sent: Summary) {
    let view = &mut hall.views[0];
    view.seat_mut(source).summary = Some(sent);
    view.queue.push(queued(source, Message::Summary));
}

/// A step on a valid hall that must be refused and change nothing.
fn assert_refused(hall: &mut Hall, k: u32, r: u32, a: u32, number: u32) {
    assert!(hall.check());
    let kept = hall.clone();
    assert_eq!(hall.step(k, r, a, 0), Answer::Refused(number));
    assert_eq!(*hall, kept);
}

/// A step on a valid hall that must be accepted and leave a valid hall.
fn assert_accepted(hall: &mut Hall, k: u32, r: u32, a: u32) -> Answer {
    assert!(hall.check());
    let answer = hall.step(k, r, a, 0);
    assert!(!matches!(answer, Answer::Refused(_)), "{answer:?}");
    assert!(hall.check());
    answer
}

#[test]
fn an_entry_meets_a_full_order() {
    let mut hall = full_hall(3);
    hall.views[0].queue = vec![queued(2, Message::Entry(5))];
    hall.recorder_mut(2).order = vec![5; 64];
    assert_refused(&mut hall, 8, 2, 0, 40);
    hall.recorder_mut(2).order.pop();
    let answer = assert_accepted(&mut hall, 8, 2, 0);
    let Answer::Entry { source, sender, .. } = answer else {
        panic!("{answer:?}");
    };
    assert_eq!((source, sender), (2, 1));
    assert_eq!(hall.recorder(2).order, vec![5; 64]);
}

#[test]
fn an_entry_in_a_view_without_a_quorum() {
    let mut hall = full_hall(3);
    hall.views[0].members = 0b110;
    hall.recorder_mut(1).current = 0;
    hall.views[0].queue = vec![queued(2, Message::Entry(5))];
    hall.recorder_mut(2).order = vec![0; 64];
    assert_accepted(&mut hall, 8, 2, 0);
    assert_eq!(hall.recorder(2).known, 1 << 5);
    assert_eq!(hall.recorder(2).order, vec![0; 64]);
    assert_accepted(&mut hall, 8, 3, 0);
    assert_accepted(&mut hall, 9, 2, 0);
    assert_eq!(hall.recorder(2).safe_labels, 0);
}

/// The same view and the same messages, primary or not by the hall's row alone.
#[test]
fn the_row_decides() {
    for (row, primary) in [([5, 3, 3], true), ([6, 3, 3], false)] {
        let mut hall = full_hall(3);
        hall.votes[..3].copy_from_slice(&row);
        hall.views[0].members = 0b110;
        hall.recorder_mut(1).current = 0;
        hall.views[0].queue = vec![queued(2, Message::Entry(5))];
        put_summary(&mut hall, 2, summary(0b10, vec![], 1, 0));
        put_summary(&mut hall, 3, summary(0b01, vec![], 1, 0));
        hall.recorder_mut(2).phase = Phase::Collect;
        for r in [2, 3, 2, 3, 2, 3] {
            assert_accepted(&mut hall, 8, r, 0);
        }
        let recorder = hall.recorder(2);
        let order = if primary { vec![1, 0] } else { vec![] };
        let high = if primary { 1 } else { 0 };
        assert_eq!((&recorder.order, recorder.high), (&order, high));
        for _ in 0..3 {
            assert_accepted(&mut hall, 9, 2, 0);
        }
        let safe = if primary { 1 << 5 | 0b11 } else { 0 };
        assert_eq!(hall.recorder(2).safe_labels, safe);
    }
}

/// The summaries of recorders 1 and on, who are all. Recorder 1 has heard the
/// others, collects, and its own summary comes next.
fn before_the_last_of(sent: Vec<Summary>) -> Hall {
    let mut hall = full_hall(sent.len() as u32);
    let others = hall.views[0].members & !1;
    for (seat, sent) in hall.views[0].seats.iter_mut().zip(sent) {
        seat.summary = Some(sent);
    }
    hall.views[0].queue.push(queued(1, Message::Summary));
    let recorder = hall.recorder_mut(1);
    recorder.phase = Phase::Collect;
    recorder.heard = others;
    hall
}

/// The representative is 2, with an order of the given length.
fn before_the_last_summary(length: usize) -> Hall {
    let mut hall = before_the_last_of(vec![
        summary(0b1110, vec![], 4, 6),
        summary(0b0010, vec![0; length], 2, 6),
    ]);
    hall.recorder_mut(1).known = ALL_ENTRIES;
    hall
}

/// A hall with recorders outside the view, so many that this is not primary.
fn without_a_quorum(mut hall: Hall) -> Hall {
    while hall.is_primary(&hall.views[0]) {
        hall.n += 1;
        hall.recorders.push(Recorder::starting(0));
        hall.views[0].seats.push(Seat::empty());
        hall.votes = built_in_votes(hall.n);
    }
    hall
}

#[test]
fn the_last_summary_builds_the_order() {
    let mut hall = before_the_last_summary(61);
    assert_accepted(&mut hall, 8, 1, 0);
    let recorder = hall.recorder(1);
    // The missing entries in label order; the receiver's known set is not used.
    assert_eq!(recorder.order[..61], [0; 61]);
    assert_eq!(recorder.order[61..], [3, 2, 1]);
    assert_eq!((recorder.confirm, recorder.high), (4, 1));
    assert_eq!((recorder.phase, recorder.heard), (Phase::Normal, 0b11));
}

#[test]
fn the_last_summary_would_overfill_the_order() {
    let mut hall = before_the_last_summary(62);
    assert_refused(&mut hall, 8, 1, 0, 40);
    // Not the last summary: there is nothing to build.
    hall.recorder_mut(1).heard = 0;
    assert_accepted(&mut hall, 8, 1, 0);
    assert_eq!(hall.recorder(1).phase, Phase::Collect);
}

#[test]
fn the_last_summary_in_another_phase() {
    let mut hall = before_the_last_summary(62);
    hall.recorder_mut(1).phase = Phase::Normal;
    assert_accepted(&mut hall, 8, 1, 0);
    assert_eq!(hall.recorder(1).order, vec![]);
    // A summary heard before completes the view as well.
    let mut hall = before_the_last_summary(3);
    hall.recorder_mut(1).heard = 0b11;
    assert_accepted(&mut hall, 8, 1, 0);
    assert_eq!(hall.recorder(1).order, [0, 0, 0, 3, 2, 1]);
}

#[test]
fn the_last_summary_without_a_quorum() {
    let mut hall = without_a_quorum(before_the_last_summary(64));
    assert_accepted(&mut hall, 8, 1, 0);
    let recorder = hall.recorder(1);
    assert_eq!(recorder.order, vec![0; 64]);
    assert_eq!((recorder.confirm, recorder.high), (4, 6));
}

#[test]
fn a_higher_primary_beats_a_greater_number() {
    for (high, lower) in HIGHER_AND_LOWER.into_iter().chain([(7, 6)]) {
        let mut hall = before_the_last_summary(3);
        let view = &mut hall.views[0];
        view.seat_mut(1).summary.as_mut().unwrap().high = high;
        view.seat_mut(2).summary.as_mut().unwrap().high = lower;
        assert_accepted(&mut hall, 8, 1, 0);
        assert_eq!(hall.recorder(1).order, [3, 2, 1]);
    }
}

/// The summary of an order and a highest primary; no entry is known.
fn ranked((order, high): (&[usize], u32)) -> Summary {
    summary(0, order.to_vec(), 1, high)
}

/// Three summaries by their orders and highest primaries, and the one that
/// represents, by its place: in a view with a quorum and in one without, and for
/// the notice where all are heard.
#[test]
fn the_representative() {
    let by_length = [
        ([(&[1, 2, 3][..], 6), (&[4, 5], 6), (&[6], 6)], 0),
        ([(&[1], 6), (&[2, 3], 6), (&[], 6)], 1),
        ([(&[], 6), (&[1], 6), (&[2, 3], 6)], 2),
    ];
    let by_number = [
        ([(&[1, 2][..], 6), (&[3, 4], 6), (&[5], 6)], 1),
        ([(&[1, 2], 6), (&[3], 6), (&[4, 5], 6)], 2),
        ([(&[1], 6), (&[2], 6), (&[3], 6)], 2),
    ];
    let by_primary = [
        ([(&[1][..], 7), (&[2, 3], 6), (&[4, 5, 6], 6)], 0),
        ([(&[1, 2, 3], 6), (&[], 7), (&[4], 6)], 1),
        ([(&[1, 2], 7), (&[3], 7), (&[4, 5, 6], 6)], 0),
        ([(&[1, 2, 3, 4], 6), (&[5], 7), (&[6], 7)], 2),
    ];
    for (sources, place) in by_length.into_iter().chain(by_number).chain(by_primary) {
        let (order, high) = sources[place];
        let hall = before_the_last_of(sources.map(ranked).to_vec());
        let mut primary = hall.clone();
        assert_accepted(&mut primary, 8, 1, 0);
        assert_eq!(primary.recorder(1).order, order);
        assert_eq!(primary.recorder(1).high, 1);
        let mut other = without_a_quorum(hall.clone());
        assert_accepted(&mut other, 8, 1, 0);
        assert_eq!(other.recorder(1).order, order);
        assert_eq!(other.recorder(1).high, high);
        assert_eq!(safe_labels(hall, 0b111), entries_of(order));
    }
}

/// For a notice only the heard sources count.
#[test]
fn the_representative_of_some() {
    let orders = [(&[1, 2, 3][..], 6), (&[4, 5], 6), (&[6, 7], 6)];
    let hall = before_the_last_of(orders.map(ranked).to_vec());
    for (heard, place) in [
        (0b001, 0),
        (0b010, 1),
        (0b100, 2),
        (0b011, 0),
        (0b101, 0),
        (0b110, 2),
        (0b111, 0),
    ] {
        let labels = entries_of(orders[place].0);
        assert_eq!(safe_labels(hall.clone(), heard), labels);
    }
    let orders = [(&[1, 2, 3][..], 6), (&[4, 5], 6), (&[6], 7)];
    let hall = before_the_last_of(orders.map(ranked).to_vec());
    for (heard, place) in [(0b011, 0), (0b110, 2), (0b101, 2), (0b111, 2)] {
        let labels = entries_of(orders[place].0);
        assert_eq!(safe_labels(hall.clone(), heard), labels);
    }
}

fn entries_of(order: &[usize]) -> u64 {
    order.iter().fold(0, |set, entry| set | 1 << entry)
}

/// The labels that are safe at 1 after the notice of its own summary, the last
/// one, with these sources heard.
fn safe_labels(mut hall: Hall, heard: u32) -> u64 {
    let others = hall.views[0].members & !1;
    let recorder = hall.recorder_mut(1);
    recorder.heard = heard;
    recorder.safe_sources = others;
    for seat in &mut hall.views[0].seats {
        seat.receive = 2;
    }
    assert_accepted(&mut hall, 9, 1, 0);
    hall.recorder(1).safe_labels
}

/// The orders compared are those in the summaries, not those of the sources now.
#[test]
fn the_representative_by_the_summaries() {
    let orders = [(&[1][..], 6), (&[2, 3, 4], 6), (&[5, 6], 6)];
    let mut hall = before_the_last_of(orders.map(ranked).to_vec());
    hall.recorder_mut(1).order = vec![7; 9];
    hall.recorder_mut(2).order = vec![];
    hall.recorder_mut(3).order = vec![8; 64];
    assert_eq!(safe_labels(hall.clone(), 0b111), entries_of(&[2, 3, 4]));
    assert_accepted(&mut hall, 8, 1, 0);
    assert_eq!(hall.recorder(1).order, [2, 3, 4]);
}

/// Whether the last summary is too much goes by the longest order.
#[test]
fn the_longest_order_overfills() {
    // 62 places and three entries more; from the order of 2 it would be six.
    let long = summary(0b1110, vec![0; 62], 1, 6);
    let short = summary(0, vec![0; 3], 1, 6);
    let mut hall = before_the_last_of(vec![long, short]);
    assert_refused(&mut hall, 8, 1, 0, 40);
    // 61 places and no entry more; from the order of 2 it would be 120.
    let long = summary(ALL_ENTRIES >> 3, (0..61).collect(), 1, 6);
    let short = summary(0, vec![0; 60], 1, 6);
    let mut hall = before_the_last_of(vec![long, short]);
    assert_accepted(&mut hall, 8, 1, 0);
    assert_eq!(hall.recorder(1).order, (0..61).collect::<Vec<_>>());
}

/// The missing entries come in the order of whole view numbers.
#[test]
fn labels_compare_by_the_whole_view_number() {
    for (high, lower) in HIGHER_AND_LOWER {
        let mut hall = before_the_last_summary(0);
        hall.entries[1] = labelled(high, 1, 1);
        hall.entries[2] = labelled(lower, 64, 1);
        hall.entries[3] = labelled(lower, 63, 1);
        assert_accepted(&mut hall, 8, 1, 0);
        assert_eq!(hall.recorder(1).order, [3, 2, 1]);
    }
}

/// Recorder 1 gets notice of its own summary, all others being safe.
fn before_the_last_notice(heard: u32) -> Hall {
    let mut hall = before_the_last_summary(64);
    let recorder = hall.recorder_mut(1);
    recorder.heard = heard;
    recorder.safe_sources = 0b10;
    hall.views[0].seat_mut(1).receive = 2;
    hall.views[0].seat_mut(2).receive = 73;
    hall
}

#[test]
fn the_last_notice_works_on_sets() {
    for (heard, labels) in [(0b00, 0), (0b01, 0b1110), (0b10, 0b0011), (0b11, 0b1111)] {
        let mut hall = before_the_last_notice(heard);
        assert_accepted(&mut hall, 9, 1, 0);
        assert_eq!(hall.recorder(1).safe_labels, labels);
        assert_eq!(hall.recorder(1).safe_sources, 0b11);
        assert_eq!(hall.views[0].seat(1).safe, 2);
    }
}

#[test]
fn a_notice_before_the_last() {
    let mut hall = before_the_last_notice(0b11);
    hall.recorder_mut(1).safe_sources = 0;
    assert_accepted(&mut hall, 9, 1, 0);
    assert_eq!(hall.recorder(1).safe_labels, 0);
    assert_eq!(hall.recorder(1).safe_sources, 0b01);
}

#[test]
fn a_notice_asks_members_only() {
    let mut hall = before_the_last_notice(0b11);
    hall.n = 3;
    hall.recorders.push(Recorder::starting(0));
    hall.views[0].seats.push(Seat::empty());
    assert_accepted(&mut hall, 9, 1, 0);
    let mut hall = before_the_last_notice(0b11);
    hall.views[0].seat_mut(1).receive = 1;
    assert_refused(&mut hall, 9, 1, 0, 39);
}

#[test]
fn labelling_that_is_full() {
    let mut hall = open_whole(1);
    hall.recorder_mut(1).next_seq = 65;
    assert_refused(&mut hall, 2, 1, 0, 38);
    hall.entries = vec![labelled(1, 7, 1)];
    assert_eq!(hall.step(1, 1, 5, 0), DONE);
    assert_refused(&mut hall, 2, 1, 0, 40);
    hall.recorder_mut(1).next_seq = 7;
    assert_refused(&mut hall, 2, 1, 0, 40);
    hall.recorder_mut(1).next_seq = 64;
    hall.recorder_mut(1).buffer = vec![0; 64];
    assert_refused(&mut hall, 2, 1, 0, 40);
    hall.recorder_mut(1).buffer.pop();
    assert_accepted(&mut hall, 2, 1, 0);
    assert_eq!(hall.recorder(1).next_seq, 65);
}

/// The first waiting entry is labelled, also where a later one has a label.
#[test]
fn a_labelled_entry_after_a_waiting_one() {
    let mut hall = open_whole(2);
    assert_eq!(hall.step(1, 2, 5, 0), DONE);
    assert_eq!(hall.step(1, 1, 6, 0), DONE);
    hall.entries.push(labelled(9, 9, 1));
    assert_accepted(&mut hall, 2, 1, 0);
    let label = hall.entries[1].label.unwrap();
    assert_eq!((label.view, label.seq, label.sender), (1, 1, 1));
}

#[test]
fn sending_that_is_full() {
    let mut hall = full_hall(1);
    hall.recorder_mut(1).buffer = vec![4, 5];
    hall.views[0].seat_mut(1).pending = vec![Message::Entry(1); 65];
    assert_refused(&mut hall, 3, 1, 0, 39);
    hall.recorder_mut(1).known = 1 << 4;
    assert_refused(&mut hall, 3, 1, 0, 40);
    hall.recorder_mut(1).phase = Phase::Send;
    assert_refused(&mut hall, 3, 1, 0, 37);
    assert_refused(&mut hall, 4, 1, 0, 40);
    hall.views[0].seat_mut(1).pending.pop();
    hall.views[0].seat_mut(1).summary = Some(summary(0, vec![], 1, 0));
    assert_refused(&mut hall, 4, 1, 0, 40);
    hall.views[0].seat_mut(1).summary = None;
    assert_accepted(&mut hall, 4, 1, 0);
    assert_eq!(hall.recorder(1).phase, Phase::Collect);
}

#[test]
fn placing_that_is_full() {
    let mut hall = full_hall(1);
    hall.views[0].queue = vec![queued(1, Message::Entry(1)); 72];
    assert_refused(&mut hall, 7, 1, 1, 38);
    hall.views[0].seat_mut(1).pending = vec![Message::Entry(2)];
    assert_refused(&mut hall, 7, 1, 1, 40);
    hall.views[0].queue.pop();
    assert_accepted(&mut hall, 7, 1, 1);
    assert_eq!(hall.views[0].queue[71], queued(1, Message::Entry(2)));
    hall.views[0].seat_mut(1).receive = 73;
    hall.views[0].seat_mut(1).safe = 73;
    assert_refused(&mut hall, 8, 1, 0, 38);
    assert_refused(&mut hall, 9, 1, 0, 38);
}

#[test]
fn marks_in_any_relation() {
    let mut hall = full_hall(1);
    let recorder = hall.recorder_mut(1);
    recorder.order = vec![9; 64];
    recorder.confirm = 65;
    recorder.report = 64;
    assert_refused(&mut hall, 10, 1, 0, 38);
    assert_refused(&mut hall, 11, 1, 0, 39);
    hall.recorder_mut(1).known = 1 << 9;
    assert_accepted(&mut hall, 11, 1, 0);
    assert_refused(&mut hall, 11, 1, 0, 38);
    hall.recorder_mut(1).report = 40;
    hall.recorder_mut(1).order.truncate(39);
    assert_refused(&mut hall, 11, 1, 0, 38);
    assert_eq!(hall.page(1, 39).unwrap().label_seq, 55);
}

#[test]
fn a_hall_without_views() {
    let mut hall = open_whole(2);
    hall.views.clear();
    hall.recorders = vec![Recorder::starting(0); 2];
    hall.recorder_mut(1).phase = Phase::Send;
    for kind in [2, 3, 4, 8, 9] {
        assert_refused(&mut hall, kind, 1, 0, 37);
    }
    assert_eq!(hall.page(1, 0).unwrap().phase, 1);
    assert_eq!(hall.step(5, 0, 1, 2), DONE);
    assert_refused(&mut hall, 6, 1, 1, 35);
    assert_accepted(&mut hall, 6, 2, 1);
}

/// A hall in which much is out of the way but in range.
fn strange_hall() -> Hall {
    let mut hall = full_hall(3);
    hall.entries[63].label = None;
    hall.views[0].number = 9;
    hall.views[0].members = 0b011;
    for recorder in [1, 2] {
        hall.recorder_mut(recorder).current = 9;
    }
    hall.recorders[2] = Recorder::starting(0);
    hall.recorders[2].phase = Phase::Collect;
    hall.views[0].seat_mut(3).receive = 73;
    put_summary(&mut hall, 1, summary(0, vec![1, 1], 65, 200));
    hall.views[0].queue.push(queued(1, Message::Summary));
    hall.views[0].queue.push(queued(2, Message::Entry(8)));
    let recorder = hall.recorder_mut(2);
    recorder.heard = 0b01;
    recorder.safe_sources = 0b11;
    recorder.report = 65;
    recorder.buffer = vec![7, 7, 2];
    recorder.high = 255;
    hall
}

/// Whether the strange hall stays valid after a change.
fn valid_with(change: impl Fn(&mut Hall)) -> bool {
    let mut hall = strange_hall();
    change(&mut hall);
    hall.check()
}

#[test]
fn valid_halls() {
    assert!(valid_with(|_| ()));
    assert!(valid_with(|h| h.entries[63].sender = 3));
    assert!(valid_with(|h| h.recorders[0].known = u64::MAX >> 1));
    assert!(valid_with(|h| h.recorders[0].next_seq = 65));
    assert!(valid_with(
        |h| h.views[0].seats[1].pending = vec![Message::Entry(0); 65]
    ));
}

/// Any number but 0 may be that of a view, formed or not.
#[test]
fn valid_halls_with_any_view_number() {
    for number in [255, 256, 1 << 16, 1 << 24, 1 << 31, u32::MAX] {
        assert!(valid_with(|h| {
            h.views.push(View::formed(3, number, 0b100));
            h.recorders[2].current = number;
        }));
        assert!(valid_with(|h| h.entries[0] = labelled(number, 1, 1)));
        assert!(valid_with(|h| h.recorders[0].high = number));
        assert!(valid_with(|h| {
            let summary = summary(0, vec![], 1, number);
            h.views[0].seat_mut(1).summary = Some(summary);
        }));
    }
}

#[test]
fn halls_with_wrong_entries() {
    assert!(!valid_with(|h| h.entries[63].sender = 4));
    assert!(!valid_with(|h| h.entries[63].sender = 0));
    assert!(!valid_with(|h| h.entries[0].sender = 2));
    assert!(!valid_with(|h| h.entries[0].label = h.entries[1].label));
    assert!(!valid_with(|h| h.entries[0] = labelled(0, 1, 1)));
    assert!(!valid_with(|h| h.entries[0] = labelled(1, 0, 1)));
    assert!(!valid_with(|h| h.entries[0] = labelled(1, 65, 1)));
    assert!(!valid_with(|h| h.entries.push(labelled(1, 1, 1))));
}

#[test]
fn halls_with_wrong_views() {
    assert!(!valid_with(|h| h.views[0].members = 0b1011));
    assert!(!valid_with(|h| h.views.push(View::formed(3, 9, 1))));
    assert!(!valid_with(|h| h.views.insert(0, View::formed(3, 0, 1))));
    assert!(!valid_with(|h| h.views.push(View::formed(3, 10, 0))));
    assert!(!valid_with(|h| h.views.push(View::formed(2, 10, 1))));
    assert!(!valid_with(|h| h.views[0].seats[2].safe = 0));
    assert!(!valid_with(|h| h.views[0].seats[2].receive = 74));
    assert!(!valid_with(
        |h| h.views[0].seats[2].pending = vec![Message::Entry(0)]
    ));
    assert!(!valid_with(
        |h| h.views[0].seats[2].summary = Some(summary(0, vec![], 1, 0))
    ));
    assert!(!valid_with(
        |h| h.views[0].seats[1].pending = vec![Message::Summary]
    ));
    assert!(!valid_with(
        |h| h.views[0].seats[1].pending = vec![Message::Entry(63)]
    ));
    assert!(!valid_with(
        |h| h.views[0].seats[1].pending = vec![Message::Entry(0); 66]
    ));
    assert!(!valid_with(|h| h.views[0]
        .queue
        .push(queued(2, Message::Summary))));
    assert!(!valid_with(|h| h.views[0]
        .queue
        .push(queued(3, Message::Entry(0)))));
    assert!(!valid_with(|h| h.views[0]
        .queue
        .push(queued(0, Message::Entry(0)))));
    assert!(!valid_with(
        |h| h.views[0].queue = vec![queued(1, Message::Entry(0)); 73]
    ));
}

#[test]
fn halls_with_wrong_summaries() {
    let wrong =
        |sent: Summary| !valid_with(|hall| hall.views[0].seat_mut(1).summary = Some(sent.clone()));
    assert!(wrong(summary(1 << 63, vec![], 1, 0)));
    assert!(wrong(summary(0, vec![63], 1, 0)));
    assert!(wrong(summary(0, vec![0; 65], 1, 0)));
    assert!(wrong(summary(0, vec![], 0, 0)));
    assert!(wrong(summary(0, vec![], 66, 0)));
}

#[test]
fn halls_with_wrong_votes() {
    assert!(valid_with(|h| h.votes = [0, 0, 1_000, 0, 0, 0, 0, 0]));
    assert!(!valid_with(|h| h.votes = [0; 8]));
    assert!(!valid_with(|h| h.votes[2] = 1_001));
    assert!(!valid_with(|h| h.votes[3] = 1));
    assert!(!valid_with(|h| h.votes = [0, 0, 0, 0, 0, 0, 0, 1]));
}

#[test]
fn halls_with_wrong_recorders() {
    assert!(!valid_with(|h| h.n = 2));
    assert!(!valid_with(|h| h.n = 0));
    assert!(!valid_with(|h| h.n = 9));
    assert!(!valid_with(|h| h.recorders.push(Recorder::starting(0))));
    assert!(!valid_with(|h| h.recorders[2].current = 9));
    assert!(!valid_with(|h| h.recorders[0].current = 8));
    assert!(!valid_with(|h| h.recorders[0].current = 9 + 256));
    assert!(!valid_with(|h| h.recorders[0].heard = 0b10));
    assert!(!valid_with(|h| h.recorders[0].safe_sources = 0b100));
    assert!(!valid_with(|h| h.recorders[2].heard = 0b01));
    assert!(!valid_with(|h| h.recorders[2].safe_sources = 0b01));
    assert!(!valid_with(|h| h.recorders[0].known = ALL_ENTRIES));
    assert!(!valid_with(|h| h.recorders[0].safe_labels = 1 << 63));
    assert!(!valid_with(|h| h.recorders[0].order = vec![63]));
    assert!(!valid_with(|h| h.recorders[0].order = vec![64]));
    assert!(!valid_with(|h| h.recorders[0].buffer = vec![0; 65]));
    assert!(!valid_with(|h| h.recorders[0].next_seq = 0));
    assert!(!valid_with(|h| h.recorders[0].next_seq = 66));
    assert!(!valid_with(|h| h.recorders[0].confirm = 0));
    assert!(!valid_with(|h| h.recorders[0].report = 66));
}
