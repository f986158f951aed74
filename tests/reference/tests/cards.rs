//! The bench cards, and a few more short runs from an opening.

use reference::{
    built_in_votes, listing, open_built_in, open_whole, read_run_file, write_run_file, Answer,
    Hall, Opening,
};

const DONE: Answer = Answer::Done;

fn refused(number: u32) -> Answer {
    Answer::Refused(number)
}

/// A run file with the built-in row, of its own length.
fn run_file(n: u32, founders: u32, actions: &[[u32; 4]]) -> Vec<u8> {
    let mut file = vec![0; 32 + 16 * actions.len()];
    let length = write_run_file(Opening::built_in(n, founders), actions, &mut file);
    assert_eq!(length, Ok(file.len()));
    file
}

/// Performs kinds at recorder 1, with A for submits and placings.
fn steps_at_1(hall: &mut Hall, steps: &[(u32, u32)]) -> Vec<Answer> {
    steps.iter().map(|&(k, a)| hall.step(k, 1, a, 0)).collect()
}

fn steps(hall: &mut Hall, actions: &[[u32; 4]]) -> Vec<Answer> {
    let step = |&[k, r, a, b]: &[u32; 4]| hall.step(k, r, a, b);
    actions.iter().map(step).collect()
}

fn all_accepted(answers: &[Answer]) -> bool {
    !answers
        .iter()
        .any(|answer| matches!(answer, Answer::Refused(_)))
}

#[test]
fn the_listing() {
    let kinds = [1, 2, 3, 7, 8, 9, 10, 11, 11];
    let argument = |k| match k {
        1 => 700,
        7 => 1,
        _ => 0,
    };
    let actions = kinds.map(|k| [k, 1, argument(k), 0]);
    let wanted = "hall 1\n1 1 ok\n2 2 ok\n3 3 ok\n4 7 ok\n5 8 entry 1.1.1 700\n\
        6 9 entry 1.1.1 700\n7 10 ok\n8 11 from 1 700\n9 11 refused 38\nend 8 1\n";
    assert_eq!(listing(&run_file(1, 1, &actions)), wanted.as_bytes());
    assert_eq!(listing(&run_file(2, 0, &[])), b"hall 2\nend 0 0\n");
}

#[test]
fn openings() {
    assert_eq!(open_built_in(0, 0), Err(16));
    assert_eq!(open_built_in(9, 0), Err(16));
    assert_eq!(open_built_in(3, 8), Err(16));
    assert_eq!(open_built_in(8, 1 << 31), Err(16));
    assert!(open_built_in(8, 0).is_ok_and(|hall| hall.check()));
    let hall = open_built_in(3, 0).unwrap();
    assert_eq!((hall.views[0].number, hall.views[0].members), (1, 1));
    let hall = open_built_in(3, 2).unwrap();
    assert_eq!((hall.recorder(1).current, hall.recorder(1).high), (0, 0));
    assert_eq!((hall.recorder(2).current, hall.recorder(2).high), (1, 1));
}

#[test]
fn quorums() {
    let is_quorum = |n, set| reference::hall::is_quorum(&built_in_votes(n), set);
    assert!(!is_quorum(3, 0b110));
    assert!(is_quorum(3, 0b011));
    assert!(is_quorum(4, 0b1110));
    assert!(!is_quorum(4, 0b1100));
    assert!(is_quorum(2, 0b01));
}

#[test]
fn margins() {
    let margin = |n, set| reference::hall::margin(&built_in_votes(n), set);
    assert_eq!(margin(3, 0b110), 0);
    assert_eq!(margin(3, 0b011), 2);
    assert_eq!(margin(3, 0), -4);
    assert_eq!(margin(4, 0b1110), 1);
    assert_eq!(margin(4, 0b1100), -1);
}

#[test]
fn view_numbers() {
    let mut hall = open_whole(2);
    assert_eq!(hall.step(5, 0, 0, 1), refused(14));
    assert_eq!(hall.step(5, 0, 2, 3), DONE);
    assert_eq!(hall.step(5, 0, 3, 3), DONE);
    assert_eq!(hall.step(6, 1, 3, 0), DONE);
    assert_eq!(hall.step(6, 1, 2, 0), refused(36));
    for number in [255, 256, u32::MAX] {
        assert_eq!(hall.step(5, 0, number, 1), DONE);
        assert_eq!(hall.step(5, 0, number, 1), refused(33));
    }
    assert_eq!(hall.step(5, 0, 256, 4), refused(15));
    assert_eq!(hall.step(5, 0, 256, 0), refused(15));
    assert_eq!(hall.step(6, 2, u32::MAX, 0), refused(35));
    for kind in [6, 7] {
        assert_eq!(hall.step(kind, 1, 0, 0), refused(14));
        assert_eq!(hall.step(kind, 1, 254, 0), refused(34));
        assert_eq!(hall.step(kind, 1, u32::MAX - 1, 0), refused(34));
    }
}

/// An entry is labelled, received, shown, confirmed and delivered in the view
/// with the last number.
#[test]
fn the_last_view_number() {
    let last = u32::MAX;
    let mut hall = open_whole(1);
    assert_eq!(hall.step(5, 0, last, 1), DONE);
    let exchange = [(6, last), (4, 0), (7, last), (8, 0)];
    assert!(all_accepted(&steps_at_1(&mut hall, &exchange)));
    let send = [(1, 5), (2, 0), (3, 0), (7, last)];
    assert!(all_accepted(&steps_at_1(&mut hall, &send)));
    let entry = Answer::Entry {
        source: 1,
        view: last,
        seq: 1,
        sender: 1,
        value: 5,
    };
    assert_eq!(hall.step(8, 1, 0, 0), entry);
    let page = hall.page(1, 1).unwrap();
    assert_eq!((page.view, page.high, page.label_view), (last, last, last));
    let confirm = [(9, 0), (9, 0), (10, 0)];
    assert!(all_accepted(&steps_at_1(&mut hall, &confirm)));
    let delivered = Answer::From {
        sender: 1,
        value: 5,
    };
    assert_eq!(hall.step(11, 1, 0, 0), delivered);
    assert_eq!(hall.step(6, 1, last, 0), refused(36));
}

#[test]
fn labels_wait_for_the_summaries() {
    let mut hall = open_whole(1);
    assert_eq!(hall.step(5, 0, 2, 1), DONE);
    assert!(all_accepted(&steps_at_1(&mut hall, &[(6, 2), (1, 5)])));
    assert_eq!(hall.step(2, 1, 0, 0), refused(37));
    assert_eq!(hall.step(3, 1, 0, 0), refused(37));
    assert!(all_accepted(&steps_at_1(&mut hall, &[(4, 0), (7, 2)])));
    assert_eq!(hall.step(2, 1, 0, 0), refused(37));
    assert!(all_accepted(&steps_at_1(&mut hall, &[(8, 0), (2, 0)])));
    assert_eq!(hall.step(4, 1, 0, 0), refused(37));
}

#[test]
fn order_of_refusals() {
    let mut hall = open_whole(2);
    assert_eq!(hall.step(12, 9, 9, 9), refused(11));
    assert_eq!(hall.step(0, 1, 0, 0), refused(11));
    assert_eq!(hall.step(6, 9, 0, 0), refused(12));
    assert_eq!(hall.step(5, 1, 0, 0), refused(12));
    assert_eq!(hall.step(6, 1, 0, 1), refused(13));
    assert_eq!(hall.step(1, 1, 7, 1), refused(13));
    assert_eq!(hall.step(10, 1, 1, 0), refused(13));
    assert_eq!(hall.step(5, 0, 0, 0), refused(14));
    assert_eq!(hall.step(10, 1, 0, 0), refused(38));
    assert_eq!(hall.step(11, 1, 0, 0), refused(38));
}

#[test]
fn safe_needs_all_members() {
    let mut hall = open_whole(2);
    assert!(all_accepted(&steps_at_1(
        &mut hall,
        &[(1, 5), (2, 0), (3, 0), (7, 1), (8, 0)]
    )));
    assert_eq!(hall.step(9, 1, 0, 0), refused(39));
    let entry = hall.step(8, 2, 0, 0);
    assert_eq!(hall.step(9, 1, 0, 0), entry);
    assert_eq!(hall.step(9, 1, 0, 0), refused(38));
}

#[test]
fn limits_of_entries_and_views() {
    let mut hall = open_whole(1);
    for value in 0..64 {
        assert_eq!(hall.step(1, 1, value, 0), DONE);
    }
    assert_eq!(hall.step(1, 1, 64, 0), refused(32));
    for number in 2..33 {
        assert_eq!(hall.step(5, 0, number, 1), DONE);
    }
    assert_eq!(hall.step(5, 0, 33, 1), refused(32));
    assert_eq!(hall.step(5, 0, 1, 1), refused(32));
    assert!(hall.check());
}

/// A label that was safe in one view is not safe in the next until the
/// summaries there are.
#[test]
fn safe_labels_end_with_the_view() {
    let mut hall = open_whole(1);
    let entry = [(1, 5), (2, 0), (3, 0), (7, 1), (8, 0), (9, 0)];
    assert!(all_accepted(&steps_at_1(&mut hall, &entry)));
    assert_eq!(hall.step(5, 0, 2, 1), DONE);
    assert_eq!(hall.step(6, 1, 2, 0), DONE);
    assert_eq!(hall.step(10, 1, 0, 0), refused(39));
    assert!(all_accepted(&steps_at_1(
        &mut hall,
        &[(4, 0), (7, 2), (8, 0)]
    )));
    assert_eq!(hall.step(10, 1, 0, 0), refused(39));
    assert!(all_accepted(&steps_at_1(
        &mut hall,
        &[(9, 0), (10, 0), (11, 0)]
    )));
}

/// A summary is shown as sent, also when its source has moved on.
#[test]
fn summaries_are_shown_as_sent() {
    let mut hall = open_whole(2);
    assert_eq!(hall.step(5, 0, 2, 3), DONE);
    assert!(all_accepted(&steps_at_1(
        &mut hall,
        &[(6, 2), (4, 0), (7, 2)]
    )));
    hall.recorder_mut(1).confirm = 9;
    hall.recorder_mut(1).high = 9;
    let summary = Answer::Summary {
        source: 1,
        known: 0,
        order: 0,
        confirm: 1,
        high: 1,
    };
    assert_eq!(hall.step(6, 2, 2, 0), DONE);
    assert_eq!(hall.step(8, 2, 0, 0), summary);
}

/// After an exchange without a quorum both members have the longest order, that
/// of the one with the lower number.
#[test]
fn the_longest_order_represents() {
    let mut hall = open_whole(3);
    // An entry of view 1 that 2 alone has received.
    let at_2 = [[1, 2, 700, 0], [2, 2, 0, 0], [3, 2, 0, 0], [7, 2, 1, 0]];
    assert!(all_accepted(&steps(&mut hall, &at_2)));
    let entry = Answer::Entry {
        source: 2,
        view: 1,
        seq: 1,
        sender: 2,
        value: 700,
    };
    assert_eq!(hall.step(8, 2, 0, 0), entry);
    let into_view_2 = [[5, 0, 2, 0b110], [6, 2, 2, 0], [6, 3, 2, 0]];
    assert!(all_accepted(&steps(&mut hall, &into_view_2)));
    let summaries = [[4, 2, 0, 0], [4, 3, 0, 0], [7, 2, 2, 0], [7, 3, 2, 0]];
    assert!(all_accepted(&steps(&mut hall, &summaries)));
    let sent = |source: u32, length: u32| Answer::Summary {
        source,
        known: length,
        order: length,
        confirm: 1,
        high: 1,
    };
    for r in [2, 3] {
        let received = steps(&mut hall, &[[8, r, 0, 0], [8, r, 0, 0]]);
        assert_eq!(received, [sent(2, 1), sent(3, 0)]);
        let page = hall.page(r, 1).unwrap();
        assert_eq!((page.view, page.members, page.margin), (2, 0b110, 0));
        assert_eq!((page.phase, page.high, page.order_length), (0, 1, 1));
        let label = (page.label_view, page.label_seq, page.label_sender);
        assert_eq!((label, page.value), ((1, 1, 2), 700));
    }
}

#[test]
fn pages() {
    let mut hall = open_built_in(3, 3).unwrap();
    let steps = [(1, 5), (2, 0), (1, 6), (2, 0), (3, 0), (7, 1), (8, 0)];
    assert!(all_accepted(&steps_at_1(&mut hall, &steps)));
    let page = hall.page(1, 1).unwrap();
    assert_eq!(
        (page.view, page.members, page.margin, page.high),
        (1, 3, 2, 1)
    );
    assert_eq!((page.order_length, page.buffer_length), (1, 1));
    assert_eq!((page.phase, page.confirm, page.report), (0, 1, 1));
    assert_eq!(
        (page.label_view, page.label_seq, page.label_sender),
        (1, 1, 1)
    );
    assert_eq!(page.value, 5);
    assert_eq!(hall.page(1, 0).unwrap().value, 0);
    assert_eq!(hall.page(1, 2), Err(38));
    assert_eq!(hall.page(1, u32::MAX), Err(38));
    assert_eq!(hall.page(4, 2), Err(12));
    assert_eq!(hall.page(0, 0), Err(12));
    let page = hall.page(3, 0).unwrap();
    assert_eq!(
        (page.view, page.members, page.margin, page.high),
        (0, 0, -4, 0)
    );
    assert_eq!(page.words()[3], 0xffff_fffc);
}

/// Founders have highest primary 1, also with a margin of 0.
#[test]
fn the_page_of_a_founder_without_a_quorum() {
    let page = open_built_in(3, 1).unwrap().page(1, 0).unwrap();
    assert_eq!((page.view, page.members), (1, 1));
    assert_eq!((page.margin, page.high), (0, 1));
}

/// Founders 0 are recorder 1. Of three it is no quorum: what it submits joins no
/// order until the others join by a view.
#[test]
fn new_halls_start_small() {
    for n in 1..=8 {
        assert_eq!(open_built_in(n, 0), open_built_in(n, 1));
    }
    let mut hall = open_built_in(3, 0).unwrap();
    let group = |hall: &Hall, r: u32| {
        let page = hall.page(r, 0).unwrap();
        (page.view, page.members, page.margin, page.high)
    };
    assert_eq!(group(&hall, 1), (1, 1, 0, 1));
    assert_eq!(group(&hall, 2), (0, 0, -4, 0));
    let entry = [(1, 700), (2, 0), (3, 0), (7, 1), (8, 0), (9, 0)];
    assert!(all_accepted(&steps_at_1(&mut hall, &entry)));
    assert_eq!(hall.step(10, 1, 0, 0), refused(38));
    assert_eq!(hall.step(8, 2, 0, 0), refused(37));
    assert_eq!(hall.settle(), Err(42));
    assert_eq!(hall.step(5, 0, 2, 0b111), DONE);
    assert_eq!(hall.settle().map(|steps| steps.len()), Ok(33));
    for r in 1..=3 {
        assert_eq!(group(&hall, r), (2, 0b111, 4, 2));
        let page = hall.page(r, 1).unwrap();
        let label = (page.label_view, page.label_seq, page.label_sender);
        assert_eq!((label, page.value, page.report), ((1, 1, 1), 700, 2));
    }
}

#[test]
fn run_files() {
    let actions = [[1, 2, 3, 4], [u32::MAX, 0, 7, 8]];
    let file = run_file(3, 5, &actions);
    let run = (Opening::built_in(3, 5), actions.to_vec());
    assert_eq!(read_run_file(&file), Ok(run.clone()));
    let preceded = [&[9, 9, 9][..], &file].concat();
    assert_eq!(read_run_file(&preceded), Ok(run));
    assert_eq!(read_run_file(&file[1..]), Err(19));
    assert_eq!(read_run_file(&file[..31]), Err(19));
    assert_eq!(read_run_file(&[]), Err(19));
    let too_long = [vec![0; 65_537 - file.len()], file.clone()].concat();
    assert_eq!(read_run_file(&too_long), Err(19));
    assert!(read_run_file(&too_long[1..]).is_ok());
}

#[test]
fn run_files_with_wrong_words() {
    let file = run_file(1, 0, &[]);
    let with = |place: usize, word: u32| {
        let mut changed = file.clone();
        changed[4 * place..4 * place + 4].copy_from_slice(&word.to_le_bytes());
        read_run_file(&changed)
    };
    assert_eq!(with(0, 9), Err(16));
    assert_eq!(with(1, 2), Err(16));
    for place in [2, 3, 4, 5, 6, 7] {
        assert_eq!(with(place, 1), Err(19));
    }
    // 32 + 16 C has the right low 32 bits here, but is not 32.
    assert_eq!(with(5, 1 << 28), Err(19));
}

#[test]
fn writing_run_files() {
    let mut bytes = [7; 40];
    let write = |n, actions: &[[u32; 4]], bytes: &mut [u8]| {
        write_run_file(Opening::built_in(n, 0), actions, bytes)
    };
    assert_eq!(write(0, &[[0; 4]; 4_095], &mut bytes), Err(16));
    assert_eq!(write(1, &[[0; 4]; 4_095], &mut bytes), Err(19));
    assert_eq!(write(1, &[[0; 4]], &mut bytes), Err(18));
    assert_eq!(bytes, [7; 40]);
    assert_eq!(write(1, &[], &mut bytes), Ok(32));
    assert_eq!(bytes[32..], [7; 8]);
    let run = (Opening::built_in(1, 0), vec![]);
    assert_eq!(read_run_file(&bytes[..32]), Ok(run));
    let mut longest = vec![0; 65_536];
    assert_eq!(write(1, &[[0; 4]; 4_094], &mut longest), Ok(65_536));
}
