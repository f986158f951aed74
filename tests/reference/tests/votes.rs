//! Rows of votes: which ones pass, in an opening, a stored hall and a run file,
//! and which views are primary by them.

use reference::hall::{is_quorum, margin};
use reference::{
    built_in_votes, calls, listing, open, open_built_in, read_run_file, stored, write_run_file,
    Answer, Hall, Opening, Votes,
};

/// Where the votes stand in a stored hall.
const VOTES_AT: usize = 59_699;

/// A row with the same vote for all recorders up to N.
fn equal_votes(n: u32, vote: u32) -> Votes {
    let mut votes = [0; 8];
    votes[..n as usize].fill(vote);
    votes
}

/// A row of a hall with one vote put in place of another, from recorder 1 on.
fn with_vote(mut votes: Votes, place: usize, vote: u32) -> Votes {
    votes[place] = vote;
    votes
}

/// The number with which a row is refused in a hall of N, or 0: the same for
/// an opening, for a run file that is written and one that is read. A hall with
/// that row is stored exactly if it is not refused.
fn refusal_of(n: u32, votes: Votes) -> u32 {
    let number = open(n, 0, votes).err().unwrap_or(0);
    let mut hall = open_built_in(n, 0).expect("the opening is taken");
    hall.votes = votes;
    assert_eq!(hall.check(), number == 0);
    let read = stored::read(&stored::form(&hall));
    assert_eq!(read.is_some(), number == 0);
    let written = write_run_file(Opening::with_votes(n, 0, votes), &[], &mut [0; 64]);
    assert_eq!(written.err().unwrap_or(0), number);
    let run = read_run_file(&file_with(Opening::with_votes(n, 0, votes), 64, 0));
    assert_eq!(run.err().unwrap_or(0), number);
    number
}

/// A file of a run without actions, with any words, D and C among them. Its
/// votes stand there with any third word but 0.
fn file_with(opening: Opening, d: u32, c: u32) -> Vec<u8> {
    let Opening {
        n,
        founders,
        third,
        votes,
    } = opening;
    let mut words = vec![n, founders, third, 0];
    if third != 0 {
        words.extend(votes);
    }
    words.extend([d, c, 0, 0]);
    words.iter().flat_map(|word| word.to_le_bytes()).collect()
}

#[test]
fn rows_that_pass() {
    for n in 1..=8 {
        assert_eq!(refusal_of(n, built_in_votes(n)), 0);
        for vote in [1, 2, 999, 1_000] {
            assert_eq!(refusal_of(n, equal_votes(n, vote)), 0);
            for place in 0..n as usize {
                assert_eq!(refusal_of(n, with_vote([0; 8], place, vote)), 0);
                assert_eq!(refusal_of(n, with_vote(equal_votes(n, 1), place, vote)), 0);
            }
        }
    }
}

#[test]
fn rows_that_are_refused() {
    for n in 1..=8 {
        assert_eq!(refusal_of(n, [0; 8]), 41);
        for place in 0..8 {
            let row = built_in_votes(n);
            for vote in [1_001, 1_024, 65_536, 1 << 24, 1 << 31, u32::MAX] {
                assert_eq!(refusal_of(n, with_vote(row, place, vote)), 41);
            }
            if place >= n as usize {
                assert_eq!(refusal_of(n, with_vote(row, place, 1)), 41);
                assert_eq!(refusal_of(n, with_vote([0; 8], place, 1_000)), 41);
            }
        }
    }
}

/// 16 comes first, also where N is no number of recorders.
#[test]
fn an_opening_before_its_votes() {
    for n in [0, 9, u32::MAX] {
        assert_eq!(open(n, 0, [0; 8]), Err(16));
        assert_eq!(open(n, 0, [1; 8]), Err(16));
    }
    assert_eq!(open(3, 8, [1_001; 8]), Err(16));
    assert_eq!(open(3, 7, [1_001; 8]), Err(41));
}

/// The vote that stands at a place of a stored hall.
fn vote_at(bytes: &[u8], place: usize) -> u32 {
    let at = VOTES_AT + 4 * place;
    u32::from_le_bytes([bytes[at], bytes[at + 1], bytes[at + 2], bytes[at + 3]])
}

/// Every value of each byte of the votes.
#[test]
fn each_byte_of_the_votes() {
    for n in 1..=8 {
        let hall = open(n, 0, equal_votes(n, 1)).expect("the row passes");
        let mut bytes = stored::form(&hall);
        assert_eq!(bytes.len(), VOTES_AT + 32);
        for at in 0..32 {
            let kept = bytes[VOTES_AT + at];
            for value in 0..=255 {
                bytes[VOTES_AT + at] = value;
                let vote = vote_at(&bytes, at / 4);
                let most = if at / 4 < n as usize { 1_000 } else { 0 };
                let row = with_vote(hall.votes, at / 4, vote);
                let wanted = (vote <= most && row != [0; 8]).then_some(row);
                assert_eq!(stored::read(&bytes).map(|hall| hall.votes), wanted);
            }
            bytes[VOTES_AT + at] = kept;
        }
    }
}

/// Built in by third word 0 and by words: the same bytes.
#[test]
fn one_form() {
    for n in 1..=8 {
        for founders in 0..1 << n {
            let by_word = Opening::built_in(n, founders);
            let by_votes = Opening::with_votes(n, founders, built_in_votes(n));
            let form = |opening: Opening| {
                let hall = open(opening.n, opening.founders, opening.row());
                stored::form(&hall.expect("the opening is taken"))
            };
            assert_eq!(form(by_word), form(by_votes));
        }
    }
    let row = |opening: Opening| opening.row();
    assert_eq!(row(Opening::built_in(3, 0)), [2, 1, 1, 0, 0, 0, 0, 0]);
    assert_eq!(row(Opening::built_in(8, 0)), [2, 1, 1, 1, 1, 1, 1, 1]);
}

/// The votes stand at the end, recorder 1 first, and a step keeps them.
#[test]
fn the_votes_of_a_stored_hall() {
    let mut bytes = vec![7; stored::LENGTH];
    let votes = [5, 0x102, 0, 1_000, 0, 0, 0, 0];
    assert_eq!(calls::open(&mut bytes, 4, 0, votes), 0);
    let wanted = [5, 0, 0, 0, 2, 1, 0, 0, 0, 0, 0, 0, 0xe8, 3, 0, 0];
    assert_eq!(bytes[VOTES_AT..VOTES_AT + 16], wanted);
    assert_eq!(bytes[VOTES_AT + 16..], [0; 16]);
    assert_eq!(calls::step(&mut bytes, [5, 0, 9, 1], &mut [0; 64]), 0);
    assert_eq!(bytes[VOTES_AT..VOTES_AT + 16], wanted);
}

/// A hall of three where recorder 1 alone has less than half of the votes.
#[test]
fn five_three_three() {
    let row = [5, 3, 3, 0, 0, 0, 0, 0];
    let margins = [-11, -1, -5, 5, -5, 5, 1, 11];
    for (set, wanted) in (0..).zip(margins) {
        assert_eq!(margin(&row, set), wanted);
        assert_eq!(is_quorum(&row, set), wanted > 0);
    }
    let page = open(3, 0b110, row).unwrap().page(2, 0).unwrap();
    assert_eq!((page.members, page.margin), (0b110, 1));
    let page = open(3, 0b011, row).unwrap().page(1, 0).unwrap();
    assert_eq!((page.members, page.margin), (0b011, 5));
    let page = open(3, 0b001, row).unwrap().page(1, 0).unwrap();
    assert_eq!((page.members, page.margin), (0b001, -1));
    let page = open(3, 0b001, row).unwrap().page(2, 0).unwrap();
    assert_eq!((page.view, page.margin), (0, -11));
}

#[test]
fn margins_at_their_ends() {
    let most = equal_votes(8, 1_000);
    assert_eq!((margin(&most, 0), margin(&most, 255)), (-8_000, 8_000));
    let page = open(8, 1, most).unwrap().page(8, 0).unwrap();
    assert_eq!(page.words()[3], -8_000_i32 as u32);
    let page = open(8, 255, most).unwrap().page(8, 0).unwrap();
    assert_eq!(page.margin, 8_000);
}

fn takes(hall: &mut Hall, actions: &[[u32; 4]]) {
    for &[k, r, a, b] in actions {
        let answer = hall.step(k, r, a, b);
        assert!(!matches!(answer, Answer::Refused(_)), "{k} {r}: {answer:?}");
    }
}

/// An entry of R goes all the way in view 1, of which R is the only member.
fn delivers_alone(hall: &mut Hall, r: u32) {
    let kinds = [1, 2, 3, 7, 8, 9, 10, 11];
    let view = |k| u32::from(k == 7);
    takes(hall, &kinds.map(|k| [k, r, view(k), 0]));
}

/// Recorder 1 has no votes: the others decide, and its presence changes nothing.
#[test]
fn a_recorder_1_without_votes() {
    let row = [0, 1, 1, 1, 0, 0, 0, 0];
    for (set, wanted) in [(0b0001, -3), (0b0011, -1), (0b0110, 1), (0b0111, 1)] {
        assert_eq!(margin(&row, set), wanted);
    }
    let mut hall = open(4, 0b0001, row).unwrap();
    takes(&mut hall, &[[1, 1, 5, 0], [2, 1, 0, 0], [3, 1, 0, 0]]);
    takes(&mut hall, &[[7, 1, 1, 0], [8, 1, 0, 0], [9, 1, 0, 0]]);
    // Received without a quorum, it is not in the order.
    assert_eq!(hall.step(10, 1, 0, 0), Answer::Refused(38));
}

/// One vote in the whole hall: a set is a quorum if it holds that recorder.
#[test]
fn one_vote_in_the_whole_hall() {
    for n in 1..=8 {
        for r in 1..=n {
            let row = with_vote([0; 8], r as usize - 1, 1);
            for set in 0..1 << n {
                let holds = set >> (r - 1) & 1 != 0;
                assert_eq!(margin(&row, set), if holds { 1 } else { -1 });
            }
            let mut hall = open(n, 1 << (r - 1), row).unwrap();
            delivers_alone(&mut hall, r);
        }
    }
}

/// Founders have highest primary 1 also where they are no quorum; what they
/// receive joins no order, until they meet in a primary view.
#[test]
fn founders_without_a_quorum() {
    let mut hall = open(2, 0b10, [2, 1, 0, 0, 0, 0, 0, 0]).unwrap();
    let page = hall.page(2, 0).unwrap();
    assert_eq!((page.view, page.margin, page.high), (1, -1, 1));
    takes(&mut hall, &[[1, 2, 5, 0], [2, 2, 0, 0], [3, 2, 0, 0]]);
    takes(&mut hall, &[[7, 2, 1, 0], [8, 2, 0, 0]]);
    assert_eq!(hall.page(2, 0).unwrap().order_length, 0);
    takes(&mut hall, &[[5, 0, 2, 3], [6, 1, 2, 0], [6, 2, 2, 0]]);
    takes(
        &mut hall,
        &[[4, 1, 0, 0], [4, 2, 0, 0], [7, 1, 2, 0], [7, 2, 2, 0]],
    );
    takes(&mut hall, &[[8, 1, 0, 0], [8, 1, 0, 0]]);
    let page = hall.page(1, 1).unwrap();
    assert_eq!((page.margin, page.high, page.value), (3, 2, 5));
}

#[test]
fn run_files_with_votes() {
    let votes = [5, 3, 3, 0, 0, 0, 0, 0];
    let opening = Opening::with_votes(3, 6, votes);
    let actions = [[1, 2, 3, 4], [u32::MAX, 0, 7, 8]];
    let mut file = [9; 100];
    assert_eq!(write_run_file(opening, &actions, &mut file), Ok(96));
    assert_eq!(file[8..12], [1, 0, 0, 0]);
    assert_eq!(file[16..24], [5, 0, 0, 0, 3, 0, 0, 0]);
    assert_eq!(file[80..88], [96, 0, 0, 0, 2, 0, 0, 0]);
    assert_eq!(file[96..], [9; 4]);
    let run = Ok((opening, actions.to_vec()));
    assert_eq!(read_run_file(&file[..96]), run);
    let preceded = [&[9, 9, 9][..], &file[..96]].concat();
    assert_eq!(read_run_file(&preceded), run);
    let mut words = [7; 64];
    assert_eq!(calls::run_read(&preceded, &mut words), 0);
    let words: Vec<u8> = words.chunks_exact(4).map(|word| word[0]).collect();
    assert_eq!(words, [3, 6, 51, 0, 2, 1, 5, 3, 3, 0, 0, 0, 0, 0, 0, 0]);
}

/// The third word decides on the length; 19 comes before 16 and 41.
#[test]
fn third_words_that_are_read() {
    let row = built_in_votes(3);
    let with = |third, n, votes| Opening {
        third,
        ..Opening::with_votes(n, 0, votes)
    };
    let read = |opening, d, c| read_run_file(&file_with(opening, d, c)).map(|(read, _)| read);
    assert_eq!(read(with(1, 3, row), 64, 0), Ok(with(1, 3, row)));
    assert_eq!(read(with(0, 3, row), 32, 0), Ok(Opening::built_in(3, 0)));
    for third in [2, 256, u32::MAX] {
        assert_eq!(read(with(third, 3, row), 64, 0), Err(19));
        assert_eq!(read(with(third, 3, row), 64, 2), Err(19));
        assert_eq!(read(with(third, 9, [0; 8]), 64, 0), Err(19));
    }
    // The distance of the other kind, where the count says so.
    assert_eq!(read(with(1, 3, row), 64, 2), Err(19));
    assert_eq!(read(with(1, 9, [0; 8]), 64, 2), Err(19));
    assert_eq!(read(with(0, 3, row), 32, 1 << 28), Err(19));
    assert_eq!(read(with(1, 3, row), 64, 1 << 28), Err(19));
    assert_eq!(read(with(1, 9, [0; 8]), 64, 0), Err(16));
    assert_eq!(read(with(1, 3, [0; 8]), 64, 0), Err(41));
}

/// A file that has third word 0 and the length of one with votes, or third word
/// 1 and that of one without.
#[test]
fn distances_of_the_other_kind() {
    let file = |third: u32, blocks: u32, c: u32| {
        let mut words = vec![3, 0, third, 0];
        words.extend((0..4 * blocks).map(|_| 1));
        words.extend([32 + 16 * blocks, c, 0, 0]);
        words
            .iter()
            .flat_map(|word| word.to_le_bytes())
            .collect::<Vec<u8>>()
    };
    for blocks in 0..6 {
        for c in 0..6 {
            let number = |third| read_run_file(&file(third, blocks, c)).err().unwrap_or(0);
            assert_eq!(number(0), if blocks == c { 0 } else { 19 });
            // Votes for eight in a hall of three.
            assert_eq!(number(1), if blocks == c + 2 { 41 } else { 19 });
        }
    }
}

/// 16, 41 with third word 1 alone, 19, 18.
#[test]
fn writing_run_files_with_votes() {
    let row = [5, 3, 3, 0, 0, 0, 0, 0];
    let bad = [1_001; 8];
    let write = |third, n, votes, count: usize, length: usize| {
        let opening = Opening {
            third,
            ..Opening::with_votes(n, 0, votes)
        };
        let mut bytes = vec![7; length];
        let number = write_run_file(opening, &vec![[0; 4]; count], &mut bytes);
        assert!(number.is_ok() || bytes == vec![7; length]);
        number
    };
    assert_eq!(write(1, 9, bad, 5_000, 0), Err(16));
    assert_eq!(write(1, 3, bad, 5_000, 0), Err(41));
    assert_eq!(write(1, 3, row, 4_093, 0), Err(19));
    assert_eq!(write(1, 3, row, 4_092, 65_535), Err(18));
    assert_eq!(write(1, 3, row, 4_092, 65_536), Ok(65_536));
    assert_eq!(write(1, 3, row, 0, 63), Err(18));
    assert_eq!(write(1, 3, row, 0, 64), Ok(64));
    for third in [2, u32::MAX] {
        assert_eq!(write(third, 9, bad, 0, 0), Err(16));
        assert_eq!(write(third, 3, bad, 0, 0), Err(19));
        assert_eq!(write(third, 3, row, 0, 64), Err(19));
    }
    assert_eq!(write(0, 3, bad, 4_095, 0), Err(19));
    assert_eq!(write(0, 3, bad, 4_094, 65_536), Ok(65_536));
    assert_eq!(write(0, 3, bad, 0, 32), Ok(32));
}

/// With third word 0 the votes stand nowhere, whatever they are.
#[test]
fn votes_that_are_not_written() {
    let opening = Opening {
        third: 0,
        ..Opening::with_votes(3, 1, [77; 8])
    };
    let mut file = [7; 40];
    assert_eq!(write_run_file(opening, &[], &mut file), Ok(32));
    let run = (Opening::built_in(3, 1), vec![]);
    assert_eq!(read_run_file(&file[..32]), Ok(run));
    assert_eq!(file[..32], *file_with(Opening::built_in(3, 1), 32, 0));
}

/// The listing goes by the row of the file.
#[test]
fn listings_by_the_row() {
    let order = [[1, 2, 9, 0], [2, 2, 0, 0], [3, 2, 0, 0], [7, 2, 1, 0]];
    let rest = [[8, 2, 0, 0], [9, 2, 0, 0], [10, 2, 0, 0]];
    let actions = [&order[..], &rest].concat();
    let last_line = |opening: Opening| {
        let mut file = vec![0; 200];
        let length = write_run_file(opening, &actions, &mut file).expect("it fits");
        let text = String::from_utf8(listing(&file[..length])).expect("text");
        let line = text.lines().nth(actions.len()).expect("a line");
        line.to_string()
    };
    assert_eq!(last_line(Opening::built_in(2, 2)), "7 10 refused 38");
    let row = [1, 2, 0, 0, 0, 0, 0, 0];
    assert_eq!(last_line(Opening::with_votes(2, 2, row)), "7 10 ok");
    let row = [2, 1, 0, 0, 0, 0, 0, 0];
    assert_eq!(last_line(Opening::with_votes(2, 2, row)), "7 10 refused 38");
}
