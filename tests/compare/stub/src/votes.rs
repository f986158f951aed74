//! Mistakes with votes: in an opening, in a stored hall, in what they decide,
//! and in run files.

use crate::{faulty, put};
use reference::actions::{RECEIVE, SAFE};
use reference::calls::{self, ANSWER_LENGTH};
use reference::hall::{judge_opening, judge_votes, margin, MOST_VOTES};
use reference::runfile::{BLOCK, MOST_BYTES};
use reference::stored::{self, LENGTH};
use reference::{built_in_votes, Hall, Opening, Votes};

/// Where the votes stand in a hall.
pub const AT: usize = 59_699;

/// Whether a row is wrong, also where there is no such N.
fn is_wrong(n: u32, votes: &Votes) -> bool {
    judge_votes(n.min(8), votes).is_err()
}

/// The row with each vote of a recorder above N changed.
fn above(n: u32, mut votes: Votes, change: impl Fn(u32) -> u32) -> Votes {
    for vote in votes.iter_mut().skip(n as usize) {
        *vote = change(*vote);
    }
    votes
}

/// The row as a walk counts it that takes the recorder at a place so many times.
fn times(place: usize, mut votes: Votes, count: u32) -> Votes {
    votes[place] *= count;
    votes
}

/// The row with the votes of each recorder moved to the next one, up to N.
fn turned(n: u32, mut votes: Votes) -> Votes {
    votes[..n as usize].rotate_right(1);
    votes
}

/// The row that an opening of N takes a row for.
fn mistaken(n: u32, votes: Votes) -> Votes {
    let most = |vote: u32| vote.min(MOST_VOTES);
    if faulty("a vote of 1,001 taken") && votes.contains(&(MOST_VOTES + 1)) {
        votes.map(most)
    } else if faulty("a vote above N taken") {
        above(n, votes, |_| 0)
    } else if faulty("a vote above N looked at as a byte") {
        above(n, votes, |vote| vote & 255)
    } else if faulty("votes of 0 taken") && votes == [0; 8] {
        built_in_votes(n)
    } else if faulty("a vote looked at as two bytes") {
        votes.map(|vote| vote & 0xffff)
    } else if faulty("the votes of the next recorder stored") {
        turned(n, votes)
    } else if faulty("the built-in row stored") && judge_votes(n, &votes).is_ok() {
        built_in_votes(n)
    } else if faulty("1,000 votes refused") && votes.contains(&MOST_VOTES) {
        [0; 8]
    } else if faulty("a recorder 1 without votes refused") && votes[0] == 0 {
        [0; 8]
    } else {
        votes
    }
}

/// Opens a hall.
pub fn open(hall: &mut [u8], n: u32, founders: u32, votes: Votes) -> u32 {
    if faulty("41 before 16") && is_wrong(n, &votes) {
        return 41;
    }
    let refused = judge_opening(n, founders).is_err();
    if faulty("41 after 18") && !refused && hall.len() < LENGTH {
        return 18;
    }
    if refused {
        return 16;
    }
    calls::open(hall, n, founders, mistaken(n, votes))
}

/// 31 for bytes that are a hall: rules that 02 does not have.
pub fn too_strict(hall: &Hall) -> bool {
    let votes = hall.votes;
    if faulty("a stored vote of 1,000 refused") {
        votes.contains(&MOST_VOTES)
    } else if faulty("the built-in row asked for in a stored hall") {
        votes != built_in_votes(hall.n)
    } else if faulty("a stored recorder 1 without votes refused") {
        votes[0] == 0
    } else if faulty("each stored vote asked for") {
        votes[..hall.n as usize].contains(&0)
    } else {
        false
    }
}

/// Makes votes right that 02 refuses; whether there is such a mistake.
pub fn mend(bytes: &mut [u8]) -> bool {
    let n = usize::from(bytes[0].min(8));
    let row = &mut bytes[AT..LENGTH];
    let words: &mut [[u8; 4]] = row.as_chunks_mut().0;
    let most = MOST_VOTES.to_le_bytes();
    if faulty("a stored vote of 1,001 taken") {
        let over = (MOST_VOTES + 1).to_le_bytes();
        let over = words.iter_mut().filter(|word| **word == over);
        over.for_each(|word| *word = most);
    } else if faulty("a stored vote above N taken") {
        words[n..].fill([0; 4]);
    } else if faulty("a stored row of 0 taken") {
        if words.iter().all(|word| *word == [0; 4]) {
            words[0] = [1, 0, 0, 0];
        }
    } else if faulty("the high bytes of a stored vote not looked at") {
        words.iter_mut().for_each(|word| word[2..].fill(0));
    } else if faulty("the votes of recorder 8 not looked at") {
        words[7] = [0; 4];
        if words.iter().all(|word| *word == [0; 4]) {
            words[0] = [1, 0, 0, 0];
        }
    } else {
        return false;
    }
    true
}

/// Whether a slice that ends before the votes is taken.
pub fn short_hall_taken(bytes: &[u8]) -> bool {
    faulty("a hall without votes taken") && bytes.len() >= AT
}

/// The row that a step of a kind goes by.
fn row_of_step(hall: &Hall, k: u32) -> Votes {
    if faulty("the built-in row decides")
        || k == RECEIVE && faulty("the built-in row decides at a receive")
        || k == SAFE && faulty("the built-in row decides at a notice")
    {
        built_in_votes(hall.n)
    } else if faulty("the votes of the next recorder decide") {
        turned(hall.n, hall.votes)
    } else if faulty("recorder 1 not counted in a step") {
        times(0, hall.votes, 0)
    } else if faulty("recorder 8 not counted in a step") {
        times(7, hall.votes, 0)
    } else if faulty("recorder 1 counted twice in a step") {
        times(0, hall.votes, 2)
    } else {
        hall.votes
    }
}

/// A step by a wrong row; nothing where no such mistake is asked for.
pub fn step(
    old: &Hall,
    [k, r, a, b]: [u32; 4],
    bytes: &mut [u8],
    answer: &mut [u8],
) -> Option<u32> {
    let row = row_of_step(old, k);
    let lost = faulty("the row lost at a new view") && k == 5;
    if row == old.votes && !lost {
        return None;
    }
    let mut hall = old.clone();
    hall.votes = row;
    Some(match hall.step(k, r, a, b).plain() {
        Ok(words) => {
            put(answer, words);
            hall.votes = if lost {
                built_in_votes(old.n)
            } else {
                old.votes
            };
            stored::write(&hall, bytes);
            0
        }
        Err(number) => number,
    })
}

/// The bytes that a page is made of.
pub fn shown(bytes: &[u8]) -> Option<Vec<u8>> {
    let mut hall = stored::read(bytes)?;
    if faulty("the built-in row in the margin") {
        hall.votes = built_in_votes(hall.n);
    } else if faulty("the votes of the next recorder in the margin") {
        hall.votes = turned(hall.n, hall.votes);
    } else if faulty("the margin without an outsider's votes") {
        hall.votes[hall.n as usize - 1] = 0;
    } else {
        return None;
    }
    hall.votes[0] = hall.votes[0].max(u32::from(hall.votes == [0; 8]));
    Some(stored::form(&hall))
}

/// The margin of a set, counted wrong; nothing where no such mistake is asked for.
fn miscounted(votes: Votes, set: u32) -> Option<i32> {
    let row = if faulty("recorder 1 not counted in the margin") {
        times(0, votes, 0)
    } else if faulty("recorder 8 not counted in the margin") {
        times(7, votes, 0)
    } else if faulty("recorder 1 counted twice in the margin") {
        times(0, votes, 2)
    } else if faulty("the hall's votes taken of the set") {
        let mut of_set = votes;
        for (place, vote) in of_set.iter_mut().enumerate() {
            *vote *= set >> place & 1;
        }
        of_set
    } else {
        return None;
    };
    Some(margin(&row, set))
}

/// Puts a margin that was counted wrong on the page of a hall.
pub fn miscount(hall: &[u8], page: &mut [u8]) {
    let set = word_at(page, 4);
    let wrong = stored::read(hall).and_then(|hall| miscounted(hall.votes, set));
    if let Some(margin) = wrong {
        page[12..16].copy_from_slice(&margin.to_le_bytes());
    }
}

/// The word at an offset.
fn word_at(file: &[u8], at: usize) -> u32 {
    u32::from_le_bytes([file[at], file[at + 1], file[at + 2], file[at + 3]])
}

fn set_word(file: &mut [u8], at: usize, word: u32) {
    file[at..at + 4].copy_from_slice(&word.to_le_bytes());
}

/// Where the opening block of a file stands, if its trailer says so.
fn block_of(file: &[u8]) -> Option<usize> {
    if !(2 * BLOCK..=MOST_BYTES).contains(&file.len()) {
        return None;
    }
    let distance = word_at(file, file.len() - BLOCK) as usize;
    file.len().checked_sub(distance.max(2 * BLOCK))
}

/// Whether the file of a block is refused for its third word alone.
fn other_third(file: &[u8], block: usize) -> bool {
    let mut file = file.to_vec();
    let third = word_at(&file, block + 8);
    set_word(&mut file, block + 8, 1);
    third > 1 && calls::run_read(&file, &mut [0; ANSWER_LENGTH]) != 19
}

/// Makes the count go with the third word and the distance.
fn mend_count(file: &mut [u8], block: usize) {
    let blocks = (file.len() - block) / BLOCK;
    let others = 2 + 2 * word_at(file, block + 8) as usize;
    let count = blocks.saturating_sub(others) as u32;
    let at = file.len() - 12;
    if word_at(file, at).abs_diff(count) == 2 {
        set_word(file, at, count);
    }
}

/// The file that a reader takes a file for.
pub fn misread(file: &[u8]) -> Option<Vec<u8>> {
    let block = block_of(file)?;
    let third = word_at(file, block + 8);
    let mut read = file.to_vec();
    if faulty("a third word above 1 read as 1") && third > 1 {
        set_word(&mut read, block + 8, 1);
    } else if faulty("a third word above 1 read as 0") && third > 1 {
        set_word(&mut read, block + 8, 0);
    } else if faulty("the third word read as a byte") {
        set_word(&mut read, block + 8, third & 255);
    } else if faulty("the distance of votes read without them") && third == 0 {
        mend_count(&mut read, block);
    } else if faulty("the distance without votes read with them") && third == 1 {
        mend_count(&mut read, block);
    } else if faulty("41 not looked at in reading") && third == 1 && file.len() - block >= 64 {
        for at in (block + BLOCK..block + 3 * BLOCK).step_by(4) {
            set_word(&mut read, at, 0);
        }
        set_word(&mut read, block + BLOCK, 1);
    } else {
        return None;
    }
    Some(read)
}

/// A wrong number of a reader, which gives another one rightly.
pub fn wrong_read(file: &[u8], number: u32) -> Option<u32> {
    let block = block_of(file)?;
    let wrong = || {
        let mut votes = [0; 8];
        for (place, vote) in votes.iter_mut().enumerate() {
            *vote = word_at(file, block + BLOCK + 4 * place);
        }
        is_wrong(word_at(file, block), &votes)
    };
    let has_votes = file.len() - block >= 4 * BLOCK;
    let given = has_votes && word_at(file, block + 8) == 1;
    if faulty("41 before 16 in reading") && number == 16 && given && wrong() {
        return Some(41);
    }
    if faulty("41 before 19 in reading") && has_votes && number == 19 && wrong() {
        return other_third(file, block).then_some(41);
    }
    if faulty("the distance with votes reckoned modulo 2^32") && word_at(file, block + 8) == 1 {
        let sum = 64 + 16 * u64::from(word_at(file, file.len() - 12));
        let distance = word_at(file, file.len() - BLOCK);
        let modulo = sum as u32 == distance && sum != u64::from(distance);
        return (number == 19 && modulo).then_some(0);
    }
    if faulty("wrong votes read as a broken file") && number == 41 {
        return Some(19);
    }
    None
}

/// Changes the words of an opening that was read.
pub fn wrong_words(words: &mut [u8]) {
    let given = words[20] == 1;
    if faulty("the built-in row given with third word 0") && !given {
        let row = built_in_votes(words[0].into());
        row.iter()
            .enumerate()
            .for_each(|(k, &vote)| set_word(words, 24 + 4 * k, vote));
    }
    if faulty("votes that are read not given") && given {
        words[24..56].fill(0);
    }
    if faulty("the third word not given") && given {
        words[20] = 0;
    }
    if faulty("the votes as the first actions") && given {
        let start = word_at(words, 8);
        set_word(words, 8, start - 2 * BLOCK as u32);
    }
    if faulty("the votes given one word late") && given {
        words[24..60].rotate_right(4);
    }
}

/// A wrong number of a writer that has room for so many bytes.
pub fn wrong_write(opening: &Opening, count: usize, room: usize) -> Option<u32> {
    let wrong = is_wrong(opening.n, &opening.votes);
    let right_opening = judge_opening(opening.n, opening.founders).is_ok();
    let given = opening.third == 1;
    if faulty("41 before 16 in writing") && given && wrong {
        return Some(41);
    }
    if !right_opening {
        return None;
    }
    if faulty("19 before 41 in writing") && given && count > 4_092 {
        return Some(19);
    }
    if faulty("18 before 41 in writing") && given && room < BLOCK * (count + 4) {
        return Some(18);
    }
    if faulty("41 with third word 0") && opening.third == 0 && wrong {
        return Some(41);
    }
    if faulty("41 with a third word above 1") && opening.third > 1 && wrong {
        return Some(41);
    }
    if faulty("4,093 actions with votes written") && given && !wrong && count == 4_093 {
        return Some(0);
    }
    if faulty("4,092 actions with votes refused") && given && !wrong && count == 4_092 {
        return Some(19);
    }
    if faulty("4,093 actions without votes refused") && opening.third == 0 && count == 4_093 {
        return Some(19);
    }
    None
}

/// The opening that a writer takes an opening for.
pub fn miswritten(mut opening: Opening) -> Opening {
    let right = judge_opening(opening.n, opening.founders).is_ok();
    if !right {
        return opening;
    }
    let Opening {
        n, third, votes, ..
    } = opening;
    if faulty("a third word above 1 written as 0") && third > 1 {
        opening.third = 0;
    } else if faulty("votes written with third word 0") && third == 0 && !is_wrong(n, &votes) {
        opening.third = 1;
    } else if faulty("the built-in row written as votes") && third == 1 && !is_wrong(n, &votes) {
        opening.votes = built_in_votes(n);
    } else if faulty("votes not written") && third == 1 && votes == built_in_votes(n) {
        opening.third = 0;
    } else if faulty("the votes of the next recorder written") && third == 1 {
        opening.votes = turned(n, votes);
    } else if faulty("41 not looked at in writing") && third == 1 && is_wrong(n, &votes) {
        opening.votes = built_in_votes(n);
    }
    opening
}
