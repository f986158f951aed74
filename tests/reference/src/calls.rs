//! The calls on lent bytes, as a C program makes them: a number, which is 0 or a
//! refusal, and the answer as words in a lent slice. A refused call leaves all
//! slices as they are.

use crate::actions::{judge_kind, Answer};
use crate::hall::{open as open_hall, Hall, Votes};
use crate::listing::{refused_line, replay};
use crate::page::Page;
use crate::refusal;
use crate::runfile::{action_at, read_run_file, write_run_file, Opening, BLOCK};
use crate::stored;
use crate::undo::Undo;

/// Bytes of an answer, such as a page.
pub const ANSWER_LENGTH: usize = 64;
/// Words of an answer, of 32 bits, little-endian.
pub const WORDS: usize = ANSWER_LENGTH / 4;

/// The first words, followed by zeros.
fn words<const USED: usize>(used: [u32; USED]) -> [u32; WORDS] {
    let mut words = [0; WORDS];
    words[..USED].copy_from_slice(&used);
    words
}

impl Answer {
    /// The number of the answer, and its words if the number is 0.
    pub fn plain(self) -> Result<[u32; WORDS], u32> {
        match self {
            Answer::Done => Ok(words([0])),
            Answer::Entry {
                source,
                view,
                seq,
                sender,
                value,
            } => Ok(words([1, source, view, seq, sender, value])),
            Answer::Summary {
                source,
                known,
                order,
                confirm,
                high,
            } => Ok(words([2, source, known, order, confirm, high])),
            Answer::From { sender, value } => Ok(words([3, sender, value])),
            Answer::Refused(number) => Err(number),
        }
    }
}

impl Page {
    /// The margin is a word in two's complement.
    pub fn words(&self) -> [u32; WORDS] {
        words([
            self.view,
            self.members,
            self.phase,
            self.margin as u32,
            self.high,
            self.order_length,
            self.buffer_length,
            self.confirm,
            self.report,
            self.label_view,
            self.label_seq,
            self.label_sender,
            self.value,
        ])
    }
}

/// Whether an answer fits into a slice.
fn has_room(slice: &[u8]) -> bool {
    slice.len() >= ANSWER_LENGTH
}

fn put_words(slice: &mut [u8], words: [u32; WORDS]) {
    for (bytes, word) in slice.chunks_exact_mut(4).zip(words) {
        bytes.copy_from_slice(&word.to_le_bytes());
    }
}

/// 0 for a call that was performed, or its refusal.
fn number(result: Result<(), u32>) -> u32 {
    result.err().unwrap_or(0)
}

fn try_open(bytes: &mut [u8], n: u32, founders: u32, votes: Votes) -> Result<(), u32> {
    let hall = open_hall(n, founders, votes)?;
    if bytes.len() < stored::LENGTH {
        return Err(refusal::SHORT_SLICE);
    }
    stored::write(&hall, bytes);
    Ok(())
}

/// Opens a hall in a slice; 16, 41, 18.
pub fn open(bytes: &mut [u8], n: u32, founders: u32, votes: Votes) -> u32 {
    number(try_open(bytes, n, founders, votes))
}

/// What a step does with a hall, or with bytes that are none, given whether
/// there is room for the answer: the answer's words, or the refusal, which
/// leaves the hall as it is.
pub fn step_hall(
    hall: Option<&mut Hall>,
    [k, r, a, b]: [u32; 4],
    room: bool,
) -> Result<[u32; WORDS], u32> {
    judge_kind(k)?;
    let hall = hall.ok_or(refusal::STORED_FORM)?;
    if room {
        return hall.step(k, r, a, b).plain();
    }
    hall.clone().step(k, r, a, b).plain()?;
    Err(refusal::SHORT_SLICE)
}

/// What a settle does with a hall, or with bytes that are none, given whether
/// there is room for the answer: the count of its steps, or the refusal, which
/// leaves the hall as it is.
pub fn settle_hall(hall: Option<&mut Hall>, room: bool) -> Result<[u32; WORDS], u32> {
    let hall = hall.ok_or(refusal::STORED_FORM)?;
    let mut settled = hall.clone();
    let steps = settled.settle()?;
    if !room {
        return Err(refusal::SHORT_SLICE);
    }
    *hall = settled;
    Ok(words([steps.len() as u32]))
}

/// What a held step does with a hall and an undo buffer, or with bytes that are
/// none: as a step.
pub fn step_held_hall(
    hall: Option<&mut Hall>,
    undo: Option<&mut Undo>,
    action: [u32; 4],
    room: bool,
) -> Result<[u32; WORDS], u32> {
    judge_kind(action[0])?;
    let hall = hall.ok_or(refusal::STORED_FORM)?;
    let undo = undo.ok_or(refusal::UNDO)?;
    if room {
        return hall.step_held(undo, action).plain();
    }
    step_hall(Some(hall), action, false)
}

/// What a held settle does with a hall and an undo buffer, or with bytes that are
/// none: as a settle.
pub fn settle_held_hall(
    hall: Option<&mut Hall>,
    undo: Option<&mut Undo>,
    room: bool,
) -> Result<[u32; WORDS], u32> {
    let hall = hall.ok_or(refusal::STORED_FORM)?;
    hall.view_to_settle()?;
    let undo = undo.ok_or(refusal::UNDO)?;
    if !room {
        return settle_hall(Some(hall), false);
    }
    let steps = hall.settle_held(undo)?;
    Ok(words([steps.len() as u32]))
}

/// What a step back does with a hall and an undo buffer, or with bytes that are
/// none.
pub fn step_back_hall(hall: Option<&mut Hall>, undo: Option<&mut Undo>) -> Result<(), u32> {
    let hall = hall.ok_or(refusal::STORED_FORM)?;
    let undo = undo.ok_or(refusal::UNDO)?;
    hall.step_back(undo)
}

/// What a page gives of a hall, or of bytes that are none, given whether there
/// is room for it.
pub fn page_of(hall: Option<&Hall>, r: u32, place: u32, room: bool) -> Result<[u32; WORDS], u32> {
    let page = hall.ok_or(refusal::STORED_FORM)?.page(r, place)?;
    if room {
        Ok(page.words())
    } else {
        Err(refusal::SHORT_SLICE)
    }
}

fn try_step(bytes: &mut [u8], action: [u32; 4], answer: &mut [u8]) -> Result<(), u32> {
    judge_kind(action[0])?;
    let mut hall = stored::read(bytes);
    let words = step_hall(hall.as_mut(), action, has_room(answer))?;
    put_words(answer, words);
    stored::write(&hall.expect("a step was taken"), bytes);
    Ok(())
}

/// Performs one action on the hall in a slice; 11, 31, then the others, 18 last.
pub fn step(bytes: &mut [u8], action: [u32; 4], answer: &mut [u8]) -> u32 {
    number(try_step(bytes, action, answer))
}

fn try_settle(bytes: &mut [u8], answer: &mut [u8]) -> Result<(), u32> {
    let mut hall = stored::read(bytes);
    let words = settle_hall(hall.as_mut(), has_room(answer))?;
    put_words(answer, words);
    stored::write(&hall.expect("it was settled"), bytes);
    Ok(())
}

/// Settles the hall in a slice; 31, 42, 40, 18.
pub fn settle(bytes: &mut [u8], answer: &mut [u8]) -> u32 {
    number(try_settle(bytes, answer))
}

/// A hall and an undo buffer as two slices have them.
fn read_bench(bytes: &[u8], undo: &[u8]) -> (Option<Hall>, Option<Undo>) {
    (stored::read(bytes), Undo::read(undo))
}

/// Writes both back after a call that was performed.
fn write_bench(bytes: &mut [u8], undo: &mut [u8], bench: (Option<Hall>, Option<Undo>)) {
    stored::write(&bench.0.expect("a hall was changed"), bytes);
    bench.1.expect("a buffer was lent").write(undo);
}

fn try_step_held(
    bytes: &mut [u8],
    undo: &mut [u8],
    action: [u32; 4],
    answer: &mut [u8],
) -> Result<(), u32> {
    judge_kind(action[0])?;
    let mut bench = read_bench(bytes, undo);
    let room = has_room(answer);
    let words = step_held_hall(bench.0.as_mut(), bench.1.as_mut(), action, room)?;
    put_words(answer, words);
    write_bench(bytes, undo, bench);
    Ok(())
}

/// Performs one action and holds it; 11, 31, 43, then the others, 18 last.
pub fn step_held(bytes: &mut [u8], undo: &mut [u8], action: [u32; 4], answer: &mut [u8]) -> u32 {
    number(try_step_held(bytes, undo, action, answer))
}

fn try_settle_held(bytes: &mut [u8], undo: &mut [u8], answer: &mut [u8]) -> Result<(), u32> {
    let mut bench = read_bench(bytes, undo);
    let words = settle_held_hall(bench.0.as_mut(), bench.1.as_mut(), has_room(answer))?;
    put_words(answer, words);
    write_bench(bytes, undo, bench);
    Ok(())
}

/// Settles the hall and holds its steps; 31, 42, 43, 40, 18.
pub fn settle_held(bytes: &mut [u8], undo: &mut [u8], answer: &mut [u8]) -> u32 {
    number(try_settle_held(bytes, undo, answer))
}

fn try_step_back(bytes: &mut [u8], undo: &mut [u8]) -> Result<(), u32> {
    let mut bench = read_bench(bytes, undo);
    step_back_hall(bench.0.as_mut(), bench.1.as_mut())?;
    write_bench(bytes, undo, bench);
    Ok(())
}

/// Takes back the newest action held; 31, 43.
pub fn step_back(bytes: &mut [u8], undo: &mut [u8]) -> u32 {
    number(try_step_back(bytes, undo))
}

fn try_page(bytes: &[u8], r: u32, place: u32, page: &mut [u8]) -> Result<(), u32> {
    let hall = stored::read(bytes);
    put_words(page, page_of(hall.as_ref(), r, place, has_room(page))?);
    Ok(())
}

/// The page of a recorder of the hall in a slice; 31, 12, 38, 18.
pub fn page(bytes: &[u8], r: u32, place: u32, page: &mut [u8]) -> u32 {
    number(try_page(bytes, r, place, page))
}

/// Whether a slice holds a hall; 31.
pub fn check(bytes: &[u8]) -> u32 {
    match stored::read(bytes) {
        Some(_) => 0,
        None => refusal::STORED_FORM,
    }
}

/// Puts the words of a call that is not refused for another reason.
fn answer(slice: &mut [u8], words: [u32; WORDS]) -> Result<(), u32> {
    if !has_room(slice) {
        return Err(refusal::SHORT_SLICE);
    }
    put_words(slice, words);
    Ok(())
}

/// The two words of an offset, low first.
fn offset_words(at: usize) -> [u32; 2] {
    let at = at as u64;
    [at as u32, (at >> 32) as u32]
}

fn try_run_read(file: &[u8], slice: &mut [u8]) -> Result<(), u32> {
    let (opening, actions) = read_run_file(file)?;
    let [low, high] = offset_words(file.len() - BLOCK * (actions.len() + 1));
    let count = actions.len() as u32;
    let Opening {
        n,
        founders,
        third,
        votes: [v1, v2, v3, v4, v5, v6, v7, v8],
    } = opening;
    let votes_last = [
        n, founders, low, high, count, third, v1, v2, v3, v4, v5, v6, v7, v8,
    ];
    answer(slice, words(votes_last))
}

/// Reads the opening of a run file; 19, 16, 41, 18.
pub fn run_read(file: &[u8], words: &mut [u8]) -> u32 {
    number(try_run_read(file, words))
}

fn try_run_action(file: &[u8], at: usize, slice: &mut [u8]) -> Result<(), u32> {
    let Some(([k, r, a, b], next)) = action_at(file, at) else {
        return answer(slice, words([1]));
    };
    let [low, high] = offset_words(next);
    answer(slice, words([0, k, r, a, b, low, high]))
}

/// Reads the action at an offset of a file, or the end; 18.
pub fn run_action(file: &[u8], at: usize, words: &mut [u8]) -> u32 {
    number(try_run_action(file, at, words))
}

fn try_run_write(
    file: &mut [u8],
    opening: Opening,
    actions: &[u32],
    slice: &mut [u8],
) -> Result<(), u32> {
    let actions: Vec<[u32; 4]> = actions
        .chunks_exact(4)
        .map(|action| [action[0], action[1], action[2], action[3]])
        .collect();
    let mut written = file.to_vec();
    let length = write_run_file(opening, &actions, &mut written)?;
    answer(slice, words([length as u32]))?;
    file.copy_from_slice(&written);
    Ok(())
}

/// Writes a run, four words an action, at a slice's start; 16, 41, 19, 18.
pub fn run_write(file: &mut [u8], opening: Opening, actions: &[u32], words: &mut [u8]) -> u32 {
    number(try_run_write(file, opening, actions, words))
}

fn try_run_list(
    file: &[u8],
    hall: &mut [u8],
    text: &mut [u8],
    slice: &mut [u8],
) -> Result<(), u32> {
    let (lines, last) = match replay(file) {
        Ok((lines, last)) => (lines, Some(last)),
        Err(number) => (refused_line(number), None),
    };
    let hall_short = last.is_some() && hall.len() < stored::LENGTH;
    if hall_short || text.len() < lines.len() {
        return Err(refusal::SHORT_SLICE);
    }
    answer(slice, words([lines.len() as u32]))?;
    text[..lines.len()].copy_from_slice(lines.as_bytes());
    if let Some(last) = last {
        stored::write(&last, hall);
    }
    Ok(())
}

/// Lists a run file at the start of a text, with the run's last hall in a slice;
/// 18.
pub fn run_list(file: &[u8], hall: &mut [u8], text: &mut [u8], words: &mut [u8]) -> u32 {
    number(try_run_list(file, hall, text, words))
}
