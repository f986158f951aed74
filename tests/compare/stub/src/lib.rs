//! The calls of `include/hall.h` over the second implementation, right or with
//! one of the mistakes here, in `numbers`, in `choices`, in `votes`, in `settles`,
//! in `stepbacks` and in `listings`, which HALL_FAULT names.

mod choices;
mod listings;
mod numbers;
mod settles;
mod stepbacks;
mod votes;

use reference::actions::judge_kind;
use reference::calls::{self, ANSWER_LENGTH, WORDS};
use reference::hall::{all_recorders, at_mark, judge_opening, Message};
use reference::stored::{self, LENGTH};
use reference::{Hall, Opening};
use std::slice::{from_raw_parts, from_raw_parts_mut};
use std::sync::OnceLock;

/// The mistake that is asked for.
fn fault() -> Option<&'static str> {
    static NAMED: OnceLock<Option<String>> = OnceLock::new();
    let named = NAMED.get_or_init(|| std::env::var("HALL_FAULT").ok());
    named.as_deref()
}

fn faulty(name: &str) -> bool {
    fault() == Some(name)
}

/// # Safety
/// As in `include/hall.h`.
#[no_mangle]
pub unsafe extern "C" fn hall_open(
    hall: *mut u8,
    hall_len: usize,
    n: u32,
    founders: u32,
    v1: u32,
    v2: u32,
    v3: u32,
    v4: u32,
    v5: u32,
    v6: u32,
    v7: u32,
    v8: u32,
) -> u32 {
    let hall = from_raw_parts_mut(hall, hall_len);
    let row = [v1, v2, v3, v4, v5, v6, v7, v8];
    if faulty("18 before 16") && hall.len() < LENGTH {
        return 18;
    }
    if faulty("founders looked at as a byte") {
        return calls::open(hall, n, founders & 255, row);
    }
    if faulty("founders 0 means all") && founders == 0 && judge_opening(n, 0).is_ok() {
        return calls::open(hall, n, all_recorders(n), row);
    }
    if faulty("founders 0 refused") && founders == 0 {
        return 16;
    }
    let number = votes::open(hall, n, founders, row);
    if faulty("the rest of the slice cleared") && number == 0 {
        hall[LENGTH..].fill(0);
    }
    number
}

/// # Safety
/// As in `include/hall.h`.
#[no_mangle]
pub unsafe extern "C" fn hall_step(
    hall: *mut u8,
    hall_len: usize,
    k: u32,
    r: u32,
    a: u32,
    b: u32,
    answer: *mut u8,
    answer_len: usize,
) -> u32 {
    let hall = from_raw_parts_mut(hall, hall_len);
    let answer = from_raw_parts_mut(answer, answer_len);
    let action = [k, r, a, b];
    if fault().is_none() {
        return calls::step(hall, action, answer);
    }
    if faulty("31 before 11") && stored::read(hall).is_none() {
        return 31;
    }
    if faulty("18 first") && judge_kind(k).is_ok() && answer.len() < ANSWER_LENGTH {
        return 18;
    }
    if let Some(number) = wrong_check(hall).filter(|_| judge_kind(k).is_ok()) {
        return number;
    }
    let number = match stored::read(hall).filter(|_| answer.len() >= ANSWER_LENGTH) {
        Some(old) => step_of(&old, action, hall, answer),
        None => calls::step(hall, action, answer),
    };
    if faulty("a refused answer cleared") && number != 0 {
        answer.fill(0);
    }
    if faulty("a byte past the answer") && number == 0 && answer.len() > ANSWER_LENGTH {
        answer[ANSWER_LENGTH] = 0;
    }
    if faulty("a byte past the hall") && number == 0 && hall.len() > LENGTH {
        hall[LENGTH] ^= 1;
    }
    if faulty("a spare word used") && number == 0 {
        answer[40] = 1;
    }
    if faulty("an entry's source as sender") && number == 0 && answer[0] == 1 {
        answer[16] = answer[4];
    }
    number
}

/// # Safety
/// As in `include/hall.h`.
#[no_mangle]
pub unsafe extern "C" fn hall_settle(
    hall: *mut u8,
    hall_len: usize,
    answer: *mut u8,
    answer_len: usize,
) -> u32 {
    let hall = from_raw_parts_mut(hall, hall_len);
    let answer = from_raw_parts_mut(answer, answer_len);
    if fault().is_none() {
        return calls::settle(hall, answer);
    }
    if let Some(number) = wrong_check(hall) {
        return number;
    }
    settles::settle(hall, answer)
}

/// # Safety
/// As in `include/hall.h`.
#[no_mangle]
pub unsafe extern "C" fn hall_step_held(
    hall: *mut u8,
    hall_len: usize,
    undo: *mut u8,
    undo_len: usize,
    k: u32,
    r: u32,
    a: u32,
    b: u32,
    answer: *mut u8,
    answer_len: usize,
) -> u32 {
    let hall = from_raw_parts_mut(hall, hall_len);
    let undo = from_raw_parts_mut(undo, undo_len);
    let answer = from_raw_parts_mut(answer, answer_len);
    stepbacks::step_held(hall, undo, [k, r, a, b], answer)
}

/// # Safety
/// As in `include/hall.h`.
#[no_mangle]
pub unsafe extern "C" fn hall_settle_held(
    hall: *mut u8,
    hall_len: usize,
    undo: *mut u8,
    undo_len: usize,
    answer: *mut u8,
    answer_len: usize,
) -> u32 {
    let hall = from_raw_parts_mut(hall, hall_len);
    let undo = from_raw_parts_mut(undo, undo_len);
    let answer = from_raw_parts_mut(answer, answer_len);
    stepbacks::settle_held(hall, undo, answer)
}

/// # Safety
/// As in `include/hall.h`.
#[no_mangle]
pub unsafe extern "C" fn hall_step_back(
    hall: *mut u8,
    hall_len: usize,
    undo: *mut u8,
    undo_len: usize,
) -> u32 {
    let hall = from_raw_parts_mut(hall, hall_len);
    let undo = from_raw_parts_mut(undo, undo_len);
    stepbacks::step_back(hall, undo)
}

/// # Safety
/// As in `include/hall.h`.
#[no_mangle]
pub unsafe extern "C" fn hall_page(
    hall: *const u8,
    hall_len: usize,
    r: u32,
    place: u32,
    page: *mut u8,
    page_len: usize,
) -> u32 {
    let hall = from_raw_parts(hall, hall_len);
    let page = from_raw_parts_mut(page, page_len);
    if fault().is_none() {
        return calls::page(hall, r, place, page);
    }
    if let Some(number) = wrong_check(hall) {
        return number;
    }
    let number = match votes::shown(hall) {
        Some(shown) => calls::page(&shown, r, place, page),
        None => calls::page(hall, r, place, page),
    };
    if number == 0 {
        votes::miscount(hall, page);
    }
    if faulty("the margin of an outsider given as 0") && number == 0 && page[..4] == [0; 4] {
        page[12..16].fill(0);
    }
    if faulty("the sign of the margin lost") && number == 0 {
        let margin = i32::from_le_bytes([page[12], page[13], page[14], page[15]]);
        page[12..16].copy_from_slice(&margin.abs().to_le_bytes());
    }
    number
}

/// # Safety
/// As in `include/hall.h`.
#[no_mangle]
pub unsafe extern "C" fn hall_check(hall: *const u8, hall_len: usize) -> u32 {
    let hall = from_raw_parts(hall, hall_len);
    if faulty("a check of the length alone") {
        return if hall.len() < LENGTH { 31 } else { 0 };
    }
    if faulty("a longer slice is no hall") && hall.len() > LENGTH {
        return 31;
    }
    wrong_check(hall).unwrap_or_else(|| calls::check(hall))
}

#[no_mangle]
pub extern "C" fn hall_version() -> u32 {
    3_008_000
}

#[no_mangle]
pub extern "C" fn hall_length() -> u32 {
    let more = faulty("a byte more than a hall has");
    LENGTH as u32 + u32::from(more)
}

/// # Safety
/// As in `include/hall.h`.
#[no_mangle]
pub unsafe extern "C" fn hall_run_read(
    file: *const u8,
    file_len: usize,
    words: *mut u8,
    words_len: usize,
) -> u32 {
    let file = from_raw_parts(file, file_len);
    let words = from_raw_parts_mut(words, words_len);
    if faulty("18 before 19") && words.len() < ANSWER_LENGTH {
        return 18;
    }
    let number = match votes::misread(file) {
        Some(read) => calls::run_read(&read, words),
        None => calls::run_read(file, words),
    };
    if number == 0 {
        votes::wrong_words(words);
    }
    if let Some(wrong) = votes::wrong_read(file, number) {
        return wrong;
    }
    if faulty("founders 0 read as recorder 1") && number == 0 && words[4] == 0 {
        words[4] = 1;
    }
    if faulty("the first byte of the run as its start") && number == 0 {
        words[8] -= 16;
    }
    if faulty("16 before 19") && number == 19 && file.len() >= 32 && file[file.len() - 32] > 8 {
        return 16;
    }
    number
}

/// # Safety
/// As in `include/hall.h`.
#[no_mangle]
pub unsafe extern "C" fn hall_run_action(
    file: *const u8,
    file_len: usize,
    at: usize,
    words: *mut u8,
    words_len: usize,
) -> u32 {
    let file = from_raw_parts(file, file_len);
    let words = from_raw_parts_mut(words, words_len);
    if faulty("an offset that wraps") && at > usize::MAX - 16 && words.len() >= ANSWER_LENGTH {
        return calls::run_action(file, 0, words);
    }
    if faulty("the trailer as an action") && words.len() >= ANSWER_LENGTH {
        let longer = [file, &[0; 16]].concat();
        return calls::run_action(&longer, at, words);
    }
    let number = calls::run_action(file, at, words);
    if faulty("the high word dropped") && number == 0 {
        words[24..28].fill(0);
    }
    number
}

/// # Safety
/// As in `include/hall.h`.
#[no_mangle]
pub unsafe extern "C" fn hall_run_write(
    file: *mut u8,
    file_len: usize,
    n: u32,
    founders: u32,
    third: u32,
    v1: u32,
    v2: u32,
    v3: u32,
    v4: u32,
    v5: u32,
    v6: u32,
    v7: u32,
    v8: u32,
    actions: *const u32,
    actions_len: usize,
    words: *mut u8,
    words_len: usize,
) -> u32 {
    let file = from_raw_parts_mut(file, file_len);
    let actions = from_raw_parts(actions, actions_len);
    let words = from_raw_parts_mut(words, words_len);
    let written_as_1 = faulty("founders 0 written as recorder 1") && founders == 0;
    let opening = Opening {
        n,
        founders: if written_as_1 { 1 } else { founders },
        third,
        votes: [v1, v2, v3, v4, v5, v6, v7, v8],
    };
    if let Some(wrong) = votes::wrong_write(&opening, actions.len() / 4, file.len()) {
        return wrong;
    }
    let opening = votes::miswritten(opening);
    if faulty("written without room for the answer") && words.len() < ANSWER_LENGTH {
        let mut room = [0; ANSWER_LENGTH];
        let number = calls::run_write(file, opening, actions, &mut room);
        return if number == 0 { 18 } else { number };
    }
    if faulty("19 before 16") && actions.len() / 4 > 4_094 {
        return 19;
    }
    let number = calls::run_write(file, opening, actions, words);
    if faulty("the rest of the file cleared") && number == 0 {
        let votes = if third == 1 { 32 } else { 0 };
        file[32 + votes + 16 * (actions.len() / 4)..].fill(0);
    }
    number
}

/// # Safety
/// As in `include/hall.h`.
#[no_mangle]
pub unsafe extern "C" fn hall_run_list(
    file: *const u8,
    file_len: usize,
    hall: *mut u8,
    hall_len: usize,
    text: *mut u8,
    text_len: usize,
    words: *mut u8,
    words_len: usize,
) -> u32 {
    let file = from_raw_parts(file, file_len);
    let hall = from_raw_parts_mut(hall, hall_len);
    let text = from_raw_parts_mut(text, text_len);
    let words = from_raw_parts_mut(words, words_len);
    listings::run_list(file, hall, text, words)
}

/// 31 for bytes that are a hall: rules that 01 does not have.
fn too_strict(hall: &Hall) -> bool {
    let views = &hall.views;
    let of_view = |number: u32| views.iter().find(|view| view.number == number);
    if faulty("a formed view asked for") {
        return views.is_empty();
    }
    if faulty("marks outside a view asked to be 1") {
        return views.iter().any(|view| {
            let outside = (1..=hall.n).filter(|&k| !view.has(k));
            let mut marks = outside.map(|k| (view.seat(k).receive, view.seat(k).safe));
            marks.any(|marks| marks != (1, 1))
        });
    }
    if faulty("safe sources asked to have sent") {
        return hall.recorders.iter().any(|recorder| {
            of_view(recorder.current).is_some_and(|view| {
                let safe = (1..=hall.n).filter(|k| recorder.safe_sources >> (k - 1) & 1 != 0);
                let mut seats = safe.map(|k| view.seat(k));
                seats.any(|seat| seat.summary.is_none())
            })
        });
    }
    numbers::too_strict(hall) || votes::too_strict(hall)
}

/// Bytes made right that 01 refuses: a byte not looked at.
fn mended(bytes: &[u8]) -> Option<Vec<u8>> {
    let mut mended = bytes.to_vec();
    if faulty("the last place of a buffer not looked at") && bytes[803 + 6] < 64 {
        mended[803 + 6 + 64] = 0;
    } else if faulty("a receive mark of 74 taken") && bytes[3_091 + 66] == 73 {
        mended[3_091 + 66] = 72;
    } else if faulty("a formed view numbered 0 taken") && bytes[1] > 0 && bytes[2..6] == [0; 4] {
        mended[2] = 1;
    } else if faulty("only the low byte of a current view looked at") {
        for recorder in mended[803..3_091].chunks_exact_mut(286) {
            recorder[1..4].fill(0);
        }
    } else if faulty("the last queue not looked at") {
        mended[votes::AT - 145..votes::AT].fill(0);
    } else if faulty("a label's sequence without a view taken") {
        for entry in mended[163..803].chunks_exact_mut(10) {
            if entry[5..9] == [0; 4] {
                entry[9] = 0;
            }
        }
    } else if !votes::mend(&mut mended) {
        return None;
    }
    Some(mended)
}

/// A wrong answer of the check: 31 for a hall, or 0 for what is none.
fn wrong_check(bytes: &[u8]) -> Option<u32> {
    if votes::short_hall_taken(bytes) && bytes.len() < LENGTH {
        return Some(0);
    }
    if bytes.len() < LENGTH {
        return faulty("a short hall is 18").then_some(18);
    }
    match stored::read(bytes) {
        Some(hall) => too_strict(&hall).then_some(31),
        None => mended(bytes)
            .and_then(|mended| stored::read(&mended))
            .map(|_| 0),
    }
}

/// A step on a hall, with room for its answer.
fn step_of(old: &Hall, action: [u32; 4], bytes: &mut [u8], answer: &mut [u8]) -> u32 {
    let action = numbers::misread(old, action);
    numbers::wrong_number(old, action)
        .or_else(|| wrong_step(old, action, bytes, answer))
        .or_else(|| votes::step(old, action, bytes, answer))
        .unwrap_or_else(|| choices::step(old, action, bytes, answer))
}

/// Puts an answer's words at a slice's start.
fn put(answer: &mut [u8], words: [u32; WORDS]) {
    for (bytes, word) in answer.chunks_exact_mut(4).zip(words) {
        bytes.copy_from_slice(&word.to_le_bytes());
    }
}

/// A step done wrong; nothing for a mistake that is not asked for or has no
/// effect here.
fn wrong_step(
    old: &Hall,
    [k, r, a, b]: [u32; 4],
    bytes: &mut [u8],
    answer: &mut [u8],
) -> Option<u32> {
    let mut hall = old.clone();
    if !(1..=hall.n).contains(&r) {
        return None;
    }
    let recorder = hall.recorder(r).clone();
    let current = hall.current_index(r).map(|index| old.views[index].clone());
    let queued = |mark: fn(&reference::Seat) -> u32| {
        let view = current.as_ref()?;
        at_mark(&view.queue, mark(view.seat(r)))
    };
    if k == 10 && faulty("confirmed what is not safe") {
        hall.recorder_mut(r).safe_labels = u64::MAX;
    } else if k == 6 && faulty("safe labels kept") {
        let number = calls::step(bytes, [k, r, a, b], answer);
        if number == 0 {
            let mut after = stored::read(bytes)?;
            after.recorder_mut(r).safe_labels = recorder.safe_labels;
            stored::write(&after, bytes);
        }
        return Some(number);
    } else if k == 8 && faulty("a full order cut") && recorder.order.len() == 64 {
        hall.recorder_mut(r).order.pop();
    } else if k == 9 && faulty("R itself not asked") {
        let index = hall.current_index(r)?;
        hall.views[index].seat_mut(r).receive = 73;
    } else if k == 9 && faulty("a summary shown as it is now") {
        let queued = queued(|seat| seat.safe)?;
        if queued.message != Message::Summary {
            return None;
        }
        let source = hall.recorder(queued.source).summary();
        let index = hall.current_index(r)?;
        hall.views[index].seat_mut(queued.source).summary = Some(source);
    } else if k == 8 && faulty("a summary heard before not looked at") {
        let queued = queued(|seat| seat.receive)?;
        let heard = recorder.heard >> (queued.source - 1) & 1 != 0;
        if queued.message != Message::Summary || !heard {
            return None;
        }
        hall.recorder_mut(r).phase = reference::Phase::Normal;
    } else {
        numbers::mislead(&mut hall, k, r)?;
    }
    let kept = hall.clone();
    let words = match hall.step(k, r, a, b).plain() {
        Ok(words) => words,
        Err(number) => return Some(number),
    };
    // What was changed only to mislead the step is put back.
    hall.entries = old.entries.clone();
    let after = hall.recorder_mut(r);
    if after.current == kept.recorder(r).current {
        after.current = recorder.current;
    }
    if after.safe_labels == kept.recorder(r).safe_labels {
        after.safe_labels = recorder.safe_labels;
    }
    if after.phase == kept.recorder(r).phase {
        after.phase = recorder.phase;
    }
    if let Some(index) = old.current_index(r) {
        for source in 1..=hall.n {
            let summary = old.views[index].seat(source).summary.clone();
            hall.views[index].seat_mut(source).summary = summary;
        }
        if k == 9 {
            let receive = old.views[index].seat(r).receive;
            hall.views[index].seat_mut(r).receive = receive;
        }
    }
    put(answer, words);
    stored::write(&hall, bytes);
    Some(0)
}
