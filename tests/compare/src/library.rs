//! The library's calls (include/hall.h), on slices that lie between guards.

use reference::{Opening, Votes};

extern "C" {
    fn hall_open(
        hall: *mut u8,
        hall_len: usize,
        n: u32,
        founders: u32,
        v1: u32,
        v2: u32,
        v3: u32,
        v4: u32,
        v5: u32,
        v6: u32,
        v7: u32,
        v8: u32,
    ) -> u32;

    fn hall_step(
        hall: *mut u8,
        hall_len: usize,
        k: u32,
        r: u32,
        a: u32,
        b: u32,
        answer: *mut u8,
        answer_len: usize,
    ) -> u32;

    fn hall_settle(hall: *mut u8, hall_len: usize, answer: *mut u8, answer_len: usize) -> u32;

    fn hall_step_held(
        hall: *mut u8,
        hall_len: usize,
        undo: *mut u8,
        undo_len: usize,
        k: u32,
        r: u32,
        a: u32,
        b: u32,
        answer: *mut u8,
        answer_len: usize,
    ) -> u32;

    fn hall_settle_held(
        hall: *mut u8,
        hall_len: usize,
        undo: *mut u8,
        undo_len: usize,
        answer: *mut u8,
        answer_len: usize,
    ) -> u32;

    fn hall_step_back(hall: *mut u8, hall_len: usize, undo: *mut u8, undo_len: usize) -> u32;

    fn hall_page(
        hall: *const u8,
        hall_len: usize,
        r: u32,
        place: u32,
        page: *mut u8,
        page_len: usize,
    ) -> u32;

    fn hall_check(hall: *const u8, hall_len: usize) -> u32;

    fn hall_run_read(file: *const u8, file_len: usize, words: *mut u8, words_len: usize) -> u32;

    fn hall_run_action(
        file: *const u8,
        file_len: usize,
        at: usize,
        words: *mut u8,
        words_len: usize,
    ) -> u32;

    fn hall_run_write(
        file: *mut u8,
        file_len: usize,
        n: u32,
        founders: u32,
        third: u32,
        v1: u32,
        v2: u32,
        v3: u32,
        v4: u32,
        v5: u32,
        v6: u32,
        v7: u32,
        v8: u32,
        actions: *const u32,
        actions_len: usize,
        words: *mut u8,
        words_len: usize,
    ) -> u32;

    fn hall_run_list(
        file: *const u8,
        file_len: usize,
        hall: *mut u8,
        hall_len: usize,
        text: *mut u8,
        text_len: usize,
        words: *mut u8,
        words_len: usize,
    ) -> u32;

    fn hall_length() -> u32;
}

/// Bytes before and after an area. An odd number, so that an area has no
/// alignment.
const GUARD: usize = 67;

fn guard_byte(at: usize) -> u8 {
    (at as u8).wrapping_mul(29) ^ 0xc3
}

/// An area of bytes of which the first `length` are lent to the library.
pub struct Lent {
    memory: Vec<u8>,
    length: usize,
}

impl Lent {
    pub fn new(area: &[u8], length: usize) -> Lent {
        assert!(length <= area.len());
        let mut memory: Vec<u8> = (0..area.len() + 2 * GUARD).map(guard_byte).collect();
        memory[GUARD..GUARD + area.len()].copy_from_slice(area);
        Lent { memory, length }
    }

    pub fn length(&self) -> usize {
        self.length
    }

    /// The whole area, also what is not lent.
    pub fn area(&self) -> &[u8] {
        &self.memory[GUARD..self.memory.len() - GUARD]
    }

    pub fn area_mut(&mut self) -> &mut [u8] {
        let end = self.memory.len() - GUARD;
        &mut self.memory[GUARD..end]
    }

    pub fn guards_stand(&self) -> bool {
        let end = self.memory.len() - GUARD;
        let stands = |at: usize| self.memory[at] == guard_byte(at);
        (0..GUARD).all(stands) && (end..end + GUARD).all(stands)
    }

    fn pointer(&mut self) -> *mut u8 {
        self.area_mut().as_mut_ptr()
    }
}

pub fn open(hall: &mut Lent, n: u32, founders: u32, votes: Votes) -> u32 {
    let [v1, v2, v3, v4, v5, v6, v7, v8] = votes;
    // Safety: the pointer is that of `length` bytes, lent to this call alone.
    unsafe {
        hall_open(
            hall.pointer(),
            hall.length,
            n,
            founders,
            v1,
            v2,
            v3,
            v4,
            v5,
            v6,
            v7,
            v8,
        )
    }
}

pub fn step(hall: &mut Lent, [k, r, a, b]: [u32; 4], answer: &mut Lent) -> u32 {
    // Safety: as above, for two areas that do not overlap.
    unsafe {
        hall_step(
            hall.pointer(),
            hall.length,
            k,
            r,
            a,
            b,
            answer.pointer(),
            answer.length,
        )
    }
}

pub fn settle(hall: &mut Lent, answer: &mut Lent) -> u32 {
    // Safety: as for a step.
    unsafe { hall_settle(hall.pointer(), hall.length, answer.pointer(), answer.length) }
}

pub fn step_held(
    hall: &mut Lent,
    undo: &mut Lent,
    [k, r, a, b]: [u32; 4],
    answer: &mut Lent,
) -> u32 {
    // Safety: as for a step, for three areas that do not overlap.
    unsafe {
        hall_step_held(
            hall.pointer(),
            hall.length,
            undo.pointer(),
            undo.length,
            k,
            r,
            a,
            b,
            answer.pointer(),
            answer.length,
        )
    }
}

pub fn settle_held(hall: &mut Lent, undo: &mut Lent, answer: &mut Lent) -> u32 {
    // Safety: as for a held step.
    unsafe {
        hall_settle_held(
            hall.pointer(),
            hall.length,
            undo.pointer(),
            undo.length,
            answer.pointer(),
            answer.length,
        )
    }
}

pub fn step_back(hall: &mut Lent, undo: &mut Lent) -> u32 {
    // Safety: as for a held step.
    unsafe { hall_step_back(hall.pointer(), hall.length, undo.pointer(), undo.length) }
}

pub fn page(hall: &mut Lent, r: u32, place: u32, page: &mut Lent) -> u32 {
    // Safety: as above. The hall is lent as mutable memory, so that a call that
    // writes into it is a difference to be found and not more.
    unsafe {
        hall_page(
            hall.pointer(),
            hall.length,
            r,
            place,
            page.pointer(),
            page.length,
        )
    }
}

pub fn check(hall: &mut Lent) -> u32 {
    // Safety: as for a page.
    unsafe { hall_check(hall.pointer(), hall.length) }
}

/// The same on bytes that are not copied between guards.
pub fn check_of(hall: &[u8]) -> u32 {
    // Safety: the pointer is that of the slice.
    unsafe { hall_check(hall.as_ptr(), hall.len()) }
}

pub fn length() -> u32 {
    // Safety: it takes nothing.
    unsafe { hall_length() }
}

pub fn run_read(file: &mut Lent, words: &mut Lent) -> u32 {
    // Safety: as for a page.
    unsafe { hall_run_read(file.pointer(), file.length, words.pointer(), words.length) }
}

pub fn run_action(file: &mut Lent, at: usize, words: &mut Lent) -> u32 {
    // Safety: as for a page. The offset may be any.
    unsafe {
        hall_run_action(
            file.pointer(),
            file.length,
            at,
            words.pointer(),
            words.length,
        )
    }
}

/// The same on a file that is not copied between guards.
pub fn run_action_of(file: &mut [u8], at: usize, words: &mut Lent) -> u32 {
    // Safety: as for a page.
    unsafe {
        hall_run_action(
            file.as_mut_ptr(),
            file.len(),
            at,
            words.pointer(),
            words.length,
        )
    }
}

pub fn run_write(file: &mut Lent, opening: Opening, actions: &mut [u32], words: &mut Lent) -> u32 {
    let [v1, v2, v3, v4, v5, v6, v7, v8] = opening.votes;
    // Safety: as above, for three areas that do not overlap. The actions are
    // lent as mutable memory for the same reason as a page's hall.
    unsafe {
        hall_run_write(
            file.pointer(),
            file.length,
            opening.n,
            opening.founders,
            opening.third,
            v1,
            v2,
            v3,
            v4,
            v5,
            v6,
            v7,
            v8,
            actions.as_mut_ptr(),
            actions.len(),
            words.pointer(),
            words.length,
        )
    }
}

pub fn run_list(file: &mut Lent, hall: &mut Lent, text: &mut Lent, words: &mut Lent) -> u32 {
    // Safety: as for a page, for four areas that do not overlap.
    unsafe {
        hall_run_list(
            file.pointer(),
            file.length,
            hall.pointer(),
            hall.length,
            text.pointer(),
            text.length,
            words.pointer(),
            words.length,
        )
    }
}
