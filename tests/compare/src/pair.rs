//! A hall's bytes on both sides: those that the library is lent, and those
//! that they must be by the second implementation. Every call is made on both,
//! and number, answer and all bytes are compared.

use crate::counts::{Call, Counts};
use crate::courses;
use crate::events;
use crate::library::{self, Lent};
use crate::random::Random;
use reference::calls::{self, ANSWER_LENGTH, WORDS};
use reference::{built_in_votes, open, refusal, stored, Hall, Votes};

/// What differs, in words.
pub type Difference = String;

pub struct Pair {
    /// The hall that the bytes hold; none if they are no hall's form.
    pub(crate) hall: Option<Hall>,
    /// What the whole area must be.
    pub(crate) wanted: Vec<u8>,
    pub(crate) lent: Lent,
}

/// What a slice for an answer holds before the call.
fn answer_before(at: usize) -> u8 {
    (at as u8).wrapping_mul(53) ^ 0x5c
}

/// A slice for an answer, and more bytes that are not lent.
pub fn answer_slice(length: usize) -> Lent {
    let area: Vec<u8> = (0..length + 8).map(answer_before).collect();
    Lent::new(&area, length)
}

/// What the area of an answer must be after a call.
fn answer_after(length: usize, words: Option<&[u32; WORDS]>) -> Vec<u8> {
    let mut area: Vec<u8> = (0..length + 8).map(answer_before).collect();
    if let Some(words) = words {
        for (bytes, word) in area.chunks_exact_mut(4).zip(words) {
            bytes.copy_from_slice(&word.to_le_bytes());
        }
    }
    area
}

/// The words at the start of an answer's area.
pub fn words_of(area: &[u8]) -> [u32; WORDS] {
    let mut words = [0; WORDS];
    for (word, bytes) in words.iter_mut().zip(area.chunks_exact(4)) {
        *word = u32::from_le_bytes([bytes[0], bytes[1], bytes[2], bytes[3]]);
    }
    words
}

/// The number of a call, and the words that it gave if the number is 0.
pub type Given = (u32, [u32; WORDS]);

/// What a call gave in the area of its answer.
pub fn given(number: u32, answer: &Lent) -> Given {
    match number {
        0 => (0, words_of(answer.area())),
        _ => (number, [0; WORDS]),
    }
}

/// Mostly the length of an answer, else a length about it.
pub fn random_room(random: &mut Random) -> usize {
    match random.below(60) {
        0 => ANSWER_LENGTH - 1,
        1 => random.below(ANSWER_LENGTH),
        2 => ANSWER_LENGTH + 1,
        3 => ANSWER_LENGTH + random.below(100),
        _ => ANSWER_LENGTH,
    }
}

/// The first place where two slices differ.
pub fn first_difference(is: &[u8], wanted: &[u8]) -> String {
    match is.iter().zip(wanted).position(|(a, b)| a != b) {
        Some(at) => format!("byte {at} is {}, must be {}", is[at], wanted[at]),
        None => "the lengths differ".to_string(),
    }
}

/// Compares an area that was lent with what it must be.
pub fn compare_area(name: &str, lent: &Lent, wanted: &[u8]) -> Result<(), Difference> {
    if lent.area() != wanted {
        let what = first_difference(lent.area(), wanted);
        return Err(format!("the {name}'s {what}"));
    }
    if !lent.guards_stand() {
        return Err(format!("a byte outside the {name}'s slice was written"));
    }
    Ok(())
}

impl Pair {
    /// An area that holds what it holds, of which the first `length` bytes are
    /// lent.
    pub fn of_bytes(area: Vec<u8>, length: usize) -> Pair {
        let lent = Lent::new(&area, length);
        Pair {
            hall: stored::read(&area[..length]),
            wanted: area,
            lent,
        }
    }

    /// A hall, followed by more lent bytes.
    pub fn of_hall(hall: Hall, rest: &[u8]) -> Pair {
        let mut area = stored::form(&hall);
        area.extend_from_slice(rest);
        let lent = Lent::new(&area, area.len());
        Pair {
            hall: Some(hall),
            wanted: area,
            lent,
        }
    }

    pub fn hall(&self) -> Option<&Hall> {
        self.hall.as_ref()
    }

    /// The bytes that the library has left.
    pub fn lent(&self) -> &[u8] {
        self.lent.area()
    }

    /// Changes bytes from outside, on both sides.
    pub fn change(&mut self, change: impl Fn(&mut [u8])) {
        change(&mut self.wanted);
        change(self.lent.area_mut());
        self.hall = stored::read(&self.wanted[..self.lent.length()]);
    }

    /// Compares all bytes; `answer` is the answer's area and what it must be.
    pub(crate) fn compare(&self, answer: Option<(&Lent, Vec<u8>)>) -> Result<(), Difference> {
        compare_area("hall", &self.lent, &self.wanted)?;
        match answer {
            Some((answer, wanted)) => compare_area("answer", answer, &wanted),
            None => Ok(()),
        }
    }

    /// Compares a call's number, its answer and all bytes. Gives the number, and
    /// the words if that is 0.
    fn compare_call(
        &self,
        number: u32,
        wanted: Result<[u32; WORDS], u32>,
        answer: &Lent,
    ) -> Result<Given, Difference> {
        if number != wanted.err().unwrap_or(0) {
            return Err(format!("number {number}, wanted {wanted:?}"));
        }
        let after = answer_after(answer.length(), wanted.as_ref().ok());
        self.compare(Some((answer, after)))?;
        Ok(given(number, answer))
    }

    /// The same for a call that has left the hall as it is now.
    pub(crate) fn compare_change(
        &mut self,
        number: u32,
        wanted: Result<[u32; WORDS], u32>,
        answer: &Lent,
    ) -> Result<Given, Difference> {
        if let (Ok(_), Some(hall)) = (wanted, &self.hall) {
            stored::write(hall, &mut self.wanted);
        }
        self.compare_call(number, wanted, answer)
    }

    /// Opens a hall of N, 1 to 8, with the built-in row.
    pub fn open_built_in(
        &mut self,
        n: u32,
        founders: u32,
        counts: &mut Counts,
    ) -> Result<u32, Difference> {
        self.open(n, founders, built_in_votes(n), counts)
    }

    pub fn open(
        &mut self,
        n: u32,
        founders: u32,
        votes: Votes,
        counts: &mut Counts,
    ) -> Result<u32, Difference> {
        let room = self.lent.length() >= stored::LENGTH;
        let opened = open(n, founders, votes);
        let wanted = match &opened {
            Err(number) => *number,
            Ok(_) if !room => refusal::SHORT_SLICE,
            Ok(_) => 0,
        };
        let number = library::open(&mut self.lent, n, founders, votes);
        let at = |what: Difference| format!("open {n} {founders} {votes:?}: {what}");
        if number != wanted {
            return Err(at(format!("number {number}, must be {wanted}")));
        }
        if let (0, Ok(hall)) = (number, opened) {
            stored::write(&hall, &mut self.wanted);
            self.hall = Some(hall);
        }
        counts.call(Call::Open, number, 0);
        self.compare(None).map_err(at)?;
        Ok(number)
    }

    /// A step with a slice of `room` bytes for the answer. Gives the library's
    /// number.
    pub fn step(
        &mut self,
        action: [u32; 4],
        room: usize,
        counts: &mut Counts,
    ) -> Result<u32, Difference> {
        self.answer(action, room, counts).map(|(number, _)| number)
    }

    /// A step; gives the library's number, and its words if that is 0.
    pub fn answer(
        &mut self,
        action: [u32; 4],
        room: usize,
        counts: &mut Counts,
    ) -> Result<Given, Difference> {
        let before = events::before(self.hall.as_ref(), action);
        let wanted = calls::step_hall(self.hall.as_mut(), action, room >= ANSWER_LENGTH);
        let mut answer = answer_slice(room);
        let number = library::step(&mut self.lent, action, &mut answer);
        let compared = self.compare_change(number, wanted, &answer);
        let (number, words) = compared.map_err(|what| format!("step {action:?}: {what}"))?;
        let kind = if action[0] <= 11 { action[0] } else { 0 };
        counts.call(Call::Step(kind), number, words[0]);
        for event in events::events(before, self.hall.as_ref(), action, number) {
            counts.event(event);
        }
        Ok((number, words))
    }

    /// A settle with a slice of `room` bytes for the answer. Gives the library's
    /// number, and its words if that is 0.
    pub fn settle(&mut self, room: usize, counts: &mut Counts) -> Result<Given, Difference> {
        let fits = room >= ANSWER_LENGTH;
        let events = courses::events(self.hall.as_ref(), fits);
        let wanted = calls::settle_hall(self.hall.as_mut(), fits);
        let mut answer = answer_slice(room);
        let number = library::settle(&mut self.lent, &mut answer);
        let compared = self.compare_change(number, wanted, &answer);
        let (number, words) = compared.map_err(|what| format!("settle: {what}"))?;
        counts.call(Call::Settle, number, 0);
        for event in events {
            counts.event(event);
        }
        Ok((number, words))
    }

    /// A page with a slice of `room` bytes for it. Gives the library's number,
    /// and its words if that is 0.
    pub fn page(
        &mut self,
        r: u32,
        place: u32,
        room: usize,
        counts: &mut Counts,
    ) -> Result<Given, Difference> {
        let wanted = calls::page_of(self.hall.as_ref(), r, place, room >= ANSWER_LENGTH);
        let mut page = answer_slice(room);
        let number = library::page(&mut self.lent, r, place, &mut page);
        let compared = self.compare_call(number, wanted, &page);
        let (number, words) = compared.map_err(|what| format!("page {r} {place}: {what}"))?;
        counts.call(Call::Page, number, 0);
        Ok((number, words))
    }

    /// 31 alone.
    pub fn check(&mut self, counts: &mut Counts) -> Result<(), Difference> {
        let wanted = match self.hall {
            Some(_) => 0,
            None => refusal::STORED_FORM,
        };
        let number = library::check(&mut self.lent);
        if number != wanted {
            return Err(format!("check: number {number}, must be {wanted}"));
        }
        self.compare(None)
            .map_err(|what| format!("check: {what}"))?;
        counts.call(Call::Check, number, 0);
        Ok(())
    }

    /// The second implementation reads its own bytes as the same hall.
    pub fn read_back(&self) -> Result<(), Difference> {
        if stored::read(&self.wanted[..self.lent.length()]) == self.hall {
            Ok(())
        } else {
            Err("the second implementation reads another hall".to_string())
        }
    }
}
