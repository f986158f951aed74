//! A hall and an undo buffer on both sides, as `Pair` has a hall: held steps, held
//! settles and steps back, with what they leave compared.

use crate::counts::{Call, Counts};
use crate::flaws::{self, flaws, Flaw};
use crate::library::{self, Lent};
use crate::pair::{answer_slice, compare_area, Difference, Given, Pair};
use reference::calls::{self, ANSWER_LENGTH, WORDS};
use reference::undo::{Undo, LENGTH, MOST_HELD};
use reference::{refusal, stored, Hall};

/// What all calls together must meet besides 43 for each flaw of a buffer.
pub const EVENTS: [&str; 34] = [
    STEP_KIND_FIRST,
    STEP_HALL_FIRST,
    STEP_BEFORE_12,
    STEP_BEFORE_13,
    STEP_BEFORE_14,
    STEP_BEFORE_15,
    STEP_BEFORE_STATE,
    STEP_BEFORE_ROOM,
    STEP_WORDS_NO_ROOM,
    STEP_STATE_NO_ROOM,
    STEP_NO_ROOM,
    STEP_SIXTEENTH,
    STEP_SEVENTEENTH,
    STEP_REFUSED_FULL,
    SETTLE_HALL_FIRST,
    SETTLE_PRIMARY_FIRST,
    SETTLE_BEFORE_40,
    SETTLE_BEFORE_ROOM,
    SETTLE_WRONG_NO_STEP,
    SETTLE_40,
    SETTLE_40_NO_ROOM,
    SETTLE_42_NO_ROOM,
    SETTLE_NO_ROOM,
    SETTLE_NO_STEP,
    SETTLE_SOME,
    SETTLE_LONG,
    SETTLE_PUSHES_OUT,
    BACK_HALL_FIRST,
    BACK_NONE,
    BACK_NO_HALL,
    BACK_REFUSED,
    BACK_ELSEWHERE,
    BACK_OF_SIXTEEN,
    BACK_OF_ONE,
];

const STEP_KIND_FIRST: &str = "held step: 11, no hall and no buffer";
const STEP_HALL_FIRST: &str = "held step: 31, no buffer";
const STEP_BEFORE_12: &str = "held step: 43 before 12";
const STEP_BEFORE_13: &str = "held step: 43 before 13";
const STEP_BEFORE_14: &str = "held step: 43 before 14";
const STEP_BEFORE_15: &str = "held step: 43 before 15";
const STEP_BEFORE_STATE: &str = "held step: 43 before 32 to 40";
const STEP_BEFORE_ROOM: &str = "held step: 43 before 18";
const STEP_WORDS_NO_ROOM: &str = "held step: 12 to 15 before 18";
const STEP_STATE_NO_ROOM: &str = "held step: 32 to 40 before 18";
const STEP_NO_ROOM: &str = "held step: 18, the step is allowed";
const STEP_SIXTEENTH: &str = "held step: the 16th";
const STEP_SEVENTEENTH: &str = "held step: the 17th";
const STEP_REFUSED_FULL: &str = "held step: refused, 16 are held";
const SETTLE_HALL_FIRST: &str = "held settle: 31, no buffer";
const SETTLE_PRIMARY_FIRST: &str = "held settle: 42, no buffer";
const SETTLE_BEFORE_40: &str = "held settle: 43 before 40";
const SETTLE_BEFORE_ROOM: &str = "held settle: 43 before 18";
const SETTLE_WRONG_NO_STEP: &str = "held settle: 43, it would take no step";
const SETTLE_40: &str = "held settle: 40, the buffer is in form";
const SETTLE_40_NO_ROOM: &str = "held settle: 40 before 18";
const SETTLE_42_NO_ROOM: &str = "held settle: 42 before 18";
const SETTLE_NO_ROOM: &str = "held settle: 18, the settle is allowed";
const SETTLE_NO_STEP: &str = "held settle: no step";
const SETTLE_SOME: &str = "held settle: all that was held stays";
const SETTLE_LONG: &str = "held settle: more than 16 steps";
const SETTLE_PUSHES_OUT: &str = "held settle: some that were held stay";
const BACK_HALL_FIRST: &str = "step back: 31, no buffer";
const BACK_NONE: &str = "step back: 43, none is held";
const BACK_NO_HALL: &str = "step back: 43, no hall would be restored";
const BACK_REFUSED: &str = "step back: 43, the action is refused there";
const BACK_ELSEWHERE: &str = "step back: 43, the action leads elsewhere";
const BACK_OF_SIXTEEN: &str = "step back: 16 are held";
const BACK_OF_ONE: &str = "step back: one is held";

pub struct Bench {
    pub pair: Pair,
    /// What the buffer holds; none if it is not in form.
    held: Option<Undo>,
    /// What the buffer's area must be.
    wanted: Vec<u8>,
    lent: Lent,
}

/// The number of a result.
fn number<T>(result: Result<T, u32>) -> u32 {
    result.err().unwrap_or(0)
}

/// What a call meets, before it is made: what is wrong with the buffer, and how
/// many slots it holds.
struct Found {
    flaws: Vec<Flaw>,
    slots: usize,
    /// The number of the same call without a buffer, with room for its answer.
    plain: u32,
    fits: bool,
}

impl Bench {
    /// Areas of a hall and of a buffer, of which the first `length` bytes are
    /// lent.
    pub fn new(pair: Pair, buffer: Vec<u8>, length: usize) -> Bench {
        Bench {
            pair,
            held: Undo::read(&buffer[..length]),
            lent: Lent::new(&buffer, length),
            wanted: buffer,
        }
    }

    /// A hall, and a buffer that holds nothing, with more lent bytes.
    pub fn empty(pair: Pair, rest: &[u8]) -> Bench {
        let buffer = [&[0; LENGTH], rest].concat();
        let length = buffer.len();
        Bench::new(pair, buffer, length)
    }

    pub fn hall(&self) -> Option<&Hall> {
        self.pair.hall()
    }

    pub fn held(&self) -> Option<&Undo> {
        self.held.as_ref()
    }

    /// How many actions are held.
    pub fn slots(&self) -> usize {
        self.held.as_ref().map_or(0, |held| held.slots.len())
    }

    /// The buffer's area as the library has left it.
    pub fn buffer(&self) -> &[u8] {
        self.lent.area()
    }

    /// Lends other bytes as the buffer.
    pub fn lend(&mut self, buffer: &[u8], length: usize) {
        self.held = Undo::read(&buffer[..length]);
        self.lent = Lent::new(buffer, length);
        self.wanted = buffer.to_vec();
    }

    fn found(&self, fits: bool, plain: impl FnOnce(&mut Hall) -> u32) -> Result<Found, Difference> {
        let flaws = flaws(&self.lent.area()[..self.lent.length()]);
        if flaws.is_empty() != self.held.is_some() {
            return Err(format!("the second implementation's reader: {flaws:?}"));
        }
        let asked = self
            .pair
            .hall
            .clone()
            .filter(|_| self.held.is_none() || !fits);
        Ok(Found {
            flaws,
            slots: self.slots(),
            plain: asked.map_or(0, |mut hall| plain(&mut hall)),
            fits,
        })
    }

    fn compare_buffer(&self) -> Result<(), Difference> {
        compare_area("buffer", &self.lent, &self.wanted)
    }

    /// Compares a call's number, its answer and all bytes.
    fn compare(
        &mut self,
        number: u32,
        wanted: Result<[u32; WORDS], u32>,
        answer: &Lent,
    ) -> Result<Given, Difference> {
        if let (Ok(_), Some(held)) = (wanted, &self.held) {
            held.write(&mut self.wanted);
        }
        let given = self.pair.compare_change(number, wanted, answer)?;
        self.compare_buffer()?;
        Ok(given)
    }

    /// A held step with a slice of `room` bytes for the answer. Gives the
    /// library's number.
    pub fn step(
        &mut self,
        action: [u32; 4],
        room: usize,
        counts: &mut Counts,
    ) -> Result<u32, Difference> {
        let fits = room >= ANSWER_LENGTH;
        let plain = |hall: &mut Hall| number(calls::step_hall(Some(hall), action, true));
        let found = self.found(fits, plain)?;
        let (hall, held) = (self.pair.hall.as_mut(), self.held.as_mut());
        let wanted = calls::step_held_hall(hall, held, action, fits);
        let mut answer = answer_slice(room);
        let number = library::step_held(&mut self.pair.lent, &mut self.lent, action, &mut answer);
        let compared = self.compare(number, wanted, &answer);
        let (number, words) = compared.map_err(|what| format!("held step {action:?}: {what}"))?;
        let kind = if action[0] <= 11 { action[0] } else { 0 };
        counts.call(Call::HeldStep(kind), number, words[0]);
        if let Some(event) = step_event(&found, self.hall().is_some(), number) {
            counts.event(event);
        }
        Ok(number)
    }

    /// A held settle with a slice of `room` bytes for the answer. Gives the
    /// library's number, and its words if that is 0.
    pub fn settle(&mut self, room: usize, counts: &mut Counts) -> Result<Given, Difference> {
        let fits = room >= ANSWER_LENGTH;
        let mut no_step = false;
        let plain = |hall: &mut Hall| {
            let steps = hall.settle();
            no_step = steps.as_ref().is_ok_and(Vec::is_empty);
            number(steps)
        };
        let found = self.found(fits, plain)?;
        let (hall, held) = (self.pair.hall.as_mut(), self.held.as_mut());
        let wanted = calls::settle_held_hall(hall, held, fits);
        let mut answer = answer_slice(room);
        let number = library::settle_held(&mut self.pair.lent, &mut self.lent, &mut answer);
        let compared = self.compare(number, wanted, &answer);
        let (number, words) = compared.map_err(|what| format!("held settle: {what}"))?;
        counts.call(Call::HeldSettle, number, 0);
        if number == refusal::UNDO && no_step {
            counts.event(SETTLE_WRONG_NO_STEP);
        }
        if let Some(event) = settle_event(&found, number, words[0] as usize) {
            counts.event(event);
        }
        Ok((number, words))
    }

    /// A step back. Gives the library's number.
    pub fn back(&mut self, counts: &mut Counts) -> Result<u32, Difference> {
        let found = self.found(true, |_| 0)?;
        let refused = self.refused_back();
        let newest = self.held.as_ref().and_then(|held| held.slots.last());
        let kind = newest.map_or(0, |slot| slot.action[0]);
        let wanted = calls::step_back_hall(self.pair.hall.as_mut(), self.held.as_mut());
        let number = library::step_back(&mut self.pair.lent, &mut self.lent);
        let say = |what: Difference| format!("step back: {what}");
        if number != self::number(wanted) {
            return Err(say(format!("number {number}, wanted {wanted:?}")));
        }
        if let (Ok(()), Some(hall), Some(held)) = (wanted, &self.pair.hall, &self.held) {
            stored::write(hall, &mut self.pair.wanted);
            held.write(&mut self.wanted);
        }
        self.pair.compare(None).map_err(say)?;
        self.compare_buffer().map_err(say)?;
        counts.call(Call::StepBack, number, if number == 0 { kind } else { 0 });
        if let Some(event) = back_event(&found, refused, number) {
            counts.event(event);
        }
        Ok(number)
    }

    /// Why the newest action of a buffer in form cannot be taken back, on bytes.
    fn refused_back(&self) -> Option<&'static str> {
        let (Some(_), Some(held)) = (&self.pair.hall, &self.held) else {
            return None;
        };
        let Some(newest) = held.slots.last() else {
            return Some(BACK_NONE);
        };
        let mut restored = self.pair.wanted[..stored::LENGTH].to_vec();
        newest.put_back(&mut restored);
        if stored::read(&restored).is_none() {
            return Some(BACK_NO_HALL);
        }
        let mut answer = [0; ANSWER_LENGTH];
        match calls::step(&mut restored, newest.action, &mut answer) {
            0 if restored == self.pair.wanted[..stored::LENGTH] => None,
            0 => Some(BACK_ELSEWHERE),
            _ => Some(BACK_REFUSED),
        }
    }
}

fn step_event(found: &Found, is_hall: bool, number: u32) -> Option<&'static str> {
    let flawed = !found.flaws.is_empty();
    match (number, found.plain) {
        (11, _) if flawed && !is_hall => Some(STEP_KIND_FIRST),
        (31, _) if flawed => Some(STEP_HALL_FIRST),
        (43, 0) if found.fits => flaws::name(flaws::STEP, &found.flaws),
        (43, 0) => Some(STEP_BEFORE_ROOM),
        (43, 12) => Some(STEP_BEFORE_12),
        (43, 13) => Some(STEP_BEFORE_13),
        (43, 14) => Some(STEP_BEFORE_14),
        (43, 15) => Some(STEP_BEFORE_15),
        (43, _) => Some(STEP_BEFORE_STATE),
        (12..=15, _) if !found.fits => Some(STEP_WORDS_NO_ROOM),
        (32..=40, _) if !found.fits => Some(STEP_STATE_NO_ROOM),
        (18, _) => Some(STEP_NO_ROOM),
        (0, _) if found.slots == MOST_HELD => Some(STEP_SEVENTEENTH),
        (0, _) if found.slots == MOST_HELD - 1 => Some(STEP_SIXTEENTH),
        (12..=40, _) if found.slots == MOST_HELD => Some(STEP_REFUSED_FULL),
        _ => None,
    }
}

fn settle_event(found: &Found, number: u32, steps: usize) -> Option<&'static str> {
    let flawed = !found.flaws.is_empty();
    match (number, found.plain) {
        (31, _) if flawed => Some(SETTLE_HALL_FIRST),
        (42, _) if flawed => Some(SETTLE_PRIMARY_FIRST),
        (43, 0) if found.fits => flaws::name(flaws::SETTLE, &found.flaws),
        (43, 0) => Some(SETTLE_BEFORE_ROOM),
        (43, refusal::FULL) => Some(SETTLE_BEFORE_40),
        (40, _) if found.fits => Some(SETTLE_40),
        (40, _) => Some(SETTLE_40_NO_ROOM),
        (42, _) if !found.fits => Some(SETTLE_42_NO_ROOM),
        (18, _) => Some(SETTLE_NO_ROOM),
        (0, _) if steps == 0 => Some(SETTLE_NO_STEP),
        (0, _) if steps > MOST_HELD => Some(SETTLE_LONG),
        (0, _) if found.slots + steps > MOST_HELD => Some(SETTLE_PUSHES_OUT),
        (0, _) => Some(SETTLE_SOME),
        _ => None,
    }
}

fn back_event(found: &Found, refused: Option<&'static str>, number: u32) -> Option<&'static str> {
    match number {
        31 if !found.flaws.is_empty() => Some(BACK_HALL_FIRST),
        43 => refused.or_else(|| flaws::name(flaws::BACK, &found.flaws)),
        0 if found.slots == MOST_HELD => Some(BACK_OF_SIXTEEN),
        0 if found.slots == 1 => Some(BACK_OF_ONE),
        _ => None,
    }
}
