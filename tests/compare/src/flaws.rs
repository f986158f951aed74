//! What is wrong with the bytes of an undo buffer, read at the offsets of
//! docs/undo-buffer.md, and buffers with one thing wrong.

use crate::random::Random;
use reference::stored::LENGTH as HALL;
use reference::undo::{LENGTH, MOST_HELD};

/// A slot: the words, and where its two parts begin, with the room of each.
pub const SLOT: usize = 521;
pub const PARTS: [(usize, usize); 2] = [(16, 286), (310, 203)];

#[derive(Clone, Copy, Debug, PartialEq, Eq)]
pub enum Flaw {
    Short,
    Count,
    /// A length above the room of the first or the second part.
    Long(usize),
    /// A part that ends past the hall.
    Past(usize),
    /// The same, where the sum of offset and length is small in 32 bits.
    Wraps(usize),
    /// A byte after a part's bytes.
    AfterPart(usize),
    AfterSlots,
}

pub const FLAWS: [Flaw; 11] = [
    Flaw::Short,
    Flaw::Count,
    Flaw::Long(0),
    Flaw::Long(1),
    Flaw::Past(0),
    Flaw::Past(1),
    Flaw::Wraps(0),
    Flaw::Wraps(1),
    Flaw::AfterPart(0),
    Flaw::AfterPart(1),
    Flaw::AfterSlots,
];

/// The names of 43 for each flaw.
macro_rules! names {
    ($call:literal) => {
        [
            concat!($call, ": 43, too short"),
            concat!($call, ": 43, more than 16 slots"),
            concat!($call, ": 43, the first part is too long"),
            concat!($call, ": 43, the second part is too long"),
            concat!($call, ": 43, the first part ends past the hall"),
            concat!($call, ": 43, the second part ends past the hall"),
            concat!($call, ": 43, the first part ends past 2^32"),
            concat!($call, ": 43, the second part ends past 2^32"),
            concat!($call, ": 43, a byte after the first part"),
            concat!($call, ": 43, a byte after the second part"),
            concat!($call, ": 43, a byte after the slots"),
        ]
    };
}

pub const STEP: [&str; 11] = names!("held step");
pub const SETTLE: [&str; 11] = names!("held settle");
pub const BACK: [&str; 11] = names!("step back");

/// The name of a flaw that a buffer has alone.
pub fn name(names: [&'static str; 11], flaws: &[Flaw]) -> Option<&'static str> {
    let &[flaw] = flaws else {
        return None;
    };
    let place = FLAWS.iter().position(|&other| other == flaw);
    place.map(|place| names[place])
}

/// The word at an offset.
fn word_at(bytes: &[u8], at: usize) -> u64 {
    u32::from_le_bytes([bytes[at], bytes[at + 1], bytes[at + 2], bytes[at + 3]]).into()
}

fn put_word(bytes: &mut [u8], at: usize, word: u32) {
    bytes[at..at + 4].copy_from_slice(&word.to_le_bytes());
}

fn is_blank(bytes: &[u8]) -> bool {
    bytes.iter().all(|&byte| byte == 0)
}

fn flaws_of_part(slot: &[u8], part: usize) -> Vec<Flaw> {
    let (at, room) = PARTS[part];
    let (offset, length) = (word_at(slot, at), word_at(slot, at + 4));
    let end = offset + length;
    let mut flaws = Vec::new();
    if length > room as u64 {
        flaws.push(Flaw::Long(part));
    } else if !is_blank(&slot[at + 8 + length as usize..at + 8 + room]) {
        flaws.push(Flaw::AfterPart(part));
    }
    if end as u32 as u64 != end && end as u32 as usize <= HALL {
        flaws.push(Flaw::Wraps(part));
    } else if end > HALL as u64 {
        flaws.push(Flaw::Past(part));
    }
    flaws
}

/// All that is wrong with a slice that is lent as a buffer.
pub fn flaws(lent: &[u8]) -> Vec<Flaw> {
    if lent.len() < LENGTH {
        return vec![Flaw::Short];
    }
    let count = usize::from(lent[0]);
    let mut flaws = Vec::new();
    if count > MOST_HELD {
        flaws.push(Flaw::Count);
    }
    let (slots, rest) = lent[1..LENGTH].split_at(count.min(MOST_HELD) * SLOT);
    for slot in slots.chunks_exact(SLOT) {
        flaws.extend(flaws_of_part(slot, 0));
        flaws.extend(flaws_of_part(slot, 1));
    }
    if !is_blank(rest) {
        flaws.push(Flaw::AfterSlots);
    }
    flaws
}

/// A slot of a buffer, often the first or the last; a blank one is added if there
/// is none.
fn any_slot(random: &mut Random, buffer: &mut [u8]) -> usize {
    buffer[0] = buffer[0].max(1);
    let count = usize::from(buffer[0]);
    let any = random.below(count);
    let place = random.pick(&[0, count - 1, any]);
    1 + place * SLOT
}

/// Makes a buffer that is in form wrong in one thing; gives the number of bytes
/// that are lent.
pub fn spoil(random: &mut Random, buffer: &mut [u8], flaw: Flaw) -> usize {
    let length = buffer.len();
    match flaw {
        Flaw::Short => {
            let any = random.below(LENGTH);
            return random.pick(&[LENGTH - 1, LENGTH - 1, 0, 1, LENGTH - SLOT, any]);
        }
        Flaw::Count => buffer[0] = random.pick(&[17, 17, 18, 32, 128, 255]),
        Flaw::AfterSlots => after_slots(random, buffer),
        Flaw::Long(part) | Flaw::Past(part) | Flaw::Wraps(part) | Flaw::AfterPart(part) => {
            let slot = any_slot(random, buffer);
            let (at, room) = PARTS[part];
            let end = slot + at + 8 + room;
            spoil_part(random, &mut buffer[slot + at..end], flaw);
        }
    }
    length
}

fn after_slots(random: &mut Random, buffer: &mut [u8]) {
    if usize::from(buffer[0]) == MOST_HELD {
        buffer[0] -= 1;
    }
    let from = 1 + usize::from(buffer[0]) * SLOT;
    let any = from + random.below(LENGTH - from);
    let at = random.pick(&[from, LENGTH - 1, any]);
    buffer[at] = random.pick(&[1, 255]);
}

/// A part: offset, length, and its room.
fn spoil_part(random: &mut Random, part: &mut [u8], flaw: Flaw) {
    let room = part.len() - 8;
    let length = word_at(part, 4) as usize;
    match flaw {
        Flaw::Long(_) => {
            let more = random.below(HALL - room);
            put_word(part, 0, 0);
            put_word(part, 4, (room + random.pick(&[1, 1, 2, 1 + more])) as u32);
        }
        Flaw::Past(_) => {
            let first = (HALL - length + 1) as u32;
            let any = random.between(first, u32::MAX - room as u32);
            put_word(part, 0, random.pick(&[first, first, 65_536, 1 << 31, any]));
        }
        Flaw::Wraps(_) => {
            let length = length.max(1) as u32;
            put_word(part, 4, length);
            let before = random.between(1, length);
            put_word(part, 0, (u32::MAX - length + 1) + (length - before));
        }
        _ => {
            let length = length.min(room - 1);
            put_word(part, 4, length as u32);
            part[8 + length..].fill(0);
            let free = room - length;
            let any = random.below(free);
            let at = random.pick(&[0, free - 1, any]);
            part[8 + length + at] = random.pick(&[1, 255]);
        }
    }
}
