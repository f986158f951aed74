//! The undo buffer (A7, docs/undo-buffer.md): of up to 16 accepted actions,
//! oldest first, the words and the two parts of the hall's stored form that the
//! action may write, as they were before it.
//!
//! The buffer has the number of slots in one byte, then 16 slots. A slot has the
//! four words, then each part: offset, length, and room for the longest part.
//! All that is not in use is blank, so that there is just one form.

use crate::actions::{Answer, FORM, LABEL, PLACE, RECEIVE, SAFE, SEND_ENTRY, SEND_SUMMARY, SUBMIT};
use crate::hall::Hall;
use crate::stored::{
    self, entry_place, queue_place, read_cells, recorder_place, seat_place, view_place, Place,
    Source, Target, ENTRY_COUNT, RECORDER, SEAT, VIEW_COUNT,
};

/// The most actions held.
pub const MOST_HELD: usize = 16;
/// The longest first part is a recorder, the longest second one a seat.
const ROOMS: [usize; 2] = [RECORDER, SEAT];
const SLOT: usize = 4 * 4 + (2 * 4 + ROOMS[0]) + (2 * 4 + ROOMS[1]);

/// Bytes of an undo buffer.
pub const LENGTH: usize = 1 + MOST_HELD * SLOT;

/// Bytes of a stored hall, and where they were.
#[derive(Clone, Debug, PartialEq, Eq)]
pub struct Part {
    pub offset: usize,
    pub bytes: Vec<u8>,
}

/// An action that is held.
#[derive(Clone, Debug, PartialEq, Eq)]
pub struct Slot {
    pub action: [u32; 4],
    pub parts: [Part; 2],
}

/// The actions held, oldest first.
#[derive(Clone, Debug, Default, PartialEq, Eq)]
pub struct Undo {
    pub slots: Vec<Slot>,
}

/// Where the parts are that an action may write which the hall accepts.
fn places(hall: &Hall, [k, r, a, _]: [u32; 4]) -> [Place; 2] {
    let current = |r| seat_place(r, hall.current_index(r).expect("R is in a view"));
    let waiting = |r| hall.first_waiting(r).expect("an entry waits");
    match k {
        SUBMIT => [entry_place(hall.entries.len()), ENTRY_COUNT],
        LABEL => [recorder_place(r), entry_place(waiting(r))],
        SEND_ENTRY | SEND_SUMMARY | RECEIVE | SAFE => [recorder_place(r), current(r)],
        FORM => [view_place(hall.views.len()), VIEW_COUNT],
        PLACE => {
            let index = hall.view_index(a).expect("view A is formed");
            [queue_place(index), seat_place(r, index)]
        }
        _ => [recorder_place(r), 0..0],
    }
}

impl Slot {
    /// The slot of an action that the hall accepts.
    pub fn of(hall: &Hall, action: [u32; 4]) -> Slot {
        let form = stored::form(hall);
        let part = |place: Place| Part {
            offset: place.start,
            bytes: form[place].to_vec(),
        };
        Slot {
            action,
            parts: places(hall, action).map(part),
        }
    }

    /// Puts both parts back where they were, the second one last.
    pub fn put_back(&self, form: &mut [u8]) {
        for Part { offset, bytes } in &self.parts {
            form[*offset..offset + bytes.len()].copy_from_slice(bytes);
        }
    }

    /// The hall that a step back would restore. The action must lead from it to
    /// this one.
    pub fn restored(&self, hall: &Hall) -> Option<Hall> {
        let mut form = stored::form(hall);
        self.put_back(&mut form);
        let restored = stored::read(&form)?;
        let mut again = restored.clone();
        let [k, r, a, b] = self.action;
        let answer = again.step(k, r, a, b);
        let leads = !matches!(answer, Answer::Refused(_)) && again == *hall;
        leads.then_some(restored)
    }
}

impl Undo {
    /// Holds one action more; a 17th pushes out the oldest.
    pub fn push(&mut self, slot: Slot) {
        if self.slots.len() == MOST_HELD {
            self.slots.remove(0);
        }
        self.slots.push(slot);
    }

    /// What a slice begins with.
    pub fn read(bytes: &[u8]) -> Option<Undo> {
        let mut source = Source(bytes.get(..LENGTH)?);
        let count = usize::from(source.byte());
        let slots = read_cells(&mut source, (count, MOST_HELD, SLOT), read_slot)?;
        Some(Undo { slots })
    }

    /// Writes a slice's first `LENGTH` bytes.
    pub fn write(&self, bytes: &mut [u8]) {
        let mut target = Target::blank(&mut bytes[..LENGTH]);
        target.count(self.slots.len());
        for slot in &self.slots {
            write_slot(&mut target, slot);
        }
    }

    pub fn form(&self) -> Vec<u8> {
        let mut bytes = vec![0; LENGTH];
        self.write(&mut bytes);
        bytes
    }
}

/// A part that lies within a stored hall.
fn read_part(source: &mut Source, room: usize) -> Option<Part> {
    let offset = source.word() as usize;
    let length = source.word() as usize;
    if length > room || offset + length > stored::LENGTH {
        return None;
    }
    let bytes = source.bytes(length).to_vec();
    source.blank(room - length)?;
    Some(Part { offset, bytes })
}

fn read_slot(source: &mut Source) -> Option<Slot> {
    let action = [0; 4].map(|_: u32| source.word());
    let [first, second] = ROOMS;
    Some(Slot {
        action,
        parts: [read_part(source, first)?, read_part(source, second)?],
    })
}

fn write_slot(target: &mut Target, slot: &Slot) {
    for word in slot.action {
        target.word(word);
    }
    for (part, room) in slot.parts.iter().zip(ROOMS) {
        target.word(part.offset as u32);
        target.word(part.bytes.len() as u32);
        target.bytes_in(&part.bytes, room);
    }
}
