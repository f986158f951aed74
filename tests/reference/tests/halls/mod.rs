//! Parts of valid halls that no run reaches.

use reference::{open_whole, Entry, Hall, Label, Message, Queued, Summary};

pub fn labelled(view: u32, seq: u32, sender: u32) -> Entry {
    Entry {
        sender,
        value: 100 * sender + seq,
        label: Some(Label { view, seq, sender }),
    }
}

/// An open hall of all recorders, with 64 labelled entries of recorder 1. Later
/// entries have lower labels.
pub fn full_hall(n: u32) -> Hall {
    let mut hall = open_whole(n);
    hall.entries = (0..64).map(|k| labelled(3, 64 - k, 1)).collect();
    hall
}

pub fn queued(source: u32, message: Message) -> Queued {
    Queued { source, message }
}

pub fn summary(known: u64, order: Vec<usize>, confirm: u32, high: u32) -> Summary {
    Summary {
        known,
        order,
        confirm,
        high,
    }
}
