//! Mistakes in a listing.

use crate::faulty;
use reference::calls::{self, ANSWER_LENGTH};
use reference::stored::{self, LENGTH};
use reference::{listing, open, read_run_file};

/// Bytes that always suffice for the listing of a file.
fn most(file: &[u8]) -> usize {
    let lines = read_run_file(file).map_or(1, |(_, actions)| actions.len() + 2);
    85 * lines
}

pub fn run_list(file: &[u8], hall: &mut [u8], text: &mut [u8], words: &mut [u8]) -> u32 {
    let length = listing(file).len();
    let refused_file = read_run_file(file).is_err();
    if faulty("18 for a text that the listing just fits") && text.len() == length {
        return 18;
    }
    if faulty("85 bytes a line asked for") && text.len() < most(file) {
        return 18;
    }
    if faulty("a hall asked for a refused file") && refused_file && hall.len() < LENGTH {
        return 18;
    }
    if faulty("a refused file is a refused call") && refused_file {
        return read_run_file(file).err().unwrap_or(0);
    }
    if faulty("listed without room for the length") && words.len() < ANSWER_LENGTH {
        let mut room = [0; ANSWER_LENGTH];
        calls::run_list(file, hall, text, &mut room);
        return 18;
    }
    if faulty("a listing that is cut") && text.len() < length && words.len() >= ANSWER_LENGTH {
        text.copy_from_slice(&listing(file)[..text.len()]);
        return 18;
    }
    if faulty("the hall opened before the text is measured") && text.len() < length {
        if let (Ok((opening, _)), true) = (read_run_file(file), hall.len() >= LENGTH) {
            let first = open(opening.n, opening.founders, opening.row());
            stored::write(&first.expect("the opening is taken"), hall);
        }
        return 18;
    }
    let before = hall.to_vec();
    let number = calls::run_list(file, hall, text, words);
    if number != 0 {
        return number;
    }
    if faulty("the length left out") {
        words[..4].fill(0);
    } else if faulty("the length without the last line's end") {
        let shorter = length as u32 - 1;
        words[..4].copy_from_slice(&shorter.to_le_bytes());
    } else if faulty("the rest of the text cleared") {
        text[length..].fill(0);
    } else if faulty("the hall left as it was") {
        hall.copy_from_slice(&before);
    } else if faulty("the hall of a refused file cleared") && refused_file {
        hall.fill(0);
    } else if faulty("the end counts swapped") && !refused_file {
        swap_counts(&mut text[..length]);
    }
    number
}

/// Swaps the two numbers of the last line.
fn swap_counts(text: &mut [u8]) {
    let listing = String::from_utf8_lossy(text).to_string();
    let end = listing.rfind("end ").expect("a listing has an end");
    let counts: Vec<&str> = listing[end..].split_whitespace().collect();
    let swapped = format!("end {} {}\n", counts[2], counts[1]);
    text[end..].copy_from_slice(swapped.as_bytes());
}
