//! A second, independent implementation of the HL3 hall log.
//!
//! It is written from the scope document and the requests after it, their
//! readings and the figures of source document 003, without sight of the
//! engine, and serves as the outside reference in tests: plain vectors and bit sets, one function per action.
//! The rules hold on every hall whose fields are in range (`Hall::check`), not
//! only on halls reached from an opening.
//!
//! - `hall`: the fields of a hall, opening, votes and look-ups.
//! - `actions`: the eleven actions and their answers.
//! - `exchange`: what a recorder builds from the summaries of a view.
//! - `choice`: whose order it takes.
//! - `settle`: settling the hall.
//! - `page`: the page of a recorder.
//! - `check`: whether all fields are in range.
//! - `stored`: the stored form, read and written.
//! - `undo`: the undo buffer, read and written.
//! - `stepback`: held steps, held settles and steps back.
//! - `kept`: steps back by whole halls, to test these.
//! - `calls`: open, step, settle, step back, page, check, run files and their
//!   listings on lent bytes.
//! - `runfile` and `listing`: run files and the listing of a replay.
//! - `refusal`: the numbers of the refusals.

#![forbid(unsafe_code)]

pub mod actions;
pub mod calls;
pub mod check;
pub mod choice;
pub mod exchange;
pub mod hall;
pub mod kept;
pub mod listing;
pub mod page;
pub mod refusal;
pub mod runfile;
pub mod settle;
pub mod stepback;
pub mod stored;
pub mod undo;

pub use actions::Answer;
pub use hall::{
    built_in_votes, open, open_built_in, open_whole, Entry, Hall, Label, Message, Phase, Queued,
    Recorder, Seat, Summary, View, Votes,
};
pub use listing::listing;
pub use page::Page;
pub use runfile::{read_run_file, write_run_file, Opening};
