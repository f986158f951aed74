//! The numbers of the refusals.

/// The kind is not 1 to 11.
pub const KIND: u32 = 11;
/// The recorder is not 1 to N where used, or not 0 where unused.
pub const RECORDER: u32 = 12;
/// An unused argument is not 0.
pub const UNUSED: u32 = 13;
/// A view number is 0.
pub const VIEW_NUMBER: u32 = 14;
/// The set of a new view is empty or names a recorder above N.
pub const VIEW_SET: u32 = 15;
/// Opening with N not 1 to 8, or with founders above N.
pub const OPENING: u32 = 16;
/// The slice to open or write into is too short.
pub const SHORT_SLICE: u32 = 18;
/// The file breaks a rule of run files, or too many actions are to be written.
pub const RUN_FILE: u32 = 19;
/// The bytes are no hall's stored form.
pub const STORED_FORM: u32 = 31;
/// A 65th entry or a 33rd view.
pub const TOO_MANY: u32 = 32;
/// A new view's number does not exceed all formed ones.
pub const NOT_RISING: u32 = 33;
/// The view is not formed.
pub const NOT_FORMED: u32 = 34;
/// The recorder is not a member of the view.
pub const NOT_MEMBER: u32 = 35;
/// The view is not above the current one.
pub const NOT_ABOVE: u32 = 36;
/// There is no current view, or the phase does not allow the action.
pub const NO_VIEW_OR_PHASE: u32 = 37;
/// Nothing waits, nothing is at the mark, or the marks allow no step.
pub const NOTHING: u32 = 38;
/// Not received by a member, not safe, or not known.
pub const NOT_READY: u32 = 39;
/// A list, the sequence number or the summary's place is full, or the new
/// label exists already.
pub const FULL: u32 = 40;
/// A vote above 1,000, a vote other than 0 for a recorder above N, or a row
/// whose votes are all 0.
pub const VOTES: u32 = 41;
/// The view with the greatest number is missing or not primary.
pub const NOT_PRIMARY: u32 = 42;
/// The undo buffer is too short or not in its form, or the newest action held, if
/// there is one, cannot be taken back.
pub const UNDO: u32 = 43;
