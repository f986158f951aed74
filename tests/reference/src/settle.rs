//! Settling a hall (A5): the steps that complete the log in the view with the
//! greatest number, turn by turn.

use crate::actions::{
    Answer, CONFIRM, DELIVER, ENTER, LABEL, PLACE, RECEIVE, SAFE, SEND_ENTRY, SEND_SUMMARY,
};
use crate::hall::{Hall, View};
use crate::refusal;

/// The kinds of a turn, in the order in which they are tried.
pub const KINDS: [u32; 9] = [
    ENTER,
    SEND_SUMMARY,
    SEND_ENTRY,
    LABEL,
    PLACE,
    RECEIVE,
    SAFE,
    CONFIRM,
    DELIVER,
];

/// The most steps that a settle takes.
pub const MOST_STEPS: usize = 2_392;

impl Hall {
    /// The view with the greatest number.
    pub fn greatest_view(&self) -> Option<&View> {
        self.views.iter().max_by_key(|view| view.number)
    }

    /// The view that a settle is made in, or 42.
    pub fn view_to_settle(&self) -> Result<&View, u32> {
        let greatest = self.greatest_view();
        let primary = greatest.filter(|view| self.is_primary(view));
        primary.ok_or(refusal::NOT_PRIMARY)
    }

    /// Settles the hall and gives the steps taken; 42, 40. A refused settle
    /// changes nothing.
    pub fn settle(&mut self) -> Result<Vec<[u32; 4]>, u32> {
        let greatest = self.view_to_settle()?;
        let (number, members) = (greatest.number, greatest.members);
        let mut settled = self.clone();
        let mut steps = Vec::new();
        while let Some(step) = settled.turn(number, members)? {
            steps.push(step);
        }
        *self = settled;
        Ok(steps)
    }

    /// One turn in a view: takes the first action that is not refused, or none;
    /// 40 if that is met before.
    pub fn turn(&mut self, number: u32, members: u32) -> Result<Option<[u32; 4]>, u32> {
        for action in turn_actions(number, members) {
            let [k, r, a, b] = action;
            if k != ENTER && self.recorder(r).current != number {
                continue;
            }
            match self.step(k, r, a, b) {
                Answer::Refused(refusal::FULL) => return Err(refusal::FULL),
                Answer::Refused(_) => {}
                _ => return Ok(Some(action)),
            }
        }
        Ok(None)
    }
}

/// The actions that a turn tries in a view: by kind, the lowest member first.
pub fn turn_actions(number: u32, members: u32) -> impl Iterator<Item = [u32; 4]> {
    let is_member = move |r: &u32| members >> (r - 1) & 1 == 1;
    KINDS.into_iter().flat_map(move |k| {
        let a = if matches!(k, ENTER | PLACE) {
            number
        } else {
            0
        };
        (1..=8).filter(is_member).map(move |r| [k, r, a, 0])
    })
}
