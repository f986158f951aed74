//! Steps back without an undo buffer: the halls before the newest 16 accepted
//! actions are kept whole. It holds where all actions since then were made here.

use crate::actions::Answer;
use crate::hall::Hall;
use crate::undo::MOST_HELD;

/// A hall with those before it, oldest first.
#[derive(Clone, Debug)]
pub struct Kept {
    pub hall: Hall,
    before: Vec<Hall>,
}

impl Kept {
    /// A hall before which none is kept.
    pub fn new(hall: Hall) -> Kept {
        Kept {
            hall,
            before: Vec::new(),
        }
    }

    /// How many actions can be taken back.
    pub fn count(&self) -> usize {
        self.before.len()
    }

    pub fn step(&mut self, [k, r, a, b]: [u32; 4]) -> Answer {
        let before = self.hall.clone();
        let answer = self.hall.step(k, r, a, b);
        if !matches!(answer, Answer::Refused(_)) {
            self.before.push(before);
            self.before
                .drain(..self.before.len().saturating_sub(MOST_HELD));
        }
        answer
    }

    /// A settle counts as its steps.
    pub fn settle(&mut self) -> Result<usize, u32> {
        let steps = self.hall.clone().settle()?;
        for &step in &steps {
            self.step(step);
        }
        Ok(steps.len())
    }

    /// Whether an action was taken back.
    pub fn back(&mut self) -> bool {
        let Some(hall) = self.before.pop() else {
            return false;
        };
        self.hall = hall;
        true
    }
}
