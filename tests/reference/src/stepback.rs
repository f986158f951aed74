//! Steps and settles that are held in an undo buffer, and steps back (A7).

use crate::actions::Answer;
use crate::hall::Hall;
use crate::refusal;
use crate::undo::{Slot, Undo};

impl Hall {
    /// A step that is held if it is accepted.
    pub fn step_held(&mut self, undo: &mut Undo, action: [u32; 4]) -> Answer {
        let before = self.clone();
        let [k, r, a, b] = action;
        let answer = self.step(k, r, a, b);
        if !matches!(answer, Answer::Refused(_)) {
            undo.push(Slot::of(&before, action));
        }
        answer
    }

    /// A settle that is held as the steps of its run, which it gives; 42, 40.
    pub fn settle_held(&mut self, undo: &mut Undo) -> Result<Vec<[u32; 4]>, u32> {
        let steps = self.clone().settle()?;
        for &step in &steps {
            self.step_held(undo, step);
        }
        Ok(steps)
    }

    /// Takes back the newest action held; 43.
    pub fn step_back(&mut self, undo: &mut Undo) -> Result<(), u32> {
        let newest = undo.slots.last();
        let restored = newest.and_then(|slot| slot.restored(self));
        *self = restored.ok_or(refusal::UNDO)?;
        undo.slots.pop();
        Ok(())
    }
}
