//! The own ids that were forgotten last; no own invoke may have one of them.
//! Follows docs/RULES.md, "Ids that rest".

use crate::state::{shown, Side, State};

/// How many flags stand for all ids; ids with the same remainder share one.
const FLAGS: usize = 512;

/// `count` ids, oldest first, then unused places of 0.
#[derive(Clone, Debug, PartialEq, Eq)]
pub struct Resting {
    pub count: u16,
    pub places: [i32; State::RESTING],
}

impl Resting {
    pub fn none() -> Resting {
        Resting { count: 0, places: [0; State::RESTING] }
    }

    /// The ids below the count, at most all places.
    #[inline]
    pub fn ids(&self) -> &[i32] {
        &self.places[..usize::from(self.count).min(State::RESTING)]
    }

    /// Each place below the count, and every place up to the last that is not 0.
    pub fn shown(&self) -> &[i32] {
        shown(&self.places, self.ids().len())
    }

    #[inline]
    pub fn contains(&self, id: i32) -> bool {
        is_among(self.ids(), id)
    }

    /// Sound beside these own records.
    #[inline]
    pub fn is_sound(&self, own: &Side) -> bool {
        let count = usize::from(self.count);
        count <= State::RESTING
            && self.places[count..].iter().fold(0, |rubbish, id| rubbish | id) == 0
            && (count == 0 || !self.repeats_an_id(own))
    }

    /// Whether an id stands twice, here or here and among the own records.
    fn repeats_an_id(&self, own: &Side) -> bool {
        let (ids, mut flags) = (self.ids(), [false; FLAGS]);
        own.live().iter().for_each(|record| flags[flag(record.id)] = true);
        (0..ids.len()).any(|at| {
            let id = ids[at];
            // Only an id whose flag is set can have stood before.
            std::mem::replace(&mut flags[flag(id)], true) && (is_among(&ids[..at], id) || own.find(id).is_some())
        })
    }

    /// A new id goes last; the oldest of 64 leaves.
    pub fn add(&mut self, id: i32) {
        if usize::from(self.count) == State::RESTING {
            self.places.copy_within(1.., 0);
            self.count -= 1;
        }
        self.places[usize::from(self.count)] = id;
        self.count += 1;
    }
}

fn flag(id: i32) -> usize {
    id as usize % FLAGS
}

/// No early end: the compiler then compares several places at once.
#[inline]
fn is_among(ids: &[i32], id: i32) -> bool {
    ids.iter().fold(false, |found, other| found | (*other == id))
}
