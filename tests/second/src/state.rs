//! The records of open invocations on both sides, the resting ids, the kept answers, and when they are sound.
//! Follows docs/RULES.md, "Records", "Names", "Ids that rest" and "Kept answers", and the limits of "What is built".

use crate::code::Code;
use crate::kept::Kept;
use crate::resting::Resting;

/// An open invocation.
#[derive(Clone, Copy, Debug, Default, PartialEq, Eq)]
pub struct Record {
    pub id: i32,
    pub code: Code,
}

impl Record {
    /// 0 for an unused place.
    #[inline]
    fn rubbish(&self) -> i32 {
        match self.code {
            Code::Local(code) => self.id | code,
            Code::Name(_) => 1,
        }
    }
}

/// The records of one side: `count` live ones, then unused places of 0, 0.
#[derive(Clone, Debug, PartialEq, Eq)]
pub struct Side {
    pub count: u16,
    pub places: [Record; State::RECORDS],
}

/// Own records are invocations this end made, peer records those it received.
#[derive(Clone, Debug, PartialEq, Eq)]
pub struct State {
    pub own: Side,
    pub peer: Side,
    pub resting: Resting,
    pub kept: Kept,
}

impl State {
    pub const OCTETS: usize = 4096;
    pub const LEVELS: usize = 16;
    pub const RECORDS: usize = 32;
    pub const RESTING: usize = 64;
    pub const KEPT: usize = 8;

    pub fn fresh() -> State {
        State { own: Side::empty(), peer: Side::empty(), resting: Resting::none(), kept: Kept::none() }
    }

    pub fn is_sound(&self) -> bool {
        let records = self.own.is_sound() && self.peer.is_sound();
        records && self.resting.is_sound(&self.own) && self.kept.is_sound(&self.peer)
    }

    /// Takes over a state that calls were made from; the kept answers are copied only where a call changed them.
    pub fn restore(&mut self, before: &State) {
        let State { own, peer, resting, kept } = before;
        self.own.clone_from(own);
        self.peer.clone_from(peer);
        self.resting.clone_from(resting);
        if (self.kept.count, self.kept.ids) != (kept.count, kept.ids) {
            self.kept.clone_from(kept);
        }
    }
}

/// So many places, and every place up to the last that is not unused.
pub(crate) fn shown<T: Default + PartialEq>(places: &[T], count: usize) -> &[T] {
    let used = places.iter().rposition(|place| *place != T::default()).map_or(0, |last| last + 1);
    &places[..used.max(count)]
}

impl Side {
    pub fn empty() -> Side {
        Side { count: 0, places: [Record::default(); State::RECORDS] }
    }

    /// The records below the count, at most all places.
    #[inline]
    pub fn live(&self) -> &[Record] {
        &self.places[..usize::from(self.count).min(State::RECORDS)]
    }

    /// Each place below the count, and every place up to the last that is not 0, 0.
    pub fn shown(&self) -> &[Record] {
        shown(&self.places, self.live().len())
    }

    pub fn is_full(&self) -> bool {
        usize::from(self.count) >= State::RECORDS
    }

    pub fn is_sound(&self) -> bool {
        let count = usize::from(self.count);
        count <= State::RECORDS
            && self.places[count..].iter().fold(0, |rubbish, place| rubbish | place.rubbish()) == 0
            && !self.repeats_an_id()
            && self.live().iter().all(|record| record.code.is_right())
    }

    fn repeats_an_id(&self) -> bool {
        let live = self.live();
        (1..live.len()).any(|at| {
            // No early end: the compiler then compares several places at once.
            live[..at].iter().fold(false, |found, record| found | (record.id == live[at].id))
        })
    }

    /// The place of the record with this id.
    #[inline]
    pub fn find(&self, id: i32) -> Option<usize> {
        self.live().iter().position(|record| record.id == id)
    }

    /// A new record goes last; the side is not full.
    pub fn add(&mut self, id: i32, code: Code) {
        self.places[usize::from(self.count)] = Record { id, code };
        self.count += 1;
    }

    /// Closes the gap, order kept, and leaves 0, 0 in the place that became unused.
    pub fn retire(&mut self, at: usize) {
        let last = usize::from(self.count) - 1;
        self.places.copy_within(at + 1..=last, at);
        self.places[last] = Record::default();
        self.count -= 1;
    }
}
