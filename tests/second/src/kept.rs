//! The answers that this end gave last, kept so that a probe can fetch them.
//! Follows docs/RULES.md, "Kept answers".

use crate::state::{Side, State};

/// The most octets of an answer that is kept.
pub const OCTETS: usize = 512;

/// `count` answers, oldest first, each with the id it was given to; then unused places, all 0.
#[derive(Clone, Debug, PartialEq, Eq)]
pub struct Kept {
    pub count: u16,
    pub ids: [i32; State::KEPT],
    pub lengths: [u16; State::KEPT],
    /// The octets of each answer with zeros behind them.
    pub store: [[u8; OCTETS]; State::KEPT],
}

impl Kept {
    pub fn none() -> Kept {
        Kept { count: 0, ids: [0; State::KEPT], lengths: [0; State::KEPT], store: [[0; OCTETS]; State::KEPT] }
    }

    /// How many answers are below the count, at most all places.
    #[inline]
    fn used(&self) -> usize {
        usize::from(self.count).min(State::KEPT)
    }

    /// The ids below the count, at most all places.
    #[inline]
    pub fn ids(&self) -> &[i32] {
        &self.ids[..self.used()]
    }

    /// The octets of the answer at a place.
    pub fn answer(&self, at: usize) -> &[u8] {
        let length = usize::from(self.lengths[at]).min(OCTETS);
        &self.store[at][..length]
    }

    /// How many places a line shows: those below the count and all up to the last that is not all 0.
    pub fn shown(&self) -> usize {
        let is_used = |at: &usize| self.ids[*at] != 0 || self.lengths[*at] != 0 || !is_zero(&self.store[*at]);
        let last = (0..State::KEPT).rev().find(is_used);
        last.map_or(0, |last| last + 1).max(self.used())
    }

    /// How many octets of a place a line shows: its length, or up to the last that is not 0.
    pub fn shown_octets(&self, at: usize) -> &[u8] {
        let last = self.store[at].iter().rposition(|octet| *octet != 0).map_or(0, |last| last + 1);
        &self.store[at][..last.max(self.answer(at).len())]
    }

    /// The place of the answer to this id.
    #[inline]
    pub fn find(&self, id: i32) -> Option<usize> {
        self.ids().iter().position(|other| *other == id)
    }

    /// Sound beside these peer records.
    #[inline]
    pub fn is_sound(&self, peer: &Side) -> bool {
        let count = usize::from(self.count);
        count <= State::KEPT
            && self.ids[count..].iter().fold(0, |rubbish, id| rubbish | id) == 0
            && self.lengths[count..].iter().fold(0, |rubbish, length| rubbish | length) == 0
            && is_zero(self.store[count..].as_flattened())
            && (count == 0 || self.answers_right() && !self.repeats_an_id(peer))
    }

    /// Whether each answer is short enough and has zeros behind its octets.
    fn answers_right(&self) -> bool {
        self.lengths[..self.used()].iter().zip(&self.store).all(|(length, octets)| {
            let length = usize::from(*length);
            length <= OCTETS && is_zero(&octets[length..])
        })
    }

    /// Whether an id stands twice, here or here and among the peer records.
    fn repeats_an_id(&self, peer: &Side) -> bool {
        // One bit for each remainder by 64: only an id whose bit is set can stand twice.
        let (ids, mut bits) = (self.ids(), 0);
        let twice = (0..ids.len()).any(|at| {
            let found = bits & bit(ids[at]) != 0 && ids[..at].contains(&ids[at]);
            bits |= bit(ids[at]);
            found
        });
        twice || peer.live().iter().any(|record| bits & bit(record.id) != 0 && ids.contains(&record.id))
    }

    /// A new answer goes last and the oldest of eight leaves; one that is too long is not kept.
    pub fn add(&mut self, id: i32, answer: &[u8]) {
        let Some(length) = u16::try_from(answer.len()).ok().filter(|length| usize::from(*length) <= OCTETS) else {
            return;
        };
        if usize::from(self.count) == State::KEPT {
            self.remove(0);
        }
        let last = usize::from(self.count);
        (self.ids[last], self.lengths[last]) = (id, length);
        self.store[last][..answer.len()].copy_from_slice(answer);
        self.count += 1;
    }

    /// Closes the gap, order kept, and leaves 0 in the place that became unused.
    pub fn remove(&mut self, at: usize) {
        let last = usize::from(self.count) - 1;
        self.ids.copy_within(at + 1..=last, at);
        self.lengths.copy_within(at + 1..=last, at);
        self.store.copy_within(at + 1..=last, at);
        (self.ids[last], self.lengths[last]) = (0, 0);
        self.store[last].fill(0);
        self.count -= 1;
    }

    /// Drops the answer to this id, if there is one.
    #[inline]
    pub fn drop_id(&mut self, id: i32) {
        if let Some(at) = self.find(id) {
            self.remove(at);
        }
    }
}

fn bit(id: i32) -> u64 {
    1 << (id & 63)
}

/// Compared in one piece, which is quicker than octet by octet.
#[inline]
fn is_zero(octets: &[u8]) -> bool {
    static ZEROS: [u8; OCTETS * State::KEPT] = [0; OCTETS * State::KEPT];
    *octets == ZEROS[..octets.len()]
}
