//! The channel between two ends: it loses, repeats and reorders what they write, and adds nothing.

use std::collections::HashMap;

use crate::answer::Answer;
use crate::book::{Book, End};
use crate::random::Random;

/// How many of a hundred APDUs an end writes never arrive, and how many of the controller's where it loses many.
const LOST: [usize; 2] = [6, 14];
const MANY_LOST: usize = 50;

pub struct Channel {
    /// How many of a hundred APDUs of each end never arrive.
    losses: [usize; 2],
    /// How far each end has read the other's APDUs in order.
    read: [usize; 2],
    /// Which of an end's APDUs never arrive.
    lost: [Vec<bool>; 2],
    /// Where an answer of the controller that a probe fetched was sent first.
    fetched: HashMap<usize, usize>,
}

impl Channel {
    pub fn new(loses_many: bool) -> Self {
        let losses = if loses_many { [LOST[0], MANY_LOST] } else { LOST };
        Channel { losses, read: [0; 2], lost: Default::default(), fetched: HashMap::new() }
    }

    /// The number of the other end's APDU that an end is handed: the next one, or an old or recent one again.
    pub fn deliver(&mut self, random: &mut Random, end: End) -> Option<usize> {
        let lost = &self.lost[end.other() as usize];
        let sent = lost.len();
        if sent == 0 {
            return None;
        }
        let next = &mut self.read[end as usize];
        if random.percent(5) {
            *next += random.below(4);
        }
        while lost.get(*next).is_some_and(|lost| *lost) {
            *next += 1;
        }
        if *next < sent && random.percent(70) {
            *next += 1;
            return Some(*next - 1);
        }
        let recent = |random: &mut Random| sent - 1 - random.below(sent.min(12));
        let again = |random: &mut Random| if random.percent(83) { recent(random) } else { random.below(sent) };
        (0..20).map(|_| again(random)).find(|at| !lost[*at])
    }

    /// Takes over what an end wrote in its last call.
    pub fn take(&mut self, random: &mut Random, book: &Book, end: End, answer: &Answer<'_>) {
        let (wire, lost) = (book.wire(end), &mut self.lost[end as usize]);
        let before = lost.len();
        // What receive wrote is lost less often, so that many answers are fetched.
        let losses = if let Answer::Answered { .. } = answer { LOST[0] } else { self.losses[end as usize] };
        lost.resize_with(wire.len(), || random.percent(losses));
        if let (Answer::Answered { .. }, End::Controller, [_, kept]) = (answer, end, &wire[before..]) {
            let is_first = |at: &usize| wire[*at] == *kept && !self.fetched.contains_key(at);
            if let Some(first) = (0..before).rev().find(is_first) {
                self.fetched.insert(before + 1, first);
            }
        }
    }

    /// Whether no sending of this answer of the controller can arrive.
    pub fn has_lost(&self, book: &Book, answer: &[u8]) -> bool {
        let sent = book.wire(End::Controller).iter().zip(&self.lost[End::Controller as usize]);
        sent.filter(|(apdu, _)| *apdu == answer).all(|(_, lost)| *lost)
    }

    /// Whether an APDU of the controller is an answer that a probe fetched, and whether it was lost when it was sent first.
    pub fn fetched(&self, at: usize) -> Option<bool> {
        self.fetched.get(&at).map(|first| self.lost[End::Controller as usize][*first])
    }
}
