//! What drawn captures reach of probe and acknowledge: what was found, and what stands around it.
//! Follows docs/RULES.md, "A day's capture, replayed" and "Probe and acknowledge".

use std::collections::BTreeSet;

use crate::answer::Indication;
use crate::apdu::{self, Apdu, Invoke};
use crate::capture::Entry;
use crate::code::Code;
use crate::kept::OCTETS;
use crate::octets;
use crate::probe::{self, PROBE};
use crate::replay::{Step, Written};

/// What a capture that agrees can have.
pub const AGREES: [&str; 13] = [
    "a probe: running",
    "a probe: finished",
    "a probe: unknown",
    "a probe of an id that was answered before: unknown",
    "an acknowledge: acknowledged",
    "an acknowledge: unknown",
    "a fetched answer",
    "a fetched answer of 512 octets",
    "an answer fetched twice",
    "a result sent over 512 octets",
    "an entry behind a fetched answer",
    "an Invoke with an answered id received",
    "a probe of indefinite length",
];

/// What a day showed so far.
#[derive(Default)]
pub struct Probed {
    /// The code of the last probe or acknowledge and the id that it asked about.
    asked: Option<(i32, i32)>,
    answered: BTreeSet<i32>,
    fetched: BTreeSet<i32>,
    /// Whether the last entry was a fetched answer.
    behind: bool,
}

impl Probed {
    /// What an entry shows.
    pub fn note(&mut self, entry: Entry<'_>, step: &Step<'_>) -> Vec<&'static str> {
        let behind = std::mem::replace(&mut self.behind, matches!(step, Step::Found(Written::KeptAnswer)));
        let mut things: Vec<&str> = behind.then_some("an entry behind a fetched answer").into_iter().collect();
        match step {
            Step::Answered => {
                self.asked = asked(entry.octets);
                things.extend(octets::is_indefinite(entry.octets).then_some("a probe of indefinite length"));
            }
            Step::Found(Written::Result) => things.extend(self.found(entry.octets.last().copied())),
            Step::Found(Written::KeptAnswer) => {
                things.push("a fetched answer");
                things.extend((entry.octets.len() == OCTETS).then_some("a fetched answer of 512 octets"));
                let asked = self.asked.map_or(0, |(_, asked)| asked);
                things.extend((!self.fetched.insert(asked)).then_some("an answer fetched twice"));
            }
            Step::Sent(Apdu::Result { id, .. } | Apdu::Error { id, .. }) => {
                self.answered.insert(*id);
                things.extend((entry.octets.len() > OCTETS).then_some("a result sent over 512 octets"));
            }
            Step::Indicated(Indication::Invoke { id, .. }) => {
                things.extend(self.answered.contains(id).then_some("an Invoke with an answered id received"));
            }
            _ => {}
        }
        things
    }

    /// What a result says of the id that was asked about.
    fn found(&self, number: Option<u8>) -> Vec<&'static str> {
        let Some((code, asked)) = self.asked else { return Vec::new() };
        let mut things = vec![match (code == PROBE, number) {
            (true, Some(0)) => "a probe: running",
            (true, Some(1)) => "a probe: finished",
            (true, _) => "a probe: unknown",
            (false, Some(0)) => "an acknowledge: acknowledged",
            (false, _) => "an acknowledge: unknown",
        }];
        let gone = things[0] == "a probe: unknown" && self.answered.contains(&asked);
        things.extend(gone.then_some("a probe of an id that was answered before: unknown"));
        things
    }
}

fn asked(octets: &[u8]) -> Option<(i32, i32)> {
    let Ok(Apdu::Invoke(Invoke { code: Some(Code::Local(code)), value: Some(value), .. })) = apdu::read(octets) else {
        return None;
    };
    Some((code, probe::asked_id(code, value)?))
}
