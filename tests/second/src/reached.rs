//! What drawn captures reach: each answer, each way to it, and each thing done to a day.

use std::collections::BTreeSet;

use crate::answer::{Answer, Indication, Problem};
use crate::apdu::{self, Apdu, Invoke};
use crate::capture::{self, Entry, Kind};
use crate::captures::{self, Drawn};
use crate::changed::CHANGES;
use crate::damaged::DAMAGES;
use crate::engine::Invocation;
use crate::octets;
use crate::probe_days;
use crate::probed_day::{self, Probed};
use crate::replay::{self, Step, Verdict, Written};
use crate::rows::Rows;
use crate::slips::SLIPS;
use crate::state::State;
use crate::ways::{self, code_field, DIFFERS, MALFORMED, TABLE_FIRST};

/// How many captures `coverage` draws, and how often each row must occur in them.
pub const CAPTURES: u64 = 12_500;
pub const LEAST: u64 = 50;

/// What a capture that agrees can have.
const AGREES: [&str; 49] = [
    "no entries",
    "one entry",
    "1,000 entries",
    "60,000 octets",
    "a received entry of 4,096 octets",
    "a sent entry of 4,096 octets",
    "an entry of one octet",
    "a Reject awaited and found",
    "a Reject found that a user could have asked for",
    "a 17 passed over",
    "an invoke received",
    "a linked invoke received",
    "a result received",
    "an absent result received",
    "an error received",
    "a user's Reject received",
    "a provider's Reject received",
    "an invoke sent",
    "a linked invoke sent",
    "a result sent",
    "an absent result sent",
    "an error sent",
    "an error with a value sent",
    "a user reject sent",
    "an own record forgotten",
    "a peer record forgotten",
    "an own id used again",
    "an own id used again after its answer",
    "an own id used again after 64 more were forgotten",
    "an own record forgotten while 64 ids rest",
    "a late answer to a resting id with its Reject",
    "an invoke of indefinite length received",
    "a result of indefinite length received",
    "an error of indefinite length received",
    "another APDU of indefinite length received",
    "an indefinite value received",
    "an indefinite value sent",
    "an APDU of indefinite length with its Reject",
    "an entry of 4,096 octets with an indefinite value",
    "an entry behind a refused APDU's Reject",
    "an invoke with a name received",
    "a result with a name received",
    "an error with a name received",
    "an invoke with a name sent",
    "a result with a name sent",
    "an error with a name sent",
    "an entry of 4,096 octets with a name",
    "a refused name with its Reject",
    "a table of 5,144 octets",
];

/// What captures reached, as rows.
pub struct Reached {
    pub rows: Rows,
    pub captures: u64,
}

impl Default for Reached {
    fn default() -> Self {
        let mut rows = Rows::default();
        let slips = SLIPS.iter().chain(probe_days::SLIPS);
        let names = captures::PLAIN.iter().chain(slips.map(|(name, ..)| name));
        let names = names.chain(CHANGES.iter().map(|(name, _)| name)).chain(DAMAGES.iter().map(|(name, ..)| name));
        let names = names.chain(captures::TABLES.iter().map(|(name, _)| name));
        names.for_each(|name| rows.add(format!("capture: {name}")));
        AGREES.iter().chain(&probed_day::AGREES).for_each(|row| rows.add(format!("agrees: {row}")));
        DIFFERS.iter().for_each(|row| rows.add(format!("differs: {row}")));
        TABLE_FIRST.iter().for_each(|row| rows.add(row.to_string()));
        MALFORMED.iter().for_each(|row| rows.add(format!("refused 20: {row}")));
        Reached { rows, captures: 0 }
    }
}

impl Reached {
    /// What the captures of so many seeds reach.
    pub fn of(captures: u64) -> Self {
        let mut reached = Reached::default();
        (0..captures).for_each(|seed| drop(reached.note(&captures::draw(seed))));
        reached
    }

    /// Counts what a capture reaches; gives its line.
    pub fn note(&mut self, drawn: &Drawn) -> String {
        let mut things = BTreeSet::new();
        let (mut ids, mut probed, mut rejected) = (Ids::default(), Probed::default(), false);
        let verdict = replay::watch(&drawn.table, &drawn.capture, |entry, step| {
            things.extend(
                thing(&step).into_iter().chain(limit(entry)).chain(forms(entry, &step)).chain(names(entry, &step)),
            );
            things.extend(ids.note(entry, &step));
            things.extend(probed.note(entry, &step));
            things.extend(rejected.then_some("an entry behind a refused APDU's Reject"));
            rejected |= matches!(step, Step::Found(Written::Reject));
        });
        let way = ways::name(&verdict, &drawn.capture);
        self.captures += 1;
        if drawn.way.is_none_or(|wanted| wanted == way) {
            self.rows.count(&format!("capture: {}", drawn.name));
        }
        match verdict {
            Verdict::Agrees { entries } => {
                things.extend((entries == 0).then_some("no entries"));
                things.extend((entries == 1).then_some("one entry"));
                things.extend((entries == capture::ENTRIES).then_some("1,000 entries"));
                things.extend((drawn.capture.len() == capture::OCTETS).then_some("60,000 octets"));
                things.extend((drawn.table.len() == replay::TABLE_OCTETS).then_some("a table of 5,144 octets"));
                things.iter().for_each(|thing| self.rows.count(&format!("agrees: {thing}")));
            }
            Verdict::Differs { .. } => self.rows.count(&format!("differs: {way}")),
            Verdict::Malformed(_) => self.rows.count(&format!("refused 20: {way}")),
            Verdict::InvalidTable => self.rows.count(&way),
        }
        verdict.line()
    }

    /// The table of rows, and whether each occurred often enough.
    pub fn report(&self, needed: u64) -> (String, bool) {
        let enough = self.rows.least() >= needed;
        let said = if enough { "enough" } else { "NOT ENOUGH" };
        let counted = format!("{} captures, {} rows, each needs {needed}", self.captures, self.rows.len());
        (format!("{}{counted}: {said}\n", self.rows.text(needed)), enough)
    }
}

/// The own ids of a day so far.
#[derive(Default)]
struct Ids {
    used: BTreeSet<i32>,
    answered: BTreeSet<i32>,
    forgotten: Vec<i32>,
}

impl Ids {
    /// What an entry shows of an own id's use.
    fn note(&mut self, entry: Entry<'_>, step: &Step<'_>) -> Vec<&'static str> {
        let mut things = Vec::new();
        match *step {
            Step::Sent(Apdu::Invoke(Invoke { id, .. })) if !self.used.insert(id) => {
                things.push("an own id used again");
                things.extend(self.answered.contains(&id).then_some("an own id used again after its answer"));
                let left = self.forgotten.contains(&id);
                things.extend(left.then_some("an own id used again after 64 more were forgotten"));
            }
            Step::Indicated(
                Indication::Result { id, .. } | Indication::AbsentResult { id, .. } | Indication::Error { id, .. },
            ) => drop(self.answered.insert(id)),
            Step::Forgotten(Invocation::Own(id)) => {
                let full = self.forgotten.len() >= State::RESTING;
                things.extend(full.then_some("an own record forgotten while 64 ids rest"));
                self.forgotten.push(id);
            }
            Step::Rejected(_) => {
                things.extend(self.is_late(entry).then_some("a late answer to a resting id with its Reject"))
            }
            _ => {}
        }
        things
    }

    /// Whether an entry is an answer to an id that rests.
    fn is_late(&self, entry: Entry<'_>) -> bool {
        match apdu::read(entry.octets) {
            Ok(Apdu::Result { id, .. } | Apdu::Error { id, .. }) => {
                self.forgotten.iter().rev().take(State::RESTING).any(|other| *other == id)
            }
            _ => false,
        }
    }
}

/// What an entry is that does not differ.
fn thing(step: &Step<'_>) -> Option<&'static str> {
    Some(match step {
        Step::Indicated(Indication::Invoke { linked: Some(_), .. }) => "a linked invoke received",
        Step::Indicated(Indication::Invoke { .. }) => "an invoke received",
        Step::Indicated(Indication::Result { .. }) => "a result received",
        Step::Indicated(Indication::AbsentResult { .. }) => "an absent result received",
        Step::Indicated(Indication::Error { .. }) => "an error received",
        Step::Indicated(Indication::UserReject { .. }) => "a user's Reject received",
        Step::Indicated(Indication::ProviderReject { .. }) => "a provider's Reject received",
        Step::Rejected(Problem::Invoke(2..=4)) => "a Reject found that a user could have asked for",
        Step::Rejected(_) | Step::Answered | Step::Found(Written::Result | Written::KeptAnswer) => return None,
        Step::PassedOver => "a 17 passed over",
        Step::Found(Written::Reject) => "a Reject awaited and found",
        Step::Sent(Apdu::Invoke(Invoke { linked: Some(_), .. })) => "a linked invoke sent",
        Step::Sent(Apdu::Invoke(_)) => "an invoke sent",
        Step::Sent(Apdu::Result { returned: Some(_), .. }) => "a result sent",
        Step::Sent(Apdu::Result { .. }) => "an absent result sent",
        Step::Sent(Apdu::Error { value: Some(_), .. }) => "an error with a value sent",
        Step::Sent(Apdu::Error { .. }) => "an error sent",
        Step::Sent(Apdu::Reject { .. }) => "a user reject sent",
        Step::Forgotten(Invocation::Own(_)) => "an own record forgotten",
        Step::Forgotten(Invocation::Peer(_)) => "a peer record forgotten",
    })
}

/// Where an indefinite length stands in an entry that does not differ.
fn forms(entry: Entry<'_>, step: &Step<'_>) -> Vec<&'static str> {
    let value = match step {
        Step::Indicated(indication) => Answer::Indicated(*indication).value(),
        Step::Sent(apdu) => apdu.value(),
        _ => None,
    };
    let mut forms = Vec::new();
    if value.is_some_and(octets::is_indefinite) {
        forms.push(match entry.kind {
            Kind::Received => "an indefinite value received",
            _ => "an indefinite value sent",
        });
        let full = entry.octets.len() == State::OCTETS;
        forms.extend(full.then_some("an entry of 4,096 octets with an indefinite value"));
    }
    if octets::is_indefinite(entry.octets) {
        forms.extend(match step {
            Step::Indicated(Indication::Invoke { .. }) => Some("an invoke of indefinite length received"),
            Step::Indicated(Indication::Result { .. }) => Some("a result of indefinite length received"),
            Step::Indicated(Indication::Error { .. }) => Some("an error of indefinite length received"),
            Step::Indicated(_) => Some("another APDU of indefinite length received"),
            Step::Rejected(_) => Some("an APDU of indefinite length with its Reject"),
            _ => None,
        });
    }
    forms
}

/// What an entry with a name is that does not differ.
fn names(entry: Entry<'_>, step: &Step<'_>) -> Vec<&'static str> {
    if code_field(entry.octets).is_none_or(|field| field.identifier() != 0x06) {
        return Vec::new();
    }
    let thing = match step {
        Step::Indicated(Indication::Invoke { .. }) => "an invoke with a name received",
        Step::Indicated(Indication::Result { .. }) => "a result with a name received",
        Step::Indicated(Indication::Error { .. }) => "an error with a name received",
        Step::Sent(Apdu::Invoke(_)) => "an invoke with a name sent",
        Step::Sent(Apdu::Result { .. }) => "a result with a name sent",
        Step::Sent(Apdu::Error { .. }) => "an error with a name sent",
        Step::Rejected(_) => "a refused name with its Reject",
        _ => return Vec::new(),
    };
    let full = entry.octets.len() == State::OCTETS && !matches!(step, Step::Rejected(_));
    [thing].into_iter().chain(full.then_some("an entry of 4,096 octets with a name")).collect()
}

/// The limit that an entry is at.
fn limit(entry: Entry<'_>) -> Option<&'static str> {
    match (entry.kind, entry.octets.len()) {
        (_, 1) => Some("an entry of one octet"),
        (Kind::Received, State::OCTETS) => Some("a received entry of 4,096 octets"),
        (Kind::Sent, State::OCTETS) => Some("a sent entry of 4,096 octets"),
        _ => None,
    }
}
