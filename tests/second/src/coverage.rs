//! Which rows of the rules the generated scripts reach, and how often.

use crate::answer::{Answer, Problem, Refusal, REFUSALS};
use crate::faults;
use crate::forms;
use crate::frame;
use crate::generate::{self, Group, Label, Seen};
use crate::insides;
use crate::kept_calls::{FETCHED, GIVEN, NOT_FETCHED};
use crate::kept_rows;
use crate::kept_states;
use crate::looked_up;
use crate::model::Model;
use crate::named;
use crate::observe::{accepted_kinds, expects, record_limits, rejected_id_is_live, sort, value_limits};
use crate::oddities::{ARRIVALS, VALUES};
use crate::placed;
use crate::probed;
use crate::rested;
use crate::resting_calls::{ASKED_AGAIN, FORGOTTEN, STILL_RESTING};
use crate::resting_states;
use crate::rows::Rows;

pub const SEEDS: u64 = 120;
pub const CALLS: usize = 2000;
const LEAST: u64 = 50;
const LEAST_ACCEPTED_PERCENT: u64 = 30;

/// Every problem that a receive can give.
const PROBLEMS: [&str; 20] = [
    "80 00",
    "80 01 with id",
    "80 01 with 05 00",
    "80 02",
    "81 00",
    "81 01",
    "81 02",
    "81 03",
    "81 05",
    "81 06",
    "81 07",
    "82 00 without record",
    "82 00 with another code",
    "82 01",
    "82 02",
    "83 00",
    "83 01",
    "83 02",
    "83 03",
    "83 04",
];

const ACCEPTED: [&str; 27] = [
    "invoke with value",
    "invoke without value",
    "linked invoke",
    "class 5 invoke",
    "result",
    "absent result",
    "error with value",
    "error without value",
    "reject-p with id",
    "reject-p without id",
    "reject-u 81 retiring",
    "reject-u 81 without record",
    "reject-u 82",
    "reject-u 83",
    "answered",
    "sent invoke with value",
    "sent invoke without value",
    "sent linked invoke",
    "sent class 5 invoke",
    "sent result",
    "sent absent result",
    "sent error with value",
    "sent error without value",
    "sent user reject",
    "forgotten own",
    "forgotten peer",
    "same id on both sides",
];

const LIMITS: [&str; 52] = [
    "received 4095 octets, accepted",
    "received 4096 octets, accepted",
    "received 4097 octets, refused 3",
    "received 15 levels, accepted",
    "received 16 levels, accepted",
    "received 17 levels, 80 02",
    "receive lent 10, refused 2",
    "receive lent 11, accepted",
    "receive lent 11, refused 18",
    "receive lent 12, accepted",
    "invoke of 4095 octets, sent",
    "invoke of 4096 octets, sent",
    "invoke of 4097 octets, refused 15",
    "result of 4095 octets, sent",
    "result of 4096 octets, sent",
    "result of 4097 octets, refused 15",
    "error of 4095 octets, sent",
    "error of 4096 octets, sent",
    "error of 4097 octets, refused 15",
    "invoke of 15 levels, sent",
    "invoke of 16 levels, sent",
    "invoke of 17 levels, refused 15",
    "result of 15 levels, sent",
    "result of 16 levels, sent",
    "result of 17 levels, refused 15",
    "error of 15 levels, sent",
    "error of 16 levels, sent",
    "error of 17 levels, refused 15",
    "invoke lent one less, refused 2",
    "invoke lent exactly, sent",
    "invoke lent one more, sent",
    "result lent one less, refused 2",
    "result lent exactly, sent",
    "result lent one more, sent",
    "error lent one less, refused 2",
    "error lent exactly, sent",
    "error lent one more, sent",
    "user reject lent one less, refused 2",
    "user reject lent exactly, sent",
    "user reject lent one more, sent",
    "31 own records, sent",
    "32 own records, refused 14",
    "32 own records, class 5 sent",
    "31 peer records, accepted",
    "32 peer records, 81 03",
    "32 peer records, class 5 accepted",
    "value of 16 levels, refused 15",
    "value of 17 levels, refused 9",
    "value over 4096 octets, refused 15",
    "table lacks an own record's code",
    "table lacks a peer record's code",
    "live 0, 0, accepted",
];

const PARTS: [&str; 5] = ["operations", "errors", "error pairs", "child pairs", "names"];

/// What a call can follow.
const FOLLOWED: [&str; 8] = [
    "an invoke",
    "an answer",
    "a reject",
    "an answered probe or acknowledge",
    "a request",
    "a forget",
    "refusal 18",
    "another refusal",
];

/// How often each row occurred.
pub struct Coverage {
    rows: Rows,
    calls: u64,
    accepted: u64,
    before: &'static str,
}

impl Default for Coverage {
    fn default() -> Self {
        let mut coverage = Coverage { rows: Rows::default(), calls: 0, accepted: 0, before: "nothing" };
        for (call, refusals) in REFUSALS {
            refusals.iter().for_each(|number| coverage.row(format!("{call}: refused {number}")));
        }
        PROBLEMS.iter().for_each(|problem| coverage.row(format!("receive: {problem}")));
        ACCEPTED.iter().for_each(|kind| coverage.row(format!("accepted: {kind}")));
        LIMITS.iter().for_each(|limit| coverage.row(format!("limit: {limit}")));
        for (part, most) in PARTS.iter().zip(Model::MOST) {
            coverage.row(format!("limit: table of {} {part}, accepted", most - 1));
            coverage.row(format!("limit: table of {most} {part}, accepted"));
        }
        for (group, names) in groups() {
            names.iter().for_each(|name| coverage.row(label_row((group, name))));
        }
        looked_up::rows().into_iter().for_each(|row| coverage.row(row));
        forms::rows().into_iter().for_each(|row| coverage.row(row));
        placed::rows().into_iter().for_each(|row| coverage.row(row));
        named::rows().into_iter().for_each(|row| coverage.row(row));
        rested::rows().into_iter().for_each(|row| coverage.row(row));
        probed::rows().into_iter().for_each(|row| coverage.row(row));
        kept_rows::rows().into_iter().for_each(|row| coverage.row(row));
        coverage.row("limit: table of 5144 octets, accepted".to_string());
        FOLLOWED.iter().for_each(|kind| coverage.row(format!("follow-up: accepted after {kind}")));
        coverage
    }
}

impl Coverage {
    /// Watches generated scripts of so many seeds and calls.
    pub fn of(seeds: u64, calls: usize) -> Coverage {
        let mut coverage = Coverage::default();
        for seed in 1..=seeds {
            generate::watch(seed, calls, &mut |seen| coverage.note(seen));
        }
        coverage
    }

    /// Adds a row that must occur.
    fn row(&mut self, row: String) {
        self.rows.add(row);
    }

    /// Counts an occurrence, if there is such a row.
    fn count(&mut self, row: String) {
        self.rows.count(&row);
    }

    fn note(&mut self, seen: &Seen<'_>) {
        let call = REFUSALS[usize::from(seen.frame.kind - frame::RECEIVE)].0;
        self.calls += 1;
        self.accepted += u64::from(seen.answer.is_accepted());
        match seen.answer {
            Answer::Refused(refusal) => self.note_refusal(call, seen, *refusal),
            answer => self.note_accepted(seen, answer),
        }
        for limit in record_limits(seen) {
            self.count(format!("limit: {limit}"));
        }
        for limit in value_limits(call, seen) {
            self.count(format!("limit: {limit}"));
        }
        looked_up::rows_of(seen).into_iter().for_each(|row| self.count(row));
        forms::rows_of(call, seen).into_iter().for_each(|row| self.count(row));
        placed::rows_of(call, seen).into_iter().for_each(|row| self.count(row));
        named::rows_of(call, seen).into_iter().for_each(|row| self.count(row));
        rested::rows_of(call, seen).into_iter().for_each(|row| self.count(row));
        probed::rows_of(seen).into_iter().for_each(|row| self.count(row));
        kept_rows::rows_of(seen).into_iter().for_each(|row| self.count(row));
        if let Some(label) = seen.label.filter(|label| expects(label.0, seen)) {
            self.count(label_row(label));
        }
        if seen.follows && seen.answer.is_accepted() {
            self.count(format!("follow-up: accepted after {}", self.before));
        }
        self.before = sort(seen.answer);
    }

    fn note_refusal(&mut self, call: &str, seen: &Seen<'_>, refusal: Refusal) {
        self.count(format!("{call}: refused {}", refusal.number()));
        let Refusal::Rejected { problem, .. } = refusal else { return };
        let (kind, number) = problem.octets();
        let more = match problem {
            Problem::MISTYPED_APDU if seen.written[2] == 0x05 => " with 05 00",
            Problem::MISTYPED_APDU => " with id",
            Problem::RESULT_UNRECOGNIZED_INVOCATION if rejected_id_is_live(seen) => " with another code",
            Problem::RESULT_UNRECOGNIZED_INVOCATION => " without record",
            _ => "",
        };
        self.count(format!("receive: {kind:02x} {number:02x}{more}"));
    }

    fn note_accepted(&mut self, seen: &Seen<'_>, answer: &Answer<'_>) {
        for kind in accepted_kinds(seen, answer) {
            self.count(format!("accepted: {kind}"));
        }
        let [own, peer] = [&seen.before.own, &seen.before.peer].map(|side| side.live());
        if own.iter().any(|own| peer.iter().any(|peer| peer.id == own.id)) {
            self.count("accepted: same id on both sides".to_string());
        }
        let header = if seen.table.starts_with(&[0xFF]) { &seen.table[4..24] } else { &seen.table[..16] };
        for ((part, most), entry) in PARTS.iter().zip(Model::MOST).zip(header.chunks_exact(4)) {
            let count = usize::from(u16::from_be_bytes([entry[0], entry[1]]));
            if count == most || count == most - 1 {
                self.count(format!("limit: table of {count} {part}, accepted"));
            }
        }
        self.count(format!("limit: table of {} octets, accepted", seen.table.len()));
    }

    /// The table of rows, and whether each occurred often enough.
    pub fn report(&self) -> (String, bool) {
        let accepted = self.accepted * 100 >= self.calls * LEAST_ACCEPTED_PERCENT;
        let (mut text, enough) = (self.rows.text(LEAST), accepted && self.rows.least() >= LEAST);
        let percent = self.accepted as f64 * 100.0 / self.calls.max(1) as f64;
        text += &format!("{} calls, {percent:.1} in 100 accepted, {} rows", self.calls, self.rows.len());
        text += &format!(", each needs {LEAST}: {}\n", if enough { "enough" } else { "NOT ENOUGH" });
        (text, enough)
    }
}

fn groups() -> Vec<(Group, Vec<&'static str>)> {
    let mut groups = vec![
        (Group::InvalidTable, faults::table_names()),
        (Group::UnsoundState, faults::states().into_iter().map(|(name, _)| name).collect()),
        (Group::SoundState, resting_states::SOUND.iter().chain(kept_states::SOUND).map(|(name, _)| *name).collect()),
        (Group::Forgotten, FORGOTTEN.to_vec()),
        (Group::AskedAgain, ASKED_AGAIN.to_vec()),
        (Group::StillResting, STILL_RESTING.to_vec()),
        (Group::RightInside, insides::RIGHT.iter().map(|(name, ..)| *name).collect()),
        (Group::WrongInside, insides::WRONG.iter().map(|(name, ..)| *name).collect()),
        (Group::KeptInARow, GIVEN.to_vec()),
        (Group::Fetched, FETCHED.to_vec()),
        (Group::NotFetched, NOT_FETCHED.to_vec()),
        (Group::Damaged, vec!["octets changed, dropped or added", "00 00 dropped, repeated, changed or added"]),
    ];
    let lists = ARRIVALS.iter().chain(VALUES);
    groups.extend(lists.map(|(group, list)| (*group, list.iter().map(|(name, _)| *name).collect())));
    groups
}

fn label_row((group, name): Label) -> String {
    format!("{group:?}: {name}")
}
