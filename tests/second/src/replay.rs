//! Replays a capture on a fresh end: what was received is received again, what was sent is asked for again.
//! Follows docs/RULES.md, "A day's capture, replayed", with names, kept answers and probes.

use std::ffi::OsStr;
use std::fs::File;
use std::io::{self, ErrorKind, Read};

use crate::answer::{Indication, Problem, Received, Refusal};
use crate::apdu::{self, Apdu, Invoke};
use crate::capture::{self, Entry, Kind, Malformed, Reader};
use crate::engine::{self, Invocation};
use crate::state::State;
use crate::table::Table;

/// The most octets of a valid table.
pub const TABLE_OCTETS: usize = 5144;

/// What a replay says.
#[derive(Clone, Copy, Debug, PartialEq, Eq)]
pub enum Verdict {
    Agrees { entries: usize },
    Differs { place: usize, how: How },
    InvalidTable,
    Malformed(Malformed),
}

impl Verdict {
    /// The line, with its end.
    pub fn line(&self) -> String {
        match self {
            Verdict::Agrees { entries } => format!("entries {entries} agree\n"),
            Verdict::Differs { place, .. } => format!("entry {place} differs\n"),
            Verdict::InvalidTable => "refused 1\n".to_string(),
            Verdict::Malformed(_) => "refused 20\n".to_string(),
        }
    }
}

/// How an entry differs.
#[derive(Clone, Copy, Debug, PartialEq, Eq)]
pub enum How {
    /// The request or forget of this name was refused.
    Refused(&'static str, u8),
    /// The request of this name wrote other octets.
    OtherOctets(&'static str),
    /// Sent octets that are no APDU with right fields.
    Unreadable(Problem),
    /// A sent code that is no table code.
    ForeignCode,
    /// A sent Reject with another problem than an invoke problem, or without an id.
    NoUserReject(Option<i32>, Problem),
    /// A forget whose side is neither own nor peer.
    OtherSide,
    /// No entry where an APDU is awaited that receive wrote, one that is not sent, or one with other octets.
    Missing(Written),
    NotSent(Written),
    Other(Written),
}

/// What receive writes.
#[derive(Clone, Copy, Debug, PartialEq, Eq)]
pub enum Written {
    Reject,
    /// The result of a probe or acknowledge.
    Result,
    KeptAnswer,
}

/// What an entry did that does not differ.
pub enum Step<'a> {
    Indicated(Indication<'a>),
    /// Refusal 18; the Reject is awaited.
    Rejected(Problem),
    /// Refusal 17.
    PassedOver,
    /// A probe or acknowledge; its result is awaited.
    Answered,
    /// The awaited APDU.
    Found(Written),
    Sent(Apdu<'a>),
    Forgotten(Invocation),
}

/// One end that a capture is played on.
pub struct End<'t> {
    table: &'t [u8],
    pub state: State,
    output: [u8; State::OCTETS],
    awaited: Option<Awaited>,
}

/// An APDU that must be the next sent entry: its place in the output, and how many octets of a kept answer stand behind.
struct Awaited {
    what: Written,
    start: usize,
    end: usize,
    kept: usize,
}

impl<'t> End<'t> {
    pub fn fresh(table: &'t [u8]) -> Self {
        End { table, state: State::fresh(), output: [0; State::OCTETS], awaited: None }
    }

    /// Plays an entry; none may follow one that differs.
    #[inline]
    pub fn play<'a>(&mut self, entry: Entry<'a>) -> Result<Step<'a>, How> {
        match (self.awaited.take(), entry.kind) {
            (Some(awaited), _) => self.find(awaited, entry),
            (None, Kind::Received) => self.received(entry.octets),
            (None, Kind::Sent) => self.sent(entry.octets),
            (None, Kind::Forget) => self.forget(entry.octets),
        }
    }

    /// Holds an entry against what receive wrote.
    fn find<'a>(&mut self, awaited: Awaited, entry: Entry<'_>) -> Result<Step<'a>, How> {
        let Awaited { what, start, end, kept } = awaited;
        if kept > 0 {
            self.awaited = Some(Awaited { what: Written::KeptAnswer, start: end, end: end + kept, kept: 0 });
        }
        match entry.kind {
            Kind::Sent if *entry.octets == self.output[start..end] => Ok(Step::Found(what)),
            Kind::Sent => Err(How::Other(what)),
            _ => Err(How::NotSent(what)),
        }
    }

    fn received<'a>(&mut self, octets: &'a [u8]) -> Result<Step<'a>, How> {
        match engine::receive(self.table, &mut self.state, octets, &mut self.output) {
            Ok(Received::Indicated(indication)) => Ok(Step::Indicated(indication)),
            Ok(Received::Answered { result, kept }) => {
                self.awaited = Some(Awaited { what: Written::Result, start: 0, end: result, kept });
                Ok(Step::Answered)
            }
            Err(Refusal::Rejected { problem, written, .. }) => {
                self.awaited = Some(Awaited { what: Written::Reject, start: 0, end: written, kept: 0 });
                Ok(Step::Rejected(problem))
            }
            Err(Refusal::UnacceptableReject { .. }) => Ok(Step::PassedOver),
            Err(refusal) => Err(How::Refused("receive", refusal.number())),
        }
    }

    /// Asks for the APDU that was sent, and holds what is written against it.
    fn sent<'a>(&mut self, octets: &'a [u8]) -> Result<Step<'a>, How> {
        let (table, state, output) = (self.table, &mut self.state, &mut self.output[..]);
        let apdu = apdu::read(octets).map_err(|unreadable| How::Unreadable(unreadable.problem))?;
        let (name, written) = match apdu {
            Apdu::Invoke(Invoke { id, linked, code, value }) => {
                let code = code.ok_or(How::ForeignCode)?;
                let asked = (id, linked, code.asked());
                ("invoke", engine::request_invoke(table, state, asked, value.unwrap_or(&[]), output))
            }
            Apdu::Result { id, returned } => {
                let value = returned.map_or(&[][..], |(_, value)| value);
                ("result", engine::request_result(table, state, id, value, output))
            }
            Apdu::Error { id, code, value } => {
                let code = code.ok_or(How::ForeignCode)?;
                ("error", engine::request_error(table, state, (id, code.asked()), value.unwrap_or(&[]), output))
            }
            Apdu::Reject { id: Some(id), problem: Problem::Invoke(problem) } => {
                ("user reject", engine::request_reject(table, state, (id, problem), output))
            }
            Apdu::Reject { id, problem } => return Err(How::NoUserReject(id, problem)),
        };
        let written = written.map_err(|refusal| How::Refused(name, refusal.number()))?;
        if self.output[..written] == *octets {
            Ok(Step::Sent(apdu))
        } else {
            Err(How::OtherOctets(name))
        }
    }

    fn forget<'a>(&mut self, octets: &[u8]) -> Result<Step<'a>, How> {
        let (name, invocation) = match *octets {
            [0, a, b, c, d] => ("forget of an own record", Invocation::Own(i32::from_be_bytes([a, b, c, d]))),
            [1, a, b, c, d] => ("forget of a peer record", Invocation::Peer(i32::from_be_bytes([a, b, c, d]))),
            _ => return Err(How::OtherSide),
        };
        match engine::forget(self.table, &mut self.state, invocation) {
            Ok(()) => Ok(Step::Forgotten(invocation)),
            Err(refusal) => Err(How::Refused(name, refusal.number())),
        }
    }
}

/// What the replay of a capture with a table says.
pub fn verdict(table: &[u8], capture: &[u8]) -> Verdict {
    watch(table, capture, |_, _| {})
}

/// Replays a capture, and shows each entry that does not differ with what it did.
#[inline]
pub fn watch<'a>(table: &[u8], capture: &'a [u8], mut seen: impl FnMut(Entry<'a>, Step<'a>)) -> Verdict {
    if Table::new(table).is_none() {
        return Verdict::InvalidTable;
    }
    let reader = match Reader::new(capture) {
        Ok(reader) => reader,
        Err(rule) => return Verdict::Malformed(rule),
    };
    let (mut end, entries) = (End::fresh(table), reader.entries());
    for (place, entry) in reader.enumerate() {
        match end.play(entry) {
            Ok(step) => seen(entry, step),
            Err(how) => return Verdict::Differs { place, how },
        }
    }
    match end.awaited {
        None => Verdict::Agrees { entries },
        Some(Awaited { what, .. }) => Verdict::Differs { place: entries, how: How::Missing(what) },
    }
}

/// The line for two files; one that is not named or cannot be read counts as empty.
pub fn of_files(table: Option<&OsStr>, capture: Option<&OsStr>) -> String {
    let octets = |name: Option<&OsStr>, most| name.and_then(|name| read(name, most).ok()).unwrap_or_default();
    verdict(&octets(table, TABLE_OCTETS), &octets(capture, capture::OCTETS)).line()
}

/// A file's octets, and of a file with more than `most` octets one more.
fn read(name: &OsStr, most: usize) -> io::Result<Vec<u8>> {
    let mut file = File::open(name)?;
    let (mut octets, mut filled) = (vec![0; most + 1], 0);
    while filled <= most {
        match file.read(&mut octets[filled..]) {
            Ok(0) => break,
            Ok(more) => filled += more,
            Err(error) if error.kind() == ErrorKind::Interrupted => {}
            Err(error) => return Err(error),
        }
    }
    octets.truncate(filled);
    Ok(octets)
}
