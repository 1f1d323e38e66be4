//! Days that an end really had: its calls from the fresh state on, and another end that answers, errs, comes late,
//! says things again and sends wrong APDUs.

use crate::answer::{Answer, Refusal};
use crate::apdu::{self, Apdu, Outgoing};
use crate::capture::{HEADER, OCTETS, PLACE};
use crate::cases;
use crate::code::Code;
use crate::frame::{self, Frame};
use crate::generate::{free_id, Generator};
use crate::indefinite;
use crate::model::OperationRow;
use crate::octets;
use crate::state::State;
use crate::values;

pub const RECEIVED: u8 = 0;
pub const SENT: u8 = 1;
pub const FORGET: u8 = 2;

/// An entry of a day, right or wrong.
#[derive(Clone, Debug, PartialEq, Eq)]
pub struct Logged {
    pub kind: u8,
    pub octets: Vec<u8>,
    /// Whether it is an APDU that receive wrote.
    pub awaited: bool,
}

impl Logged {
    pub fn new(kind: u8, octets: &[u8]) -> Self {
        Logged { kind, octets: octets.to_vec(), awaited: false }
    }

    pub fn forget(side: u8, id: i32) -> Self {
        Logged::new(FORGET, &[&[side][..], &id.to_be_bytes()].concat())
    }

    /// Whether it is an APDU that a request wrote.
    pub fn is_request(&self) -> bool {
        self.kind == SENT && !self.awaited
    }
}

/// Keeps what a call received, sent or forgot, and what receive wrote.
pub(crate) fn note(day: &mut Vec<Logged>, frame: &Frame<'_>, answer: &Answer<'_>, written: &[u8]) {
    match answer {
        Answer::Indicated(_) | Answer::Refused(Refusal::UnacceptableReject { .. }) => {
            day.push(Logged::new(RECEIVED, frame.payload));
        }
        Answer::Refused(Refusal::Rejected { .. }) if !frame.payload.is_empty() => {
            day.push(Logged::new(RECEIVED, frame.payload));
            day.push(Logged { awaited: true, ..Logged::new(SENT, written) });
        }
        Answer::Answered { .. } => {
            day.push(Logged::new(RECEIVED, frame.payload));
            let (result, kept) = apdu::split_result(written);
            let sent = [result, kept].into_iter().filter(|octets| !octets.is_empty());
            day.extend(sent.map(|octets| Logged { awaited: true, ..Logged::new(SENT, octets) }));
        }
        Answer::Sent { .. } => day.push(Logged::new(SENT, written)),
        Answer::Forgotten => day.push(Logged::forget(u8::from(frame.detail != 0), frame.id)),
        Answer::Refused(_) => {}
    }
}

/// The capture of entries, end to end, whether it is then right or not.
pub fn capture(entries: &[Logged]) -> Vec<u8> {
    let start = HEADER + PLACE * entries.len();
    let mut octets = Vec::with_capacity(size(entries));
    octets.extend((entries.len() as u32).to_be_bytes());
    octets.extend((start as u32).to_be_bytes());
    let mut offset = start;
    for entry in entries {
        octets.extend([entry.kind, 0]);
        octets.extend((entry.octets.len() as u16).to_be_bytes());
        octets.extend((offset as u32).to_be_bytes());
        offset += entry.octets.len();
    }
    entries.iter().for_each(|entry| octets.extend(&entry.octets));
    octets
}

/// How many octets the capture of entries has.
pub fn size(entries: &[Logged]) -> usize {
    HEADER + entries.iter().map(|entry| PLACE + entry.octets.len()).sum::<usize>()
}

/// Adds received Rejects that are passed over until the capture has so many octets; at least 9 must be missing.
pub fn fill(entries: &mut Vec<Logged>, target: usize) {
    let most = PLACE + State::OCTETS;
    while size(entries) + PLACE < target {
        let left = target - size(entries);
        let next = if left > most && left < most + PLACE + 1 { left - PLACE - 1 } else { left.min(most) };
        let mut octets = vec![0; next - PLACE];
        octets[0] = apdu::REJECT;
        entries.push(Logged::new(RECEIVED, &octets));
    }
}

impl Generator<'_> {
    pub(crate) fn entries(&mut self) -> &mut Vec<Logged> {
        self.day.get_or_insert_default()
    }

    /// Goes on until the day has so many more entries or no room.
    pub(crate) fn live_on(&mut self, entries: usize) {
        let wanted = self.entries().len() + entries;
        for _ in 0..4 * entries {
            if self.entries().len() >= wanted || size(self.entries()) > OCTETS - 3 * State::OCTETS {
                break;
            }
            self.trouble = [0, 0, 0, 0, 10, 20, 40][self.random.below(7)];
            match self.random.below(100) {
                0..=3 => self.again(),
                4..=8 => self.late(),
                9..=13 => self.wrong(),
                _ => self.ordinary_call(),
            }
        }
        self.trouble = 0;
    }

    pub(crate) fn arrive(&mut self, octets: &[u8]) {
        let lent = self.room() as u16;
        self.call(Frame { kind: frame::RECEIVE, lent, payload: octets, ..Frame::default() });
    }

    /// An APDU that was received before.
    fn again(&mut self) {
        let places: Vec<usize> =
            self.entries().iter().enumerate().filter(|(_, entry)| entry.kind == RECEIVED).map(|(at, _)| at).collect();
        if let Some(at) = self.random.pick(&places) {
            let octets = self.entries()[at].octets.clone();
            self.arrive(&octets);
        }
    }

    /// An answer to an invocation made before, live or over.
    fn late(&mut self) {
        let invokes = self.entries().iter().filter_map(|entry| match apdu::read(&entry.octets) {
            Ok(Apdu::Invoke(invoke)) if entry.is_request() => Some((invoke.id, invoke.code?)),
            _ => None,
        });
        let invokes: Vec<(i32, Code)> = invokes.collect();
        let Some((id, code)) = self.random.pick(&invokes) else { return };
        let Some((_, row)) = self.model.operation(code) else { return };
        match self.random.percent(60) {
            true => self.arrive_result(id, row),
            false => self.arrive_error(id, row),
        }
    }

    /// A result of an operation.
    pub(crate) fn arrive_result(&mut self, id: i32, row: OperationRow) {
        let value = self.value(row.result_rule());
        self.arrive(&Outgoing::Result { id, code: row.code.asked(), value: &value }.to_vec());
    }

    /// An error of an operation.
    pub(crate) fn arrive_error(&mut self, id: i32, row: OperationRow) {
        let (code, rule) = self.error_code(row.code);
        let value = self.value(rule);
        self.arrive(&Outgoing::Error { id, code: code.asked(), value: &value }.to_vec());
    }

    /// Octets that no right end sends.
    fn wrong(&mut self) {
        let list = match self.random.below(10) {
            0..=1 => cases::UNACCEPTABLE_REJECTS,
            2 => cases::MALFORMED,
            3 => cases::MISTYPED_WITH_ID,
            4 => cases::MISTYPED_WITHOUT_ID,
            5 => cases::UNRECOGNIZED,
            6 => indefinite::UNACCEPTABLE_REJECTS,
            7 => indefinite::MALFORMED_APDUS,
            8 => indefinite::MISTYPED_WITH_ID,
            _ => indefinite::MISTYPED_WITHOUT_ID,
        };
        let octets = list[self.random.below(list.len())].1;
        self.arrive(octets);
    }

    /// An Invoke of exactly so many octets, asked for here or received, if there is an operation that takes one.
    pub(crate) fn invoke_of(&mut self, octets: usize, received: bool) {
        let large = |row: &OperationRow| matches!(row.argument, 0x04 | 0x30 | 0xA0 | 0x80 | 0x24 | 0x31 | 0xC3);
        let Some(row) = self.random.pick_where(&self.model.operations, large) else { return };
        let (id, code) = (free_id(&mut self.random, &self.drive.state, !received), row.code.asked());
        let around = Outgoing::Invoke { id, linked: None, code, value: &[0; 4000] }.octets() - 4000;
        let is_indefinite = octets::is_constructed(row.argument) && self.random.percent(50);
        let mut value = values::sized(octets - around, is_indefinite);
        value[0] = row.argument;
        if !received {
            let frame = Frame { kind: frame::INVOKE, lent: u16::MAX, id, ..Frame::default() };
            self.call(frame.asking(code, &value, &mut Vec::new()));
        } else {
            self.arrive(&Outgoing::Invoke { id, linked: None, code, value: &value }.to_vec());
        }
    }

    /// Asks for an id again after its answer, or after a forget and 64 more, if the table allows it.
    pub(crate) fn ask_twice(&mut self, forgotten: bool) {
        self.trouble = 0;
        let own: Vec<i32> = self.drive.state.own.live().iter().map(|record| record.id).collect();
        own.into_iter().for_each(|id| self.forget_own(id));
        let Some(row) = self.random.pick_where(&self.model.operations, |row| row.class == 2) else { return };
        let id = self.free(true);
        self.ask(id, row);
        match forgotten {
            true => {
                self.forget_own(id);
                self.forget_many(State::RESTING);
            }
            false => self.arrive_result(id, row),
        }
        self.ask(id, row);
    }

    /// Invokes and is invoked until each side has all its records, if the table allows it.
    pub(crate) fn fill_records(&mut self) {
        self.trouble = 0;
        let asynchronous = |row: &OperationRow| matches!(row.class, 2..=4);
        let Some(row) = self.random.pick_where(&self.model.operations, asynchronous) else { return };
        for number in 0..2 * State::RECORDS as i32 + 4 {
            let (id, code, value) = (number / 2, row.code.asked(), self.value(row.argument_rule()));
            match number % 2 {
                0 => {
                    let frame = Frame { kind: frame::INVOKE, lent: 99, id, ..Frame::default() };
                    self.call(frame.asking(code, &value, &mut Vec::new()));
                }
                _ => self.arrive(&Outgoing::Invoke { id, linked: None, code, value: &value }.to_vec()),
            }
        }
        self.live_on(20);
    }
}
