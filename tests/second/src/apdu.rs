//! The four APDUs: reading their fields from received octets, measuring and writing outgoing ones.
//! Follows docs/RULES.md, "The four APDUs" and "Names", and step 1 of "Receiving, in order of check".

use crate::answer::Problem;
use crate::code::{Asked, Code};
use crate::fields::Fields;
use crate::octets::{self, element_octets, integer_octets, Writer};
use crate::state::State;

pub const INVOKE: u8 = 0xA1;
pub const RESULT: u8 = 0xA2;
pub const ERROR: u8 = 0xA3;
pub const REJECT: u8 = 0xA4;

const ID: u8 = 0x02;
const LOCAL: u8 = 0x02;
const NAME: u8 = 0x06;
const NO_ID: u8 = 0x05;
const LINKED: u8 = 0x80;
const NO_LINKED: u8 = 0x81;
const SEQUENCE: u8 = 0x30;

/// A received APDU with right fields. A code is none where no table can have it: an 02 over four octets, a 06 over 16.
#[derive(Clone, Copy, PartialEq, Eq)]
pub enum Apdu<'a> {
    Invoke(Invoke<'a>),
    Result { id: i32, returned: Option<(Option<Code>, &'a [u8])> },
    Error { id: i32, code: Option<Code>, value: Option<&'a [u8]> },
    Reject { id: Option<i32>, problem: Problem },
}

impl<'a> Apdu<'a> {
    /// The value, if there is one.
    pub fn value(&self) -> Option<&'a [u8]> {
        match *self {
            Apdu::Invoke(Invoke { value, .. }) | Apdu::Error { value, .. } => value,
            Apdu::Result { returned, .. } => returned.map(|(_, value)| value),
            Apdu::Reject { .. } => None,
        }
    }
}

#[derive(Clone, Copy, PartialEq, Eq)]
pub struct Invoke<'a> {
    pub id: i32,
    pub linked: Option<i32>,
    pub code: Option<Code>,
    pub value: Option<&'a [u8]>,
}

/// Why octets are no APDU with right fields, and the id that a Reject to them carries.
#[derive(Clone, Copy)]
pub struct Unreadable {
    pub problem: Problem,
    pub id: Option<i32>,
}

/// Reads an APDU: well-formed first, then its kind, then its fields.
pub fn read(octets: &[u8]) -> Result<Apdu<'_>, Unreadable> {
    let unreadable = |problem| Unreadable { problem, id: None };
    let malformed = unreadable(Problem::BADLY_STRUCTURED_APDU);
    let kind = *octets.first().ok_or(malformed)?;
    if !(INVOKE..=REJECT).contains(&kind) {
        octets::levels(octets, State::LEVELS).ok_or(malformed)?;
        return Err(unreadable(Problem::UNRECOGNIZED_APDU));
    }
    let mut fields = Fields::of(octets, State::LEVELS - 1).ok_or(malformed)?;
    let id = if kind == REJECT { None } else { fields.id() };
    let read = match (kind, id) {
        (INVOKE, Some(id)) => read_invoke(&mut fields, id),
        (RESULT, Some(id)) => read_result(&mut fields, id),
        (ERROR, Some(id)) => read_error(&mut fields, id),
        (REJECT, _) => read_reject(&mut fields),
        _ => None,
    };
    match fields.close() {
        Some([]) => read.ok_or(Unreadable { id, problem: Problem::MISTYPED_APDU }),
        _ => Err(malformed),
    }
}

fn read_invoke<'a>(fields: &mut Fields<'a>, id: i32) -> Option<Apdu<'a>> {
    let mut linked = None;
    if let Some(field) = fields.take_if(LINKED) {
        linked = Some(octets::integer(field.contents())?);
    } else if let Some(field) = fields.take_if(NO_LINKED) {
        field.contents().is_empty().then_some(())?;
    }
    let code = fields.code()?;
    let value = fields.last_value()?;
    Some(Apdu::Invoke(Invoke { id, linked, code, value }))
}

fn read_result<'a>(fields: &mut Fields<'a>, id: i32) -> Option<Apdu<'a>> {
    let mut returned = None;
    if !fields.are_taken() {
        returned = Some(fields.take_within(SEQUENCE, |inner| Some((inner.code()?, inner.last_value()??)))?);
    }
    fields.are_taken().then_some(Apdu::Result { id, returned })
}

fn read_error<'a>(fields: &mut Fields<'a>, id: i32) -> Option<Apdu<'a>> {
    let code = fields.code()?;
    let value = fields.last_value()?;
    Some(Apdu::Error { id, code, value })
}

/// An id or 05 00, then one problem; 05 00 stands only with a general problem.
fn read_reject<'a>(fields: &mut Fields<'a>) -> Option<Apdu<'a>> {
    let id = match fields.take_if(NO_ID) {
        Some(_) => None,
        None => Some(fields.id()?),
    };
    let field = fields.take()?;
    let &[number] = field.contents() else { return None };
    let problem = Problem::new(field.identifier(), number)?;
    let right = fields.are_taken() && (id.is_some() || matches!(problem, Problem::General(_)));
    right.then_some(Apdu::Reject { id, problem })
}

/// The result at the front of what receive wrote to answer a probe or acknowledge, and the kept answer behind it.
pub fn split_result(written: &[u8]) -> (&[u8], &[u8]) {
    match octets::split(written, State::LEVELS) {
        Some((result, kept)) => (result.whole, kept),
        None => (written, &[]),
    }
}

/// An APDU to write; no value is an empty slice.
#[derive(Clone, Copy)]
pub enum Outgoing<'a> {
    Invoke { id: i32, linked: Option<i32>, code: Asked<'a>, value: &'a [u8] },
    Result { id: i32, code: Asked<'a>, value: &'a [u8] },
    Error { id: i32, code: Asked<'a>, value: &'a [u8] },
    Reject { id: Option<i32>, problem: Problem },
}

impl Outgoing<'_> {
    /// How many octets the whole APDU takes.
    pub fn octets(&self) -> usize {
        element_octets(self.contents())
    }

    /// How many levels the APDU has with a value of so many, 0 for none; the id is at level 2.
    pub fn levels(&self, value: usize) -> usize {
        let around = match self {
            Outgoing::Result { .. } => 2,
            _ => 1,
        };
        2.max(value + around)
    }

    fn contents(&self) -> usize {
        match *self {
            Outgoing::Invoke { id, linked, code, value } => {
                number(id) + linked.map_or(0, number) + code_octets(code) + value.len()
            }
            Outgoing::Result { id, value: [], .. } => number(id),
            Outgoing::Result { id, code, value } => number(id) + element_octets(code_octets(code) + value.len()),
            Outgoing::Error { id, code, value } => number(id) + code_octets(code) + value.len(),
            Outgoing::Reject { id, .. } => id.map_or(2, number) + 3,
        }
    }

    /// Writes the APDU at the front of an output that is long enough; gives how many octets it took.
    pub fn write(&self, output: &mut [u8]) -> usize {
        let mut writer = Writer::new(output);
        writer.header(self.identifier(), self.contents());
        match *self {
            Outgoing::Invoke { id, linked, code, value } => {
                writer.integer(ID, id);
                if let Some(linked) = linked {
                    writer.integer(LINKED, linked);
                }
                write_code(&mut writer, code);
                writer.put(value);
            }
            Outgoing::Result { id, value: [], .. } => writer.integer(ID, id),
            Outgoing::Result { id, code, value } => {
                writer.integer(ID, id);
                writer.header(SEQUENCE, code_octets(code) + value.len());
                write_code(&mut writer, code);
                writer.put(value);
            }
            Outgoing::Error { id, code, value } => {
                writer.integer(ID, id);
                write_code(&mut writer, code);
                writer.put(value);
            }
            Outgoing::Reject { id, problem } => write_reject(&mut writer, id, problem),
        }
        writer.written()
    }

    /// The APDU's octets, for checks; the engine writes into a lent output.
    pub fn to_vec(&self) -> Vec<u8> {
        let mut octets = vec![0; self.octets()];
        self.write(&mut octets);
        octets
    }

    fn identifier(&self) -> u8 {
        match self {
            Outgoing::Invoke { .. } => INVOKE,
            Outgoing::Result { .. } => RESULT,
            Outgoing::Error { .. } => ERROR,
            Outgoing::Reject { .. } => REJECT,
        }
    }
}

fn write_reject(writer: &mut Writer<'_>, id: Option<i32>, problem: Problem) {
    match id {
        Some(id) => writer.integer(ID, id),
        None => writer.header(NO_ID, 0),
    }
    let (identifier, number) = problem.octets();
    writer.header(identifier, 1);
    writer.put(&[number]);
}

fn write_code(writer: &mut Writer<'_>, code: Asked<'_>) {
    match code {
        Asked::Local(code) => writer.integer(LOCAL, code),
        Asked::Name(contents) => {
            writer.header(NAME, contents.len());
            writer.put(contents);
        }
    }
}

/// How many octets a code takes as an element.
fn code_octets(code: Asked<'_>) -> usize {
    match code {
        Asked::Local(code) => number(code),
        Asked::Name(contents) => element_octets(contents.len()),
    }
}

/// How many octets a number takes as an element.
fn number(number: i32) -> usize {
    element_octets(integer_octets(number))
}
