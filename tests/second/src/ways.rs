//! The ways in which a capture is answered, by name: its first fault, or that it has none.

use crate::answer::Problem;
use crate::apdu;
use crate::capture::{Malformed, Reader};
use crate::octets::{self, Element};
use crate::replay::{self, How, Verdict, Written};
use crate::state::State;

/// Ways in which an entry differs.
pub const DIFFERS: [&str; 44] = [
    "invoke refused 4",
    "invoke refused 5",
    "invoke refused 22",
    "invoke refused 6",
    "invoke refused 7",
    "invoke refused 8",
    "invoke refused 10",
    "invoke refused 14",
    "result refused 11",
    "result refused 12",
    "result refused 10",
    "result refused 15",
    "error refused 11",
    "error refused 12",
    "error refused 13",
    "error refused 10",
    "user reject refused 16",
    "user reject refused 11",
    "forget of an own record refused 11",
    "forget of a peer record refused 11",
    "forget of a peer record refused 12",
    "invoke with other octets",
    "result with other octets",
    "error with other octets",
    "user reject with other octets",
    "not well formed",
    "another first octet",
    "wrong fields",
    "name over 16 octets",
    "code over four octets",
    "Reject 80",
    "Reject 82",
    "Reject 83",
    "Reject with 05 00",
    "another side",
    "Reject missing at the end",
    "Reject awaited, entry not sent",
    "Reject awaited, other octets",
    "result missing at the end",
    "result awaited, entry not sent",
    "result awaited, other octets",
    "kept answer missing at the end",
    "kept answer awaited, entry not sent",
    "kept answer awaited, other octets",
];

/// The rules of a capture's form.
pub const MALFORMED: [&str; 14] = [
    "too long",
    "header cut",
    "count",
    "data offset",
    "index cut",
    "kind",
    "zero octet",
    "no octets",
    "entry too long",
    "forget length",
    "gap",
    "overlap",
    "data cut",
    "octets behind",
];

/// A table that is not valid, with a right capture and with a malformed one.
pub const TABLE_FIRST: [&str; 2] = ["refused 1, capture right", "refused 1, capture malformed"];

/// The way in which a capture with a table is answered here.
pub fn way(table: &[u8], capture: &[u8]) -> String {
    name(&replay::verdict(table, capture), capture)
}

/// The name of the way that led to a verdict.
pub fn name(verdict: &Verdict, capture: &[u8]) -> String {
    match *verdict {
        Verdict::Agrees { .. } => "agrees".to_string(),
        Verdict::InvalidTable => TABLE_FIRST[usize::from(Reader::new(capture).is_err())].to_string(),
        Verdict::Malformed(rule) => malformed(rule).to_string(),
        Verdict::Differs { place, how } => {
            let entry = Reader::new(capture).ok().and_then(|mut reader| reader.nth(place));
            differs(how, entry.map_or(&[], |entry| entry.octets))
        }
    }
}

fn malformed(rule: Malformed) -> &'static str {
    MALFORMED[rule as usize]
}

fn differs(how: How, octets: &[u8]) -> String {
    let name = match how {
        How::Refused(call, number) => return format!("{call} refused {number}"),
        How::OtherOctets(call) => return format!("{call} with other octets"),
        How::Unreadable(Problem::BADLY_STRUCTURED_APDU) => "not well formed",
        How::Unreadable(Problem::UNRECOGNIZED_APDU) => "another first octet",
        How::Unreadable(_) => "wrong fields",
        How::ForeignCode if code_identifier(octets) == Some(0x06) => "name over 16 octets",
        How::ForeignCode => "code over four octets",
        How::NoUserReject(None, _) => "Reject with 05 00",
        How::NoUserReject(_, problem) => return format!("Reject {:02x}", problem.octets().0),
        How::OtherSide => "another side",
        How::Missing(what) => return format!("{} missing at the end", written(what)),
        How::NotSent(what) => return format!("{} awaited, entry not sent", written(what)),
        How::Other(what) => return format!("{} awaited, other octets", written(what)),
    };
    name.to_string()
}

fn written(what: Written) -> &'static str {
    match what {
        Written::Reject => "Reject",
        Written::Result => "result",
        Written::KeptAnswer => "kept answer",
    }
}

/// The identifier octet of the code of an Invoke or Error.
fn code_identifier(octets: &[u8]) -> Option<u8> {
    code_field(octets).map(|field| field.identifier())
}

/// The code of an Invoke, Result or Error.
pub(crate) fn code_field(octets: &[u8]) -> Option<Element<'_>> {
    let (apdu, _) = octets::split(octets, State::LEVELS)?;
    let (_id, mut rest) = octets::split(apdu.contents(), State::LEVELS)?;
    if apdu.identifier() == apdu::INVOKE && matches!(rest.first(), Some(0x80 | 0x81)) {
        rest = octets::split(rest, State::LEVELS)?.1;
    }
    let (mut field, _) = octets::split(rest, State::LEVELS)?;
    if apdu.identifier() == apdu::RESULT {
        field = octets::split(field.contents(), State::LEVELS)?.0;
    }
    Some(field)
}
