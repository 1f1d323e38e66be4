//! Rows of places: each kind of fault, wherever the octets are given and however deep, what comes after it, and the
//! answers that have a place beside those that have none.
//! Follows docs/RULES.md, "Where octets are at fault".

use crate::flawed::Flaw;
use crate::flaws::{Given, Second, BEHIND, CLASSES, CLOSING_OCTETS, KINDS, LEVEL, MISSING_CLOSE, OCTETS_BEHIND};
use crate::frame::{self, Frame};
use crate::generate::Seen;
use crate::observe::{answered, outgoing, refusal};
use crate::octets::{self, Element};
use crate::state::State;
use crate::table::{Rule, Table};

const CALLS: [&str; 3] = ["invoke", "result", "error"];
const FIRSTS: [&str; 5] = ["A1", "A2", "A3", "A4", "another"];

/// Rows that are no part of a series.
const SINGLE: [&str; 7] = [
    "no octets, 80 02, place 0",
    "17 by octets",
    "17 by fields, place 0",
    "received 4096 octets, place 4095",
    "received 4097 octets at fault, refused 3",
    "receive lent 10, octets at fault, refused 2",
    "invoke: 32 own records, refused 21",
];

/// Refusals that come before a look at the value.
const EARLIER: [(&str, &[u8]); 3] =
    [("invoke", &[19, 1, 4, 5, 22, 6, 7, 8]), ("result", &[19, 1, 11, 12]), ("error", &[19, 1, 11, 12, 13])];

/// Every row that must occur.
pub fn rows() -> Vec<String> {
    let mut rows: Vec<String> = SINGLE.map(str::to_string).to_vec();
    for given in Given::ALL {
        rows.extend(KINDS.iter().map(|kind| at(kind.name, given)));
        let least = if given == Given::ValueReceived { 2 } else { 1 };
        rows.extend((least..=State::LEVELS).map(|level| at(&format!("fault at level {level}"), given)));
        for second in Second::ALL {
            rows.push(at(&before("fault", second), given));
            if !matches!(second, Second::Inside | Second::Sibling) {
                rows.push(at(&before(MISSING_CLOSE, second), given));
            }
        }
        if given != Given::ValueReceived {
            rows.extend(BEHIND.iter().map(|kind| at(kind.name, given)));
        }
    }
    for class in CLASSES.into_iter().filter(|class| *class != LEVEL) {
        let least = if class == CLOSING_OCTETS { 2 } else { 1 };
        rows.extend((least..=State::LEVELS).map(|level| format!("{class} at level {level}")));
    }
    rows.extend(FIRSTS.map(|first| format!("first octet {first}, octets at fault")));
    rows.extend(CALLS.iter().flat_map(|call| request_rows(call)));
    for (call, refusals) in EARLIER {
        rows.extend(refusals.iter().map(|number| at_fault(call, &format!("refused {number}, place 0"))));
    }
    rows.iter().map(|what| row(what)).collect()
}

/// What must occur of one request.
fn request_rows(call: &str) -> Vec<String> {
    let more = [
        "value of 14 levels and octets behind, refused 21",
        "value of 15 levels and octets behind, refused 21",
        "value of 16 levels and octets behind, refused 21",
        "value of 17 levels and octets behind, refused 9",
        "value of another type, refused 21",
        "no value allowed, refused 21",
        "output too short, refused 21",
        "place over 4096, refused 9",
        "place over 4096, refused 21",
    ];
    more.map(|what| format!("{call}: {what}")).to_vec()
}

/// The rows that a call belongs to.
pub fn rows_of(call: &str, seen: &Seen<'_>) -> Vec<String> {
    let mut rows = seen.flaw.filter(|flaw| is_found(flaw, seen)).map_or_else(Vec::new, |flaw| flaw_rows(&flaw));
    match seen.frame.kind {
        frame::RECEIVE => rows.extend(received(seen)),
        frame::INVOKE..=frame::ERROR => rows.extend(requested(call, seen)),
        _ => {}
    }
    rows.iter().map(|what| row(what)).collect()
}

/// Whether the answer names the place that the fault was made at.
pub fn is_found(flaw: &Flaw, seen: &Seen<'_>) -> bool {
    let number = refusal(seen.answer);
    let right = match flaw.given {
        Given::Request if flaw.kind.class == OCTETS_BEHIND => number == 21,
        Given::Request => number == 9,
        _ if seen.frame.payload[0] == 0xA4 => number == 17,
        _ => answered(seen.answer) == "80 02",
    };
    right && seen.answer.place() == flaw.place
}

fn flaw_rows(flaw: &Flaw) -> Vec<String> {
    let (class, level, given) = (flaw.kind.class, flaw.level, flaw.given);
    let mut rows = vec![at(flaw.kind.name, given)];
    if class != OCTETS_BEHIND {
        rows.push(at(&format!("fault at level {level}"), given));
        rows.push(format!("{class} at level {level}"));
    }
    let first = if class == MISSING_CLOSE { MISSING_CLOSE } else { "fault" };
    rows.extend(flaw.second.map(|second| at(&before(first, second), given)));
    rows
}

/// What is seen of received octets.
fn received(seen: &Seen<'_>) -> Vec<String> {
    let (octets, answer, place) = (seen.frame.payload, answered(seen.answer), seen.answer.place());
    let Some(first) = octets.first() else { return vec![format!("no octets, {answer}, place {place}")] };
    let at_fault = octets::levels(octets, State::LEVELS).is_none();
    let mut rows = vec![format!("received {} octets, place {place}", octets.len())];
    match (refusal(seen.answer), at_fault) {
        (17, false) => rows.push(format!("17 by fields, place {place}")),
        (17, true) => rows.push("17 by octets".to_string()),
        (_, true) => {
            rows.push(format!("received {} octets at fault, {answer}", octets.len()));
            rows.push(format!("receive lent {}, octets at fault, {answer}", seen.frame.lent));
        }
        _ => {}
    }
    if at_fault && (answer == "80 02" || answer == "refused 17") {
        let first = format!("{first:02X}");
        let first = if FIRSTS.contains(&&first[..]) { &first[..] } else { "another" };
        rows.push(format!("first octet {first}, octets at fault"));
    }
    rows
}

/// What is seen of a request with a value that is not one good element.
fn requested(call: &str, seen: &Seen<'_>) -> Vec<String> {
    let (value, answer, place) = (seen.frame.value(), answered(seen.answer), seen.answer.place());
    if value.is_empty() || octets::levels(value, State::LEVELS).is_some() {
        return Vec::new();
    }
    let mut rows = vec![at_fault(call, &format!("{answer}, place {place}"))];
    rows.extend((place > State::OCTETS).then(|| format!("{call}: place over 4096, {answer}")));
    if let Some((element, [_, ..])) = octets::split(value, 2 * State::LEVELS) {
        rows.extend(and_octets_behind(seen, &element).iter().map(|what| format!("{call}: {what}, {answer}")));
    }
    rows
}

/// What else would be refused of a request whose value is an element with octets behind it.
fn and_octets_behind(seen: &Seen<'_>, element: &Element<'_>) -> Vec<String> {
    let mut rows = vec![format!("value of {} levels and octets behind", element.levels)];
    rows.extend(rule(seen).and_then(|rule| match rule.kind {
        0 => Some("no value allowed".to_string()),
        kind => (kind != element.identifier()).then(|| "value of another type".to_string()),
    }));
    let short = outgoing(seen).is_some_and(|apdu| usize::from(seen.frame.lent) < apdu.octets());
    rows.extend(short.then(|| "output too short".to_string()));
    rows.extend(seen.before.own.is_full().then(|| "32 own records".to_string()));
    rows
}

/// The rule for the value of a request, if it comes to that.
fn rule(seen: &Seen<'_>) -> Option<Rule> {
    let (table, Frame { kind, id, .. }) = (Table::new(seen.table)?, *seen.frame);
    match kind {
        frame::INVOKE => table.operation(&seen.frame.asked().code()?).map(|operation| operation.argument),
        frame::RESULT => {
            table.operation(&seen.before.peer.places[seen.before.peer.find(id)?].code).map(|row| row.result)
        }
        _ => table.error(&seen.frame.asked().code()?).map(|error| error.parameter),
    }
}

fn at_fault(call: &str, answer: &str) -> String {
    format!("{call}: value at fault, {answer}")
}

fn before(first: &str, second: Second) -> String {
    format!("{first} before {}", second.name())
}

fn at(what: &str, given: Given) -> String {
    format!("{what}, {}", given.name())
}

fn row(what: &str) -> String {
    format!("place: {what}")
}
