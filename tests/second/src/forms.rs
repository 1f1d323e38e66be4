//! Rows of indefinite lengths: in which places of a received APDU or of a value to send they stand, and how deep.
//! Follows docs/RULES.md, "Indefinite lengths".

use crate::answer::{Answer, Indication};
use crate::apdu;
use crate::frame;
use crate::generate::Seen;
use crate::observe::{answered, outgoing};
use crate::octets::{self, Element, CLOSING};
use crate::state::State;

const CALLS: [&str; 3] = ["invoke", "result", "error"];
const FORMS: [bool; 2] = [false, true];

/// Rows that are no part of a series.
const SINGLE: [&str; 17] = [
    "invoke indefinite, no value",
    "result indefinite, no value",
    "error indefinite, no value",
    "reject-u indefinite",
    "reject-p indefinite",
    "indefinite inside definite, accepted",
    "indefinite inside indefinite, accepted",
    "definite inside indefinite, accepted",
    "high tag indefinite, accepted",
    "empty indefinite element at level 16, accepted",
    "empty indefinite element at level 17, 80 02",
    "primitive element at level 17 in an indefinite one, 80 02",
    "4095 octets closed by the last two, accepted",
    "4096 octets closed by the last two, accepted",
    "4097 octets closed by the last two, refused 3",
    "value of 16 levels, the innermost indefinite, refused 15",
    "value of 17 levels, the innermost indefinite, refused 9",
];

/// Problems of a value of the wrong type.
const MISTYPED: [&str; 3] = ["81 02", "82 02", "83 04"];

/// An element with its level and whether the one around it is of indefinite length, if there is one.
struct Placed<'a> {
    element: Element<'a>,
    level: usize,
    around: Option<bool>,
}

impl Placed<'_> {
    fn is_indefinite(&self) -> bool {
        octets::is_indefinite(self.element.whole)
    }
}

/// Every row that must occur.
pub fn rows() -> Vec<String> {
    let mut rows: Vec<String> = SINGLE.iter().map(|single| row(single)).collect();
    for (outer, value) in both().filter(|forms| *forms != (false, false)) {
        rows.extend(["invoke", "error"].map(|kind| row(&shown(kind, outer, value))));
    }
    for (outer, value) in both() {
        let inner = FORMS.into_iter().filter(|inner| outer || *inner || value);
        rows.extend(inner.map(|inner| row(&returned(outer, inner, value))));
    }
    rows.extend((1..=State::LEVELS).map(|level| row(&format!("indefinite element at level {level}, accepted"))));
    rows.extend(MISTYPED.map(|problem| row(&format!("indefinite value, {problem}"))));
    for call in CALLS {
        for answer in ["sent", "refused 10", "refused 15"] {
            rows.push(row(&format!("{call} with an indefinite value, {answer}")));
        }
        for (octets, answer) in [(4095, "sent"), (4096, "sent"), (4097, "refused 15")] {
            rows.push(row(&format!("{call} of {octets} octets with an indefinite value, {answer}")));
        }
        for (levels, answer) in [(15, "sent"), (16, "sent"), (17, "refused 15")] {
            rows.push(row(&format!("{call} of {levels} levels, the innermost indefinite, {answer}")));
        }
        for (lent, answer) in [("one less", "refused 2"), ("exactly", "sent")] {
            rows.push(row(&format!("{call} with an indefinite value lent {lent}, {answer}")));
        }
    }
    rows
}

/// The rows that a call belongs to.
pub fn rows_of(call: &str, seen: &Seen<'_>) -> Vec<String> {
    let (octets, answer) = (seen.frame.value(), answered(seen.answer));
    let mut elements = Vec::new();
    place(octets, 1, None, &mut elements);
    let rows = match seen.frame.kind {
        frame::RECEIVE => received(seen, &elements),
        frame::INVOKE..=frame::ERROR if octets::is_indefinite(octets) => sent(call, seen),
        _ => Vec::new(),
    };
    let mut rows: Vec<String> = rows.into_iter().map(|what| format!("{what}, {answer}")).collect();
    if seen.frame.kind == frame::RECEIVE {
        rows.extend(framed(seen.answer, octets, &elements));
    } else if let Some((levels, apdu)) = innermost_level(&elements).zip(outgoing(seen)) {
        rows.push(format!("{call} of {} levels, the innermost indefinite, {answer}", apdu.levels(levels)));
        rows.push(format!("value of {levels} levels, the innermost indefinite, {answer}"));
    }
    rows.iter().map(|what| row(what)).collect()
}

/// What is seen of received octets, whatever the answer.
fn received(seen: &Seen<'_>, elements: &[Placed<'_>]) -> Vec<String> {
    let octets = seen.frame.payload;
    let mut rows = Vec::new();
    if octets::is_indefinite(octets) && octets.ends_with(&CLOSING) {
        rows.push(format!("{} octets closed by the last two", octets.len()));
    }
    for placed in elements {
        let (level, indefinite) = (placed.level, placed.is_indefinite());
        rows.extend(indefinite.then(|| format!("indefinite element at level {level}")));
        let high = placed.element.identifier() & 0x1F == 0x1F;
        rows.extend((indefinite && high).then(|| "high tag indefinite".to_string()));
        if indefinite && placed.element.contents().is_empty() {
            rows.push(format!("empty indefinite element at level {level}"));
        }
        if !octets::is_constructed(placed.element.identifier()) && placed.around == Some(true) {
            rows.push(format!("primitive element at level {level} in an indefinite one"));
        } else if let Some(around) = placed.around {
            rows.push(format!("{} inside {}", form(indefinite), form(around)));
        }
    }
    let value = apdu::read(octets).ok().and_then(|apdu| apdu.value());
    rows.extend(value.filter(|value| octets::is_indefinite(value)).map(|_| "indefinite value".to_string()));
    rows.sort();
    rows.dedup();
    rows
}

/// Which parts of an accepted APDU are of indefinite length.
fn framed(answer: &Answer<'_>, octets: &[u8], elements: &[Placed<'_>]) -> Option<String> {
    let Answer::Indicated(indication) = answer else { return None };
    let outer = octets::is_indefinite(octets);
    let what = match (indication, answer.value().map(octets::is_indefinite)) {
        (Indication::Invoke { .. }, Some(value)) => return Some(shown("invoke", outer, value)),
        (Indication::Error { .. }, Some(value)) => return Some(shown("error", outer, value)),
        (Indication::Result { .. }, Some(value)) => {
            let inner = elements.iter().rfind(|placed| placed.level == 2)?.is_indefinite();
            return Some(returned(outer, inner, value));
        }
        (Indication::Invoke { .. }, None) => "invoke",
        (Indication::Error { .. }, None) => "error",
        (Indication::AbsentResult { .. } | Indication::Result { .. }, _) => "result",
        (Indication::UserReject { .. }, _) => return Some(format!("reject-u {}", form(outer))),
        (Indication::ProviderReject { .. }, _) => return Some(format!("reject-p {}", form(outer))),
    };
    Some(format!("{what} {}, no value", form(outer)))
}

/// What is seen of a request with a value of indefinite length, whatever the answer.
fn sent(call: &str, seen: &Seen<'_>) -> Vec<String> {
    let mut rows = vec![format!("{call} with an indefinite value")];
    if let Some(apdu) = outgoing(seen) {
        rows.push(format!("{call} of {} octets with an indefinite value", apdu.octets()));
        let lent = usize::from(seen.frame.lent);
        rows.extend((lent == apdu.octets()).then(|| format!("{call} with an indefinite value lent exactly")));
        rows.extend((lent + 1 == apdu.octets()).then(|| format!("{call} with an indefinite value lent one less")));
    }
    rows
}

/// The level of the innermost element, if it is of indefinite length.
fn innermost_level(elements: &[Placed<'_>]) -> Option<usize> {
    elements.iter().max_by_key(|placed| placed.level).filter(|placed| placed.is_indefinite()).map(|placed| placed.level)
}

/// Appends the elements one after another with everything inside, counted past the limit of levels.
fn place<'a>(mut octets: &'a [u8], level: usize, around: Option<bool>, placed: &mut Vec<Placed<'a>>) {
    while let Some((element, rest)) = octets::split(octets, 2 * State::LEVELS) {
        placed.push(Placed { element, level, around });
        if octets::is_constructed(element.identifier()) {
            place(element.contents(), level + 1, Some(octets::is_indefinite(element.whole)), placed);
        }
        octets = rest;
    }
}

/// Whether an APDU and its value are of indefinite length.
fn both() -> impl Iterator<Item = (bool, bool)> {
    FORMS.into_iter().flat_map(|outer| FORMS.map(|value| (outer, value)))
}

fn form(is_indefinite: bool) -> &'static str {
    match is_indefinite {
        true => "indefinite",
        false => "definite",
    }
}

fn shown(kind: &str, outer: bool, value: bool) -> String {
    format!("{kind} {}, value {}", form(outer), form(value))
}

fn returned(outer: bool, inner: bool, value: bool) -> String {
    format!("result {}, 30 {}, value {}", form(outer), form(inner), form(value))
}

fn row(what: &str) -> String {
    format!("form: {what}")
}
