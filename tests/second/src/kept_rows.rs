//! Rows of kept answers: which answers are kept and which not, and what a received Invoke with a kept id is.
//! Follows docs/RULES.md, "Kept answers".

use crate::apdu::{self, Apdu};
use crate::code::Code;
use crate::frame;
use crate::generate::Seen;
use crate::kept::OCTETS;
use crate::observe::answered;
use crate::probe::{self, Listed};
use crate::state::State;
use crate::table::{Operation, Table};

/// Answers that are sent, and what is kept before them.
const GIVEN: [&str; 34] = [
    "result, none kept",
    "result, some kept",
    "result, seven kept",
    "result, eight kept",
    "error, none kept",
    "error, some kept",
    "error, seven kept",
    "error, eight kept",
    "result of class 1",
    "result of class 2",
    "result of class 4",
    "error of class 1",
    "error of class 2",
    "error of class 3",
    "absent result",
    "result of 511 octets",
    "result of 512 octets",
    "result of 513 octets",
    "error of 512 octets",
    "error of 513 octets",
    "result of 512 octets, eight kept",
    "result of 513 octets, eight kept",
    "error of 513 octets, eight kept",
    "result, idempotent",
    "error, idempotent",
    "result, idempotent, eight kept",
    "result of a name",
    "result, neither listed",
    "result, acknowledge listed",
    "result, both listed",
    "result to a probe",
    "result to an acknowledge",
    "error to a probe or acknowledge",
    "user reject, eight kept",
];

/// Received Invokes with a kept id, and others that meet one.
const MET: [&str; 22] = [
    "Invoke of class 1, accepted",
    "Invoke of class 2, accepted",
    "Invoke of class 3, accepted",
    "Invoke of class 4, accepted",
    "Invoke of class 5, accepted",
    "linked Invoke, accepted",
    "idempotent Invoke, accepted",
    "Invoke with the oldest of eight, accepted",
    "Invoke with the newest of eight, accepted",
    "Invoke with the only one, accepted",
    "Invoke of class 5 with 32 peer records, accepted",
    "Invoke, neither listed, accepted",
    "Invoke, both listed, accepted",
    "Invoke, 81 01",
    "Invoke, 81 02",
    "Invoke, 81 03",
    "Invoke, 81 05",
    "Invoke, 81 06",
    "Invoke, 81 07",
    "own invoke, sent",
    "forget of an own record, accepted",
    "result received, accepted",
];

/// Every row that must occur.
pub fn rows() -> Vec<String> {
    let given = GIVEN.iter().map(|what| row(&format!("{what}, sent")));
    given.chain(MET.iter().map(|what| row(&format!("kept id: {what}")))).collect()
}

fn row(what: &str) -> String {
    format!("kept: {what}")
}

/// The rows that a call belongs to.
pub fn rows_of(seen: &Seen<'_>) -> Vec<String> {
    let Some(table) = Table::new(seen.table) else { return Vec::new() };
    let rows = match seen.frame.kind {
        frame::RESULT | frame::ERROR | frame::REJECT => given(seen, &table),
        _ => met(seen, &table).into_iter().map(|what| format!("kept id: {what}")).collect(),
    };
    rows.iter().map(|what| row(what)).collect()
}

fn listed(table: &Table<'_>) -> &'static str {
    match table.listed {
        Listed::Neither => "neither listed",
        Listed::Acknowledge => "acknowledge listed",
        Listed::Both => "both listed",
    }
}

fn given(seen: &Seen<'_>, table: &Table<'_>) -> Vec<String> {
    let kind = match seen.frame.kind {
        frame::RESULT => "result",
        frame::ERROR => "error",
        _ => "user reject",
    };
    let (answer, before) = (answered(seen.answer), seen.before);
    let Some(at) = before.peer.find(seen.frame.id) else { return Vec::new() };
    let Some(operation) = table.operation(&before.peer.places[at].code) else { return Vec::new() };
    let kept = match before.kept.ids().len() {
        0 => "none kept",
        7 => "seven kept",
        State::KEPT => "eight kept",
        _ => "some kept",
    };
    let mut rows = if probe::is_answered_here(&operation.code) {
        let one = if operation.code == Code::Local(probe::PROBE) { "a probe" } else { "an acknowledge" };
        vec![format!("{kind} to {one}"), format!("{kind} to a probe or acknowledge")]
    } else if operation.idempotent {
        vec![format!("{kind}, idempotent"), format!("{kind}, idempotent, {kept}")]
    } else {
        kept_rows(seen, (kind, kept), &operation, table)
    };
    rows.iter_mut().for_each(|what| *what = format!("{what}, {answer}"));
    rows
}

fn kept_rows(seen: &Seen<'_>, (kind, kept): (&str, &str), operation: &Operation, table: &Table<'_>) -> Vec<String> {
    let octets = seen.written.len();
    let mut rows = vec![format!("{kind} of {octets} octets"), format!("{kind} of {octets} octets, {kept}")];
    if octets <= OCTETS {
        rows.push(format!("{kind}, {kept}"));
        rows.push(format!("{kind} of class {}", operation.class));
        rows.push(format!("{kind}, {}", listed(table)));
        rows.extend(seen.frame.value().is_empty().then(|| format!("absent {kind}")));
        rows.extend(matches!(operation.code, Code::Name(_)).then(|| format!("{kind} of a name")));
    }
    rows
}

/// What meets a kept id: received Invokes of other operations, and calls that speak of own ids.
fn met(seen: &Seen<'_>, table: &Table<'_>) -> Vec<String> {
    let (kept, answer) = (&seen.before.kept, answered(seen.answer));
    let is_kept = |id: i32| kept.find(id).is_some();
    match (seen.frame.kind, apdu::read(seen.frame.payload)) {
        (frame::INVOKE, _) if is_kept(seen.frame.id) => vec![format!("own invoke, {answer}")],
        (frame::FORGET, _) if is_kept(seen.frame.id) && seen.frame.detail == 0 => {
            vec![format!("forget of an own record, {answer}")]
        }
        (frame::RECEIVE, Ok(Apdu::Result { id, .. })) if is_kept(id) => vec![format!("result received, {answer}")],
        (frame::RECEIVE, Ok(Apdu::Invoke(invoke))) if is_kept(invoke.id) => {
            let operation = invoke.code.and_then(|code| table.operation(&code));
            if operation.is_some_and(|operation| probe::is_answered_here(&operation.code)) {
                return Vec::new();
            }
            let mut rows = vec![format!("Invoke, {answer}"), format!("Invoke, {}, {answer}", listed(table))];
            rows.extend(invoke.linked.map(|_| format!("linked Invoke, {answer}")));
            if let Some(operation) = operation {
                let class = operation.class;
                rows.push(format!("Invoke of class {class}, {answer}"));
                let full = seen.before.peer.is_full();
                rows.extend(full.then(|| format!("Invoke of class {class} with 32 peer records, {answer}")));
                rows.extend(operation.idempotent.then(|| format!("idempotent Invoke, {answer}")));
            }
            let which = match (kept.find(invoke.id), kept.ids().len()) {
                (_, 1) => "the only one",
                (Some(0), State::KEPT) => "the oldest of eight",
                (Some(7), State::KEPT) => "the newest of eight",
                _ => "another",
            };
            rows.push(format!("Invoke with {which}, {answer}"));
            rows
        }
        _ => Vec::new(),
    }
}
