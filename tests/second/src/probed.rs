//! Rows of probe and acknowledge: what is found, in which tables and states, with which room, and what is refused.
//! Follows docs/RULES.md, "Probe and acknowledge".

use crate::answer::Answer;
use crate::apdu::{self, Apdu, Invoke};
use crate::code::Code;
use crate::frame;
use crate::generate::Seen;
use crate::kept;
use crate::observe::{answered, probe_found};
use crate::probe::{self, Listed, ACKNOWLEDGE, PROBE};
use crate::state::State;
use crate::table::{Operation, Table};

/// What is found, in tables of either edition.
const FOUND: [&str; 5] =
    ["probe: running", "probe: finished", "probe: unknown", "acknowledge: acknowledged", "acknowledge: unknown"];

/// What else an answered probe or acknowledge is, or finds.
const ANSWERED: [&str; 35] = [
    "probe of class 1",
    "probe of class 2",
    "acknowledge of class 1",
    "acknowledge of class 2",
    "probe marked idempotent",
    "acknowledge marked idempotent",
    "linked probe",
    "linked acknowledge",
    "probe with 32 peer records",
    "acknowledge with 32 peer records",
    "probe with a kept id of its own: running",
    "probe with a kept id of its own: finished",
    "probe with a kept id of its own: unknown",
    "acknowledge with a kept id of its own: acknowledged",
    "acknowledge with a kept id of its own: unknown",
    "probe about its own id: finished",
    "probe about its own id: unknown",
    "acknowledge about its own id: acknowledged",
    "acknowledge about its own id: unknown",
    "acknowledge about a live peer record: unknown",
    "probe about an own record: unknown",
    "probe about a resting id: unknown",
    "probe, the oldest of eight: finished",
    "probe, the newest of eight: finished",
    "probe, one between of eight: finished",
    "probe, the only one: finished",
    "acknowledge, the oldest of eight: acknowledged",
    "acknowledge, the newest of eight: acknowledged",
    "acknowledge, one between of eight: acknowledged",
    "acknowledge, the only one: acknowledged",
    "probe of an answer of no octets: finished",
    "probe of an answer of 512 octets: finished",
    "probe of an answer that is no APDU: finished",
    "acknowledge alone listed",
    "528 octets written",
];

/// What a received probe or acknowledge is refused with.
const REFUSED: [&str; 17] = [
    "probe, 81 00",
    "acknowledge, 81 00",
    "probe with a wrong inside, 81 00",
    "linked probe, 81 05",
    "linked acknowledge, 81 05",
    "linked probe with a wrong inside, 81 05",
    "linked probe, 81 06",
    "linked acknowledge, 81 06",
    "linked probe with a wrong inside, 81 06",
    "linked probe, 81 07",
    "linked acknowledge, 81 07",
    "linked probe with a wrong inside that is no child, 81 02",
    "probe with a wrong inside and 32 peer records, 81 02",
    "probe not listed, 81 01",
    "acknowledge not listed, 81 01",
    "probe where acknowledge alone is listed, 81 01",
    "acknowledge with a wrong inside, 81 02",
];

/// Rooms of receive, and the answers.
const ROOMS: [&str; 16] = [
    "both listed, 527 lent, refused 2",
    "both listed, 527 lent for a Reject, refused 2",
    "both listed, 527 lent for 4,097 octets, refused 3",
    "both listed, 528 lent, accepted",
    "both listed, 528 lent, answered",
    "both listed, 528 lent, refused 18",
    "both listed, 528 lent, refused 17",
    "both listed, 529 lent, answered",
    "both listed, 16 lent, refused 2",
    "both listed, 11 lent, refused 2",
    "acknowledge listed, 15 lent, refused 2",
    "acknowledge listed, 11 lent, refused 2",
    "acknowledge listed, 16 lent, accepted",
    "acknowledge listed, 16 lent, answered",
    "acknowledge listed, 16 lent, refused 18",
    "acknowledge listed, 17 lent, answered",
];

/// Own invokes of probe and acknowledge, and of others beside them.
const OWN: [&str; 27] = [
    "probe beside a class 1 record, sent",
    "acknowledge beside a class 1 record, sent",
    "probe beside a class 1 probe, sent",
    "another invoke beside a class 1 probe or acknowledge, refused 6",
    "probe with a wrong inside, sent",
    "acknowledge with a wrong inside, sent",
    "linked probe, sent",
    "linked acknowledge, sent",
    "probe beside a class 1 record, refused 5",
    "probe beside a class 1 record, refused 22",
    "probe beside a class 1 record, refused 7",
    "probe beside a class 1 record, refused 8",
    "probe beside a class 1 record, refused 9",
    "probe beside a class 1 record, refused 21",
    "probe beside a class 1 record, refused 10",
    "probe beside a class 1 record, refused 14",
    "probe beside a class 1 record, refused 15",
    "probe beside a class 1 record, refused 2",
    "acknowledge beside a class 1 record, refused 5",
    "acknowledge beside a class 1 record, refused 22",
    "acknowledge beside a class 1 record, refused 10",
    "acknowledge beside a class 1 record, refused 14",
    "probe of class 1, sent",
    "acknowledge of class 1, sent",
    "probe not listed, refused 4",
    "acknowledge not listed, refused 4",
    "probe where acknowledge alone is listed, refused 4",
];

/// Tables that are right.
const TABLES: [&str; 4] = [
    "error -2 in a table with probe, accepted",
    "error -3 in a table with probe, accepted",
    "error -2 in a table without probe, accepted",
    "error -3 in a table without acknowledge, accepted",
];

/// Every row that must occur.
pub fn rows() -> Vec<String> {
    let editions = ["edition 1", "edition 2"];
    let mut rows: Vec<String> =
        FOUND.iter().flat_map(|found| editions.map(|edition| row(&format!("{found}, {edition}")))).collect();
    rows.extend(ANSWERED.map(|what| row(&format!("{what}, answered"))));
    rows.extend(REFUSED.iter().chain(&ROOMS).map(|what| row(what)));
    rows.extend(OWN.map(|what| row(&format!("own {what}"))));
    rows.extend(TABLES.map(|what| row(&format!("table: {what}"))));
    rows
}

/// The rows that a call belongs to.
pub fn rows_of(seen: &Seen<'_>) -> Vec<String> {
    let Some(table) = Table::new(seen.table) else { return Vec::new() };
    let mut rows = match seen.frame.kind {
        frame::RECEIVE => received(seen, &table),
        frame::INVOKE => invoked(seen, &table),
        _ => Vec::new(),
    };
    if seen.answer.is_accepted() {
        rows.extend(errors(&table));
    }
    rows.iter().map(|what| row(what)).collect()
}

fn row(what: &str) -> String {
    format!("probed: {what}")
}

fn name(code: i32) -> &'static str {
    if code == PROBE {
        "probe"
    } else {
        "acknowledge"
    }
}

/// Errors with the codes of the two operations, which are right in every table.
fn errors(table: &Table<'_>) -> Vec<String> {
    let has = |code: i32| table.error(&Code::Local(code)).is_some();
    let with = |listed: bool| if listed { "with" } else { "without" };
    let mut rows = Vec::new();
    rows.extend(
        has(PROBE)
            .then(|| format!("table: error -2 in a table {} probe, accepted", with(table.listed == Listed::Both))),
    );
    rows.extend(has(ACKNOWLEDGE).then(|| match table.listed {
        Listed::Both => "table: error -3 in a table with probe, accepted".to_string(),
        Listed::Acknowledge => String::new(),
        Listed::Neither => "table: error -3 in a table without acknowledge, accepted".to_string(),
    }));
    rows
}

fn received(seen: &Seen<'_>, table: &Table<'_>) -> Vec<String> {
    let mut rows = rooms(seen, table);
    let Ok(Apdu::Invoke(invoke)) = apdu::read(seen.frame.payload) else { return rows };
    let Some(Code::Local(code @ (PROBE | ACKNOWLEDGE))) = invoke.code else { return rows };
    rows.extend(match (seen.answer, table.operation(&Code::Local(code))) {
        (Answer::Answered { .. }, Some(operation)) => answered_rows(seen, table, (code, &invoke), &operation),
        (_, None) => vec![format!("{}, {}", unlisted(code, table), answered(seen.answer))],
        (_, Some(operation)) => refused(seen, table, (code, &invoke), &operation),
    });
    rows
}

fn unlisted(code: i32, table: &Table<'_>) -> String {
    match table.listed {
        Listed::Acknowledge => format!("{} where acknowledge alone is listed", name(code)),
        _ => format!("{} not listed", name(code)),
    }
}

/// How much was lent, and the answer.
fn rooms(seen: &Seen<'_>, table: &Table<'_>) -> Vec<String> {
    let listed = match table.listed {
        Listed::Neither => return Vec::new(),
        Listed::Acknowledge => "acknowledge listed",
        Listed::Both => "both listed",
    };
    let answer = match seen.answer {
        Answer::Refused(refusal) => format!("refused {}", refusal.number()),
        answer => answered(answer),
    };
    let lent = seen.frame.lent;
    let mut rows = vec![format!("{listed}, {lent} lent, {answer}")];
    let reject = seen.frame.payload.first() == Some(&apdu::REJECT);
    rows.extend(reject.then(|| format!("{listed}, {lent} lent for a Reject, {answer}")));
    let long = seen.frame.payload.len() == State::OCTETS + 1;
    rows.extend(long.then(|| format!("{listed}, {lent} lent for 4,097 octets, {answer}")));
    rows
}

fn answered_rows(
    seen: &Seen<'_>,
    table: &Table<'_>,
    (code, invoke): (i32, &Invoke<'_>),
    row: &Operation,
) -> Vec<String> {
    let State { own, peer, resting, kept } = seen.before;
    let name = name(code);
    let found = match (code, probe_found(seen)) {
        (PROBE, Some(0)) => "running",
        (PROBE, Some(1)) => "finished",
        (ACKNOWLEDGE, Some(0)) => "acknowledged",
        _ => "unknown",
    };
    let edition = if seen.table.starts_with(&[0xFF, 0xFF]) { 2 } else { 1 };
    let asked = invoke.value.and_then(|value| probe::asked_id(code, value)).unwrap_or(0);
    let mut rows = vec![format!("{name} of class {}", row.class)];
    rows.extend(row.idempotent.then(|| format!("{name} marked idempotent")));
    rows.extend(invoke.linked.map(|_| format!("linked {name}")));
    rows.extend(peer.is_full().then(|| format!("{name} with 32 peer records")));
    rows.extend(kept.find(invoke.id).map(|_| format!("{name} with a kept id of its own: {found}")));
    rows.extend((asked == invoke.id).then(|| format!("{name} about its own id: {found}")));
    rows.extend(peer.find(asked).map(|_| format!("{name} about a live peer record: {found}")));
    rows.extend(own.find(asked).map(|_| format!("{name} about an own record: {found}")));
    rows.extend(resting.contains(asked).then(|| format!("{name} about a resting id: {found}")));
    rows.extend((table.listed == Listed::Acknowledge).then(|| "acknowledge alone listed".to_string()));
    rows.push(format!("{} octets written", seen.written.len()));
    if let Some(at) = kept.find(asked) {
        rows.push(format!("{name}, {}: {found}", which(at, kept.ids().len())));
        rows.extend(fetched(kept.answer(at)).map(|what| format!("{name} of an answer {what}: {found}")));
    }
    let mut rows: Vec<String> = rows.into_iter().map(|what| format!("{what}, answered")).collect();
    rows.push(format!("{name}: {found}, edition {edition}"));
    rows
}

fn which(at: usize, count: usize) -> &'static str {
    match (at, count) {
        (0, 1) => "the only one",
        (0, State::KEPT) => "the oldest of eight",
        (7, State::KEPT) => "the newest of eight",
        (_, State::KEPT) => "one between of eight",
        _ => "one of fewer",
    }
}

fn fetched(answer: &[u8]) -> Option<&'static str> {
    match answer.len() {
        0 => Some("of no octets"),
        kept::OCTETS => Some("of 512 octets"),
        _ => apdu::read(answer).is_err().then_some("that is no APDU"),
    }
}

fn refused(seen: &Seen<'_>, table: &Table<'_>, (code, invoke): (i32, &Invoke<'_>), row: &Operation) -> Vec<String> {
    let (name, answer) = (name(code), answered(seen.answer));
    let linked = if invoke.linked.is_some() { "linked " } else { "" };
    let wrong = invoke.value.and_then(|value| probe::asked_id(code, value)).is_none();
    let mut rows = match wrong {
        false => vec![format!("{linked}{name}, {answer}")],
        true => vec![format!("{linked}{name} with a wrong inside, {answer}")],
    };
    if wrong && seen.before.peer.is_full() {
        rows.push(format!("{linked}{name} with a wrong inside and 32 peer records, {answer}"));
    }
    let parent = invoke.linked.and_then(|linked| seen.before.own.find(linked));
    let parent = parent.and_then(|at| table.operation(&seen.before.own.places[at].code));
    if wrong && parent.is_some_and(|parent| !table.lists_child(&parent, row)) {
        rows.push(format!("{linked}{name} with a wrong inside that is no child, {answer}"));
    }
    rows
}

fn invoked(seen: &Seen<'_>, table: &Table<'_>) -> Vec<String> {
    let answer = answered(seen.answer);
    let synchronous = |record: &crate::state::Record| table.operation(&record.code).is_some_and(|row| row.class == 1);
    let beside: Vec<Code> =
        seen.before.own.live().iter().filter(|record| synchronous(record)).map(|record| record.code).collect();
    let probes = beside.iter().any(probe::is_answered_here);
    let Some(Code::Local(code @ (PROBE | ACKNOWLEDGE))) = seen.frame.asked().code() else {
        let only = probes && beside.iter().all(probe::is_answered_here);
        let row = format!("own another invoke beside a class 1 probe or acknowledge, {answer}");
        return only.then_some(row).into_iter().collect();
    };
    let name = name(code);
    let Some(row) = table.operation(&Code::Local(code)) else {
        return vec![format!("own {}, {answer}", unlisted(code, table))];
    };
    let mut rows = vec![format!("own {name} of class {}, {answer}", row.class)];
    rows.extend((!beside.is_empty()).then(|| format!("own {name} beside a class 1 record, {answer}")));
    rows.extend(probes.then(|| format!("own {name} beside a class 1 probe, {answer}")));
    rows.extend(seen.frame.linked_id().map(|_| format!("own linked {name}, {answer}")));
    let wrong = probe::asked_id(code, seen.frame.value()).is_none();
    rows.extend(wrong.then(|| format!("own {name} with a wrong inside, {answer}")));
    rows
}
