//! Rows of codes that are names: how a code stands to those of the table, what is answered, and what holds names.
//! Follows docs/RULES.md, "Names".

use crate::answer::{Answer, Indication, Problem, Refusal};
use crate::apdu::{self, Apdu, Outgoing};
use crate::code::{self, Code, Name, NAME_OCTETS};
use crate::frame;
use crate::generate::Seen;
use crate::looked_up::{looked_up, List};
use crate::names::Wanted;
use crate::observe::{answered, outgoing};
use crate::octets::is_object_identifier;
use crate::state::Record;
use crate::table::Table;
use crate::values::{element, integer_contents};
use crate::ways::code_field;

/// How a code stands to those of its list, in a request and received, each of operations and of errors.
const CODES: [&str; 12] = [
    "a name listed",
    "a name that both lists have",
    "a name listed beside one with the same 16 octets",
    "a name, table of edition 1",
    "a name that only the other list has",
    "a name that nothing has",
    "a name that is not in the table",
    "a listed name's 16 octets with another length",
    "the beginning of a listed name",
    "a listed name and more octets",
    "a listed local code's octets as a name",
    "a listed name's octets as a local code",
];
const OVER: [&str; 2] = ["a name over 16 octets", "a name over 16 octets that starts with a listed one of 16"];
const ASKED: [&str; 2] = ["a name without octets", "a name of wrong contents"];
const LONG_FORM: &str = "a listed name in long form";

/// How a result's code stands to its record's, and what is answered.
const RESULTS: [&str; 9] = [
    "its record's name, accepted",
    "its record's name in long form, accepted",
    "another name, 82 00",
    "its record's 16 octets with another length, 82 00",
    "a name over 16 octets, 82 00",
    "a name for a local code, 82 00",
    "a name with its record's local code's octets, 82 00",
    "a local code for a name, 82 00",
    "a local code with its record's name's octets, 82 00",
];

/// Records' names that a valid table lacks.
const LACKED: [&str; 5] = [
    "only an error has",
    "nothing has",
    "is not in the table",
    "no table of edition 1 has",
    "is in the table with another length",
];

/// Sizes of requests with names.
const SIZES: [&str; 5] = [
    "lent exactly, sent",
    "lent one less, refused 2",
    "of 4096 octets, sent",
    "of 4097 octets, refused 15",
    "of 16 octets, sent",
];

/// What stands in a call that is accepted.
const ACCEPTED: [&str; 14] = [
    "invoke with a name indicated",
    "linked invoke with a name indicated",
    "class 5 invoke with a name indicated",
    "result with a name indicated",
    "absent result of a name indicated",
    "error with a name indicated",
    "error with a local code for an operation with a name indicated",
    "error with a name for an operation with a local code indicated",
    "record with a name forgotten",
    "record with a name rejected",
    "names and local codes on one side",
    "32 records with names",
    "invoke of an idempotent operation indicated",
    "invoke of an idempotent operation sent",
];

/// Every row that must occur.
pub fn rows() -> Vec<String> {
    let mut rows = Vec::new();
    for list in [List::Operations, List::Errors] {
        for code in CODES.iter().chain(&OVER) {
            rows.extend([true, false].map(|asked| code_row(list, asked, code)));
        }
        rows.extend(ASKED.map(|code| code_row(list, true, code)));
        rows.push(code_row(list, false, LONG_FORM));
    }
    rows.extend(RESULTS.map(|row| format!("name: result with {row}")));
    for side in ["own", "peer"] {
        rows.extend(LACKED.map(|row| format!("name: {side} record's name that {row}, refused 1")));
    }
    for call in ["invoke", "result", "error"] {
        rows.extend(SIZES.map(|row| format!("name: {call} with a name {row}")));
    }
    rows.extend(ACCEPTED.map(|row| format!("name: {row}")));
    rows
}

fn code_row(list: List, asked: bool, code: &str) -> String {
    format!("name: {} {}, {code}", list.name(), if asked { "asked" } else { "received" })
}

/// The rows that a call belongs to.
pub fn rows_of(call: &str, seen: &Seen<'_>) -> Vec<String> {
    let Some(table) = Table::new(seen.table) else { return Vec::new() };
    let mut rows = code_rows(seen, &table);
    rows.extend(result_row(seen).map(|row| format!("name: result with {row}")));
    rows.extend(lacked_rows(seen, &table));
    rows.extend(size_rows(call, seen));
    rows.extend(accepted_rows(seen, &table).into_iter().map(|row| format!("name: {row}")));
    rows
}

/// The code that a call looked up, whatever its form.
fn wanted(seen: &Seen<'_>) -> Option<Wanted> {
    if seen.frame.kind != frame::RECEIVE {
        return Some(match seen.frame.asked() {
            code::Asked::Local(code) => Wanted::Local(code),
            code::Asked::Name(contents) => Wanted::Name(contents.to_vec()),
        });
    }
    let field = code_field(seen.frame.payload)?;
    match field.identifier() {
        0x06 => Some(Wanted::Name(field.contents().to_vec())),
        _ => crate::octets::integer(field.contents()).map(Wanted::Local),
    }
}

fn code_rows(seen: &Seen<'_>, table: &Table<'_>) -> Vec<String> {
    let Some(list) = looked_up(seen) else { return Vec::new() };
    let Some(wanted) = wanted(seen) else { return Vec::new() };
    let lists = match list {
        List::Operations => [List::Operations, List::Errors],
        List::Errors => [List::Errors, List::Operations],
    };
    let asked = seen.frame.kind != frame::RECEIVE;
    let sorts = sorts(&wanted, lists.map(|list| list.codes(table)), seen.table.starts_with(&[0xFF]), table.names());
    let mut rows: Vec<String> = sorts.into_iter().map(|sort| code_row(list, asked, sort)).collect();
    if let Wanted::Name(contents) = &wanted {
        let listed = Code::named(contents).is_some_and(|code| list.codes(table).contains(&code));
        let short = code_field(seen.frame.payload).is_some_and(|field| *field.whole == element(0x06, contents));
        rows.extend((!asked && listed && !short).then(|| code_row(list, false, LONG_FORM)));
    }
    rows
}

/// How a code stands to a list and to the other.
fn sorts(wanted: &Wanted, [list, other]: [Vec<Code>; 2], named: bool, names: &[Name]) -> Vec<&'static str> {
    let listed: Vec<&Name> = list.iter().filter_map(of_name).collect();
    let contents = match wanted {
        Wanted::Name(contents) => contents,
        Wanted::Local(code) => {
            let octets = integer_contents(*code);
            let is_name =
                !list.contains(&Code::Local(*code)) && listed.iter().any(|name| *code::contents(name) == octets);
            return is_name.then_some(CODES[11]).into_iter().collect();
        }
    };
    let Some(Code::Name(name)) = Code::named(contents) else { return over(contents, &listed) };
    if !is_object_identifier(contents) {
        return vec![ASKED[1]];
    }
    let wanted = Code::Name(name);
    let twin = |other: &&Name| other[1..] == name[1..] && other[0] != name[0];
    if list.contains(&wanted) {
        let conditions = [true, other.contains(&wanted), listed.iter().any(|other| twin(other))];
        return CODES.into_iter().zip(conditions).filter(|(_, holds)| *holds).map(|(row, _)| row).collect();
    }
    let begins = |longer: &[u8], shorter: &[u8]| longer.len() > shorter.len() && longer.starts_with(shorter);
    let conditions = [
        !named,
        other.contains(&wanted),
        names.contains(&name) && !other.contains(&wanted),
        named && !names.contains(&name),
        listed.iter().any(|other| twin(other)),
        listed.iter().any(|other| begins(code::contents(other), contents)),
        listed.iter().any(|other| begins(contents, code::contents(other))),
        list.iter().any(|code| matches!(code, Code::Local(code) if integer_contents(*code) == *contents)),
    ];
    CODES[3..].iter().zip(conditions).filter(|(_, holds)| *holds).map(|(row, _)| *row).collect()
}

/// Contents with no octets or over 16.
fn over(contents: &[u8], listed: &[&Name]) -> Vec<&'static str> {
    if contents.is_empty() {
        return vec![ASKED[0]];
    }
    let starts = |name: &&Name| usize::from(name[0]) == NAME_OCTETS && contents.starts_with(code::contents(name));
    OVER.into_iter()
        .zip([true, listed.iter().any(|name| starts(name))])
        .filter(|(_, holds)| *holds)
        .map(|(row, _)| row)
        .collect()
}

fn of_name(code: &Code) -> Option<&Name> {
    match code {
        Code::Name(name) => Some(name),
        Code::Local(_) => None,
    }
}

/// How the code of a received result stands to its record's, if no other check refused it.
fn result_row(seen: &Seen<'_>) -> Option<&'static str> {
    let Ok(Apdu::Result { id, returned: Some(_) }) = apdu::read(seen.frame.payload) else { return None };
    if seen.frame.kind != frame::RECEIVE {
        return None;
    }
    let record = seen.before.own.places[seen.before.own.find(id)?].code;
    let (field, returned) = (code_field(seen.frame.payload)?, wanted(seen)?);
    match (seen.answer, record, &returned) {
        (Answer::Indicated(Indication::Result { .. }), Code::Name(_), Wanted::Name(contents)) => {
            Some(RESULTS[usize::from(*field.whole != element(0x06, contents))])
        }
        (
            Answer::Refused(Refusal::Rejected { problem: Problem::RESULT_UNRECOGNIZED_INVOCATION, .. }),
            record,
            wanted,
        ) => refused_result(record, wanted),
        _ => None,
    }
}

fn refused_result(record: Code, returned: &Wanted) -> Option<&'static str> {
    Some(match (record, returned) {
        (_, Wanted::Name(contents)) if contents.len() > NAME_OCTETS => RESULTS[4],
        (Code::Name(name), Wanted::Name(contents)) => {
            let twin = code::name(contents).is_some_and(|other| other[1..] == name[1..]);
            RESULTS[2 + usize::from(twin)]
        }
        (Code::Local(code), Wanted::Name(contents)) => RESULTS[5 + usize::from(integer_contents(code) == *contents)],
        (Code::Name(name), Wanted::Local(code)) => {
            RESULTS[7 + usize::from(*code::contents(&name) == integer_contents(*code))]
        }
        (Code::Local(_), Wanted::Local(_)) => return None,
    })
}

/// Records' names that a valid table has for no operation.
fn lacked_rows(seen: &Seen<'_>, table: &Table<'_>) -> Vec<String> {
    if !matches!(seen.answer, Answer::Refused(Refusal::InvalidTable)) {
        return Vec::new();
    }
    let mut rows = Vec::new();
    for (side, records) in [("own", seen.before.own.live()), ("peer", seen.before.peer.live())] {
        for name in records.iter().filter_map(|record| of_name(&record.code)) {
            let code = Code::Name(*name);
            if table.operation(&code).is_some() {
                continue;
            }
            let (known, twin) = (table.names().contains(name), |other: &Name| other[1..] == name[1..]);
            let conditions = [
                table.error(&code).is_some(),
                known && table.error(&code).is_none(),
                !known && seen.table.starts_with(&[0xFF]),
                !seen.table.starts_with(&[0xFF]),
                !known && table.names().iter().any(twin),
            ];
            let lacked = LACKED.iter().zip(conditions).filter(|(_, holds)| *holds);
            rows.extend(lacked.map(|(row, _)| format!("name: {side} record's name that {row}, refused 1")));
        }
    }
    rows
}

/// The sizes of a request that writes a name.
fn size_rows(call: &str, seen: &Seen<'_>) -> Vec<String> {
    let Some(apdu) = outgoing(seen) else { return Vec::new() };
    let name = match apdu {
        Outgoing::Invoke { code: code::Asked::Name(name), .. }
        | Outgoing::Error { code: code::Asked::Name(name), .. } => name,
        Outgoing::Result { code: code::Asked::Name(name), value: [_, ..], .. } => name,
        _ => return Vec::new(),
    };
    let (octets, lent) = (apdu.octets(), usize::from(seen.frame.lent));
    let told = answered(seen.answer);
    let mut rows = vec![format!("of {octets} octets, {told}")];
    rows.extend((lent == octets).then(|| format!("lent exactly, {told}")));
    rows.extend((lent + 1 == octets).then(|| format!("lent one less, {told}")));
    rows.extend((name.len() == NAME_OCTETS).then(|| format!("of 16 octets, {told}")));
    rows.into_iter().map(|row| format!("name: {call} with a name {row}")).collect()
}

fn accepted_rows(seen: &Seen<'_>, table: &Table<'_>) -> Vec<&'static str> {
    if !seen.answer.is_accepted() {
        return Vec::new();
    }
    let mut rows = answer_rows(seen, table);
    for side in [&seen.before.own, &seen.before.peer] {
        let names = side.live().iter().filter(|record| of_name(&record.code).is_some()).count();
        rows.extend((names > 0 && names < side.live().len()).then_some(ACCEPTED[10]));
        rows.extend((names == 32).then_some(ACCEPTED[11]));
    }
    rows
}

fn answer_rows(seen: &Seen<'_>, table: &Table<'_>) -> Vec<&'static str> {
    let is_name = |code: &Code| of_name(code).is_some();
    let operation = |code: &Code| table.operation(code);
    let record = |records: &[Record]| records.iter().find(|record| record.id == seen.frame.id).copied();
    match seen.answer {
        Answer::Indicated(Indication::Invoke { linked, code, .. }) => {
            let row = operation(code);
            let silent = row.is_some_and(|row| row.class == 5);
            let mut rows: Vec<&str> = row.filter(|row| row.idempotent).map(|_| ACCEPTED[12]).into_iter().collect();
            if is_name(code) {
                rows.push(ACCEPTED[0]);
                rows.extend(linked.map(|_| ACCEPTED[1]));
                rows.extend(silent.then_some(ACCEPTED[2]));
            }
            rows
        }
        Answer::Indicated(Indication::Result { operation, .. }) if is_name(operation) => vec![ACCEPTED[3]],
        Answer::Indicated(Indication::AbsentResult { operation, .. }) if is_name(operation) => vec![ACCEPTED[4]],
        Answer::Indicated(Indication::Error { code, operation, .. }) => match (is_name(code), is_name(operation)) {
            (true, true) => vec![ACCEPTED[5]],
            (false, true) => vec![ACCEPTED[6]],
            (true, false) => vec![ACCEPTED[7]],
            (false, false) => Vec::new(),
        },
        Answer::Forgotten => {
            let side = if seen.frame.detail == 0 { &seen.before.own } else { &seen.before.peer };
            record(side.live()).filter(|record| is_name(&record.code)).map(|_| ACCEPTED[8]).into_iter().collect()
        }
        Answer::Sent { .. } if seen.frame.kind == frame::REJECT => {
            let record = record(seen.before.peer.live()).filter(|record| is_name(&record.code));
            record.map(|_| ACCEPTED[9]).into_iter().collect()
        }
        Answer::Sent { .. } if seen.frame.kind == frame::INVOKE => {
            let row = seen.frame.asked().code().and_then(|code| operation(&code));
            row.filter(|row| row.idempotent).map(|_| ACCEPTED[13]).into_iter().collect()
        }
        _ => Vec::new(),
    }
}
