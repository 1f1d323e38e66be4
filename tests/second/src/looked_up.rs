//! Rows of the lookups of codes: in which list, how long it is, and where the code stands in it.
//! Follows the orders of check of docs/RULES.md, "The search for a code" and "Names".

use crate::answer::{Answer, Problem, Refusal};
use crate::apdu::{self, Apdu, Invoke};
use crate::code::Code;
use crate::codes::{self, Position, LENGTHS};
use crate::frame;
use crate::generate::Seen;
use crate::table::Table;

const LISTS: [List; 2] = [List::Operations, List::Errors];

/// Rows of single codes, each of both lists.
const SINGLE: [&str; 8] = [
    "a negative code listed",
    "a negative code not listed",
    "-2147483648 listed",
    "-2147483648 not listed",
    "2147483647 listed",
    "2147483647 not listed",
    "one below an entry, not listed",
    "one above an entry, not listed",
];

/// The list in which a code is looked up.
#[derive(Clone, Copy, Debug, PartialEq, Eq)]
pub enum List {
    Operations,
    Errors,
}

impl List {
    pub fn name(self) -> &'static str {
        match self {
            List::Operations => "operation",
            List::Errors => "error",
        }
    }

    /// The codes of the list.
    pub fn codes(self, table: &Table<'_>) -> Vec<Code> {
        match self {
            List::Operations => table.operations().map(|entry| entry.code).collect(),
            List::Errors => table.errors().map(|entry| entry.code).collect(),
        }
    }
}

/// A code that a call looked up, and those of the list, by their places in the order of lists.
pub struct Lookup {
    pub list: List,
    pub wanted: i64,
    pub places: Vec<i64>,
}

/// The list in which a call looked a code up: its answer shows that no check before refused it.
pub fn looked_up(seen: &Seen<'_>) -> Option<List> {
    let refused = match seen.answer {
        Answer::Refused(refusal) => refusal.number(),
        _ => 0,
    };
    match seen.frame.kind {
        frame::INVOKE if !matches!(refused, 1 | 19) => Some(List::Operations),
        frame::ERROR if !matches!(refused, 1 | 11 | 12 | 19) => Some(List::Errors),
        frame::RECEIVE => received(seen).map(|(list, _)| list),
        _ => None,
    }
}

/// The lookup that a call came to; none for a code that no table can have or a name that is not among the names.
pub fn lookup(seen: &Seen<'_>) -> Option<Lookup> {
    let (list, wanted) = match seen.frame.kind {
        frame::RECEIVE => received(seen)?,
        _ => (looked_up(seen)?, seen.frame.asked().code()),
    };
    let (table, wanted) = (Table::new(seen.table)?, wanted?);
    let place = |code: &Code| codes::place(code, table.names());
    Some(Lookup { list, wanted: place(&wanted)?, places: list.codes(&table).iter().filter_map(place).collect() })
}

/// The list and the code of a received Invoke or ReturnError.
fn received(seen: &Seen<'_>) -> Option<(List, Option<Code>)> {
    let problem = match *seen.answer {
        Answer::Refused(Refusal::Rejected { problem, .. }) => Some(problem),
        Answer::Refused(_) => return None,
        _ => None,
    };
    match (apdu::read(seen.frame.payload).ok()?, problem) {
        (Apdu::Invoke(Invoke { code, .. }), None | Some(Problem::Invoke(1 | 2 | 3 | 7))) => {
            Some((List::Operations, code))
        }
        (Apdu::Error { code, .. }, None | Some(Problem::Error(2..=4))) => Some((List::Errors, code)),
        _ => None,
    }
}

/// Every row that must occur.
pub fn rows() -> Vec<String> {
    let mut rows = Vec::new();
    for list in LISTS {
        rows.push(row(list, "list of 0"));
        for (low, high) in LENGTHS {
            for position in Position::ALL.into_iter().filter(|position| position.is_in(high)) {
                rows.extend([false, true].map(|named| placed(list, named, (low, high), position)));
            }
        }
        rows.extend(SINGLE.map(|single| row(list, single)));
    }
    rows
}

/// The rows that a call belongs to.
pub fn rows_of(seen: &Seen<'_>) -> Vec<String> {
    let Some(Lookup { list, wanted, places }) = lookup(seen) else { return Vec::new() };
    let Some(position) = Position::of(wanted, &places) else { return vec![row(list, "list of 0")] };
    let lengths = LENGTHS.into_iter().filter(|(low, high)| (*low..=*high).contains(&places.len()));
    let named = wanted >= codes::FIRST_NAME;
    let mut rows: Vec<String> = lengths.map(|lengths| placed(list, named, lengths, position)).collect();
    let listed = places.contains(&wanted);
    let ends = if listed { "listed" } else { "not listed" };
    rows.extend((wanted < 0).then(|| row(list, &format!("a negative code {ends}"))));
    let last = [i32::MIN, i32::MAX].map(i64::from).contains(&wanted);
    rows.extend(last.then(|| row(list, &format!("{wanted} {ends}"))));
    let next_to = |beside: i64| !listed && places.contains(&beside);
    rows.extend(next_to(wanted + 1).then(|| row(list, "one below an entry, not listed")));
    rows.extend(next_to(wanted - 1).then(|| row(list, "one above an entry, not listed")));
    rows
}

fn row(list: List, what: &str) -> String {
    format!("lookup: {}, {what}", list.name())
}

fn placed(list: List, named: bool, (low, high): (usize, usize), position: Position) -> String {
    let lengths = if low == high { low.to_string() } else { format!("{low} to {high}") };
    let sort = if named { "name, " } else { "" };
    row(list, &format!("{sort}list of {lengths}, {}", position.name()))
}
