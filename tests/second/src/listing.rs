//! A valid table as text, an entry a line. Follows docs/TABLES.md, "The text".

use crate::asked::hex;
use crate::code::{self, Code};
use crate::table::{ErrorEntry, Operation, Rule, Table};

/// The names of the parts' entries; the last part is edition 2's.
pub const PARTS: [&str; 5] = ["operation", "error", "error pair", "child pair", "name"];

/// The line of a table of edition 2.
pub const EDITION: &str = "edition 2";

/// The words for classes 1 to 5.
pub const CLASSES: [&str; 5] =
    ["synchronous, result or error", "asynchronous, result or error", "error only", "result only", "no answer"];

/// What `tabcheck` writes of a file with these octets, if they are a valid table.
pub fn listing(name: &str, octets: &[u8]) -> Option<String> {
    let table = Table::new(octets)?;
    let code = |index: usize| table.operations().nth(index).map_or(Code::default(), |row| row.code);
    let error_code = |index: usize| table.errors().nth(index).map_or(Code::default(), |row| row.code);
    let parts: [Vec<String>; 5] = [
        table.operations().map(|row| operation_fields(&row)).collect(),
        table.errors().map(|row| error_fields(&row)).collect(),
        table.error_pairs().map(|(a, b)| error_pair_fields(code(a), error_code(b))).collect(),
        table.child_pairs().map(|(a, b)| child_pair_fields(code(a), code(b))).collect(),
        table.names().iter().map(|name| hex(code::contents(name))).collect(),
    ];
    let mut text = format!("{name}: valid, {} octets\n", octets.len());
    if octets.starts_with(&[0xFF]) {
        text += &format!("  {EDITION}\n");
    }
    for (part, entries) in PARTS.into_iter().zip(parts) {
        for (index, fields) in entries.into_iter().enumerate() {
            text += &format!("  {part} {index}: {fields}\n");
        }
    }
    Some(text)
}

pub fn operation_fields(row: &Operation) -> String {
    let words = CLASSES[usize::from(row.class) - 1];
    let [argument, result] = [value("argument", row.argument), value("result", row.result)];
    let idempotent = if row.idempotent { ", idempotent" } else { "" };
    format!("{}, class {} ({words}), {argument}, {result}{idempotent}", code_fields(row.code), row.class)
}

pub fn error_fields(row: &ErrorEntry) -> String {
    format!("{}, {}", code_fields(row.code), value("parameter", row.parameter))
}

pub fn error_pair_fields(operation: Code, error: Code) -> String {
    format!("operation {}, error {}", code_fields(operation), code_fields(error))
}

pub fn child_pair_fields(parent: Code, child: Code) -> String {
    format!("operation {}, child {}", code_fields(parent), code_fields(child))
}

/// A code or a name with the word for it.
pub fn code_fields(code: Code) -> String {
    match code {
        Code::Local(code) => format!("code {code}"),
        Code::Name(name) => format!("name {}", hex(code::contents(&name))),
    }
}

fn value(name: &str, rule: Rule) -> String {
    match rule {
        Rule { kind: 0, .. } => format!("no {name}"),
        Rule { kind, optional: false } => format!("{name} {kind:02x}"),
        Rule { kind, optional: true } => format!("{name} {kind:02x} optional"),
    }
}
