//! The stored tables of `tabcheck`: what it says of each is this program's answer too.

use second::first_fault::first_fault;
use second::listing::listing;
use second::table::Table;
use std::fs;
use std::path::{Path, PathBuf};

/// The stored tables by name, and what `tabcheck` says of all of them.
fn stored() -> (Vec<(String, Vec<u8>)>, String) {
    let program: PathBuf = Path::new(env!("CARGO_MANIFEST_DIR")).join("../../crates/tabcheck");
    let names = fs::read_to_string(program.join("args")).expect("the names of the tables");
    let said = fs::read_to_string(program.join("stdout")).expect("what tabcheck says of them");
    let read = |name: &str| (name.to_string(), fs::read(program.join("data").join(name)).expect(name));
    (names.lines().map(read).collect(), said)
}

#[test]
fn verdicts_agree() {
    let (tables, said) = stored();
    for (name, octets) in tables {
        let valid = said.lines().any(|line| line.starts_with(&format!("{name}: valid,")));
        assert_eq!(Table::new(&octets).is_some(), valid, "{name}");
        assert!(said.lines().any(|line| line.starts_with(&format!("{name}: "))), "{name} is not spoken of");
    }
}

#[test]
fn lines_agree() {
    let (tables, said) = stored();
    let mut rest = &said[..];
    for (name, octets) in tables {
        let lines = match first_fault(&octets) {
            Some(fault) => fault.line(&name),
            None => listing(&name, &octets).expect("a table without a fault is valid"),
        };
        let shown: Vec<&str> = rest.lines().take(lines.lines().count()).collect();
        rest = rest.strip_prefix(&lines[..]).unwrap_or_else(|| panic!("{name}\nexpected\n{lines}got\n{shown:#?}"));
    }
    assert_eq!(rest, "", "tabcheck says more");
}
