//! Whether one table extends another, what is missing if not, and tables to ask it of.
//! Follows docs/TABLES.md, "Whether one table extends another".

use crate::broken;
use crate::code::Code;
use crate::first_fault::{first_fault, LONGEST_FILE, RULES};
use crate::listing::{child_pair_fields, code_fields, error_fields, error_pair_fields, operation_fields};
use crate::model::{any_type, Model};
use crate::random::Random;
use crate::table::Table;

/// Every answer by name.
pub const ANSWERS: [&str; 9] = [
    "extends",
    "operation missing",
    "operation differs",
    "error missing",
    "error differs",
    "error pair missing",
    "child pair missing",
    "old not valid",
    "new not valid",
];

/// An answer's name and its lines.
pub type Answer = (&'static str, String);

/// What `tabcheck --extends OLD NEW` writes of two files with these names and octets.
pub fn answer((old_name, old): (&str, &[u8]), (new_name, new): (&str, &[u8])) -> Answer {
    if let Some(fault) = first_fault(old) {
        return ("old not valid", fault.line(old_name));
    }
    if let Some(fault) = first_fault(new) {
        return ("new not valid", fault.line(new_name));
    }
    match Table::new(old).zip(Table::new(new)).and_then(|(old, new)| lacks(&old, &new)) {
        Some((name, lines)) => (name, format!("{new_name}: does not extend {old_name}: {lines}\n")),
        None => ("extends", format!("{new_name}: extends {old_name}\n")),
    }
}

/// The first entry of the old table that the new one has not.
fn lacks(old: &Table<'_>, new: &Table<'_>) -> Option<Answer> {
    for ours in old.operations() {
        let code = ours.code;
        let Some(theirs) = new.operations().find(|row| row.code == code) else {
            return Some(("operation missing", format!("operation {} is missing", code_fields(code))));
        };
        if (ours.class, ours.argument, ours.result) != (theirs.class, theirs.argument, theirs.result) {
            let (old, new) = (operation_fields(&ours), operation_fields(&theirs));
            let lines = format!("operation {} differs\n  old: {old}\n  new: {new}", code_fields(code));
            return Some(("operation differs", lines));
        }
    }
    for ours in old.errors() {
        let code = ours.code;
        let Some(theirs) = new.errors().find(|row| row.code == code) else {
            return Some(("error missing", format!("error {} is missing", code_fields(code))));
        };
        if ours.parameter != theirs.parameter {
            let (old, new) = (error_fields(&ours), error_fields(&theirs));
            let lines = format!("error {} differs\n  old: {old}\n  new: {new}", code_fields(code));
            return Some(("error differs", lines));
        }
    }
    let (ours, theirs) = (error_pairs(old), error_pairs(new));
    if let Some((a, b)) = ours.into_iter().find(|pair| !theirs.contains(pair)) {
        return Some(("error pair missing", format!("error pair {} is missing", error_pair_fields(a, b))));
    }
    let (ours, theirs) = (child_pairs(old), child_pairs(new));
    let (a, b) = ours.into_iter().find(|pair| !theirs.contains(pair))?;
    Some(("child pair missing", format!("child pair {} is missing", child_pair_fields(a, b))))
}

fn codes(table: &Table<'_>) -> Vec<Code> {
    table.operations().map(|row| row.code).collect()
}

fn error_pairs(table: &Table<'_>) -> Vec<(Code, Code)> {
    let (operations, errors) = (codes(table), table.errors().map(|row| row.code).collect::<Vec<_>>());
    table.error_pairs().map(|(a, b)| (operations[a], errors[b])).collect()
}

fn child_pairs(table: &Table<'_>) -> Vec<(Code, Code)> {
    let operations = codes(table);
    table.child_pairs().map(|(a, b)| (operations[a], operations[b])).collect()
}

/// An old and a new table for which an answer is meant, by its place in `ANSWERS`; another may come of it.
pub fn asked(meant: usize, random: &mut Random) -> (Vec<u8>, Vec<u8>) {
    loop {
        let old = Model::varied(random);
        let mut new = if random.percent(70) { old.extended(random) } else { old.clone() };
        let changes = match meant {
            0 => Some(()),
            7 | 8 => {
                let faulty = broken::one(random.between(1, RULES.len() - 1), random);
                let other = if random.percent(50) { old.octets() } else { broken::two(random) };
                return if meant == 7 { (faulty, within(other)) } else { (old.octets(), faulty) };
            }
            meant => (0..random.between(1, 2)).try_for_each(|_| change(meant, &old, &mut new, random)),
        };
        if changes.is_some() && new.is_valid() {
            return (old.octets(), new.octets());
        }
    }
}

/// A file that is too long is cut: what is said of one beside another table is open.
fn within(mut octets: Vec<u8>) -> Vec<u8> {
    octets.truncate(LONGEST_FILE);
    octets
}

/// Takes from the new table something that the old one has.
fn change(meant: usize, old: &Model, new: &mut Model, random: &mut Random) -> Option<()> {
    match meant {
        1 => {
            let code = random.pick(&old.operations)?.code;
            let at = new.operations.iter().position(|row| row.code == code)?;
            drop_operation(new, at as u16);
        }
        2 => {
            let code = random.pick(&old.operations)?.code;
            let row = new.operations.iter_mut().find(|row| row.code == code)?;
            match random.below(4) {
                0 => row.class = random.between(1, 5) as u8,
                1 => row.argument = any_type(random),
                2 => row.result = any_type(random),
                _ => row.flags ^= 1 << random.below(2),
            }
            Model::settle(row);
            let (errors, children) = (new.allowed_error_pairs(), new.allowed_child_pairs());
            new.error_pairs.retain(|pair| errors.binary_search(pair).is_ok());
            new.child_pairs.retain(|pair| children.binary_search(pair).is_ok());
        }
        3 => {
            let code = random.pick(&old.errors)?.code;
            let at = new.errors.iter().position(|row| row.code == code)?;
            new.errors.remove(at);
            let at = at as u16;
            new.error_pairs.retain(|pair| pair.1 != at);
            new.error_pairs.iter_mut().for_each(|pair| pair.1 -= u16::from(pair.1 > at));
        }
        4 => {
            let code = random.pick(&old.errors)?.code;
            let row = new.errors.iter_mut().find(|row| row.code == code)?;
            match random.percent(50) {
                true => row.parameter = any_type(random),
                false => row.optional ^= 1,
            }
            row.optional &= u8::from(row.parameter != 0);
        }
        5 => {
            let (a, b) = random.pick(&old.error_pairs)?;
            let (code, error) = (old.operations[usize::from(a)].code, old.errors[usize::from(b)].code);
            let (operations, errors) = (&new.operations, &new.errors);
            new.error_pairs.retain(|pair| {
                operations[usize::from(pair.0)].code != code || errors[usize::from(pair.1)].code != error
            });
        }
        _ => {
            let (a, b) = random.pick(&old.child_pairs)?;
            let (code, child) = (old.operations[usize::from(a)].code, old.operations[usize::from(b)].code);
            let operations = &new.operations;
            new.child_pairs.retain(|pair| {
                operations[usize::from(pair.0)].code != code || operations[usize::from(pair.1)].code != child
            });
        }
    }
    Some(())
}

/// An operation is dropped with its pairs, and indexes behind it move.
pub(crate) fn drop_operation(model: &mut Model, at: u16) {
    model.operations.remove(usize::from(at));
    model.error_pairs.retain(|pair| pair.0 != at);
    model.child_pairs.retain(|pair| pair.0 != at && pair.1 != at);
    model.error_pairs.iter_mut().for_each(|pair| pair.0 -= u16::from(pair.0 > at));
    for pair in &mut model.child_pairs {
        pair.0 -= u16::from(pair.0 > at);
        pair.1 -= u16::from(pair.1 > at);
    }
}
