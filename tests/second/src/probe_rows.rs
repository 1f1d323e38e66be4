//! The rows of probe and acknowledge in tables: right ones, and tables that break one of their rules each.
//! Follows docs/RULES.md, "Probe and acknowledge".

use crate::code::Code;
use crate::extension;
use crate::faults::{rows, TableFault};
use crate::model::{any_type, ErrorRow, Model, OperationRow, IDEMPOTENT};
use crate::probe::{ACKNOWLEDGE, ACKNOWLEDGE_ARGUMENT, PROBE, PROBE_ARGUMENT, RESULT};
use crate::random::Random;

/// Makes a row right if its code is that of a probe or acknowledge.
pub fn settle(row: &mut OperationRow) {
    row.argument = match row.code {
        Code::Local(PROBE) => PROBE_ARGUMENT,
        Code::Local(ACKNOWLEDGE) => ACKNOWLEDGE_ARGUMENT,
        _ => return,
    };
    row.class = if row.class == 1 { 1 } else { 2 };
    row.result = RESULT;
    row.flags &= IDEMPOTENT;
}

/// The codes of operations, rising, now and then with those of probe and acknowledge in the place of others.
pub fn codes(random: &mut Random, mut codes: Vec<i32>) -> Vec<i32> {
    let wanted: &[i32] = match random.below(100) {
        0..=7 => &[ACKNOWLEDGE],
        8..=21 => &[ACKNOWLEDGE, PROBE],
        _ => &[],
    };
    for code in wanted {
        let others: Vec<usize> = (0..codes.len()).filter(|at| !wanted.contains(&codes[*at])).collect();
        match random.pick(&others) {
            Some(at) if !codes.contains(code) && codes.len() > wanted.len() => codes[at] = *code,
            _ => {}
        }
    }
    // No probe stands without acknowledge.
    if !codes.contains(&ACKNOWLEDGE) {
        codes.iter_mut().filter(|code| **code == PROBE).for_each(|code| *code = ACKNOWLEDGE);
    }
    codes.sort_unstable();
    codes
}

impl Model {
    /// Adds acknowledge and, if both are wanted, probe, each mostly with children and parents.
    pub fn add_probe(&mut self, random: &mut Random, both: bool) {
        let codes: &[i32] = if both { &[ACKNOWLEDGE, PROBE] } else { &[ACKNOWLEDGE] };
        for code in codes.iter().map(|code| Code::Local(*code)) {
            if self.operation(code).is_none() && self.operations.len() < Model::MOST[0] {
                let class = [1, 2, 2][random.below(3)];
                let mut row = OperationRow { code, class, argument: 0, result: 0, flags: 0 };
                if self.names.is_some() {
                    row.flags = random.octet() & IDEMPOTENT;
                }
                settle(&mut row);
                let at = self.insert(row);
                self.pair(random, at);
            }
        }
    }

    /// Puts a row in its place; the pairs name the same operations as before.
    fn insert(&mut self, row: OperationRow) -> u16 {
        let is_before =
            |other: &&OperationRow| matches!((other.code, row.code), (Code::Local(a), Code::Local(b)) if a < b);
        let at = self.operations.iter().filter(is_before).count() as u16;
        self.operations.insert(usize::from(at), row);
        let moved = |index: u16| index + u16::from(index >= at);
        self.error_pairs.iter_mut().for_each(|pair| pair.0 = moved(pair.0));
        self.child_pairs.iter_mut().for_each(|pair| *pair = (moved(pair.0), moved(pair.1)));
        at
    }

    /// Makes an operation the child of some that may have children, and pairs it with some errors.
    fn pair(&mut self, random: &mut Random, child: u16) {
        let mut children = self.allowed_child_pairs();
        children.retain(|pair| self.child_pairs.contains(pair) || pair.1 == child && random.percent(40));
        let mut errors = self.allowed_error_pairs();
        errors.retain(|pair| self.error_pairs.contains(pair) || pair.0 == child && random.percent(30));
        if children.len() <= Model::MOST[3] && errors.len() <= Model::MOST[2] {
            (self.child_pairs, self.error_pairs) = (children, errors);
        }
    }

    /// The row of a probe or acknowledge.
    fn row(&mut self, code: i32) -> &mut OperationRow {
        let at = self.operation(Code::Local(code)).map_or(0, |(at, _)| at);
        &mut self.operations[at]
    }
}

/// Each gives a table that is not valid from one without the two operations.
pub const TABLES: &[(&str, TableFault)] = &[
    ("probe without acknowledge", |model, random| changed(model, random, |model, _| drop_acknowledge(model))),
    ("probe alone without acknowledge", |_, random| {
        let mut model = Model::default();
        model.add_probe(random, true);
        rows(model, drop_acknowledge)
    }),
    ("acknowledge among the errors only", |model, random| {
        changed(model, random, |model, _| {
            drop_acknowledge(model);
            model.error_pairs.clear();
            model.errors.retain(|row| row.code != Code::Local(ACKNOWLEDGE));
            let before = |row: &&ErrorRow| matches!(row.code, Code::Local(code) if code < ACKNOWLEDGE);
            let at = model.errors.iter().filter(before).count();
            model.errors.insert(at, ErrorRow { code: Code::Local(ACKNOWLEDGE), parameter: 0, optional: 0 });
        })
    }),
    ("probe of class 3", |model, random| classed(model, random, PROBE, 3)),
    ("probe of class 4", |model, random| classed(model, random, PROBE, 4)),
    ("probe of class 5", |model, random| classed(model, random, PROBE, 5)),
    ("acknowledge of class 3", |model, random| classed(model, random, ACKNOWLEDGE, 3)),
    ("acknowledge of class 4", |model, random| classed(model, random, ACKNOWLEDGE, 4)),
    ("acknowledge of class 5", |model, random| classed(model, random, ACKNOWLEDGE, 5)),
    ("probe's argument an acknowledge's", |model, random| argued(model, random, PROBE, ACKNOWLEDGE_ARGUMENT)),
    ("acknowledge's argument a probe's", |model, random| argued(model, random, ACKNOWLEDGE, PROBE_ARGUMENT)),
    ("probe's argument of another type", |model, random| {
        let kind = [0x31, 0x10, 0xA0, 0x24, 0x0A][random.below(5)];
        argued(model, random, PROBE, kind)
    }),
    ("acknowledge's argument of another type", |model, random| {
        let kind = [0x0A, 0x82, 0x06, 0x05, 0x80][random.below(5)];
        argued(model, random, ACKNOWLEDGE, kind)
    }),
    ("probe without an argument", |model, random| argued(model, random, PROBE, 0)),
    ("acknowledge without an argument", |model, random| argued(model, random, ACKNOWLEDGE, 0)),
    ("probe's result of another type", |model, random| resulting(model, random, PROBE, true)),
    ("acknowledge's result of another type", |model, random| resulting(model, random, ACKNOWLEDGE, true)),
    ("probe without a result", |model, random| resulting(model, random, PROBE, false)),
    ("acknowledge without a result", |model, random| resulting(model, random, ACKNOWLEDGE, false)),
    ("probe's argument optional", |model, random| flagged(model, random, PROBE, 1)),
    ("acknowledge's argument optional", |model, random| flagged(model, random, ACKNOWLEDGE, 1)),
    ("probe's result optional", |model, random| flagged(model, random, PROBE, 2)),
    ("acknowledge's result optional", |model, random| flagged(model, random, ACKNOWLEDGE, 2)),
    ("acknowledge alone, its argument optional", |mut model, random| {
        model.add_probe(random, false);
        rows(model, |model| model.row(ACKNOWLEDGE).flags |= 1)
    }),
    ("acknowledge alone of class 5", |mut model, random| {
        model.add_probe(random, false);
        (model.error_pairs, model.child_pairs) = (Vec::new(), Vec::new());
        rows(model, |model| (model.row(ACKNOWLEDGE).class, model.row(ACKNOWLEDGE).result) = (5, 0))
    }),
    ("a name's index that is a probe's code", |model, random| {
        changed(model, random, |model, _| {
            model.row(PROBE).flags |= 4;
            model.error_pairs.clear();
            model.child_pairs.clear();
            let probe = model.operation(Code::Local(PROBE)).map_or(0, |(at, _)| at);
            model.operations.truncate(probe + 1);
        })
    }),
];

fn drop_acknowledge(model: &mut Model) {
    let at = model.operation(Code::Local(ACKNOWLEDGE)).map_or(0, |(at, _)| at);
    extension::drop_operation(model, at as u16);
}

/// A change to a table with both operations.
fn changed(mut model: Model, random: &mut Random, change: impl FnOnce(&mut Model, &mut Random)) -> Vec<u8> {
    model.add_probe(random, true);
    rows(model, |model| change(model, random))
}

/// One of them has another class, and no pairs that its class may not have.
fn classed(model: Model, random: &mut Random, code: i32, class: u8) -> Vec<u8> {
    changed(model, random, |model, _| {
        model.row(code).class = class;
        if class != 4 {
            (model.row(code).result, model.row(code).flags) = (0, 0);
        }
        let (errors, children) = (model.allowed_error_pairs(), model.allowed_child_pairs());
        model.error_pairs.retain(|pair| errors.contains(pair));
        model.child_pairs.retain(|pair| children.contains(pair));
    })
}

fn argued(model: Model, random: &mut Random, code: i32, argument: u8) -> Vec<u8> {
    changed(model, random, |model, _| model.row(code).argument = argument)
}

/// One of them has a result of another type, or none.
fn resulting(model: Model, random: &mut Random, code: i32, other: bool) -> Vec<u8> {
    changed(model, random, |model, random| {
        model.row(code).result = if other { [0x02, 0x30, 0x05, 0x8A, 0x2A][random.below(5)] } else { 0 };
    })
}

fn flagged(model: Model, random: &mut Random, code: i32, flag: u8) -> Vec<u8> {
    changed(model, random, |model, _| model.row(code).flags |= flag)
}

/// Gives a table the two operations, and one of their codes, if there is room for them.
fn one(model: &mut Model, random: &mut Random) -> Option<i32> {
    model.add_probe(random, true);
    let code = [PROBE, ACKNOWLEDGE][random.below(2)];
    model.operation(Code::Local(PROBE)).and(Some(code))
}

/// One of the two has a class from 3 up.
pub fn break_class(model: &mut Model, random: &mut Random) -> Option<()> {
    let (code, class) = (one(model, random)?, random.between(3, 5) as u8);
    model.row(code).class = class;
    if class != 4 {
        model.row(code).result = 0;
    }
    let (errors, children) = (model.allowed_error_pairs(), model.allowed_child_pairs());
    model.error_pairs.retain(|pair| errors.contains(pair));
    model.child_pairs.retain(|pair| children.contains(pair));
    Some(())
}

/// One of the two has another argument type.
pub fn break_argument(model: &mut Model, random: &mut Random) -> Option<()> {
    let code = one(model, random)?;
    let row = model.row(code);
    let kind = [0, PROBE_ARGUMENT, ACKNOWLEDGE_ARGUMENT, 0x0A, any_type(random)][random.below(5)];
    (row.argument != kind).then(|| row.argument = kind)
}

/// One of the two has another result type.
pub fn break_result(model: &mut Model, random: &mut Random) -> Option<()> {
    let code = one(model, random)?;
    let kind = [0, 0x02, any_type(random)][random.below(3)];
    (kind != RESULT).then(|| model.row(code).result = kind)
}

/// One of the two has some of these flags.
pub fn break_optional(model: &mut Model, random: &mut Random, flags: &[u8]) -> Option<()> {
    let code = one(model, random)?;
    model.row(code).flags |= random.pick(flags)?;
    Some(())
}

/// The two have changed places.
pub fn break_order(model: &mut Model, random: &mut Random) -> Option<()> {
    one(model, random)?;
    let [acknowledge, probe] = [ACKNOWLEDGE, PROBE].map(|code| model.operation(Code::Local(code)));
    model.operations.swap(acknowledge?.0, probe?.0);
    Some(())
}

/// Probe stands without acknowledge.
pub fn break_pair(model: &mut Model, random: &mut Random) -> Option<()> {
    one(model, random)?;
    drop_acknowledge(model);
    Some(())
}
