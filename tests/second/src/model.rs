//! A table to be changed and written out: random ones, full ones, and tables that extend another.
//! Follows docs/RULES.md, "Operation table" and "Names".

use std::collections::BTreeSet;

use crate::code::{Code, Name};
use crate::codes;
use crate::names;
use crate::probe::{ACKNOWLEDGE, PROBE};
use crate::probe_rows;
use crate::random::Random;
use crate::table::{Rule, Table};

#[derive(Clone, Copy, Debug, PartialEq, Eq)]
pub struct OperationRow {
    pub code: Code,
    pub class: u8,
    pub argument: u8,
    pub result: u8,
    /// All but the one that says that the code is a name.
    pub flags: u8,
}

impl OperationRow {
    pub fn argument_rule(&self) -> Rule {
        Rule { kind: self.argument, optional: self.flags & 1 != 0 }
    }

    pub fn result_rule(&self) -> Rule {
        Rule { kind: self.result, optional: self.flags & 2 != 0 }
    }
}

#[derive(Clone, Copy, Debug, PartialEq, Eq)]
pub struct ErrorRow {
    pub code: Code,
    pub parameter: u8,
    pub optional: u8,
}

impl ErrorRow {
    pub fn rule(&self) -> Rule {
        Rule { kind: self.parameter, optional: self.optional != 0 }
    }
}

/// The parts of a table; nothing keeps them valid.
#[derive(Clone, Debug, Default, PartialEq, Eq)]
pub struct Model {
    pub operations: Vec<OperationRow>,
    pub errors: Vec<ErrorRow>,
    pub error_pairs: Vec<(u16, u16)>,
    pub child_pairs: Vec<(u16, u16)>,
    /// None in edition 1.
    pub names: Option<Vec<Name>>,
}

/// The flags for an idempotent operation, an operation with a name and an error with a name.
pub(crate) const IDEMPOTENT: u8 = 8;
const OPERATION_NAMED: u8 = 4;
const ERROR_NAMED: u8 = 2;

/// Types of values, the usual ones more often; of 10 and 2A no value is well-formed.
const TYPES: [u8; 24] = [
    0x00, 0x00, 0x00, 0x02, 0x02, 0x04, 0x04, 0x04, 0x30, 0x30, 0x30, 0xA0, 0x80, 0x01, 0x05, 0x06, 0x0A, 0x24, 0x20,
    0x31, 0x10, 0x2A, 0x7E, 0xC3,
];

impl Model {
    pub const MOST: [usize; 5] = [64, 64, 256, 256, 128];

    /// The names, none of them in edition 1.
    pub fn names(&self) -> &[Name] {
        self.names.as_deref().unwrap_or_default()
    }

    /// The table octets, parts end to end.
    pub fn octets(&self) -> Vec<u8> {
        let mut octets = self.header();
        for row in &self.operations {
            let (number, named) = self.numbered(&row.code);
            octets.extend(number.to_be_bytes());
            octets.extend([row.class, row.argument, row.result, row.flags | named * OPERATION_NAMED]);
        }
        for row in &self.errors {
            let (number, named) = self.numbered(&row.code);
            octets.extend(number.to_be_bytes());
            octets.extend([row.parameter, row.optional | named * ERROR_NAMED]);
        }
        for (first, second) in self.error_pairs.iter().chain(&self.child_pairs) {
            octets.extend(first.to_be_bytes());
            octets.extend(second.to_be_bytes());
        }
        octets.extend(self.names().as_flattened());
        octets
    }

    /// Counts and offsets, behind its mark in edition 2.
    fn header(&self) -> Vec<u8> {
        let [operations, errors] = [self.operations.len(), self.errors.len()];
        let counts = [operations, errors, self.error_pairs.len(), self.child_pairs.len(), self.names().len()];
        let (mark, parts): (&[u8], usize) = if self.names.is_some() { (&[0xFF, 0xFF, 0, 2], 5) } else { (&[], 4) };
        let (mut header, mut offset) = (mark.to_vec(), mark.len() + 4 * parts);
        for (count, size) in counts.into_iter().zip([8, 6, 4, 4, 17]).take(parts) {
            header.extend((count as u16).to_be_bytes());
            header.extend((offset as u16).to_be_bytes());
            offset += count * size;
        }
        header
    }

    /// A code's number in a row, and 1 if it is the index of a name; one that is not among the names has none.
    fn numbered(&self, code: &Code) -> (i32, u8) {
        match code {
            Code::Local(code) => (*code, 0),
            Code::Name(name) => (self.names().iter().position(|other| other == name).map_or(-1, |at| at as i32), 1),
        }
    }

    pub fn is_valid(&self) -> bool {
        Table::new(&self.octets()).is_some()
    }

    /// A valid table of either edition, mostly small, now and then a full one.
    pub fn random(random: &mut Random) -> Model {
        if random.percent(2) {
            return Model::full(random);
        }
        let mut model = Model::of_edition_1(random);
        if random.percent(55) {
            let more = [0, 0, 1, 3, random.below(30)][random.below(5)];
            model.renew(random, more);
        }
        model
    }

    /// A valid table of edition 1, mostly small.
    pub(crate) fn of_edition_1(random: &mut Random) -> Model {
        let most = match random.below(10) {
            0 => random.between(16, 48),
            _ => random.between(2, 12),
        };
        let (operations, errors) = (random.between(1, most), random.between(0, most));
        let mut model = Model::lists(random, [operations, errors], random_codes);
        let density = random.between(5, 80);
        model.error_pairs = model.allowed_error_pairs();
        model.error_pairs.retain(|_| random.percent(density));
        model.child_pairs = model.allowed_child_pairs();
        model.child_pairs.retain(|_| random.percent(density / 2));
        model.error_pairs.truncate(Self::MOST[2]);
        model.child_pairs.truncate(Self::MOST[3]);
        model
    }

    /// A valid table of either edition with every part as long as allowed.
    pub fn full(random: &mut Random) -> Model {
        match random.percent(50) {
            true => Model::full_of_names(random),
            false => Model::sized(random, [64, 64, 256, 256]),
        }
    }

    /// A valid table of edition 2 with every part as long as allowed.
    pub fn full_of_names(random: &mut Random) -> Model {
        let mut model = Model::sized(random, [64, 64, 256, 256]);
        model.renew(random, Self::MOST[4]);
        model
    }

    /// Makes it a table of edition 2: some of the last operations and errors get names, so that their order is kept,
    /// some operations are idempotent, and up to so many names are used by nothing.
    pub(crate) fn renew(&mut self, random: &mut Random, more: usize) {
        let mut named = |rows: usize| [0, rows, random.below(rows + 1), rows - rows.min(1)][random.below(4)];
        let counts = [named(self.operations.len()), named(self.errors.len())];
        self.give_names(random, counts, more);
    }

    /// Gives names to so many of the last operations and errors.
    fn give_names(&mut self, random: &mut Random, [operations, errors]: [usize; 2], more: usize) {
        let total = (operations.max(errors) + more).min(Self::MOST[4]);
        let names = names::different(random, total);
        let rows = self.operations.iter_mut().rev().zip(some_of(random, names.clone(), operations).into_iter().rev());
        rows.for_each(|(row, name)| row.code = Code::Name(name));
        let rows = self.errors.iter_mut().rev().zip(some_of(random, names.clone(), errors).into_iter().rev());
        rows.for_each(|(row, name)| row.code = Code::Name(name));
        self.names = Some(names);
        self.mark_idempotent(random, 40);
    }

    /// Drops a name that nothing has, if there is one.
    pub fn drop_a_name(&mut self, random: &mut Random) {
        let codes = self.operations.iter().map(|row| row.code).chain(self.errors.iter().map(|row| row.code));
        let codes: Vec<Code> = codes.collect();
        let unused = random.pick_where(self.names(), |name| !codes.contains(&Code::Name(*name)));
        if let (Some(names), Some(unused)) = (&mut self.names, unused) {
            names.retain(|name| *name != unused);
        }
    }

    /// Changes whether operations are idempotent, so many times in a hundred.
    fn mark_idempotent(&mut self, random: &mut Random, times: usize) {
        self.operations.iter_mut().filter(|_| random.percent(times)).for_each(|row| row.flags ^= IDEMPOTENT);
    }

    /// Parts of these lengths, at least nine operations; fewer pairs where there are not so many.
    pub fn sized(random: &mut Random, counts: [usize; 4]) -> Model {
        let mut model = Model::lists(random, [counts[0], counts[1]], random_codes);
        model.operations[0].class = 1 + random.octet() % 3;
        Model::settle(&mut model.operations[0]);
        for row in &mut model.operations[1..9] {
            row.class = 2;
        }
        model.error_pairs = some_of(random, model.allowed_error_pairs(), counts[2]);
        model.child_pairs = some_of(random, model.allowed_child_pairs(), counts[3]);
        model
    }

    /// A valid table of either edition with any types, now and then without some of its parts.
    pub fn varied(random: &mut Random) -> Model {
        let mut model = Model::of_edition_1(random);
        let bare = random.below(16);
        if random.percent(60) {
            model.operations.iter_mut().for_each(|row| vary(row, random));
            for row in &mut model.errors {
                row.parameter = any_type(random);
                row.optional = u8::from(row.parameter != 0) & random.octet();
            }
        }
        if random.percent(55) {
            let more = [0, 0, 1, 3, random.below(12)][random.below(5)];
            model.renew(random, more);
        }
        match bare {
            0 => return Model { errors: model.errors, names: model.names, ..Model::default() },
            1 => return Model { operations: model.operations, names: model.names, ..Model::default() },
            2 => model.error_pairs.clear(),
            3 => model.child_pairs.clear(),
            _ => {}
        }
        model
    }

    /// A valid table to look codes up in, its lists of drawn lengths; most errors are paired with up to three operations.
    pub fn searched(random: &mut Random) -> Model {
        let lengths = [0; 2].map(|_| codes::length(random));
        let mut model = Model::lists(random, lengths, codes::spread);
        if random.percent(50) {
            let most = lengths[0].max(lengths[1]);
            let more = [3, most, most, 64][random.below(4)];
            match random.percent(70) {
                true => model.give_names(random, lengths, more),
                false => model.renew(random, more),
            }
        }
        let mut answered = BTreeSet::new();
        for _ in 0..model.operations.len().min(3) {
            let at = random.below(model.operations.len());
            model.operations[at].class = random.between(2, 3) as u8;
            Model::settle(&mut model.operations[at]);
            answered.insert(at as u16);
        }
        model.error_pairs = model.allowed_error_pairs();
        model.error_pairs.retain(|pair| answered.contains(&pair.0) && random.percent(90));
        model
    }

    /// Operations and errors with random rules, and no pairs.
    fn lists(random: &mut Random, lengths: [usize; 2], codes: fn(&mut Random, usize) -> Vec<i32>) -> Model {
        let (operations, errors) = (codes(random, lengths[0]), codes(random, lengths[1]));
        let operations = probe_rows::codes(random, operations).into_iter().map(Code::Local);
        let operations = operations.map(|code| random_operation(random, code)).collect();
        let errors = errors.into_iter().map(Code::Local);
        let errors = errors.map(|code| random_error(random, code)).collect();
        Model { operations, errors, ..Model::default() }
    }

    /// A table that extends this one, with more of everything; not valid if a part is then too long.
    pub fn extended(&self, random: &mut Random) -> Model {
        let mut model = self.clone();
        model.renumber(random);
        for _ in 0..random.between(1, 4) {
            let operations: Vec<Code> = model.operations.iter().map(|row| row.code).collect();
            let errors: Vec<Code> = model.errors.iter().map(|row| row.code).collect();
            if let Some(code) = model.code_unless(&operations, random) {
                model.operations.push(random_operation(random, code));
            }
            if let Some(code) = model.code_unless(&errors, random) {
                model.errors.push(random_error(random, code));
            }
        }
        model.complete(random);
        model.sort();
        let moved = |old: u16| place(&model.operations, self.operations[usize::from(old)].code, |row| row.code);
        let moved_error = |old: u16| place(&model.errors, self.errors[usize::from(old)].code, |row| row.code);
        let kept_errors: BTreeSet<_> = self.error_pairs.iter().map(|&(a, b)| (moved(a), moved_error(b))).collect();
        let kept_children: BTreeSet<_> = self.child_pairs.iter().map(|&(a, b)| (moved(a), moved(b))).collect();
        let (more_errors, more_children) = (random.between(10, 70), random.between(0, 40));
        model.error_pairs = model.allowed_error_pairs();
        model.error_pairs.retain(|pair| kept_errors.contains(pair) || random.percent(more_errors));
        model.child_pairs = model.allowed_child_pairs();
        model.child_pairs.retain(|pair| kept_children.contains(pair) || random.percent(more_children));
        model
    }

    /// Adds acknowledge where a probe stands without it.
    fn complete(&mut self, random: &mut Random) {
        let has = |code: i32| self.operation(Code::Local(code)).is_some();
        if has(PROBE) && !has(ACKNOWLEDGE) {
            self.operations.push(random_operation(random, Code::Local(ACKNOWLEDGE)));
        }
    }

    /// Gives it any edition that its codes allow; one of edition 2 gets its names in another order, some that nothing
    /// uses go, and others come, and other operations are idempotent.
    fn renumber(&mut self, random: &mut Random) {
        let codes = self.operations.iter().map(|row| row.code).chain(self.errors.iter().map(|row| row.code));
        let used: Vec<Code> = codes.filter(|code| matches!(code, Code::Name(_))).collect();
        if used.is_empty() && random.percent(60) {
            self.names = None;
            self.operations.iter_mut().for_each(|row| row.flags &= !IDEMPOTENT);
            return;
        }
        let mut names = self.names.take().unwrap_or_default();
        names.retain(|name| used.contains(&Code::Name(*name)) || random.percent(70));
        for _ in 0..random.below(7) {
            names.push(names::other(random, &names));
        }
        for at in 1..names.len() {
            names.swap(at, random.below(at + 1));
        }
        self.names = Some(names);
        self.mark_idempotent(random, 30);
    }

    /// A number or one of the names, if it is not among these codes.
    fn code_unless(&self, codes: &[Code], random: &mut Random) -> Option<Code> {
        let name = random.pick_where(self.names(), |name| !codes.contains(&Code::Name(*name)));
        let name = name.map(Code::Name).filter(|_| random.percent(50));
        name.or_else(|| Some(Code::Local(random.number())).filter(|code| !codes.contains(code)))
    }

    /// Puts rows in the order of a table.
    fn sort(&mut self) {
        let order = |model: &Model, code: &Code| {
            let (number, named) = model.numbered(code);
            (named, number)
        };
        let (mut operations, mut errors) = (self.operations.clone(), self.errors.clone());
        operations.sort_by_key(|row| order(self, &row.code));
        errors.sort_by_key(|row| order(self, &row.code));
        (self.operations, self.errors) = (operations, errors);
    }

    /// Whether an error with a name is listed for an operation.
    pub fn lists_a_name(&self) -> bool {
        self.error_pairs.iter().any(|pair| matches!(self.errors[usize::from(pair.1)].code, Code::Name(_)))
    }

    /// Every pair of an operation that may have errors with an error.
    pub fn allowed_error_pairs(&self) -> Vec<(u16, u16)> {
        pairs(&self.operations, |class| class < 4, self.errors.len())
    }

    /// Every pair of an operation that may have children with an operation.
    pub fn allowed_child_pairs(&self) -> Vec<(u16, u16)> {
        pairs(&self.operations, |class| class < 5, self.operations.len())
    }

    /// Makes a row's result and flags fit its class and types, and a row of probe or acknowledge right.
    pub fn settle(row: &mut OperationRow) {
        probe_rows::settle(row);
        if matches!(row.class, 3 | 5) {
            row.result = 0;
        }
        row.flags &= IDEMPOTENT | u8::from(row.argument != 0) | (2 * u8::from(row.result != 0));
    }

    pub fn operation(&self, code: Code) -> Option<(usize, OperationRow)> {
        let index = self.operations.iter().position(|row| row.code == code)?;
        Some((index, self.operations[index]))
    }

    pub fn class(&self, code: Code) -> Option<u8> {
        self.operation(code).map(|(_, row)| row.class)
    }
}

/// Whether N extends O, both valid: every operation, error and pair of O, read by code or name, is in N; whether an
/// operation is idempotent does not count.
pub fn extends(n: &Table<'_>, o: &Table<'_>) -> bool {
    let same = |o: crate::table::Operation| {
        n.operation(&o.code).filter(|n| (n.class, n.argument, n.result) == (o.class, o.argument, o.result))
    };
    let same_error = |o: crate::table::ErrorEntry| n.error(&o.code).filter(|n| n.parameter == o.parameter);
    let operations: Option<Vec<_>> = o.operations().map(same).collect();
    let errors: Option<Vec<_>> = o.errors().map(same_error).collect();
    let (Some(operations), Some(errors)) = (operations, errors) else { return false };
    o.error_pairs().all(|(a, b)| n.lists_error(&operations[a], &errors[b]))
        && o.child_pairs().all(|(a, b)| n.lists_child(&operations[a], &operations[b]))
}

fn random_operation(random: &mut Random, code: Code) -> OperationRow {
    let class = [1, 2, 2, 2, 2, 3, 3, 4, 4, 5][random.below(10)];
    let [argument, result] = [0; 2].map(|_| TYPES[random.below(TYPES.len())]);
    let mut row = OperationRow { code, class, argument, result, flags: random.octet() & 3 };
    Model::settle(&mut row);
    row
}

fn random_error(random: &mut Random, code: Code) -> ErrorRow {
    let parameter = TYPES[random.below(TYPES.len())];
    let optional = if parameter == 0 { 0 } else { random.octet() & 1 };
    ErrorRow { code, parameter, optional }
}

/// Gives an operation other types and flags.
fn vary(row: &mut OperationRow, random: &mut Random) {
    (row.argument, row.result) = (any_type(random), any_type(random));
    row.flags = row.flags & IDEMPOTENT | random.octet() & 3;
    Model::settle(row);
}

/// Any type of a valid table, 0 too.
pub fn any_type(random: &mut Random) -> u8 {
    match random.octet() {
        octet if octet & 0x1F == 0x1F => octet & 0xE0,
        octet => octet,
    }
}

/// So many different codes, rising.
fn random_codes(random: &mut Random, count: usize) -> Vec<i32> {
    let mut codes = BTreeSet::new();
    while codes.len() < count {
        codes.insert(random.number());
    }
    codes.into_iter().collect()
}

fn pairs(operations: &[OperationRow], first: impl Fn(u8) -> bool, seconds: usize) -> Vec<(u16, u16)> {
    let firsts = (0..).zip(operations).filter(|(_, row)| first(row.class));
    firsts.flat_map(|(index, _)| (0..seconds as u16).map(move |second| (index, second))).collect()
}

/// So many of the items, order kept.
fn some_of<T>(random: &mut Random, mut items: Vec<T>, count: usize) -> Vec<T> {
    let (mut left, mut wanted) = (items.len(), count);
    items.retain(|_| {
        let kept = random.below(left) < wanted;
        left -= 1;
        wanted -= usize::from(kept);
        kept
    });
    items
}

fn place<T>(rows: &[T], code: Code, code_of: impl Fn(&T) -> Code) -> u16 {
    rows.iter().position(|row| code_of(row) == code).map_or(u16::MAX, |index| index as u16)
}
