//! The operation table: validity in one pass, and lookup by code and by index.
//! Follows docs/RULES.md, "Operation table", "Names" and "Probe and acknowledge".

use crate::code::{self, Code, Name, NAME_OCTETS};
use crate::probe::{self, Listed};

const SIZES: [usize; 5] = [8, 6, 4, 4, 1 + NAME_OCTETS];
const MOST: [usize; 5] = [64, 64, 256, 256, 128];

/// How an edition's tables start, how many parts they have, and which flags an operation and an error may have.
struct Edition {
    mark: usize,
    parts: usize,
    flags: [u8; 2],
}

const EDITION_1: Edition = Edition { mark: 0, parts: 4, flags: [3, 1] };
const EDITION_2: Edition = Edition { mark: 4, parts: 5, flags: [15, 3] };

/// Flags that say that a code is the index of a name, and the one of an operation that is idempotent.
const OPERATION_NAMED: u8 = 4;
const ERROR_NAMED: u8 = 2;
const IDEMPOTENT: u8 = 8;

impl Edition {
    fn of(octets: &[u8]) -> Option<&'static Edition> {
        match octets {
            [0xFF, 0xFF, 0x00, 0x02, ..] => Some(&EDITION_2),
            [0xFF, 0xFF, ..] => None,
            _ => Some(&EDITION_1),
        }
    }
}

/// A valid table, its parts lent; edition 1 has no names.
#[derive(Clone, Copy)]
pub struct Table<'a> {
    operations: &'a [[u8; 8]],
    errors: &'a [[u8; 6]],
    error_pairs: &'a [[u8; 4]],
    child_pairs: &'a [[u8; 4]],
    names: &'a [Name],
    /// Which of probe and acknowledge it has.
    pub listed: Listed,
}

/// A value rule: type 0 demands no value, another type its first octet.
#[derive(Clone, Copy, Debug, PartialEq, Eq)]
pub struct Rule {
    pub kind: u8,
    pub optional: bool,
}

impl Rule {
    pub fn allows(self, value: Option<&[u8]>) -> bool {
        match value {
            None => self.kind == 0 || self.optional,
            Some(value) => self.kind != 0 && value.first() == Some(&self.kind),
        }
    }
}

#[derive(Clone, Copy, Debug, PartialEq, Eq)]
pub struct Operation {
    pub index: usize,
    pub code: Code,
    pub class: u8,
    pub argument: Rule,
    pub result: Rule,
    pub idempotent: bool,
}

impl Operation {
    /// Classes 1, 2 and 4 answer results.
    pub fn has_results(&self) -> bool {
        !matches!(self.class, 3 | 5)
    }

    /// Classes 1, 2 and 3 answer errors.
    pub fn has_errors(&self) -> bool {
        !matches!(self.class, 4 | 5)
    }
}

#[derive(Clone, Copy, Debug, PartialEq, Eq)]
pub struct ErrorEntry {
    pub index: usize,
    pub code: Code,
    pub parameter: Rule,
}

impl<'a> Table<'a> {
    /// The table, if it is valid.
    pub fn new(octets: &'a [u8]) -> Option<Self> {
        let [operation_flags, error_flags] = Edition::of(octets)?.flags;
        let table = Self::parts(octets)?;
        let classes = Classes::of(table.operations);
        (table.operations_right(operation_flags) & table.errors_right(error_flags)
            && names_right(table.names)
            && pairs_right(table.error_pairs, classes.with_errors, table.errors.len())
            && pairs_right(table.child_pairs, classes.with_children, table.operations.len()))
        .then_some(Table { listed: probe::listed(table.operations, operation_place)?, ..table })
    }

    /// The parts in order, the first behind the header, end to end, filling the octets exactly.
    pub fn parts(octets: &'a [u8]) -> Option<Self> {
        let Edition { mark, parts, .. } = *Edition::of(octets)?;
        let header = octets.get(mark..mark + 4 * parts)?;
        let mut starts = [mark + 4 * parts; 6];
        for (part, entry) in header.chunks_exact(4).enumerate() {
            let [count, offset] = [0, 2].map(|at| usize::from(half(&entry[at..])));
            if count > MOST[part] || offset != starts[part] {
                return None;
            }
            starts[part + 1..].fill(offset + count * SIZES[part]);
        }
        (starts[5] == octets.len()).then(|| Table {
            operations: octets[starts[0]..starts[1]].as_chunks().0,
            errors: octets[starts[1]..starts[2]].as_chunks().0,
            error_pairs: octets[starts[2]..starts[3]].as_chunks().0,
            child_pairs: octets[starts[3]..starts[4]].as_chunks().0,
            names: octets[starts[4]..starts[5]].as_chunks().0,
            listed: Listed::Neither,
        })
    }

    fn operations_right(&self, allowed: u8) -> bool {
        let (mut before, end) = (i64::MIN, place_of_name(self.names.len()));
        self.operations.iter().fold(true, |right, entry| {
            let [.., class, argument, result, flags] = *entry;
            let place = operation_place(entry);
            let rises = before < place;
            before = place;
            right
                & rises
                & (place < end)
                & (1..=5).contains(&class)
                & (flags <= allowed)
                & type_right(argument, flags & 1)
                & type_right(result, flags & 2)
                & (result == 0 || !matches!(class, 3 | 5))
        })
    }

    fn errors_right(&self, allowed: u8) -> bool {
        let (mut before, end) = (i64::MIN, place_of_name(self.names.len()));
        self.errors.iter().fold(true, |right, entry| {
            let [.., parameter, flags] = *entry;
            let place = error_place(entry);
            let rises = before < place;
            before = place;
            right & rises & (place < end) & (flags <= allowed) & type_right(parameter, flags & 1)
        })
    }

    pub fn operations(&self) -> impl ExactSizeIterator<Item = Operation> + '_ {
        (0..self.operations.len()).map(|index| self.operation_at(index))
    }

    pub fn errors(&self) -> impl ExactSizeIterator<Item = ErrorEntry> + '_ {
        (0..self.errors.len()).map(|index| self.error_at(index))
    }

    pub fn error_pairs(&self) -> impl ExactSizeIterator<Item = (usize, usize)> + 'a {
        self.error_pairs.iter().map(indexes)
    }

    pub fn child_pairs(&self) -> impl ExactSizeIterator<Item = (usize, usize)> + 'a {
        self.child_pairs.iter().map(indexes)
    }

    pub fn names(&self) -> &'a [Name] {
        self.names
    }

    /// Whether an operation has this code.
    #[inline]
    pub fn has_operation(&self, wanted: &Code) -> bool {
        self.operation_index(wanted).is_some()
    }

    #[inline]
    pub fn operation(&self, wanted: &Code) -> Option<Operation> {
        self.operation_index(wanted).map(|index| self.operation_at(index))
    }

    #[inline]
    fn operation_index(&self, wanted: &Code) -> Option<usize> {
        index(self.operations, self.place(wanted)?, operation_place)
    }

    #[inline]
    pub fn error(&self, wanted: &Code) -> Option<ErrorEntry> {
        let index = index(self.errors, self.place(wanted)?, error_place)?;
        Some(self.error_at(index))
    }

    /// Where a code stands in the order of lists; none for a name that is not among the names.
    #[inline]
    fn place(&self, wanted: &Code) -> Option<i64> {
        match wanted {
            Code::Local(code) => Some(i64::from(*code)),
            Code::Name(name) => self.names.iter().position(|entry| entry == name).map(place_of_name),
        }
    }

    /// The code at a place in the order of lists.
    #[inline]
    fn code(&self, place: i64) -> Code {
        match i32::try_from(place) {
            Ok(code) => Code::Local(code),
            Err(_) => Code::Name(self.names.get((place - FIRST_NAME) as usize).copied().unwrap_or_default()),
        }
    }

    #[inline]
    fn operation_at(&self, index: usize) -> Operation {
        let entry = &self.operations[index];
        let [.., class, argument, result, flags] = *entry;
        Operation {
            index,
            code: self.code(operation_place(entry)),
            class,
            argument: Rule { kind: argument, optional: flags & 1 != 0 },
            result: Rule { kind: result, optional: flags & 2 != 0 },
            idempotent: flags & IDEMPOTENT != 0,
        }
    }

    #[inline]
    fn error_at(&self, index: usize) -> ErrorEntry {
        let entry = &self.errors[index];
        let [.., kind, flags] = *entry;
        let code = self.code(error_place(entry));
        ErrorEntry { index, code, parameter: Rule { kind, optional: flags & 1 != 0 } }
    }

    /// Whether the error is listed for the operation.
    pub fn lists_error(&self, operation: &Operation, error: &ErrorEntry) -> bool {
        self.error_pairs.binary_search(&pair(operation.index, error.index)).is_ok()
    }

    /// Whether the operation is a listed child of the parent.
    pub fn lists_child(&self, parent: &Operation, child: &Operation) -> bool {
        self.child_pairs.binary_search(&pair(parent.index, child.index)).is_ok()
    }

    /// Whether the operation stands first in any child pair.
    pub fn has_children(&self, parent: &Operation) -> bool {
        let first = self.child_pairs.partition_point(|entry| *entry < pair(parent.index, 0));
        self.child_pairs.get(first).is_some_and(|entry| indexes(entry).0 == parent.index)
    }
}

/// Where the entry with a code stands in a list, by the code's place in the order.
#[inline]
fn index<T>(entries: &[T], wanted: i64, place: impl Fn(&T) -> i64) -> Option<usize> {
    entries.binary_search_by_key(&wanted, place).ok()
}

/// The place of the name with index 0 in the order of lists: behind every local code.
const FIRST_NAME: i64 = 1 << 32;

#[inline]
fn place_of_name(index: usize) -> i64 {
    FIRST_NAME + index as i64
}

/// The place of an entry's code in the order of lists: local codes, then names by their indexes.
#[inline]
fn operation_place(entry: &[u8; 8]) -> i64 {
    place(entry, entry[7] & OPERATION_NAMED != 0)
}

#[inline]
fn error_place(entry: &[u8; 6]) -> i64 {
    place(entry, entry[5] & ERROR_NAMED != 0)
}

#[inline]
fn place(entry: &[u8], named: bool) -> i64 {
    let number = u32::from_be_bytes([entry[0], entry[1], entry[2], entry[3]]);
    match named {
        true => FIRST_NAME + i64::from(number),
        false => i64::from(number.cast_signed()),
    }
}

/// Names of the right form, all different.
fn names_right(names: &[Name]) -> bool {
    names.is_empty() || names.iter().all(code::is_right) && all_different(names)
}

/// Whether no name stands twice. The slots hold places in the list, from 1, each at its name's number or behind it.
fn all_different(names: &[Name]) -> bool {
    const SLOTS: usize = 2 * MOST[4];
    let mut slots = [0_u8; SLOTS];
    names.iter().enumerate().all(|(index, name)| {
        let mut slot = spread(name) % SLOTS;
        while slots[slot] != 0 {
            if names[usize::from(slots[slot]) - 1] == *name {
                return false;
            }
            slot = (slot + 1) % SLOTS;
        }
        slots[slot] = index as u8 + 1;
        true
    })
}

/// A number of a name, mostly another one for another name.
fn spread(name: &Name) -> usize {
    let [mut low, mut high] = [[0; 8]; 2];
    low.copy_from_slice(&name[1..9]);
    high.copy_from_slice(&name[9..]);
    let sum = u64::from_le_bytes(low) ^ u64::from_le_bytes(high).rotate_left(29) ^ u64::from(name[0]) << 5;
    (sum.wrapping_mul(0x9E37_79B9_7F4A_7C15) >> 56) as usize
}

/// Operations that may stand first in a pair, one bit for each index.
struct Classes {
    with_errors: u64,
    with_children: u64,
}

impl Classes {
    fn of(operations: &[[u8; 8]]) -> Self {
        let mut classes = Classes { with_errors: 0, with_children: 0 };
        for (index, entry) in operations.iter().enumerate() {
            classes.with_errors |= u64::from(!matches!(entry[4], 4 | 5)) << index;
            classes.with_children |= u64::from(entry[4] != 5) << index;
        }
        classes
    }
}

/// Pairs rise strictly, first number first; the first is one of `firsts`, the second below `seconds`.
fn pairs_right(pairs: &[[u8; 4]], firsts: u64, seconds: usize) -> bool {
    let mut before = -1;
    pairs.iter().fold(true, |right, entry| {
        let number = i64::from(u32::from_be_bytes(*entry));
        let (first, second) = indexes(entry);
        let rises = before < number;
        before = number;
        right & rises & (first < 64) & (firsts >> (first & 63) & 1 == 1) & (second < seconds)
    })
}

/// Type 0 needs its optional flag 0; another is an identifier octet without a high tag number.
#[inline]
fn type_right(kind: u8, optional: u8) -> bool {
    (kind & 0x1F != 0x1F) & (kind != 0 || optional == 0)
}

fn half(octets: &[u8]) -> u16 {
    u16::from_be_bytes([octets[0], octets[1]])
}

fn indexes(entry: &[u8; 4]) -> (usize, usize) {
    (usize::from(half(entry)), usize::from(half(&entry[2..])))
}

/// A pair as its four octets: they compare as the two numbers do, first number first.
fn pair(first: usize, second: usize) -> [u8; 4] {
    ((first as u32) << 16 | second as u32).to_be_bytes()
}
