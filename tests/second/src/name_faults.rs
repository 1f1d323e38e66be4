//! Tables of edition 2 that break one rule each, and states whose names are not right, by name.
//! Follows docs/RULES.md, "Names".

use crate::code::{Code, Name, NAME_OCTETS};
use crate::faults::{self, octets, rows, StateFault, TableFault};
use crate::model::Model;
use crate::names;
use crate::random::Random;
use crate::state::{Record, Side};

/// How many octets the header has, and where the names' count stands in it.
const HEADER: usize = 24;
const NAMES_COUNT: usize = 20;

/// A table of edition 2 of all classes with pairs of both sorts; the last three operations and two errors have names,
/// and one name nothing has.
pub fn rich(random: &mut Random) -> Model {
    let mut model = faults::rich(random);
    let names = names::different(random, 5);
    for (at, name) in [(3, 0), (4, 2), (5, 3)] {
        model.operations[at].code = Code::Name(names[name]);
    }
    for (at, name) in [(1, 1), (2, 3)] {
        model.errors[at].code = Code::Name(names[name]);
    }
    model.operations[random.below(6)].flags |= 8;
    model.names = Some(names);
    model
}

/// Each gives a table that is not valid.
pub const TABLES: &[(&str, TableFault)] = &[
    ("edition 3", |model, _| edition(model, [0xFF, 0xFF, 0, 3])),
    ("edition 1 with the mark of edition 2", |model, _| edition(model, [0xFF, 0xFF, 0, 1])),
    ("edition 0", |model, _| edition(model, [0xFF, 0xFF, 0, 0])),
    ("edition 512", |model, _| edition(model, [0xFF, 0xFF, 2, 0])),
    ("any other edition", |model, random| edition(model, [0xFF, 0xFF, random.octet() | 1, random.octet()])),
    ("mark FFFE", |model, _| edition(model, [0xFF, 0xFE, 0, 2])),
    ("mark 0000", |model, _| edition(model, [0, 0, 0, 2])),
    ("edition 3 in an empty table", |_, _| edition(empty(), [0xFF, 0xFF, 0, 3])),
    ("edition 2, mark alone", |model, random| model.octets()[..random.between(1, 4)].to_vec()),
    ("edition 2, header cut short", |_, random| empty().octets()[..random.between(5, HEADER - 1)].to_vec()),
    ("edition 2, header of edition 1 behind the mark", |model, _| {
        octets(model, |octets| drop(octets.drain(NAMES_COUNT..HEADER)))
    }),
    ("edition 2, last octet missing", |model, _| octets(model, |octets| octets.truncate(octets.len() - 1))),
    ("edition 2, octet behind the last part", |model, _| octets(model, |octets| octets.push(0))),
    ("edition 2, operations offset", |model, random| faults::offset(model, 6, random)),
    ("edition 2, errors offset", |model, random| faults::offset(model, 10, random)),
    ("edition 2, error pairs offset", |model, random| faults::offset(model, 14, random)),
    ("edition 2, child pairs offset", |model, random| faults::offset(model, 18, random)),
    ("edition 2, names offset", |model, random| faults::offset(model, 22, random)),
    ("edition 2, offset of an empty part", |_, random| faults::offset(empty(), 6 + 4 * random.below(5), random)),
    ("edition 2, offsets as in edition 1", |model, _| {
        octets(model, |octets| (6..HEADER).step_by(4).for_each(|at| raise(octets, at, -8)))
    }),
    ("name count one too large", |model, _| octets(model, |octets| raise(octets, NAMES_COUNT, 1))),
    ("name count one too small", |model, _| octets(model, |octets| raise(octets, NAMES_COUNT, -1))),
    ("name count 129", |_, random| {
        let mut model = Model::full_of_names(random);
        model.names = Some([model.names(), &[names::other(random, model.names())]].concat());
        model.octets()
    }),
    ("name length 0", |model, random| any_name(model, random, |name, _| name[0] = 0)),
    ("name length 17", |model, random| any_name(model, random, |name, _| name[0] = 17)),
    ("name length over 17", |model, random| any_name(model, random, |name, random| name[0] = random.octet() | 32)),
    ("name length 17 of 16 octets", |model, random| {
        any_name(model, random, |name, random| (*name, name[0]) = (full(random), 17))
    }),
    ("name of zeros", |model, random| any_name(model, random, |name, _| *name = Name::default())),
    ("name starting with 80", |model, random| any_name(model, random, |name, _| *name = of(&[0x80, 0x01]))),
    ("name with a later part starting with 80", |model, random| {
        any_name(model, random, |name, random| *name = of(&[0x81, random.octet() & 0x7F, 0x80, 0x01]))
    }),
    ("name with last octet 80 or more", |model, random| {
        any_name(model, random, |name, random| *name = of(&[0x2A, 0x81 | random.octet()]))
    }),
    ("name of 16 octets without an end", |model, random| {
        any_name(model, random, |name, random| {
            *name = full(random);
            name[NAME_OCTETS] |= 0x81;
        })
    }),
    ("octet behind a name not 0", |model, random| {
        any_name(model, random, |name, random| spoil_padding(name, false, random))
    }),
    ("last octet behind a name not 0", |model, random| {
        any_name(model, random, |name, random| spoil_padding(name, true, random))
    }),
    ("wrong name that nothing has", |model, _| name_at(model, 4, |name| name[0] = 0)),
    ("name twice", |model, random| twice(model, random.below(4), 4)),
    ("names twice side by side", |model, random| {
        let at = random.below(4);
        twice(model, at, at + 1)
    }),
    ("operation index one too large", |model, _| number(model, 5, 5)),
    ("operation index far too large", |model, random| number(model, 5, random.between(6, 1 << 30) as i32)),
    ("operation index negative", |model, random| number(model, 3, -1 - random.below(5) as i32)),
    ("operation index -2147483648", |model, _| number(model, 3, i32::MIN)),
    ("operation index that is right modulo 65,536", |model, _| number(model, 5, 0x1_0003)),
    ("operation index without names", |model, _| without_names(model, |model| model.errors.truncate(1))),
    ("error index one too large", |model, _| number(model, 8, 5)),
    ("error index negative", |model, random| number(model, 7, -1 - random.below(5) as i32)),
    ("error index without names", |model, _| {
        without_names(model, |model| {
            model.operations.truncate(3);
            model.child_pairs.clear();
            model.error_pairs.truncate(4);
        })
    }),
    ("operation indexes equal", |model, _| number(model, 4, 0)),
    ("operation indexes falling", |model, _| number(model, 5, 1)),
    ("error indexes equal", |model, _| number(model, 8, 1)),
    ("error indexes falling", |model, _| number(model, 8, 0)),
    ("local operation code behind a name", |model, _| flag(model, 5, 7, |flags| flags & !4)),
    ("local error code behind a name", |model, _| flag(model, 8, 5, |flags| flags & !2)),
    ("local operation codes equal in edition 2", |model, random| {
        rows(model, |model| {
            let at = random.between(1, 2);
            model.operations[at].code = model.operations[at - 1].code;
        })
    }),
    ("local operation codes falling in edition 2", |model, _| {
        rows(model, |model| {
            let codes = [0, 1].map(|at| model.operations[at].code);
            (model.operations[0].code, model.operations[1].code) = (codes[1], codes[0]);
        })
    }),
    ("flag 16", |model, random| any_flag(model, random, 16)),
    ("flag 32", |model, random| any_flag(model, random, 32)),
    ("flag 64", |model, random| any_flag(model, random, 64)),
    ("flag 128 in edition 2", |model, random| any_flag(model, random, 128)),
    ("error flag 4", |model, random| flag(model, random.between(6, 8), 5, |flags| flags | 4)),
    ("error flag 8", |model, random| flag(model, random.between(6, 8), 5, |flags| flags | 8)),
    ("error flag 128", |model, random| flag(model, random.between(6, 8), 5, |flags| flags | 128)),
    ("edition 2, no argument, yet optional", |model, random| {
        rows(model, |model| {
            let row = &mut model.operations[random.below(6)];
            (row.argument, row.flags) = (0, row.flags | 1);
        })
    }),
    ("edition 2, no parameter, yet optional", |model, _| rows(model, |model| model.errors[0].optional = 1)),
    ("flag 8 in edition 1", |_, random| rows(faults::rich(random), |model| model.operations[2].flags |= 8)),
    ("flag 4 in edition 1, index 0", |_, random| {
        rows(faults::rich(random), |model| {
            (model.operations[5].code, model.operations[5].flags) = (Code::Local(i32::MAX), 4);
        })
    }),
    ("error flag 2 in edition 1", |_, random| rows(faults::rich(random), |model| model.errors[2].optional = 2)),
    ("error flags 3 in edition 1", |_, random| rows(faults::rich(random), |model| model.errors[1].optional = 3)),
];

/// Each makes a sound state unsound.
pub const STATES: &[(&str, StateFault)] = &[
    ("own name of length 17", |state, random| record(&mut state.own, random, |name, _| name[0] = 17)),
    ("peer name of length 17", |state, random| record(&mut state.peer, random, |name, _| name[0] = 17)),
    ("own name of 16 octets and length 17", |state, random| {
        record(&mut state.own, random, |name, random| (*name, name[0]) = (full(random), 17))
    }),
    ("peer name of length over 17", |state, random| {
        record(&mut state.peer, random, |name, random| name[0] = random.octet() | 32)
    }),
    ("own name starting with 80", |state, random| record(&mut state.own, random, |name, _| *name = of(&[0x80, 0x01]))),
    ("peer name with a later part starting with 80", |state, random| {
        record(&mut state.peer, random, |name, _| *name = of(&[0x2A, 0x80, 0x01]))
    }),
    ("own name with last octet 80 or more", |state, random| {
        record(&mut state.own, random, |name, random| *name = of(&[0x2A, 0x81 | random.octet()]))
    }),
    ("peer name of 16 octets without an end", |state, random| {
        record(&mut state.peer, random, |name, random| {
            *name = full(random);
            name[NAME_OCTETS] |= 0x81;
        })
    }),
    ("octet behind an own name not 0", |state, random| {
        record(&mut state.own, random, |name, random| spoil_padding(name, false, random))
    }),
    ("last octet behind a peer name not 0", |state, random| {
        record(&mut state.peer, random, |name, random| spoil_padding(name, true, random))
    }),
    ("name behind the own count", |state, random| {
        let code = Code::Name(names::name(random, &[]));
        faults::behind(&mut state.own, random, Record { id: 0, code });
    }),
    ("name behind the peer count", |state, random| {
        let code = Code::Name(names::name(random, &[]));
        faults::behind(&mut state.peer, random, Record { id: 0, code });
    }),
    ("name length alone behind the own count", |state, random| {
        let code = Code::Name(of(&[0]));
        faults::behind(&mut state.own, random, Record { id: 0, code });
    }),
    ("last octet of a name behind the peer count", |state, random| {
        let mut name = [0; 1 + NAME_OCTETS];
        (name[0], name[NAME_OCTETS]) = (16, 1);
        faults::behind(&mut state.peer, random, Record { id: 0, code: Code::Name(name) });
    }),
];

fn empty() -> Model {
    Model { names: Some(Vec::new()), ..Model::default() }
}

fn edition(model: Model, mark: [u8; 4]) -> Vec<u8> {
    octets(model, |octets| octets[..4].copy_from_slice(&mark))
}

/// Changes a number of the header.
fn raise(octets: &mut [u8], at: usize, by: i16) {
    let number = u16::from_be_bytes([octets[at], octets[at + 1]]).wrapping_add_signed(by);
    octets[at..at + 2].copy_from_slice(&number.to_be_bytes());
}

/// Changes a name in the octets, its rows left as they are.
fn name_at(model: Model, at: usize, change: impl FnOnce(&mut Name)) -> Vec<u8> {
    let count = model.names().len();
    octets(model, |octets| {
        let start = octets.len() - (count - at) * (1 + NAME_OCTETS);
        let mut name: Name = std::array::from_fn(|octet| octets[start + octet]);
        change(&mut name);
        octets[start..][..name.len()].copy_from_slice(&name);
    })
}

fn any_name(model: Model, random: &mut Random, change: impl FnOnce(&mut Name, &mut Random)) -> Vec<u8> {
    let at = random.below(model.names().len());
    name_at(model, at, |name| change(name, random))
}

fn twice(model: Model, at: usize, other: usize) -> Vec<u8> {
    let again = model.names()[other];
    name_at(model, at, |name| *name = again)
}

/// The name of these octets, right or not.
fn of(contents: &[u8]) -> Name {
    crate::code::name(contents).unwrap_or_default()
}

/// A right name of 16 octets.
fn full(random: &mut Random) -> Name {
    let mut name = [0; 1 + NAME_OCTETS].map(|_: u8| random.octet() & 0x7F);
    name[0] = NAME_OCTETS as u8;
    name
}

/// Puts an octet behind a name of fewer than 16: directly behind it, or last.
fn spoil_padding(name: &mut Name, last: bool, random: &mut Random) {
    if name[0] >= NAME_OCTETS as u8 {
        *name = of(&[0x2A, 0x86, 0x48]);
    }
    let at = if last { NAME_OCTETS } else { 1 + usize::from(name[0]) };
    name[at] = [1, 0x2A, 0x7F, 0x80, 0xFF][random.below(5)];
}

/// Where a row of the rich table starts: operations 0 to 5, then errors 6 to 8.
fn row(at: usize) -> usize {
    HEADER + if at < 6 { 8 * at } else { 48 + 6 * (at - 6) }
}

/// Gives a row of the rich table another number.
fn number(model: Model, at: usize, number: i32) -> Vec<u8> {
    octets(model, |octets| octets[row(at)..row(at) + 4].copy_from_slice(&number.to_be_bytes()))
}

/// Changes the flags of a row of the rich table, so many octets behind its start.
fn flag(model: Model, at: usize, behind: usize, change: impl FnOnce(u8) -> u8) -> Vec<u8> {
    octets(model, |octets| octets[row(at) + behind] = change(octets[row(at) + behind]))
}

fn any_flag(model: Model, random: &mut Random, more: u8) -> Vec<u8> {
    flag(model, random.below(6), 7, |flags| flags | more)
}

/// A table whose rows have indexes, and that has no names.
fn without_names(model: Model, change: impl FnOnce(&mut Model)) -> Vec<u8> {
    let mut model = Model { names: Some(Vec::new()), ..model };
    change(&mut model);
    let named = |row: &Code| matches!(row, Code::Name(_));
    let rows = [model.operations.len(), model.errors.len()];
    let operations: Vec<usize> = (0..rows[0]).filter(|&at| named(&model.operations[at].code)).collect();
    let errors: Vec<usize> = (0..rows[1]).filter(|&at| named(&model.errors[at].code)).collect();
    octets(model, |octets| {
        for (index, at) in operations.into_iter().enumerate() {
            octets[HEADER + 8 * at..][..4].copy_from_slice(&(index as u32).to_be_bytes());
        }
        for (index, at) in errors.into_iter().enumerate() {
            octets[HEADER + 8 * rows[0] + 6 * at..][..4].copy_from_slice(&(index as u32).to_be_bytes());
        }
    })
}

/// Spoils the name of a live record, which gets one if it has none.
fn record(side: &mut Side, random: &mut Random, change: impl FnOnce(&mut Name, &mut Random)) {
    if side.count == 0 {
        side.add(70, Code::default());
    }
    let at = random.below(usize::from(side.count));
    let mut name = match side.places[at].code {
        Code::Name(name) => name,
        Code::Local(_) => names::name(random, &[]),
    };
    change(&mut name, random);
    side.places[at].code = Code::Name(name);
}
