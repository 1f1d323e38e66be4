//! Tables that break one rule each and states that are not sound, by name; those about names are in `name_faults`,
//! those about resting ids in `resting_states`, those about probe and acknowledge in `probe_rows`, and those about kept
//! answers in `kept_states`.
//! Follows docs/RULES.md, "Operation table" and "Records".

use crate::code::Code;
use crate::kept_states;
use crate::model::{ErrorRow, Model, OperationRow};
use crate::name_faults;
use crate::probe_rows;
use crate::random::Random;
use crate::resting_states;
use crate::state::{Record, Side, State};
use crate::table::Table;

/// A table of all classes with pairs of both sorts, for a fault to break.
pub fn rich(random: &mut Random) -> Model {
    let mut model = Model::default();
    // No code of an operation is then that of a probe or acknowledge.
    let mut code = random.number_unless(|number| (-120..0).contains(&number)) >> 1;
    for class in [1, 2, 3, 4, 5, 2] {
        let mut row =
            OperationRow { code: Code::Local(code), class, argument: 0x02, result: 0x04, flags: random.octet() & 3 };
        Model::settle(&mut row);
        model.operations.push(row);
        code += 1 + random.below(9) as i32;
    }
    for parameter in [0x00, 0x04, 0x30] {
        model.errors.push(ErrorRow { code: Code::Local(code), parameter, optional: 0 });
        code += 1 + random.below(9) as i32;
    }
    model.error_pairs = vec![(0, 0), (0, 2), (1, 1), (2, 0), (5, 2)];
    model.child_pairs = vec![(0, 1), (1, 0), (1, 4), (3, 3)];
    model
}

/// Such a table of either edition, this many times in a hundred of edition 2.
pub fn rich_of_either(random: &mut Random, named: usize) -> Model {
    match random.percent(named) {
        true => name_faults::rich(random),
        false => rich(random),
    }
}

pub(crate) type TableFault = fn(Model, &mut Random) -> Vec<u8>;

/// An invalid table: what is wrong with it, and its octets.
pub fn table(fault: usize, random: &mut Random) -> (&'static str, Vec<u8>, Model) {
    if let Some((name, make)) = name_faults::TABLES.get(fault) {
        let model = name_faults::rich(random);
        return (name, make(model.clone(), random), model);
    }
    let (name, make) =
        *TABLES.iter().chain(probe_rows::TABLES).nth(fault - name_faults::TABLES.len()).expect("a fault");
    // What is wrong in edition 1 may be right in edition 2.
    let named = name_faults::rich(random);
    let octets = make(named.clone(), random);
    if random.percent(50) && Table::new(&octets).is_none() {
        return (name, octets, named);
    }
    let model = rich(random);
    (name, make(model.clone(), random), model)
}

/// The names of the invalid tables.
pub fn table_names() -> Vec<&'static str> {
    name_faults::TABLES.iter().chain(TABLES).chain(probe_rows::TABLES).map(|(name, _)| *name).collect()
}

/// The ways to make a state unsound.
pub fn states() -> Vec<(&'static str, StateFault)> {
    let states = STATES.iter().chain(name_faults::STATES).chain(resting_states::UNSOUND);
    states.chain(kept_states::UNSOUND).copied().collect()
}

/// Each gives a table that is not valid.
pub const TABLES: &[(&str, TableFault)] = &[
    ("no octets", |_, _| Vec::new()),
    ("header cut short", |_, _| Model::default().octets()[..15].to_vec()),
    ("last octet missing", |model, _| octets(model, |octets| octets.truncate(octets.len() - 1))),
    ("octet behind the last part", |model, _| octets(model, |octets| octets.push(0))),
    ("operations offset", |model, random| offset(model, 2, random)),
    ("errors offset", |model, random| offset(model, 6, random)),
    ("error pairs offset", |model, random| offset(model, 10, random)),
    ("child pairs offset", |model, random| offset(model, 14, random)),
    ("offset of an empty part", |_, random| offset(Model::default(), 2 + 4 * random.below(4), random)),
    ("operation count 65", |_, random| grown(random, 0)),
    ("error count 65", |_, random| grown(random, 1)),
    ("error pair count 257", |_, random| grown(random, 2)),
    ("child pair count 257", |_, random| grown(random, 3)),
    ("operation codes equal", |model, random| {
        rows(model, |model| {
            let at = random.between(1, 5);
            model.operations[at].code = model.operations[at - 1].code;
        })
    }),
    ("operation codes falling", |model, random| {
        rows(model, |model| {
            let at = random.between(1, 5);
            model.operations.swap(at - 1, at);
            model.error_pairs.clear();
            model.child_pairs.clear();
        })
    }),
    ("operation codes rising unsigned only", |model, _| {
        rows(model, |model| {
            model.operations[4].code = Code::Local(i32::MAX);
            model.operations[5].code = Code::Local(i32::MIN);
        })
    }),
    ("error codes equal", |model, _| rows(model, |model| model.errors[1].code = model.errors[0].code)),
    ("error codes falling", |model, _| rows(model, |model| model.errors.swap(0, 1))),
    ("error codes rising unsigned only", |model, _| {
        rows(model, |model| {
            (model.errors[1].code, model.errors[2].code) = (Code::Local(i32::MAX), Code::Local(-1));
        })
    }),
    ("class 0", |model, random| rows(model, |model| model.operations[random.below(6)].class = 0)),
    ("class 6", |model, _| rows(model, |model| model.operations[3].class = 6)),
    ("argument type of a high tag", |model, random| {
        rows(model, |model| {
            model.operations[random.below(6)].argument = 0x1F | (random.octet() & 0xE0);
        })
    }),
    ("result type of a high tag", |model, random| {
        rows(model, |model| {
            model.operations[1].result = 0x1F | (random.octet() & 0xE0);
        })
    }),
    ("parameter type of a high tag", |model, random| {
        rows(model, |model| {
            model.errors[random.below(3)].parameter = 0x1F | (random.octet() & 0xE0);
        })
    }),
    ("no argument, yet optional", |model, random| {
        rows(model, |model| {
            let row = &mut model.operations[random.below(6)];
            (row.argument, row.flags) = (0, row.flags | 1);
        })
    }),
    ("no result, yet optional", |model, random| {
        rows(model, |model| {
            let row = &mut model.operations[random.below(6)];
            (row.result, row.flags) = (0, row.flags | 2);
        })
    }),
    ("no parameter, yet optional", |model, _| rows(model, |model| model.errors[0].optional = 1)),
    ("flag 4", |model, random| rows(model, |model| model.operations[random.below(6)].flags |= 4)),
    ("flag 80", |model, random| rows(model, |model| model.operations[random.below(6)].flags |= 0x80)),
    ("error optional 2", |model, _| rows(model, |model| model.errors[1].optional = 2)),
    ("class 3 with a result", |model, _| rows(model, |model| model.operations[2].result = 0x02)),
    ("class 5 with a result", |model, _| rows(model, |model| model.operations[4].result = 0x02)),
    ("error pairs equal", |model, _| rows(model, |model| model.error_pairs[1] = (0, 0))),
    ("error pairs falling in the first", |model, _| rows(model, |model| model.error_pairs.swap(2, 3))),
    ("error pairs falling in the second", |model, _| rows(model, |model| model.error_pairs.swap(0, 1))),
    ("child pairs equal", |model, _| rows(model, |model| model.child_pairs[2] = (1, 0))),
    ("child pairs falling in the first", |model, _| rows(model, |model| model.child_pairs.swap(0, 1))),
    ("child pairs falling in the second", |model, _| rows(model, |model| model.child_pairs.swap(1, 2))),
    ("error pair without operation", |model, random| {
        rows(model, |model| {
            model.error_pairs.push(([6, 64, 70, u16::MAX][random.below(4)], 0));
        })
    }),
    ("error pair without error", |model, _| rows(model, |model| model.error_pairs[4].1 = 3)),
    ("child pair without parent", |model, random| {
        rows(model, |model| {
            model.child_pairs.push(([6, 64, 65, u16::MAX][random.below(4)], 0));
        })
    }),
    ("child pair without child", |model, _| rows(model, |model| model.child_pairs[3].1 = 6)),
    ("error pair of class 4", |model, _| rows(model, |model| model.error_pairs[4].0 = 3)),
    ("error pair of class 5", |model, _| rows(model, |model| model.error_pairs[4].0 = 4)),
    ("child pair of a class 5 parent", |model, _| rows(model, |model| model.child_pairs[3].0 = 4)),
];

pub(crate) fn rows(mut model: Model, change: impl FnOnce(&mut Model)) -> Vec<u8> {
    change(&mut model);
    model.octets()
}

pub(crate) fn octets(model: Model, change: impl FnOnce(&mut Vec<u8>)) -> Vec<u8> {
    let mut octets = model.octets();
    change(&mut octets);
    octets
}

/// One offset is wrong by a little, or by much.
pub(crate) fn offset(model: Model, at: usize, random: &mut Random) -> Vec<u8> {
    let change = [1, 2, 8, 0x100, 0xFFFF][random.below(5)];
    octets(model, |octets| {
        let wrong = u16::from_be_bytes([octets[at], octets[at + 1]]).wrapping_add(change);
        octets[at..at + 2].copy_from_slice(&wrong.to_be_bytes());
    })
}

/// A full table with one entry more in one part.
fn grown(random: &mut Random, part: usize) -> Vec<u8> {
    let mut model = Model::full(random);
    match part {
        0 => {
            let last = model.operations[0];
            model.operations = (0..65).map(|code| OperationRow { code: Code::Local(code), ..last }).collect();
            model.error_pairs.clear();
            model.child_pairs.clear();
        }
        1 => {
            model.errors =
                (0..65).map(|code| ErrorRow { code: Code::Local(code), parameter: 0, optional: 0 }).collect();
        }
        2 => add_between(&mut model.error_pairs, 64),
        _ => add_between(&mut model.child_pairs, 64),
    }
    model.octets()
}

/// Adds the first pair of a listed operation that is not there yet.
fn add_between(pairs: &mut Vec<(u16, u16)>, seconds: u16) {
    let firsts: Vec<u16> = pairs.iter().map(|pair| pair.0).collect();
    let missing = firsts.into_iter().flat_map(|first| (0..seconds).map(move |second| (first, second)));
    let known = pairs.clone();
    if let Some(pair) = missing.into_iter().find(|pair| known.binary_search(pair).is_err()) {
        pairs.push(pair);
        pairs.sort_unstable();
    }
}

pub(crate) type StateFault = fn(&mut State, &mut Random);

/// Each makes a sound state unsound.
const STATES: &[(&str, StateFault)] = &[
    ("own count 33", |state, _| state.own.count = 33),
    ("peer count 33", |state, _| state.peer.count = 33),
    ("own count over 33", |state, random| state.own.count = random.between(34, 65_535) as u16),
    ("peer count over 33", |state, random| state.peer.count = random.between(34, 65_535) as u16),
    ("own id repeated", |state, random| repeat(&mut state.own, random)),
    ("peer id repeated", |state, random| repeat(&mut state.peer, random)),
    ("id behind the own count", |state, random| behind(&mut state.own, random, Record { id: 1, code: Code::Local(0) })),
    ("code behind the own count", |state, random| {
        behind(&mut state.own, random, Record { id: 0, code: Code::Local(1) })
    }),
    ("id behind the peer count", |state, random| {
        behind(&mut state.peer, random, Record { id: -1, code: Code::Local(0) })
    }),
    ("code behind the peer count", |state, random| {
        behind(&mut state.peer, random, Record { id: 0, code: Code::Local(-1) })
    }),
    ("own count too small", |state, _| {
        while state.own.count < 2 {
            state.own.add(i32::from(state.own.count) + 70, Code::Local(1));
        }
        state.own.count -= 1;
    }),
];

/// Two live records, first and last or neighbours, get one id.
fn repeat(side: &mut Side, random: &mut Random) {
    while side.count < 2 {
        side.add(i32::from(side.count) + 70, side.places[0].code);
    }
    let count = usize::from(side.count);
    let second = random.between(1, count - 1);
    let first = random.below(second);
    side.places[second].id = side.places[first].id;
}

pub(crate) fn behind(side: &mut Side, random: &mut Random, rubbish: Record) {
    side.count = side.count.min(31);
    let count = usize::from(side.count);
    side.places[count..].fill(Record::default());
    let at = [count, 31, random.between(count, 31)][random.below(3)];
    side.places[at] = rubbish;
}
