//! Valid tables with rules of docs/TABLES.md, "The first fault", broken at a random place.

use crate::code::{self, Code, Name};
use crate::first_fault::{LONGEST_FILE, RULES};
use crate::model::{any_type, Model, OperationRow};
use crate::names;
use crate::probe::{ACKNOWLEDGE, PROBE};
use crate::probe_rows;
use crate::random::Random;

/// Breaks a rule in the rows of a table, or in its octets; none where the table has no place for it.
#[derive(Clone, Copy)]
enum Break {
    Rows(fn(&mut Model, &mut Random) -> Option<()>),
    Octets(fn(&mut Vec<u8>, &mut Random) -> Option<()>),
}

use Break::{Octets, Rows};

/// How to break each rule, in the order of `RULES`.
const BREAKS: [Break; RULES.len()] = [
    Octets(|octets, random| {
        lengthen(octets, [LONGEST_FILE + 1, random.between(LONGEST_FILE + 1, 6000)][random.below(2)])
    }),
    Octets(edition),
    Octets(header_length),
    Octets(|octets, random| offset(octets, 0, random)),
    Octets(|octets, random| offset(octets, 1, random)),
    Octets(|octets, random| offset(octets, 2, random)),
    Octets(|octets, random| offset(octets, 3, random)),
    Octets(|octets, random| if is_second(octets) { offset(octets, 4, random) } else { None }),
    Octets(table_length),
    Rows(|model, random| count(model, 0, random)),
    Rows(|model, random| {
        let class = [0, 6, 7, 255, random.octet().max(6)];
        operation(model, random)?.class = random.pick(&class)?;
        Some(())
    }),
    Rows(|model, random| {
        let (low, kept) = if model.names.is_some() { (4, 0xFB) } else { (2, 0xFF) };
        let flags = random.octet() & kept | 1 << random.between(low, 7);
        operation(model, random)?.flags |= flags;
        Some(())
    }),
    Rows(|model, random| {
        let row = operation(model, random)?;
        (row.argument, row.flags) = (0, row.flags | 1);
        Some(())
    }),
    Rows(|model, random| {
        operation(model, random)?.argument = high_tag(random);
        Some(())
    }),
    Rows(|model, random| {
        let row = operation(model, random)?;
        (row.result, row.flags) = (0, row.flags | 2);
        Some(())
    }),
    Rows(|model, random| {
        operation(model, random)?.result = high_tag(random);
        Some(())
    }),
    Rows(|model, random| {
        let row = operation(model, random)?;
        row.class = [3, 5][random.below(2)];
        row.result = any_type(random).max(1);
        Some(())
    }),
    Octets(|octets, random| name_index(octets, 0, random)),
    Rows(probe_rows::break_class),
    Rows(probe_rows::break_argument),
    Rows(|model, random| probe_rows::break_optional(model, random, &[1, 3])),
    Rows(probe_rows::break_result),
    Rows(|model, random| probe_rows::break_optional(model, random, &[2])),
    Rows(probe_rows::break_pair),
    Rows(operation_order),
    Rows(|model, random| count(model, 1, random)),
    Rows(|model, random| {
        let at = any(model.errors.len(), random)?;
        model.errors[at].optional =
            if model.names.is_some() { random.octet() & 0xFD | 4 } else { random.octet().max(2) };
        Some(())
    }),
    Rows(|model, random| {
        let at = any(model.errors.len(), random)?;
        (model.errors[at].parameter, model.errors[at].optional) = (0, 1);
        Some(())
    }),
    Rows(|model, random| {
        let at = any(model.errors.len(), random)?;
        model.errors[at].parameter = high_tag(random);
        Some(())
    }),
    Octets(|octets, random| name_index(octets, 1, random)),
    Rows(|model, random| {
        let at = behind_the_first(model.errors.len(), random)?;
        model.errors[at].code = at_most(model.errors[at - 1].code, model.names(), random);
        Some(())
    }),
    Rows(|model, random| count(model, 2, random)),
    Rows(|model, random| first_index(model.operations.len(), &mut model.error_pairs, random)),
    Rows(|model, random| second_index(model.errors.len(), &mut model.error_pairs, random)),
    Rows(|model, random| class(&model.operations, 4, &mut model.error_pairs, random)),
    Rows(|model, random| order(model.allowed_error_pairs(), &mut model.error_pairs, random)),
    Rows(|model, random| count(model, 3, random)),
    Rows(|model, random| first_index(model.operations.len(), &mut model.child_pairs, random)),
    Rows(|model, random| second_index(model.operations.len(), &mut model.child_pairs, random)),
    Rows(|model, random| class(&model.operations, 5, &mut model.child_pairs, random)),
    Rows(|model, random| order(model.allowed_child_pairs(), &mut model.child_pairs, random)),
    Rows(name_count),
    Octets(|octets, random| {
        let at = any_name(octets, random)?;
        octets[at] = [0, 17, 32, 128, 255, random.octet() | 0x11][random.below(6)];
        Some(())
    }),
    Rows(name_contents),
    Octets(name_padding),
    Rows(|model, random| {
        let names = model.names.as_mut().filter(|names| names.len() < Model::MOST[4])?;
        let again = random.pick(names)?;
        names.push(again);
        Some(())
    }),
];

/// A valid table with one rule broken, by its place in `RULES`.
pub fn one(rule: usize, random: &mut Random) -> Vec<u8> {
    loop {
        if let Some(octets) = apply(Model::varied(random), &[rule], random) {
            return octets;
        }
    }
}

/// A valid table with two rules broken, now and then both of probe or the one behind those; what they make together
/// may break others.
pub fn two(random: &mut Random) -> Vec<u8> {
    let of_probe = |rule: &usize| RULES[*rule].starts_with("probe") || RULES[*rule] == "operation order";
    let of_probe: Vec<usize> = (0..RULES.len()).filter(of_probe).collect();
    loop {
        let mut rules = [random.below(RULES.len()), random.below(RULES.len())];
        if random.percent(15) {
            rules = rules.map(|rule| of_probe[rule % of_probe.len()]);
        }
        // A count is broken in another table, so that comes first.
        rules.sort_by_key(|&rule| !RULES[rule].ends_with("count"));
        if let Some(octets) = apply(Model::varied(random), &rules, random) {
            return octets;
        }
    }
}

/// A valid table with one to three octets changed at random; it may be valid still.
pub fn disturbed(random: &mut Random) -> Vec<u8> {
    let mut octets = Model::varied(random).octets();
    for _ in 0..random.between(1, 3) {
        let most = if random.percent(20) { header(&octets) } else { octets.len() };
        let at = random.below(most);
        octets[at] = if random.percent(50) { octets[at] ^ 1 << random.below(8) } else { random.octet() };
    }
    octets
}

/// The rows of a valid table with one rule broken, if that is done in rows.
pub fn rows(rule: usize, random: &mut Random) -> Option<Model> {
    let Rows(change) = BREAKS[rule] else { return None };
    loop {
        let mut model = Model::varied(random);
        if change(&mut model, random).is_some() {
            return Some(model);
        }
    }
}

/// Breaks rules, those of rows first.
fn apply(mut model: Model, rules: &[usize], random: &mut Random) -> Option<Vec<u8>> {
    for &rule in rules {
        if let Rows(change) = BREAKS[rule] {
            change(&mut model, random)?;
        }
    }
    let mut octets = model.octets();
    for &rule in rules {
        if let Octets(change) = BREAKS[rule] {
            change(&mut octets, random)?;
        }
    }
    Some(octets)
}

fn lengthen(octets: &mut Vec<u8>, length: usize) -> Option<()> {
    octets.resize(length, 0);
    Some(())
}

fn shorten(octets: &mut Vec<u8>, length: usize) -> Option<()> {
    octets.truncate(length);
    Some(())
}

/// One offset is wrong by a little, or by much.
fn offset(octets: &mut [u8], part: usize, random: &mut Random) -> Option<()> {
    let change = [1, 2, 8, 0x100, 0xFFFF, random.between(1, 0xFFFF) as u16][random.below(6)];
    let at = mark(octets) + part * 4 + 2;
    let place = octets.get_mut(at..at + 2)?;
    let wrong = u16::from_be_bytes([place[0], place[1]]).wrapping_add(change);
    place.copy_from_slice(&wrong.to_be_bytes());
    Some(())
}

/// Octets are missing behind the header, or are too many.
fn table_length(octets: &mut Vec<u8>, random: &mut Random) -> Option<()> {
    let length = octets.len();
    let by = [1, 4, random.between(1, 900), LONGEST_FILE.saturating_sub(length)][random.below(4)].max(1);
    match random.percent(50) {
        true if length >= header(octets) + by => shorten(octets, length - by),
        false if length + by <= LONGEST_FILE => lengthen(octets, length + by),
        _ => None,
    }
}

fn is_second(octets: &[u8]) -> bool {
    octets.starts_with(&[0xFF, 0xFF])
}

/// How many octets stand before the first count, and before the first part.
fn mark(octets: &[u8]) -> usize {
    if is_second(octets) {
        4
    } else {
        0
    }
}

fn header(octets: &[u8]) -> usize {
    if is_second(octets) {
        24
    } else {
        16
    }
}

/// The edition is another than 2; a table of edition 1 may get the mark of one.
fn edition(octets: &mut Vec<u8>, random: &mut Random) -> Option<()> {
    octets.get_mut(..2)?.fill(0xFF);
    let edition = [0, 1, 3, 0x0200, 0xFFFF, random.draw() as u16][random.below(6)];
    octets.get_mut(2..4)?.copy_from_slice(&edition.to_be_bytes());
    (edition != 2).then_some(())
}

/// The header is cut short; what is said of one that ends in the number of the edition is open.
fn header_length(octets: &mut Vec<u8>, random: &mut Random) -> Option<()> {
    let length = random.below(header(octets));
    (!is_second(octets) || length == 0 || length > 3).then(|| shorten(octets, length))?
}

/// Where an entry of a part starts, if the part has one that fits.
fn entry(octets: &[u8], part: usize, fits: impl Fn(&[u8]) -> bool, random: &mut Random) -> Option<usize> {
    const SIZES: [usize; 5] = [8, 6, 4, 4, 17];
    let number = |at: usize| Some(usize::from(u16::from_be_bytes([*octets.get(at)?, *octets.get(at + 1)?])));
    let at = mark(octets) + 4 * part;
    let (count, offset) = (number(at)?, number(at + 2)?);
    let starts: Vec<usize> = (0..count).map(|index| offset + index * SIZES[part]).collect();
    random.pick_where(&starts, |&start| octets.get(start..start + SIZES[part]).is_some_and(&fits))
}

/// Where a name of a table of edition 2 starts.
fn any_name(octets: &[u8], random: &mut Random) -> Option<usize> {
    is_second(octets).then(|| entry(octets, 4, |_| true, random))?
}

/// An operation or error gets an index that no name has.
fn name_index(octets: &mut [u8], part: usize, random: &mut Random) -> Option<()> {
    let named = |entry: &[u8]| if part == 0 { entry[7] & 4 != 0 } else { entry[5] & 2 != 0 };
    let start = is_second(octets).then(|| entry(octets, part, named, random))??;
    let names = u32::from(u16::from_be_bytes([octets[20], octets[21]]));
    let index = [names, names + 1, 128, u32::MAX, 1 << 31, random.draw() as u32][random.below(6)].max(names);
    octets[start..start + 4].copy_from_slice(&index.to_be_bytes());
    Some(())
}

/// There are too many names, in a table with few other entries.
fn name_count(model: &mut Model, random: &mut Random) -> Option<()> {
    let count = [129, random.between(129, 200)][random.below(2)];
    let names = model.names.as_mut()?;
    while names.len() < count {
        names.push(names::other(random, names));
    }
    (model.octets().len() <= LONGEST_FILE).then_some(())
}

/// A name becomes one that is no object identifier's, in rows too.
fn name_contents(model: &mut Model, random: &mut Random) -> Option<()> {
    let old = random.pick(model.names())?;
    let wrong = loop {
        let contents = names::no_name(random, &[]);
        if let Some(name) = code::name(&contents).filter(|name| !model.names().contains(name)) {
            break name;
        }
    };
    model.names.iter_mut().flatten().filter(|name| **name == old).for_each(|name| *name = wrong);
    let renamed = |code: Code| if code == Code::Name(old) { Code::Name(wrong) } else { code };
    model.operations.iter_mut().for_each(|row| row.code = renamed(row.code));
    model.errors.iter_mut().for_each(|row| row.code = renamed(row.code));
    Some(())
}

/// An octet behind a name is not 0.
fn name_padding(octets: &mut Vec<u8>, random: &mut Random) -> Option<()> {
    let short = |entry: &[u8]| (1..16).contains(&entry[0]);
    let start = is_second(octets).then(|| entry(octets, 4, short, random))??;
    let at = random.between(usize::from(octets[start]) + 1, 16);
    octets[start + at] = random.octet() | 1;
    Some(())
}

/// One part has an entry too many, or a number of them.
fn count(model: &mut Model, part: usize, random: &mut Random) -> Option<()> {
    let most = Model::MOST[part];
    let mut counts = [(9, 64), (0, 64), (0, 256), (0, 256)].map(|(low, high)| random.between(low, high));
    counts[part] = if random.percent(50) { most + 1 } else { random.between(most + 1, most + 90) };
    let named = model.names.is_some();
    *model = Model::sized(random, counts);
    if named {
        model.renew(random, 1);
    }
    let counts = [model.operations.len(), model.errors.len(), model.error_pairs.len(), model.child_pairs.len()];
    (counts[part] > most && model.octets().len() <= LONGEST_FILE).then_some(())
}

fn operation<'a>(model: &'a mut Model, random: &mut Random) -> Option<&'a mut OperationRow> {
    let at = any(model.operations.len(), random)?;
    Some(&mut model.operations[at])
}

fn first_index(firsts: usize, pairs: &mut [(u16, u16)], random: &mut Random) -> Option<()> {
    pairs[any(pairs.len(), random)?].0 = over(firsts, random);
    Some(())
}

fn second_index(seconds: usize, pairs: &mut [(u16, u16)], random: &mut Random) -> Option<()> {
    pairs[any(pairs.len(), random)?].1 = over(seconds, random);
    Some(())
}

/// A pair gets an operation of a class from `least` up.
fn class(rows: &[OperationRow], least: u8, pairs: &mut [(u16, u16)], random: &mut Random) -> Option<()> {
    let at = any(pairs.len(), random)?;
    let indexes: Vec<usize> = (0..rows.len()).collect();
    pairs[at].0 = random.pick_where(&indexes, |&index| rows[index].class >= least)? as u16;
    Some(())
}

/// Probe stands before acknowledge, or an operation gets a code that is not above the one before, with a right row for it.
fn operation_order(model: &mut Model, random: &mut Random) -> Option<()> {
    if random.percent(20) {
        return probe_rows::break_order(model, random);
    }
    let at = behind_the_first(model.operations.len(), random)?;
    let code = at_most(model.operations[at - 1].code, model.names(), random);
    model.operations[at].code = code;
    probe_rows::settle(&mut model.operations[at]);
    (code != Code::Local(PROBE) || model.operation(Code::Local(ACKNOWLEDGE)).is_some()).then_some(())
}

/// A pair becomes an allowed one that is not above the one before.
fn order(allowed: Vec<(u16, u16)>, pairs: &mut [(u16, u16)], random: &mut Random) -> Option<()> {
    let at = behind_the_first(pairs.len(), random)?;
    let before = pairs[at - 1];
    pairs[at] = if random.percent(40) { before } else { random.pick_where(&allowed, |pair| *pair <= before)? };
    Some(())
}

fn any(count: usize, random: &mut Random) -> Option<usize> {
    (count > 0).then(|| random.below(count))
}

fn behind_the_first(count: usize, random: &mut Random) -> Option<usize> {
    (count > 1).then(|| random.between(1, count - 1))
}

fn over(count: usize, random: &mut Random) -> u16 {
    [count as u16, count as u16 + 1, 64, 256, u16::MAX, random.draw() as u16][random.below(6)].max(count as u16)
}

/// A code that is not above another one.
fn at_most(code: Code, names: &[Name], random: &mut Random) -> Code {
    match code {
        Code::Local(code) => {
            Code::Local([code, code.saturating_sub(1), i32::MIN, random.number().min(code)][random.below(4)])
        }
        Code::Name(name) => {
            let before = names.iter().take_while(|other| **other != name).count();
            let lower = random.pick(&names[..before]).map_or_else(|| Code::Local(random.number()), Code::Name);
            [code, lower, Code::Local(random.number())][random.below(3)]
        }
    }
}

fn high_tag(random: &mut Random) -> u8 {
    random.octet() | 0x1F
}
