//! Values to try: well-formed elements of a type, of exact length or depth, and damaged ones.

use crate::octets::{self, integer_octets, length_octets, Writer, CLOSING};
use crate::random::Random;
use crate::state::State;

/// Identifiers of what stands inside drawn values, high tags among them.
const INNER: [&[u8]; 16] = [
    &[0x01],
    &[0x02],
    &[0x04],
    &[0x05],
    &[0x06],
    &[0x0A],
    &[0x80],
    &[0x9F, 0x1F],
    &[0x30],
    &[0x30],
    &[0x31],
    &[0xA0],
    &[0x20],
    &[0x24],
    &[0x3F, 0x1F],
    &[0xBF, 0x81, 0x00],
];

/// Appends identifier, length and contents; `form` is how many long-form octets there are at least.
pub(crate) fn put_element(octets: &mut Vec<u8>, identifier: &[u8], contents: &[u8], form: usize) {
    let mut header = [0; 6];
    let mut writer = Writer::new(&mut header);
    let (&last, before) = identifier.split_last().expect("an identifier has an octet");
    writer.header_in_form(last, contents.len(), form.max(length_octets(contents.len()) - 1));
    let written = writer.written();
    octets.extend(before);
    octets.extend(&header[..written]);
    octets.extend(contents);
}

/// Appends an element of indefinite length.
pub(crate) fn put_indefinite(octets: &mut Vec<u8>, identifier: &[u8], contents: &[u8]) {
    octets.extend(identifier);
    octets.push(0x80);
    octets.extend(contents);
    octets.extend(CLOSING);
}

/// Appends an element in a form that is mostly the shortest; of a constructed one the length is often indefinite.
fn put_drawn(random: &mut Random, octets: &mut Vec<u8>, identifier: &[u8], contents: &[u8]) {
    if octets::is_constructed(identifier[0]) && random.percent(35) {
        return put_indefinite(octets, identifier, contents);
    }
    let form = form(random, contents.len());
    put_element(octets, identifier, contents, form);
}

/// An element whose length has so many long-form octets, or as many as it needs.
pub fn element_in_form(identifier: u8, contents: &[u8], form: usize) -> Vec<u8> {
    let mut octets = Vec::with_capacity(contents.len() + 6);
    put_element(&mut octets, &[identifier], contents, form);
    octets
}

/// An element in shortest form.
pub fn element(identifier: u8, contents: &[u8]) -> Vec<u8> {
    element_in_form(identifier, contents, 0)
}

/// An element of indefinite length.
pub fn indefinite(identifier: u8, contents: &[u8]) -> Vec<u8> {
    let mut octets = Vec::with_capacity(contents.len() + 4);
    put_indefinite(&mut octets, &[identifier], contents);
    octets
}

/// A constructed element, of indefinite length or in shortest form.
pub fn constructed(identifier: u8, contents: &[u8], is_indefinite: bool) -> Vec<u8> {
    match is_indefinite {
        true => indefinite(identifier, contents),
        false => element(identifier, contents),
    }
}

/// An element in a drawn form.
pub fn drawn(random: &mut Random, identifier: u8, contents: &[u8]) -> Vec<u8> {
    let mut octets = Vec::with_capacity(contents.len() + 6);
    put_drawn(random, &mut octets, &[identifier], contents);
    octets
}

/// A length form that is mostly the shortest.
pub fn form(random: &mut Random, length: usize) -> usize {
    match random.below(12) {
        0 => random.between(length_octets(length).max(2) - 1, 4),
        _ => 0,
    }
}

/// The octets of a number in shortest form.
pub fn integer_contents(number: i32) -> Vec<u8> {
    number.to_be_bytes()[4 - integer_octets(number)..].to_vec()
}

/// A well-formed element with this first octet, if there is one: small and not deep.
pub fn value(random: &mut Random, kind: u8) -> Vec<u8> {
    let mut octets = Vec::new();
    put_value(random, &mut octets, &[kind], 3);
    octets
}

/// Such an element of indefinite length, if it is a constructed one.
pub fn indefinite_value(random: &mut Random, kind: u8) -> Vec<u8> {
    let octets = value(random, kind);
    match octets::split(&octets, State::LEVELS) {
        Some((element, [])) if octets::is_constructed(kind) => indefinite(kind, element.contents()),
        _ => octets,
    }
}

fn put_value(random: &mut Random, octets: &mut Vec<u8>, identifier: &[u8], levels: usize) {
    let mut contents = Vec::new();
    match identifier[0] {
        0x01 => contents.push(random.octet()),
        0x02 | 0x0A => match random.below(4) {
            0 => contents.extend([0x01, random.octet(), 0, 0, random.octet()]),
            _ => contents = integer_contents(random.number()),
        },
        0x05 => {}
        0x06 => contents.extend([0x2A, 0x81, random.octet() | 0x80, random.octet() & 0x7F]),
        kind if octets::is_constructed(kind) => {
            for _ in 0..if levels == 0 { 0 } else { random.below(4) } {
                let inner = INNER[random.below(INNER.len())];
                put_value(random, &mut contents, inner, levels - 1);
            }
        }
        _ => contents.extend((0..random.below(9)).map(|_| random.octet())),
    }
    put_drawn(random, octets, identifier, &contents);
}

/// A 30 with a 04 inside, so many octets in all, 8 to 65,539; the 30 may be of indefinite length.
pub fn sized(octets: usize, is_indefinite: bool) -> Vec<u8> {
    let string = element_in_form(0x04, &vec![0x41; octets - 8], 2);
    match is_indefinite {
        true => indefinite(0x30, &string),
        false => element_in_form(0x30, &string, 2),
    }
}

/// Elements inside elements, so many levels in all; the innermost is primitive or empty.
pub fn deep(kind: u8, levels: usize, primitive: bool) -> Vec<u8> {
    deep_in_forms(kind, levels, primitive, |_| false)
}

/// Such elements, those of indefinite length for whose level the test holds; the outermost is level 1.
pub fn deep_in_forms(kind: u8, levels: usize, primitive: bool, is_indefinite: impl Fn(usize) -> bool) -> Vec<u8> {
    let mut octets = Vec::new();
    for level in (1..=levels).rev() {
        let identifier = if level == 1 { kind } else { 0x30 };
        octets = match level == levels && level > 1 && primitive {
            true => element(0x04, &[]),
            false => constructed(identifier, &octets, is_indefinite(level) && octets::is_constructed(identifier)),
        };
    }
    octets
}

/// Changes, drops, adds or repeats a few octets.
pub fn damage(random: &mut Random, octets: &mut Vec<u8>) {
    for _ in 0..random.between(1, 2) {
        let at = random.below(octets.len() + 1);
        match random.below(6) {
            0 => octets.truncate(at),
            1 => octets.insert(at, random.octet()),
            2 => octets.push(random.octet()),
            3 if at < octets.len() => drop(octets.remove(at)),
            _ if at < octets.len() => octets[at] = interesting(random, octets[at]),
            _ => octets.clear(),
        }
    }
}

/// Drops, repeats, halves or changes a pair of octets 00 00, or puts one in; closing octets are such a pair.
pub fn damage_closing(random: &mut Random, octets: &mut Vec<u8>) {
    let pairs: Vec<usize> = (1..octets.len()).filter(|&at| octets[at - 1..=at] == CLOSING).map(|at| at - 1).collect();
    let Some(at) = random.pick(&pairs) else {
        let at = random.below(octets.len() + 1);
        octets.splice(at..at, CLOSING);
        return;
    };
    let instead: &[u8] = match random.below(8) {
        0..=1 => &[],
        2 => &[0x00],
        3..=4 => &[0x00, 0x00, 0x00, 0x00],
        5 => &[0x00, 0x01],
        6 => &[0x00, 0x81, 0x00],
        _ => &[0x00, 0x80],
    };
    octets.splice(at..at + CLOSING.len(), instead.iter().copied());
}

/// Another octet in place of this one: one bit or one step away, or one that means something.
fn interesting(random: &mut Random, octet: u8) -> u8 {
    const OCTETS: [u8; 20] = [
        0x00, 0x01, 0x02, 0x05, 0x06, 0x0A, 0x10, 0x1F, 0x24, 0x2A, 0x30, 0x7F, 0x80, 0x81, 0x82, 0x84, 0x85, 0xA1,
        0xA4, 0xFF,
    ];
    match random.below(4) {
        0 => octet ^ 1 << random.below(8),
        1 => octet.wrapping_add(1),
        2 => octet.wrapping_sub(1),
        _ => OCTETS[random.below(OCTETS.len())],
    }
}
