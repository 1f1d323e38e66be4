//! Names to draw: object identifiers that share octets, contents that are no name, and codes to ask for.

use crate::code::{self, Asked, Code, Name, NAME_OCTETS};
use crate::octets::{integer, is_object_identifier};
use crate::random::Random;
use crate::values::{element_in_form, form, integer_contents};

/// A code to ask for or to receive: a name is contents of any form.
#[derive(Clone, Debug, PartialEq, Eq)]
pub enum Wanted {
    Local(i32),
    Name(Vec<u8>),
}

impl From<Code> for Wanted {
    fn from(code: Code) -> Self {
        match code {
            Code::Local(code) => Wanted::Local(code),
            Code::Name(name) => Wanted::Name(code::contents(&name).to_vec()),
        }
    }
}

impl Wanted {
    pub fn asked(&self) -> Asked<'_> {
        match self {
            Wanted::Local(code) => Asked::Local(*code),
            Wanted::Name(contents) => Asked::Name(contents),
        }
    }

    /// The element of an APDU with this code, its length in any form.
    pub fn element(&self, random: &mut Random) -> Vec<u8> {
        let (identifier, contents) = match self {
            Wanted::Local(code) => (0x02, &integer_contents(*code)),
            Wanted::Name(contents) => (0x06, contents),
        };
        element_in_form(identifier, contents, form(random, contents.len()))
    }
}

/// Whether a name has a local code's octets, or a local code a name's.
pub fn has_another_sort(code: &Code) -> bool {
    match code {
        Code::Local(code) => is_object_identifier(&integer_contents(*code)),
        Code::Name(name) => integer(code::contents(name)).is_some(),
    }
}

/// The name with a local code's octets, or the local code with a name's, if these are one's.
pub fn of_the_other_sort(code: Code) -> Wanted {
    match code {
        Code::Local(code) => Wanted::Name(integer_contents(code)),
        Code::Name(name) => integer(code::contents(&name)).map_or(Wanted::Local(i32::from(name[1])), Wanted::Local),
    }
}

/// The name with the same 16 octets as another and one more or one fewer that its length counts.
pub fn of_another_length(code: Code) -> Option<Code> {
    let mut contents = match code {
        Code::Name(name) => code::contents(&name).to_vec(),
        Code::Local(_) => return None,
    };
    match contents[..] {
        [_, .., 0] => drop(contents.pop()),
        _ => contents.push(0),
    }
    Code::named(&contents)
}

/// So many different names, most of them close to others.
pub fn different(random: &mut Random, count: usize) -> Vec<Name> {
    let mut names: Vec<Name> = Vec::new();
    while names.len() < count {
        let name = name(random, &names);
        if !names.contains(&name) {
            names.push(name);
        }
    }
    names
}

/// A name, mostly close to one of these.
pub fn name(random: &mut Random, near: &[Name]) -> Name {
    loop {
        let contents = match random.pick(near).filter(|_| random.percent(70)) {
            Some(other) => close(random, code::contents(&other)),
            None => fresh(random),
        };
        if let Some(name) = code::name(&contents).filter(code::is_right) {
            return name;
        }
    }
}

/// Contents that differ little from others: their beginning, more octets, or zeros that only the length tells.
pub fn close(random: &mut Random, contents: &[u8]) -> Vec<u8> {
    let mut close = contents.to_vec();
    let last = close.len() - 1;
    match random.below(8) {
        0..=1 => close.push(0),
        2 => close.push(random.octet() & 0x7F),
        3 => close.truncate(last.max(1)),
        4 if close.len() > 1 && close.ends_with(&[0]) => drop(close.pop()),
        5 => close[last] ^= 1 << random.below(7),
        6 => close[0] ^= 1 << random.below(8),
        _ => close.resize(NAME_OCTETS, 0),
    }
    close
}

/// Right contents of 1 to 16 octets; those of one octet are mostly small numbers', as a local code has them.
fn fresh(random: &mut Random) -> Vec<u8> {
    let length = [1, 1, 1, 2, 2, 3, 4, 7, 8, 9, 15, 16, 16, random.between(1, 16)][random.below(14)];
    if length == 1 && random.percent(70) {
        return vec![random.below(40) as u8];
    }
    let mut contents: Vec<u8> = (0..length).map(|_| random.octet()).collect();
    contents[length - 1] &= 0x7F;
    for at in 0..length {
        if contents[at] == 0x80 && (at == 0 || contents[at - 1] < 0x80) {
            contents[at] = 0x81;
        }
    }
    contents
}

/// Contents that are no name: none, too many, or no object identifier's.
pub fn no_name(random: &mut Random, near: &[Name]) -> Vec<u8> {
    let mut contents = code::contents(&name(random, near)).to_vec();
    match random.below(6) {
        0 => contents.clear(),
        1 => contents = long(random, near),
        2 => contents.insert(0, 0x80),
        3 => contents.push(0x80 | random.octet()),
        4 => contents.extend([0x80, 0x01]),
        _ => contents = vec![0; random.between(17, 255)],
    }
    contents
}

/// Right contents of more than 16 octets, which often start as a name does.
pub fn long(random: &mut Random, near: &[Name]) -> Vec<u8> {
    let mut contents = code::contents(&name(random, near)).to_vec();
    let length = [17, 17, 18, 32, 33, random.between(17, 130)][random.below(6)];
    let more = if random.percent(50) { 0 } else { random.octet() & 0x7F };
    contents.resize(length, more);
    contents
}

/// A name that is not among these, mostly close to one of them.
pub fn other(random: &mut Random, names: &[Name]) -> Name {
    loop {
        let name = name(random, names);
        if !names.contains(&name) {
            return name;
        }
    }
}
