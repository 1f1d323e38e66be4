//! The code of an operation or error: a local number, or a name, which is an object identifier.
//! Follows docs/RULES.md, "Names".

use std::fmt;

use crate::octets;

/// The most octets of a name.
pub const NAME_OCTETS: usize = 16;

/// A name as tables, records and lines hold it: its length, then its octets with zeros behind them.
pub type Name = [u8; 1 + NAME_OCTETS];

#[derive(Clone, Copy, Debug, PartialEq, Eq, Hash)]
pub enum Code {
    Local(i32),
    Name(Name),
}

/// A code as a caller gives it; a name is contents of any form.
#[derive(Clone, Copy, Debug, PartialEq, Eq)]
pub enum Asked<'a> {
    Local(i32),
    Name(&'a [u8]),
}

impl Default for Code {
    /// The code of an unused place.
    fn default() -> Self {
        Code::Local(0)
    }
}

impl Code {
    /// The name with these contents, unless they are too few or too many for one.
    #[inline]
    pub fn named(contents: &[u8]) -> Option<Code> {
        name(contents).map(Code::Name)
    }

    #[inline]
    pub fn asked(&self) -> Asked<'_> {
        match self {
            Code::Local(code) => Asked::Local(*code),
            Code::Name(name) => Asked::Name(contents(name)),
        }
    }

    /// Whether a record may hold the code: a name of the right form, or any number.
    #[inline]
    pub fn is_right(&self) -> bool {
        match self {
            Code::Local(_) => true,
            Code::Name(name) => is_right(name),
        }
    }
}

impl fmt::Display for Code {
    fn fmt(&self, text: &mut fmt::Formatter<'_>) -> fmt::Result {
        self.asked().fmt(text)
    }
}

impl fmt::Display for Asked<'_> {
    /// A number, or the octets of a name.
    fn fmt(&self, text: &mut fmt::Formatter<'_>) -> fmt::Result {
        match self {
            Asked::Local(code) => code.fmt(text),
            Asked::Name(contents) => {
                text.write_str("name")?;
                contents.iter().try_for_each(|octet| write!(text, " {octet:02X}"))
            }
        }
    }
}

impl Asked<'_> {
    /// The code that a table can have; none for a name without octets or with too many.
    #[inline]
    pub fn code(self) -> Option<Code> {
        match self {
            Asked::Local(code) => Some(Code::Local(code)),
            Asked::Name(contents) => Code::named(contents),
        }
    }
}

/// The name with these contents, right or not, if they are 1 to 16 octets.
#[inline]
pub fn name(contents: &[u8]) -> Option<Name> {
    let mut name = [0; 1 + NAME_OCTETS];
    name[0] = u8::try_from(contents.len()).ok().filter(|length| *length > 0)?;
    name[1..].get_mut(..contents.len())?.copy_from_slice(contents);
    Some(name)
}

/// The octets that the length of a name counts, at most all.
#[inline]
pub fn contents(name: &Name) -> &[u8] {
    let (length, octets) = (usize::from(name[0]), &name[1..]);
    &octets[..length.min(NAME_OCTETS)]
}

/// Whether a name has 1 to 16 octets that are right contents of a 06, and zeros behind them.
pub fn is_right(name: &Name) -> bool {
    let length = usize::from(name[0]);
    length <= NAME_OCTETS
        && octets::is_object_identifier(contents(name))
        && name[1 + length..].iter().fold(0, |rubbish, octet| rubbish | octet) == 0
}
