//! The fields of an APDU, taken one after another and each checked when it is taken, so that one walk is enough.
//! Follows docs/RULES.md, "The four APDUs", "Indefinite lengths" and "Names".

use crate::code::Code;
use crate::octets::{self, Element, Header, Length, CLOSING};

const ID: u8 = 0x02;

/// The fields in an element that are still to be taken.
pub struct Fields<'a> {
    /// None behind a field that is not well-formed.
    rest: Option<&'a [u8]>,
    /// What stands behind the element; none if closing octets are still to end it.
    behind: Option<&'a [u8]>,
    /// How many levels a field may have.
    levels: usize,
}

impl<'a> Fields<'a> {
    /// The fields in the first element, which is a constructed one.
    pub fn of(octets: &'a [u8], levels: usize) -> Option<Self> {
        let Header { length, behind, .. } = octets::header(octets)?;
        Some(match length {
            Length::Definite(length) => {
                let (contents, behind) = behind.split_at_checked(length)?;
                Fields { rest: Some(contents), behind: Some(behind), levels }
            }
            Length::Indefinite => Fields { rest: Some(behind), behind: None, levels },
        })
    }

    /// Whether no field is left.
    pub fn are_taken(&self) -> bool {
        self.rest.is_some_and(|rest| match self.behind {
            Some(_) => rest.is_empty(),
            None => rest.starts_with(&CLOSING),
        })
    }

    /// What stands behind the element, if the fields that are left are well-formed too.
    pub fn close(self) -> Option<&'a [u8]> {
        match self.behind {
            Some(behind) => octets::contents_levels(self.rest?, self.levels).map(|_| behind),
            None => octets::open_contents_levels(self.rest?, self.levels).map(|(_, behind)| behind),
        }
    }

    /// Whether a field with this identifier is next.
    fn is_next(&self, identifier: u8) -> bool {
        self.rest.is_some_and(|rest| rest.first() == Some(&identifier))
    }

    /// The next field, if one is left and it is well-formed.
    pub fn take(&mut self) -> Option<Element<'a>> {
        if self.are_taken() {
            return None;
        }
        let (field, rest) = octets::split(self.rest.take()?, self.levels)?;
        self.rest = Some(rest);
        Some(field)
    }

    /// The next field, if it has this identifier.
    pub fn take_if(&mut self, identifier: u8) -> Option<Element<'a>> {
        self.is_next(identifier).then(|| self.take())?
    }

    /// What is read from the fields in the next field, if it has this identifier, which is a constructed one's.
    pub fn take_within<T>(&mut self, identifier: u8, read: impl FnOnce(&mut Self) -> Option<T>) -> Option<T> {
        if !self.is_next(identifier) {
            return None;
        }
        let mut inner = Fields::of(self.rest.take()?, self.levels - 1)?;
        let read = read(&mut inner);
        self.rest = inner.close();
        read
    }

    pub fn id(&mut self) -> Option<i32> {
        octets::integer(self.take_if(ID)?.contents())
    }

    /// A code; none inside for one that no table can have.
    pub fn code(&mut self) -> Option<Option<Code>> {
        let field = self.take()?;
        match field.identifier() {
            0x02 => Some(octets::integer(field.contents()).map(Code::Local)),
            0x06 => Some(Code::named(field.contents())),
            _ => None,
        }
    }

    /// At most one value, and nothing behind it.
    pub fn last_value(&mut self) -> Option<Option<&'a [u8]>> {
        let value = self.take().map(|field| field.whole);
        self.are_taken().then_some(value)
    }
}
