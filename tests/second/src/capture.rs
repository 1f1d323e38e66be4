//! A day's capture: a header, an index and the data, and a reader that keeps the lent capture and its place.
//! Follows docs/RULES.md, "A day's capture, replayed".

use std::cmp::Ordering;

use crate::state::State;

/// The most octets and entries of a capture.
pub const OCTETS: usize = 60_000;
pub const ENTRIES: usize = 1_000;

/// How many octets the header has, and each entry of the index.
pub const HEADER: usize = 8;
pub const PLACE: usize = 8;

/// How many octets a forget has: its side and its id.
pub const FORGET: usize = 5;

#[derive(Clone, Copy, Debug, PartialEq, Eq)]
pub enum Kind {
    Received,
    Sent,
    Forget,
}

impl Kind {
    fn new(octet: u8) -> Option<Kind> {
        match octet {
            0 => Some(Kind::Received),
            1 => Some(Kind::Sent),
            2 => Some(Kind::Forget),
            _ => None,
        }
    }

    pub fn octet(self) -> u8 {
        self as u8
    }
}

/// An entry with its octets as a part of the lent capture.
#[derive(Clone, Copy)]
pub struct Entry<'a> {
    pub kind: Kind,
    pub octets: &'a [u8],
}

/// The first rule that a capture breaks.
#[derive(Clone, Copy, Debug, PartialEq, Eq)]
pub enum Malformed {
    TooLong,
    HeaderCut,
    Count,
    DataOffset,
    IndexCut,
    Kind,
    ZeroOctet,
    NoOctets,
    EntryTooLong,
    ForgetLength,
    Gap,
    Overlap,
    DataCut,
    OctetsBehind,
}

/// The entries of a right capture that are still to be read.
pub struct Reader<'a> {
    index: &'a [[u8; PLACE]],
    data: &'a [u8],
}

impl<'a> Reader<'a> {
    /// The reader at the first entry, if the capture is right from end to end.
    pub fn new(capture: &'a [u8]) -> Result<Self, Malformed> {
        if capture.len() > OCTETS {
            return Err(Malformed::TooLong);
        }
        let Some((header, rest)) = capture.split_first_chunk::<HEADER>() else { return Err(Malformed::HeaderCut) };
        let [count, start] = numbers(header);
        if count > ENTRIES {
            return Err(Malformed::Count);
        }
        if start != HEADER + PLACE * count {
            return Err(Malformed::DataOffset);
        }
        let Some((index, data)) = rest.split_at_checked(PLACE * count) else { return Err(Malformed::IndexCut) };
        let index = index.as_chunks().0;
        let end = index.iter().try_fold(start, |end, place| end_of(place, end))?;
        match end.cmp(&capture.len()) {
            Ordering::Less => Err(Malformed::OctetsBehind),
            Ordering::Equal => Ok(Reader { index, data }),
            Ordering::Greater => Err(Malformed::DataCut),
        }
    }

    /// How many entries are still to be read.
    pub fn entries(&self) -> usize {
        self.index.len()
    }
}

impl<'a> Iterator for Reader<'a> {
    type Item = Entry<'a>;

    #[inline]
    fn next(&mut self) -> Option<Entry<'a>> {
        let (place, index) = self.index.split_first()?;
        let (octets, data) = self.data.split_at_checked(length(place))?;
        (self.index, self.data) = (index, data);
        Some(Entry { kind: Kind::new(place[0])?, octets })
    }
}

/// Where an entry ends that must start here, by its place in the index.
#[inline]
fn end_of(place: &[u8; PLACE], start: usize) -> Result<usize, Malformed> {
    let (kind, length, [_, offset]) = (Kind::new(place[0]), length(place), numbers(place));
    if kind.is_none() {
        return Err(Malformed::Kind);
    }
    if place[1] != 0 {
        return Err(Malformed::ZeroOctet);
    }
    if length == 0 {
        return Err(Malformed::NoOctets);
    }
    if length > State::OCTETS {
        return Err(Malformed::EntryTooLong);
    }
    if kind == Some(Kind::Forget) && length != FORGET {
        return Err(Malformed::ForgetLength);
    }
    match offset.cmp(&start) {
        Ordering::Less => Err(Malformed::Overlap),
        Ordering::Equal => Ok(start + length),
        Ordering::Greater => Err(Malformed::Gap),
    }
}

fn length(place: &[u8; PLACE]) -> usize {
    usize::from(u16::from_be_bytes([place[2], place[3]]))
}

/// The two numbers of four octets each.
fn numbers(octets: &[u8; 8]) -> [usize; 2] {
    let [a, b, c, d, e, f, g, h] = *octets;
    [[a, b, c, d], [e, f, g, h]].map(|number| u32::from_be_bytes(number) as usize)
}
