//! Elements of BER: identifier, length and contents, reading and writing.
//! Follows docs/RULES.md, "Well-formed octets" and "Indefinite lengths".

/// What stands behind the last element inside one of indefinite length.
pub const CLOSING: [u8; 2] = [0x00, 0x00];

/// What the length octets say.
#[derive(Clone, Copy, Debug, PartialEq, Eq)]
pub enum Length {
    Definite(usize),
    /// The contents go on up to closing octets.
    Indefinite,
}

/// Identifier and length of an element, and what stands behind them.
#[derive(Clone, Copy)]
pub struct Header<'a> {
    /// The first identifier octet.
    pub identifier: u8,
    pub length: Length,
    pub behind: &'a [u8],
}

/// One element as a part of the octets it was read from, with its closing octets if it has some.
#[derive(Clone, Copy, Debug, PartialEq, Eq)]
pub struct Element<'a> {
    pub whole: &'a [u8],
    pub levels: usize,
}

impl<'a> Element<'a> {
    /// The first identifier octet.
    pub fn identifier(&self) -> u8 {
        self.whole[0]
    }

    /// The contents, without closing octets.
    pub fn contents(&self) -> &'a [u8] {
        match header(self.whole) {
            Some(Header { length: Length::Definite(_), behind, .. }) => behind,
            Some(Header { behind, .. }) => behind.strip_suffix(&CLOSING).unwrap_or(behind),
            None => &[],
        }
    }
}

/// Where a part stands in the octets that it is a part of, and where it ends.
pub fn place(octets: &[u8], part: &[u8]) -> (usize, usize) {
    let at = part.as_ptr().addr() - octets.as_ptr().addr();
    (at, at + part.len())
}

pub fn is_constructed(identifier: u8) -> bool {
    identifier & 0x20 != 0
}

/// Whether octets start with an element of indefinite length.
pub fn is_indefinite(octets: &[u8]) -> bool {
    header(octets).is_some_and(|header| header.length == Length::Indefinite)
}

/// Reads identifier and length of the first element; nothing behind them is looked at.
#[inline]
pub fn header(octets: &[u8]) -> Option<Header<'_>> {
    match *octets {
        // Most headers are two octets.
        [identifier, length @ 0..=0x7F, ref behind @ ..] if identifier & 0x1F != 0x1F => {
            Some(Header { identifier, length: Length::Definite(usize::from(length)), behind })
        }
        _ => long_header(octets),
    }
}

fn long_header(octets: &[u8]) -> Option<Header<'_>> {
    let (&identifier, after) = octets.split_first()?;
    let more = if identifier & 0x1F == 0x1F { high_tag(after)? } else { 0 };
    let (length, behind) = length(&after[more..])?;
    Some(Header { identifier, length, behind })
}

/// How many more identifier octets a high tag number takes: 1 to 4, number at least 31.
fn high_tag(after: &[u8]) -> Option<usize> {
    let last = after.iter().take(4).position(|&octet| octet < 0x80)?;
    let first = after[0];
    (first >= 0x1F && first != 0x80).then_some(last + 1)
}

/// The length and what stands behind its octets: short form, 80, or long form with 1 to 4 octets.
fn length(octets: &[u8]) -> Option<(Length, &[u8])> {
    let (&first, after) = octets.split_first()?;
    match first {
        0..=0x7F => Some((Length::Definite(usize::from(first)), after)),
        0x80 => Some((Length::Indefinite, after)),
        0x81..=0x84 => {
            let (length, behind) = after.split_at_checked(usize::from(first - 0x80))?;
            let length = length.iter().fold(0, |sum, &octet| sum << 8 | usize::from(octet));
            Some((Length::Definite(length), behind))
        }
        _ => None,
    }
}

/// Splits the first element off, if it is well-formed in at most `most` levels.
/// Always inlined, so that a primitive element costs no call.
#[inline(always)]
pub fn split(octets: &[u8], most: usize) -> Option<(Element<'_>, &[u8])> {
    let Header { identifier, length, behind } = header(octets)?;
    if most == 0 || is_refused(identifier) {
        return None;
    }
    let (levels, rest) = match length {
        Length::Definite(length) => {
            let (contents, rest) = behind.split_at_checked(length)?;
            let levels = match is_constructed(identifier) {
                true => contents_levels(contents, most - 1)?,
                false => is_right(identifier, contents).then_some(0)?,
            };
            (levels, rest)
        }
        Length::Indefinite if is_constructed(identifier) => open_contents_levels(behind, most - 1)?,
        Length::Indefinite => return None,
    };
    let whole = &octets[..octets.len() - rest.len()];
    Some((Element { whole, levels: 1 + levels }, rest))
}

/// How many levels the elements that fill contents have.
pub fn contents_levels(mut octets: &[u8], most: usize) -> Option<usize> {
    let mut deepest = 0;
    while !octets.is_empty() {
        let (element, rest) = split(octets, most)?;
        deepest = deepest.max(element.levels);
        octets = rest;
    }
    Some(deepest)
}

/// How many levels the elements before closing octets have, and what stands behind those.
pub fn open_contents_levels(mut octets: &[u8], most: usize) -> Option<(usize, &[u8])> {
    let mut deepest = 0;
    loop {
        if let Some(rest) = octets.strip_prefix(&CLOSING) {
            return Some((deepest, rest));
        }
        let (element, rest) = split(octets, most)?;
        deepest = deepest.max(element.levels);
        octets = rest;
    }
}

/// How many levels one element filling the octets has, if it is well-formed in at most `most`.
pub fn levels(octets: &[u8], most: usize) -> Option<usize> {
    match split(octets, most)? {
        (element, []) => Some(element.levels),
        _ => None,
    }
}

/// Whether no element may have this first identifier octet.
pub fn is_refused(identifier: u8) -> bool {
    matches!(identifier, 0x00 | 0x10 | 0x11 | 0x21 | 0x22 | 0x25 | 0x26 | 0x2A)
}

/// Whether contents are right for a primitive element with this identifier.
pub fn is_right(identifier: u8, contents: &[u8]) -> bool {
    match identifier {
        0x01 => contents.len() == 1,
        0x02 | 0x0A => is_shortest(contents),
        0x05 => contents.is_empty(),
        0x06 => is_object_identifier(contents),
        _ => true,
    }
}

/// At least one octet, and the first nine bits neither all zeros nor all ones.
fn is_shortest(contents: &[u8]) -> bool {
    match contents {
        [] => false,
        [0x00, second, ..] => *second >= 0x80,
        [0xFF, second, ..] => *second < 0x80,
        _ => true,
    }
}

/// Parts end with an octet below 80; none starts with 80, and the last one ends.
pub fn is_object_identifier(contents: &[u8]) -> bool {
    let mut at_start = true;
    for &octet in contents {
        if at_start && octet == 0x80 {
            return false;
        }
        at_start = octet < 0x80;
    }
    at_start && !contents.is_empty()
}

/// The number in contents of 1 to 4 octets in shortest form.
pub fn integer(contents: &[u8]) -> Option<i32> {
    if contents.len() > 4 || !is_shortest(contents) {
        return None;
    }
    let sign = if contents[0] < 0x80 { 0 } else { -1 };
    Some(contents.iter().fold(sign, |sum, &octet| sum << 8 | i32::from(octet)))
}

/// How many contents octets a number takes in shortest form.
pub fn integer_octets(number: i32) -> usize {
    let bits = 33 - (number ^ (number >> 31)).leading_zeros();
    bits.div_ceil(8) as usize
}

/// How many octets a shortest length takes.
pub fn length_octets(length: usize) -> usize {
    match length {
        0..=0x7F => 1,
        0x80..=0xFF => 2,
        0x100..=0xFFFF => 3,
        0x1_0000..=0xFF_FFFF => 4,
        _ => 5,
    }
}

/// How many octets an element with one identifier octet and a shortest length takes.
pub fn element_octets(contents: usize) -> usize {
    1 + length_octets(contents) + contents
}

/// Writes elements one after another at the front of lent octets that are long enough.
pub struct Writer<'a> {
    output: &'a mut [u8],
    written: usize,
}

impl<'a> Writer<'a> {
    pub fn new(output: &'a mut [u8]) -> Self {
        Writer { output, written: 0 }
    }

    pub fn written(&self) -> usize {
        self.written
    }

    pub fn put(&mut self, octets: &[u8]) {
        self.output[self.written..][..octets.len()].copy_from_slice(octets);
        self.written += octets.len();
    }

    /// Identifier and shortest length; the contents are put after it.
    pub fn header(&mut self, identifier: u8, length: usize) {
        self.header_in_form(identifier, length, length_octets(length) - 1);
    }

    /// Identifier and a length in long form with so many octets, enough for it, or in short form for 0.
    pub fn header_in_form(&mut self, identifier: u8, length: usize, form: usize) {
        let octets = (length as u32).to_be_bytes();
        match form {
            0 => self.put(&[identifier, octets[3]]),
            _ => {
                self.put(&[identifier, 0x80 + form as u8]);
                self.put(&octets[4 - form..]);
            }
        }
    }

    pub fn integer(&mut self, identifier: u8, number: i32) {
        let count = integer_octets(number);
        self.header(identifier, count);
        self.put(&number.to_be_bytes()[4 - count..]);
    }
}
