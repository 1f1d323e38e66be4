//! Frames of a script and the state images: the input of the drive protocol, docs/DRIVE.md, "A frame".

use crate::code::{Asked, Code, NAME_OCTETS};
use crate::kept::{self, Kept};
use crate::resting::Resting;
use crate::state::{Record, Side, State};

pub const TABLE: u8 = 0;
pub const STATE: u8 = 1;
pub const RECEIVE: u8 = 2;
pub const INVOKE: u8 = 3;
pub const RESULT: u8 = 4;
pub const ERROR: u8 = 5;
pub const REJECT: u8 = 6;
pub const FORGET: u8 = 7;

/// Of an invoke's detail: whether a linked id is given. Of an invoke's and an error's: whether the code is a name.
pub const LINKED: u8 = 1;
pub const NAMED: u8 = 2;

/// How many octets stand before the payload.
pub const HEADER: usize = 18;

/// One frame: the header, then the payload.
#[derive(Clone, Copy, Debug, Default)]
pub struct Frame<'a> {
    pub kind: u8,
    /// What is given of an invoke and an error, the problem of a user reject, or the side of a forget.
    pub detail: u8,
    pub lent: u16,
    pub id: i32,
    pub code: i32,
    pub linked: i32,
    pub payload: &'a [u8],
}

impl<'a> Frame<'a> {
    /// How long the payload behind this header is.
    pub fn payload_octets(header: &[u8; HEADER]) -> usize {
        usize::from(u16::from_be_bytes([header[16], header[17]]))
    }

    pub fn new(header: &[u8; HEADER], payload: &'a [u8]) -> Self {
        Frame {
            kind: header[0],
            detail: header[1],
            lent: u16::from_be_bytes([header[2], header[3]]),
            id: number(&header[4..]),
            code: number(&header[8..]),
            linked: number(&header[12..]),
            payload,
        }
    }

    /// The first frame of a script and the rest, unless it is cut short.
    pub fn split(script: &'a [u8]) -> Option<(Self, &'a [u8])> {
        let (header, rest) = script.split_first_chunk()?;
        let (payload, rest) = rest.split_at_checked(Self::payload_octets(header))?;
        Some((Frame::new(header, payload), rest))
    }

    pub fn is_call(&self) -> bool {
        (RECEIVE..=FORGET).contains(&self.kind)
    }

    pub fn linked_id(&self) -> Option<i32> {
        (self.detail & LINKED != 0).then_some(self.linked)
    }

    fn is_named(&self) -> bool {
        matches!(self.kind, INVOKE | ERROR) && self.detail & NAMED != 0
    }

    /// How many octets of the payload stand before the value: a name's length octet and its contents.
    fn name_octets(&self) -> usize {
        match self.payload {
            [length, name @ ..] if self.is_named() => 1 + name.len().min(usize::from(*length)),
            _ => 0,
        }
    }

    /// The code of an invoke or an error.
    pub fn asked(&self) -> Asked<'a> {
        match self.is_named() {
            true => Asked::Name(self.payload.get(1..self.name_octets()).unwrap_or_default()),
            false => Asked::Local(self.code),
        }
    }

    /// The value, or the octets received.
    pub fn value(&self) -> &'a [u8] {
        &self.payload[self.name_octets()..]
    }

    /// The frame with this code and value; a name and the value behind it are put into `room`.
    pub fn asking<'b>(self, code: Asked<'_>, value: &'b [u8], room: &'b mut Vec<u8>) -> Frame<'b>
    where
        'a: 'b,
    {
        match code {
            Asked::Local(code) => Frame { code, payload: value, ..self },
            Asked::Name(name) => {
                room.clear();
                room.push(u8::try_from(name.len()).expect("a name's length is one octet"));
                room.extend(name);
                room.extend(value);
                Frame { detail: self.detail | NAMED, payload: room, ..self }
            }
        }
    }

    /// Appends the frame to a script; a payload holds at most 65,535 octets.
    pub fn append(&self, script: &mut Vec<u8>) {
        let length = u16::try_from(self.payload.len()).expect("a payload holds at most 65,535 octets");
        script.extend([self.kind, self.detail]);
        script.extend(self.lent.to_be_bytes());
        for number in [self.id, self.code, self.linked] {
            script.extend(number.to_be_bytes());
        }
        script.extend(length.to_be_bytes());
        script.extend(self.payload);
    }
}

/// How many octets a place takes: id and local code, or id, name length and 16 octets.
const LOCAL_PLACE: usize = 8;
const PLACE: usize = 5 + NAME_OCTETS;

/// How many octets a kept answer takes: id, length and the most it can have.
const KEPT_PLACE: usize = 6 + kept::OCTETS;

/// How many octets the image of a state without names, resting ids and kept answers may have, of one without resting
/// ids and kept answers, of one without kept answers, and of any.
pub const LOCAL_IMAGE_OCTETS: usize = 2 * (2 + LOCAL_PLACE * State::RECORDS);
pub const NAMED_IMAGE_OCTETS: usize = 2 * (2 + PLACE * State::RECORDS);
pub const RESTING_IMAGE_OCTETS: usize = NAMED_IMAGE_OCTETS + 2 + 4 * State::RESTING;
pub const IMAGE_OCTETS: usize = RESTING_IMAGE_OCTETS + 2 + KEPT_PLACE * State::KEPT;

/// The state of an image, sound or not, unless its length is another.
pub fn read_image(image: &[u8]) -> Option<State> {
    let (place, read): (usize, fn(&[u8]) -> Code) = match image.len() {
        LOCAL_IMAGE_OCTETS => (LOCAL_PLACE, |code| Code::Local(number(code))),
        NAMED_IMAGE_OCTETS | RESTING_IMAGE_OCTETS | IMAGE_OCTETS => (PLACE, read_code),
        _ => return None,
    };
    let side = 2 + place * State::RECORDS;
    let [own, peer] = [&image[..side], &image[side..2 * side]].map(|octets| read_side(octets, place, read));
    let resting = read_resting(&image[2 * side..]);
    Some(State { own, peer, resting, kept: read_kept(image.get(RESTING_IMAGE_OCTETS..).unwrap_or_default()) })
}

fn read_side(octets: &[u8], size: usize, code: fn(&[u8]) -> Code) -> Side {
    let mut side = Side::empty();
    side.count = u16::from_be_bytes([octets[0], octets[1]]);
    for (place, entry) in side.places.iter_mut().zip(octets[2..].chunks_exact(size)) {
        *place = Record { id: number(entry), code: code(&entry[4..]) };
    }
    side
}

/// No ids where there are no octets.
fn read_resting(octets: &[u8]) -> Resting {
    let mut resting = Resting::none();
    if let [high, low, ids @ ..] = octets {
        resting.count = u16::from_be_bytes([*high, *low]);
        resting.places.iter_mut().zip(ids.chunks_exact(4)).for_each(|(place, id)| *place = number(id));
    }
    resting
}

/// No answers where there are no octets.
fn read_kept(octets: &[u8]) -> Kept {
    let mut kept = Kept::none();
    if let [high, low, places @ ..] = octets {
        kept.count = u16::from_be_bytes([*high, *low]);
        for (at, place) in places.chunks_exact(KEPT_PLACE).enumerate() {
            kept.ids[at] = number(place);
            kept.lengths[at] = u16::from_be_bytes([place[4], place[5]]);
            kept.store[at].copy_from_slice(&place[6..]);
        }
    }
    kept
}

/// A name with its length, or with length 0 a local code.
fn read_code(octets: &[u8]) -> Code {
    match octets {
        [0, code @ ..] => Code::Local(number(code)),
        _ => Code::Name(std::array::from_fn(|at| octets[at])),
    }
}

/// The image of any state.
pub fn image(state: &State) -> Vec<u8> {
    let Kept { count, ids, lengths, store } = &state.kept;
    let mut image = records_and_resting(state);
    image.extend(count.to_be_bytes());
    for ((id, length), octets) in ids.iter().zip(lengths).zip(store) {
        image.extend(id.to_be_bytes());
        image.extend(length.to_be_bytes());
        image.extend(octets);
    }
    image
}

/// The image of a state without kept answers; none if a place has one.
pub fn resting_image(state: &State) -> Option<Vec<u8>> {
    (state.kept == Kept::none()).then(|| records_and_resting(state))
}

/// The image of a state without resting ids and kept answers; none if a place has one.
pub fn named_image(state: &State) -> Option<Vec<u8>> {
    holds_records_only(state).then(|| records_image(state))
}

fn holds_records_only(state: &State) -> bool {
    state.resting == Resting::none() && state.kept == Kept::none()
}

fn records_and_resting(state: &State) -> Vec<u8> {
    let mut image = records_image(state);
    image.extend(state.resting.count.to_be_bytes());
    state.resting.places.iter().for_each(|id| image.extend(id.to_be_bytes()));
    image
}

/// The records of an image that can hold names.
fn records_image(state: &State) -> Vec<u8> {
    let mut image = Vec::with_capacity(IMAGE_OCTETS);
    for side in [&state.own, &state.peer] {
        image.extend(side.count.to_be_bytes());
        for place in &side.places {
            image.extend(place.id.to_be_bytes());
            match place.code {
                Code::Local(code) => image.extend([&[0], &code.to_be_bytes()[..], &[0; 12]].concat()),
                Code::Name(name) => image.extend(name),
            }
        }
    }
    image
}

/// The image of a state without names, resting ids and kept answers in any place; none if there is one.
pub fn local_image(state: &State) -> Option<Vec<u8>> {
    if !holds_records_only(state) {
        return None;
    }
    let mut image = Vec::with_capacity(LOCAL_IMAGE_OCTETS);
    for side in [&state.own, &state.peer] {
        image.extend(side.count.to_be_bytes());
        for place in &side.places {
            let Code::Local(code) = place.code else { return None };
            image.extend(place.id.to_be_bytes());
            image.extend(code.to_be_bytes());
        }
    }
    Some(image)
}

fn number(octets: &[u8]) -> i32 {
    i32::from_be_bytes([octets[0], octets[1], octets[2], octets[3]])
}
