//! Octets with a first fault at a known place: a kind of fault at a level, alone or before a second one.

use crate::flaws::{Given, Holds, Kind, Second, Stands, BEHIND, KINDS, MISSING_CLOSE};
use crate::octets::CLOSING;
use crate::random::Random;
use crate::state::State;
use crate::values;

/// The first fault that octets were made with.
#[derive(Clone, Copy, Debug)]
pub struct Flaw {
    pub kind: &'static Kind,
    /// The level of the element at fault, counted from the outermost of the given octets.
    pub level: usize,
    pub place: usize,
    pub second: Option<Second>,
    pub given: Given,
}

/// The outermost elements, if they are not to be drawn: identifier and what stands in front inside.
pub type Outer = [(u8, Vec<u8>)];

/// Identifiers of elements around a fault, high tags among them.
const AROUND: [&[u8]; 6] = [&[0x30], &[0x31], &[0xA0], &[0x24], &[0x3F, 0x1F], &[0xBF, 0x81, 0x00]];

/// Contents of an element that is not closed.
const INSIDE: [&[u8]; 6] =
    [&[], &[], &[0x05, 0x00], &[0x30, 0x80, 0x00, 0x00], &[0x04, 0x02, 0x00, 0x00], &[0x02, 0x01, 0x05, 0x30, 0x00]];

/// Identifiers of small elements beside a fault.
const BESIDE: [u8; 8] = [0x02, 0x04, 0x05, 0x06, 0x0A, 0x80, 0x30, 0xA1];

#[derive(Clone, Copy, PartialEq, Eq)]
enum Form {
    Definite,
    Indefinite,
    Unclosed,
}

/// Octets that grow outwards from the element at fault.
struct Making<'r> {
    random: &'r mut Random,
    octets: Vec<u8>,
    place: usize,
    /// Whether nothing may stand behind the octets before the contents around them end.
    at_end: bool,
    second: Option<Second>,
    /// The level of the element in whose contents the second fault stands, or that is not closed.
    second_level: usize,
    met: bool,
}

/// Octets with this kind of fault at a level, before a second fault if that is wanted and can be.
pub fn make(
    random: &mut Random,
    (kind, level): (&'static Kind, usize),
    second: Option<Second>,
    outer: &Outer,
    given: Given,
) -> (Vec<u8>, Flaw) {
    let second_level = match second {
        Some(Second::Sibling) => level - 1,
        Some(Second::Around) if level > 2 => random.between(1, level - 2),
        Some(Second::Unclosed) if level > 1 => random.between(1, level - 1),
        _ => 0,
    };
    let (octets, at_end) = (kind.octets.to_vec(), kind.is_at_end());
    let mut making = Making { random, octets, place: 0, at_end, second, second_level, met: false };
    making.put_inside(kind, level);
    for around in (1..level).rev() {
        making.put_around(around, kind.around().filter(|_| around + 1 == level), outer.get(around - 1));
    }
    making.put_behind();
    let Making { octets, place, second, met, .. } = making;
    (octets, Flaw { kind, level, place, second: second.filter(|_| met), given })
}

/// A value with any fault, not deep if it need not be.
pub fn value(random: &mut Random) -> Vec<u8> {
    let kind = &KINDS[random.below(KINDS.len())];
    let (low, _) = kind.levels();
    let level = random.between(low, low.max(4));
    let second = random.pick(&Second::ALL);
    make(random, (kind, level), second, &[], Given::Request).0
}

impl Making<'_> {
    /// A second fault inside the element at fault, or good contents where its close is missing.
    fn put_inside(&mut self, kind: &Kind, level: usize) {
        if kind.class == MISSING_CLOSE && level < State::LEVELS {
            self.octets.extend(INSIDE[self.random.below(INSIDE.len())]);
        }
        if self.second != Some(Second::Inside) || kind.holds == Holds::Nothing {
            return;
        }
        let inside = self.fault();
        if let (Holds::Counted, Some(length)) = (kind.holds, self.octets.last_mut()) {
            *length = inside.len() as u8;
        }
        self.octets.extend(inside);
        self.met = true;
    }

    /// One element around, with others in front and behind.
    fn put_around(&mut self, level: usize, is_indefinite: Option<bool>, outer: Option<&(u8, Vec<u8>)>) {
        let form = self.form(level, is_indefinite);
        let (identifier, before) = match outer {
            Some((identifier, before)) => (vec![*identifier], before.clone()),
            None => (AROUND[self.random.below(AROUND.len())].to_vec(), self.beside(level)),
        };
        let mut contents = [&before, &self.octets[..]].concat();
        if !self.at_end {
            contents.extend(if outer.is_some() { Vec::new() } else { self.beside(level) });
            if level == self.second_level && matches!(self.second, Some(Second::Sibling | Second::Around)) {
                contents.extend(self.fault());
                self.met = true;
            }
        }
        let mut whole = Vec::new();
        match form {
            Form::Definite => {
                let form = values::form(self.random, contents.len());
                values::put_element(&mut whole, &identifier, &contents, form);
            }
            _ => values::put_indefinite(&mut whole, &identifier, &contents),
        }
        let closing = if form == Form::Definite { 0 } else { CLOSING.len() };
        self.place += whole.len() - contents.len() - closing + before.len();
        if form == Form::Unclosed {
            whole.truncate(whole.len() - closing);
        }
        self.at_end = form == Form::Unclosed;
        self.octets = whole;
    }

    /// A form that the fault allows; where nothing may stand behind it, no closing octets may.
    fn form(&mut self, level: usize, is_indefinite: Option<bool>) -> Form {
        let unclosed = match self.second {
            Some(Second::Unclosed) if self.met => self.at_end && self.random.percent(50),
            Some(Second::Unclosed) => level == self.second_level,
            _ => false,
        };
        let is_indefinite = is_indefinite.unwrap_or_else(|| unclosed || !self.at_end && self.random.percent(50));
        match is_indefinite {
            true if unclosed || self.at_end => {
                self.met |= self.second.get_or_insert(Second::Unclosed) == &Second::Unclosed;
                Form::Unclosed
            }
            true => Form::Indefinite,
            false => Form::Definite,
        }
    }

    /// Octets behind the outer element, if they are wanted and change nothing in it.
    fn put_behind(&mut self) {
        if self.second == Some(Second::Behind) && !self.at_end {
            let behind = BEHIND[self.random.below(BEHIND.len())].octets;
            self.octets.extend(behind);
            self.met = true;
        }
    }

    /// An element at fault wherever it stands, or one that holds such an element.
    fn fault(&mut self) -> Vec<u8> {
        let kind = self.random.pick_where(KINDS, |kind| kind.stands == Stands::Anywhere);
        let octets = kind.expect("many kinds are at fault anywhere").octets;
        match self.random.percent(40) {
            true => values::element(0x30, octets),
            false => octets.to_vec(),
        }
    }

    /// Up to two good elements for the contents of an element at a level.
    fn beside(&mut self, level: usize) -> Vec<u8> {
        let mut octets = Vec::new();
        let most = if level < State::LEVELS { 2 } else { 0 };
        for _ in 0..self.random.between(0, most) {
            // Small values have up to four levels.
            let kinds = if level + 4 <= State::LEVELS { BESIDE.len() } else { BESIDE.len() - 2 };
            let kind = BESIDE[self.random.below(kinds)];
            octets.extend(values::value(self.random, kind));
        }
        octets
    }
}
