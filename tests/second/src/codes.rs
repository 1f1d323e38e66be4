//! Codes of a list, and where a code that is looked up stands among them.
//! A code's place in the order of lists is a number: a local code is its own, and the indexes of names go on from
//! `FIRST_NAME`.

use crate::code::{Code, Name};
use crate::random::Random;

/// The place of the name with index 0, behind every local code.
pub const FIRST_NAME: i64 = 1 << 32;

/// The place of a code; none for a name that is not among these.
pub fn place(code: &Code, names: &[Name]) -> Option<i64> {
    match code {
        Code::Local(code) => Some(i64::from(*code)),
        Code::Name(name) => names.iter().position(|other| other == name).map(|index| FIRST_NAME + index as i64),
    }
}

/// The code at a place.
pub fn code(place: i64, names: &[Name]) -> Code {
    match i32::try_from(place) {
        Ok(code) => Code::Local(code),
        Err(_) => Code::Name(names[(place - FIRST_NAME) as usize]),
    }
}

/// Lengths of lists, from and to: a search by halving needs one look more in each group than in the one before.
pub const LENGTHS: [(usize, usize); 8] = [(0, 0), (1, 1), (2, 3), (4, 7), (8, 15), (16, 31), (32, 63), (64, 64)];

/// Where a code stands in a list; the only entry of a list is its first.
#[derive(Clone, Copy, Debug, PartialEq, Eq)]
pub enum Position {
    First,
    Last,
    Another,
    Below,
    Between,
    Above,
}

impl Position {
    pub const ALL: [Position; 6] =
        [Position::First, Position::Last, Position::Another, Position::Below, Position::Between, Position::Above];

    /// Inner places more often, as there are more of them.
    const DRAWN: [Position; 8] = [
        Position::First,
        Position::Last,
        Position::Another,
        Position::Another,
        Position::Below,
        Position::Between,
        Position::Between,
        Position::Above,
    ];

    pub fn name(self) -> &'static str {
        match self {
            Position::First => "first entry",
            Position::Last => "last entry",
            Position::Another => "another entry",
            Position::Below => "below all",
            Position::Between => "between two",
            Position::Above => "above all",
        }
    }

    /// Whether a list of so many entries has such a place: one entry is not also the last and has none beside it.
    pub fn is_in(self, length: usize) -> bool {
        match self {
            Position::First | Position::Below | Position::Above => length >= 1,
            Position::Last | Position::Between => length >= 2,
            Position::Another => length >= 3,
        }
    }

    /// Where a code stands, found by going through all entries; an empty list has no place.
    pub fn of(wanted: i64, places: &[i64]) -> Option<Position> {
        let below = places.iter().filter(|place| **place < wanted).count();
        Some(match places.contains(&wanted) {
            _ if places.is_empty() => return None,
            true if below == 0 => Position::First,
            true if below + 1 == places.len() => Position::Last,
            true => Position::Another,
            false if below == 0 => Position::Below,
            false if below == places.len() => Position::Above,
            false => Position::Between,
        })
    }

    /// A place there, in a table of so many names, if there is one; absent ones are mostly next to an entry or at the
    /// end of the numbers.
    pub fn place(self, places: &[i64], names: usize, random: &mut Random) -> Option<i64> {
        let (first, last) = (*places.first()?, *places.last()?);
        let (least, most) = (i64::from(i32::MIN), FIRST_NAME + names as i64 - 1);
        match self {
            Position::First => Some(first),
            Position::Last => (places.len() > 1).then_some(last),
            Position::Another => places.get(1..places.len() - 1).and_then(|inner| random.pick(inner)),
            Position::Below => within((least, first - 1), names, random),
            Position::Above => within((last + 1, most), names, random),
            Position::Between => {
                let gaps: Vec<_> = places.windows(2).map(|pair| (pair[0] + 1, pair[1] - 1)).collect();
                let has_room = |gap: &(i64, i64)| ranges(*gap, names).iter().any(|(low, high)| low <= high);
                random.pick_where(&gaps, has_room).and_then(|gap| within(gap, names, random))
            }
        }
    }
}

/// The local codes and, more often, the names of a range of places; an empty one ends before it starts.
fn ranges((low, high): (i64, i64), names: usize) -> [(i64, i64); 4] {
    let last_name = FIRST_NAME + names as i64 - 1;
    let names = (low.max(FIRST_NAME), high.min(last_name));
    [(low, high.min(i64::from(i32::MAX))), names, names, names]
}

/// A place from low to high, an end of them more often; none if there is none.
fn within(range: (i64, i64), names: usize, random: &mut Random) -> Option<i64> {
    let (low, high) = random.pick_where(&ranges(range, names), |(low, high)| low <= high)?;
    let more = (high - low) as usize;
    let above = match random.below(5) {
        0..=1 => 0,
        2..=3 => more,
        _ => random.below(more + 1),
    };
    Some(low + above as i64)
}

/// A length of a list, long ones more often.
pub fn length(random: &mut Random) -> usize {
    const GROUPS: [usize; 26] = [0, 1, 1, 2, 2, 3, 3, 3, 4, 4, 4, 5, 5, 5, 5, 6, 6, 6, 6, 6, 7, 7, 7, 7, 7, 7];
    let group = GROUPS[random.below(GROUPS.len())];
    let (low, high) = LENGTHS[group];
    random.between(low, high)
}

/// So many codes, rising: close together or far apart, at an end of the numbers, around 0 or anywhere.
pub fn spread(random: &mut Random, count: usize) -> Vec<i32> {
    const NUMBERS: usize = 1 << 32;
    let widest = [1, 2, 4, 300, NUMBERS / (count + 2)][random.below(5)];
    let mut length = 0;
    let mut step = |random: &mut Random| {
        let at = length;
        length += random.between(1, widest);
        at
    };
    let steps: Vec<usize> = (0..count).map(|_| step(random)).collect();
    let room = NUMBERS - 1 - steps.last().unwrap_or(&0);
    let start = match random.below(6) {
        0 => random.below(3),
        1 => room - random.below(3),
        2 => (NUMBERS / 2 - steps.get(count / 2).unwrap_or(&0)).min(room),
        _ => random.below(room + 1),
    };
    steps.into_iter().map(|step| (i64::from(i32::MIN) + (start + step) as i64) as i32).collect()
}

/// A code to look up among those of a list, listed or not, in a table with these names.
pub fn asked(list: &[Code], names: &[Name], random: &mut Random) -> Code {
    drawn(&Position::DRAWN, list, names, random)
}

/// A code that is not in the list.
pub fn absent(list: &[Code], names: &[Name], random: &mut Random) -> Code {
    drawn(&Position::ALL[3..], list, names, random)
}

/// A code at one of the positions, which the list has unless it is empty.
fn drawn(positions: &[Position], list: &[Code], names: &[Name], random: &mut Random) -> Code {
    let places: Vec<i64> = list.iter().filter_map(|code| place(code, names)).collect();
    if places.is_empty() {
        return Code::Local(random.number());
    }
    loop {
        let position = positions[random.below(positions.len())];
        if let Some(place) = position.place(&places, names.len(), random) {
            return code(place, names);
        }
    }
}
