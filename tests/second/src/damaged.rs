//! Captures that break one rule of their form, and right ones on the other side of each limit.
//! Follows docs/RULES.md, "A day's capture, replayed".

use crate::apdu;
use crate::capture::{ENTRIES, HEADER, OCTETS, PLACE};
use crate::days::{capture, fill, Logged, FORGET, RECEIVED, SENT};
use crate::random::Random;
use crate::state::State;

/// The capture of a day of two entries or more, damaged.
type Damage = fn(&mut Vec<Logged>, &mut Random) -> Vec<u8>;

/// What is done, the rule that is then broken first, and how it is done.
pub const DAMAGES: &[(&str, &str, Damage)] = &[
    ("no octets", "header cut", |_, _| Vec::new()),
    ("a header cut short", "header cut", |day, random| capture(day)[..random.between(1, HEADER - 1)].to_vec()),
    ("a header without its index", "index cut", |day, _| capture(day)[..HEADER].to_vec()),
    ("an index cut short", "index cut", |day, random| {
        let index = PLACE * day.len();
        capture(day)[..HEADER + random.between(1, index - 1)].to_vec()
    }),
    ("an index without its data", "data cut", |day, _| capture(day)[..HEADER + PLACE * day.len()].to_vec()),
    ("the last octet missing", "data cut", |day, _| octets(day, |octets| octets.truncate(octets.len() - 1))),
    ("an octet behind the data", "octets behind", |day, random| octets(day, |octets| octets.push(random.octet()))),
    ("an octet behind no entries", "octets behind", |_, _| octets(&[], |octets| octets.push(0))),
    ("an entry in the data alone", "octets behind", |day, _| octets(day, |octets| octets.extend([0xA4, 0x00]))),
    ("1,001 entries", "count", |day, _| of_entries(day, ENTRIES + 1)),
    ("count 1,001 and a data offset for it", "count", |day, _| header(day, 1001, 8016)),
    ("count 4,294,967,295", "count", |day, _| octets(day, |octets| octets[..4].fill(0xFF))),
    ("count 4,294,967,295 without entries", "count", |_, _| header(&[], u32::MAX, 0)),
    ("a count that is right modulo 65,536", "count", |day, _| octets(day, |octets| octets[1] = 1)),
    ("a data offset that is right modulo 2^32", "count", |day, _| octets(day, |octets| octets[0] = 0x20)),
    ("no entries, but count 2^29", "count", |_, _| header(&[], 1 << 29, 8)),
    ("a count one too large", "data offset", |day, _| octets(day, |octets| raise(&mut octets[..4], 1))),
    ("a count one too small", "data offset", |day, _| octets(day, |octets| raise(&mut octets[..4], -1))),
    ("a data offset one too large", "data offset", |day, _| octets(day, |octets| raise(&mut octets[4..8], 1))),
    ("a data offset one too small", "data offset", |day, _| octets(day, |octets| raise(&mut octets[4..8], -1))),
    ("a data offset of 0", "data offset", |day, _| octets(day, |octets| octets[4..8].fill(0))),
    ("a data offset right modulo 65,536", "data offset", |day, _| octets(day, |octets| octets[5] = 1)),
    ("a data offset in the other order", "data offset", |day, _| octets(day, |octets| octets[4..8].reverse())),
    ("a wrong data offset without entries", "data offset", |_, random| {
        header(&[], 0, [0, 7, 9, 16, 0x800, 0x1_0008, 0x0800_0000][random.below(7)])
    }),
    ("kind 3", "kind", |day, random| index(day, random, |place| place[0] = 3)),
    ("kind 255", "kind", |day, random| index(day, random, |place| place[0] = 255)),
    ("kind 3 in the last entry", "kind", |day, _| {
        let last = day.len() - 1;
        day[last].kind = 3;
        capture(day)
    }),
    ("a zero octet of 1", "zero octet", |day, random| index(day, random, |place| place[1] = 1)),
    ("a zero octet of 128", "zero octet", |day, random| index(day, random, |place| place[1] = 128)),
    ("an entry without octets", "no octets", |day, random| put(day, random, Logged::new(SENT, &[]))),
    ("a received entry without octets", "no octets", |day, random| put(day, random, Logged::new(RECEIVED, &[]))),
    ("a forget without octets", "no octets", |day, random| put(day, random, Logged::new(FORGET, &[]))),
    ("an entry of 4,097 octets", "entry too long", |day, random| put(day, random, passed_over(4097))),
    ("an entry of 5,000 octets", "entry too long", |day, random| put(day, random, passed_over(5000))),
    ("a forget of 4 octets", "forget length", |day, random| put(day, random, Logged::new(FORGET, &[0; 4]))),
    ("a forget of 6 octets", "forget length", |day, random| put(day, random, Logged::new(FORGET, &[0; 6]))),
    ("a forget of one octet", "forget length", |day, random| put(day, random, Logged::new(FORGET, &[2]))),
    ("an octet between index and data", "gap", |day, _| moved(day, 0, 1)),
    ("an octet between two entries", "gap", |day, random| {
        let at = random.between(1, day.len() - 1);
        moved(day, at, 1)
    }),
    ("entries that share an octet", "overlap", |day, random| {
        let at = random.between(1, day.len() - 1);
        moved(day, at, -1)
    }),
    ("the last offset one too large", "gap", |day, _| last_offset(day, |offset| offset + 1)),
    ("the last offset one too small", "overlap", |day, _| last_offset(day, |offset| offset - 1)),
    ("an offset right modulo 65,536", "gap", |day, _| last_offset(day, |offset| offset + 65_536)),
    ("an offset of 4,294,967,295", "gap", |day, _| last_offset(day, |_| u32::MAX)),
    ("an offset of 0", "overlap", |day, _| last_offset(day, |_| 0)),
    ("offsets from the data's start", "overlap", |day, _| {
        let start = (HEADER + PLACE * day.len()) as i64;
        places(day, |_, place| raise(&mut place[4..], -start))
    }),
    ("entries swapped in the data", "gap", |day, random| {
        let at = random.between(1, day.len() - 1);
        let (one, other) = (day[at - 1].octets.len() as i64, day[at].octets.len() as i64);
        places(day, |number, place| match number + 1 {
            next if next == at => raise(&mut place[4..], other),
            next if next == at + 1 => raise(&mut place[4..], -one),
            _ => {}
        })
    }),
    ("60,001 octets", "too long", |day, _| of_octets(day, OCTETS + 1)),
    ("70,000 octets", "too long", |day, _| of_octets(day, 70_000)),
    ("60,000 octets and one behind", "too long", |day, _| {
        let mut octets = of_octets(day, OCTETS);
        octets.push(0);
        octets
    }),
    ("60,000 octets", RIGHT, |day, _| of_octets(day, OCTETS)),
    ("59,999 octets", RIGHT, |day, _| of_octets(day, OCTETS - 1)),
    ("1,000 entries", RIGHT, |day, _| of_entries(day, ENTRIES)),
    ("999 entries", RIGHT, |day, _| of_entries(day, ENTRIES - 1)),
    ("an entry of 4,096 octets", RIGHT, |day, _| behind(day, passed_over(State::OCTETS))),
    ("an entry of one octet", RIGHT, |day, _| behind(day, passed_over(1))),
    ("one entry", RIGHT, |_, _| capture(&[passed_over(2)])),
    ("no entries", RIGHT, |_, _| capture(&[])),
];

/// A capture that is right and agrees.
pub const RIGHT: &str = "agrees";

fn octets(day: &[Logged], change: impl FnOnce(&mut Vec<u8>)) -> Vec<u8> {
    let mut octets = capture(day);
    change(&mut octets);
    octets
}

/// Adds to a number of four octets.
fn raise(octets: &mut [u8], by: i64) {
    let number = octets.iter().fold(0, |sum, &octet| sum << 8 | i64::from(octet)) + by;
    octets.copy_from_slice(&(number as u32).to_be_bytes());
}

/// The capture with another count and data offset.
fn header(day: &[Logged], count: u32, start: u32) -> Vec<u8> {
    octets(day, |octets| {
        octets[..4].copy_from_slice(&count.to_be_bytes());
        octets[4..8].copy_from_slice(&start.to_be_bytes());
    })
}

/// The capture with each place of the index changed.
fn places(day: &[Logged], mut change: impl FnMut(usize, &mut [u8])) -> Vec<u8> {
    let count = day.len();
    octets(day, |octets| {
        let index = octets[HEADER..].chunks_exact_mut(PLACE).take(count);
        index.enumerate().for_each(|(number, place)| change(number, place));
    })
}

/// The capture with one place of the index changed.
fn index(day: &[Logged], random: &mut Random, change: impl Fn(&mut [u8])) -> Vec<u8> {
    let at = random.below(day.len());
    places(day, |number, place| {
        if number == at {
            change(place)
        }
    })
}

fn last_offset(day: &[Logged], change: impl Fn(u32) -> u32) -> Vec<u8> {
    let last = day.len() - 1;
    places(day, |number, place| {
        if number == last {
            let offset = change(u32::from_be_bytes([place[4], place[5], place[6], place[7]]));
            place[4..].copy_from_slice(&offset.to_be_bytes());
        }
    })
}

/// The entries from this one on start one octet later or earlier, and the data has one octet more or less there.
fn moved(day: &[Logged], from: usize, by: i64) -> Vec<u8> {
    let at = HEADER + PLACE * day.len() + day[..from].iter().map(|entry| entry.octets.len()).sum::<usize>();
    let mut octets = places(day, |number, place| {
        if number >= from {
            raise(&mut place[4..], by)
        }
    });
    match by {
        1 => octets.insert(at, 0),
        _ => drop(octets.remove(at)),
    }
    octets
}

fn put(day: &mut Vec<Logged>, random: &mut Random, entry: Logged) -> Vec<u8> {
    let at = random.below(day.len() + 1);
    day.insert(at, entry);
    capture(day)
}

fn behind(day: &mut Vec<Logged>, entry: Logged) -> Vec<u8> {
    day.push(entry);
    capture(day)
}

/// A received Reject that is refused 17.
fn passed_over(length: usize) -> Logged {
    let mut octets = vec![0; length];
    octets[0] = apdu::REJECT;
    Logged::new(RECEIVED, &octets)
}

fn of_octets(day: &mut Vec<Logged>, count: usize) -> Vec<u8> {
    fill(day, count);
    capture(day)
}

fn of_entries(day: &mut Vec<Logged>, count: usize) -> Vec<u8> {
    day.resize(count, passed_over(2));
    capture(day)
}
