//! Days changed in one place by chance, so that the capture stays right; what it says then is left open.

use crate::apdu;
use crate::days::{Logged, FORGET, RECEIVED, SENT};
use crate::octets;
use crate::random::Random;
use crate::state::State;
use crate::values::{self, damage_closing, element, element_in_form, indefinite, integer_contents};

/// Changes the entries of a day; false if the day has nothing to be changed so.
type Change = fn(&mut Vec<Logged>, &mut Random) -> bool;

pub const CHANGES: &[(&str, Change)] = &[
    ("an octet of any entry", |day, random| octet(day, random, |_| true)),
    ("an octet of a received entry", |day, random| octet(day, random, |entry| entry.kind == RECEIVED)),
    ("an octet of a sent entry", |day, random| octet(day, random, |entry| entry.kind == SENT)),
    ("an octet of a forget", |day, random| octet(day, random, |entry| entry.kind == FORGET)),
    ("octets of a received entry", |day, random| damaged(day, random, RECEIVED)),
    ("octets of a sent entry", |day, random| damaged(day, random, SENT)),
    ("an entry dropped", |day, random| with(day, random, |_| true, |day, at, _| drop(day.remove(at)))),
    ("an entry repeated", |day, random| with(day, random, |_| true, |day, at, _| day.insert(at, day[at].clone()))),
    ("neighbours swapped", |day, random| {
        with(
            day,
            random,
            |_| true,
            |day, at, _| {
                let next = (at + 1).min(day.len() - 1);
                day.swap(at, next);
            },
        )
    }),
    ("an entry moved", |day, random| {
        with(
            day,
            random,
            |_| true,
            |day, at, random| {
                let entry = day.remove(at);
                let to = random.below(day.len() + 1);
                day.insert(to, entry);
            },
        )
    }),
    ("another kind", |day, random| {
        with(day, random, |entry| entry.kind != FORGET, |day, at, _| day[at].kind = RECEIVED + SENT - day[at].kind)
    }),
    ("an entry of five octets said to be a forget", |day, random| {
        with(day, random, |entry| entry.octets.len() == 5, |day, at, _| day[at].kind = FORGET)
    }),
    ("a forget said to be sent or received", |day, random| {
        with(day, random, |entry| entry.kind == FORGET, |day, at, random| day[at].kind = random.below(2) as u8)
    }),
    ("the other side in a forget", |day, random| {
        with(day, random, |entry| entry.kind == FORGET, |day, at, _| day[at].octets[0] ^= 1)
    }),
    ("an awaited APDU dropped", |day, random| {
        with(day, random, |entry| entry.awaited, |day, at, _| drop(day.remove(at)))
    }),
    ("an awaited APDU moved on", |day, random| {
        with(
            day,
            random,
            |entry| entry.awaited,
            |day, at, random| {
                let reject = day.remove(at);
                day.insert((at + random.between(1, 3)).min(day.len()), reject);
            },
        )
    }),
    ("an awaited APDU moved to the end", |day, random| {
        with(
            day,
            random,
            |entry| entry.awaited,
            |day, at, _| {
                let reject = day.remove(at);
                day.push(reject);
            },
        )
    }),
    ("an awaited APDU twice", |day, random| {
        with(day, random, |entry| entry.awaited, |day, at, _| day.insert(at, day[at].clone()))
    }),
    ("the day cut behind any entry", |day, random| with(day, random, |_| true, |day, at, _| day.truncate(at + 1))),
    ("the day's first entries missing", |day, random| with(day, random, |_| true, |day, at, _| drop(day.drain(..at)))),
    ("another id in a sent entry", |day, random| {
        with(day, random, Logged::is_request, |day, at, random| {
            let id = element(0x02, &integer_contents(random.number()));
            first_field(&mut day[at].octets, id);
        })
    }),
    ("a received entry in long form", |day, random| {
        reframed(day, random, RECEIVED, |identifier, contents| element_in_form(identifier, contents, 4))
    }),
    ("a received entry of indefinite length", |day, random| reframed(day, random, RECEIVED, indefinite)),
    ("a sent entry of indefinite length", |day, random| reframed(day, random, SENT, indefinite)),
    ("closing octets of a received entry", |day, random| {
        let closed = |entry: &Logged| entry.kind == RECEIVED && octets::is_indefinite(&entry.octets);
        with(day, random, closed, |day, at, random| changed(&mut day[at], |octets| damage_closing(random, octets)))
    }),
    ("octets 00 00 of a sent entry", |day, random| {
        let sent = |entry: &Logged| entry.kind == SENT;
        with(day, random, sent, |day, at, random| changed(&mut day[at], |octets| damage_closing(random, octets)))
    }),
    ("an awaited APDU again elsewhere", |day, random| {
        with(
            day,
            random,
            |entry| entry.awaited,
            |day, at, random| {
                let reject = day[at].clone();
                let to = random.below(day.len() + 1);
                day.insert(to, reject);
            },
        )
    }),
    ("two entries' octets swapped", |day, random| {
        let places: Vec<usize> = (0..day.len()).filter(|&at| day[at].kind != FORGET).collect();
        let (Some(one), Some(other)) = (random.pick(&places), random.pick(&places)) else { return false };
        let octets = std::mem::take(&mut day[one].octets);
        let octets = std::mem::replace(&mut day[other].octets, octets);
        if one == other {
            return false;
        }
        day[one].octets = octets;
        true
    }),
];

/// Makes a change at an entry that fits.
fn with(
    day: &mut Vec<Logged>,
    random: &mut Random,
    fits: impl Fn(&Logged) -> bool,
    change: impl FnOnce(&mut Vec<Logged>, usize, &mut Random),
) -> bool {
    let places: Vec<usize> = (0..day.len()).filter(|&at| fits(&day[at])).collect();
    let Some(at) = random.pick(&places) else { return false };
    change(day, at, random);
    true
}

fn octet(day: &mut Vec<Logged>, random: &mut Random, fits: impl Fn(&Logged) -> bool) -> bool {
    with(day, random, fits, |day, at, random| {
        let octets = &mut day[at].octets;
        let place = random.below(octets.len().min(16));
        octets[place] = match random.below(3) {
            0 => octets[place] ^ 1 << random.below(8),
            1 => octets[place].wrapping_add(1),
            _ => random.octet(),
        };
    })
}

/// Changes, drops or adds a few octets, so that some are left and not too many.
fn damaged(day: &mut Vec<Logged>, random: &mut Random, kind: u8) -> bool {
    with(
        day,
        random,
        |entry| entry.kind == kind,
        |day, at, random| {
            changed(&mut day[at], |octets| values::damage(random, octets));
        },
    )
}

/// Changes the octets of an entry, unless none or too many are left then.
fn changed(entry: &mut Logged, change: impl FnOnce(&mut Vec<u8>)) {
    let mut octets = entry.octets.clone();
    change(&mut octets);
    if (1..=State::OCTETS).contains(&octets.len()) {
        entry.octets = octets;
    }
}

/// Gives a constructed element that fills an entry another length form.
fn reframed(day: &mut Vec<Logged>, random: &mut Random, kind: u8, frame: impl Fn(u8, &[u8]) -> Vec<u8>) -> bool {
    let framed = |entry: &Logged| match octets::split(&entry.octets, State::LEVELS) {
        Some((element, [])) => element.identifier() & 0x1F != 0x1F && octets::is_constructed(element.identifier()),
        _ => false,
    };
    let fits = |entry: &Logged| entry.kind == kind && framed(entry);
    with(day, random, fits, |day, at, _| {
        changed(&mut day[at], |octets| {
            let contents = octets::split(octets, State::LEVELS).map_or(&[][..], |(element, _)| element.contents());
            *octets = frame(octets[0], contents);
        });
    })
}

/// Puts another element in the place of an APDU's first field.
fn first_field(octets: &mut Vec<u8>, field: Vec<u8>) {
    let contents = octets::split(octets, State::LEVELS).map_or(&[][..], |(apdu, _)| apdu.contents());
    if let Some((_, rest)) = octets::split(contents, State::LEVELS) {
        let changed = element(octets[0], &[&field[..], rest].concat());
        if (apdu::INVOKE..=apdu::REJECT).contains(&octets[0]) && changed.len() <= State::OCTETS {
            *octets = changed;
        }
    }
}
