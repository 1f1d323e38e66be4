//! Tables and captures from a seed: days as they were, days that differ, damaged captures and wrong tables.

use crate::changed::CHANGES;
use crate::damaged::{DAMAGES, RIGHT};
use crate::days::{self, Logged, SENT};
use crate::faults;
use crate::generate::Generator;
use crate::model::Model;
use crate::probe_days;
use crate::random::Random;
use crate::slips::{SLIPS, Slip};
use crate::state::State;
use crate::ways;

/// A table and a capture, what was done to them, and the way in which they are then answered, if that is set.
pub struct Drawn {
    pub name: &'static str,
    pub way: Option<&'static str>,
    pub table: Vec<u8>,
    pub capture: Vec<u8>,
}

/// How many sorts there are; the seed's remainder says which one is drawn.
pub fn sorts() -> usize {
    PLAIN.len() + SLIPS.len() + probe_days::SLIPS.len() + CHANGES.len() + DAMAGES.len() + TABLES.len()
}

/// Days as they were.
pub const PLAIN: [&str; 14] = [
    "a day of few entries",
    "a day",
    "another day",
    "a day without trouble",
    "a long day",
    "a day of 1,000 entries",
    "a day with a sent entry of 4,096 octets",
    "a day with a received entry of 4,096 octets",
    "a day with a full table",
    "a day with 32 records of each side",
    "a day with an id asked for again after its answer",
    "a day with an id asked for again after 64 more forgets",
    "a day with probes and acknowledges",
    "a day with more than eight answers and probes",
];

/// Tables that are not valid.
pub const TABLES: [(&str, &str); 6] = [
    ("a wrong table with a right capture", ways::TABLE_FIRST[0]),
    ("a wrong table with a day that differs", ways::TABLE_FIRST[0]),
    ("a wrong table with a malformed capture", ways::TABLE_FIRST[1]),
    ("a wrong table with an empty capture", ways::TABLE_FIRST[1]),
    ("a full table and an octet behind it", ways::TABLE_FIRST[0]),
    ("an empty table", ways::TABLE_FIRST[0]),
];

/// The capture of a seed: drawn again where it is not answered in the way it was made for.
pub fn draw(seed: u64) -> Drawn {
    let sort = (seed % sorts() as u64) as usize;
    let mut drawn = attempt(seed, sort);
    for again in 1..40 {
        if drawn.way.is_none_or(|way| ways::way(&drawn.table, &drawn.capture) == way) {
            break;
        }
        drawn = attempt(seed ^ again << 48, sort);
    }
    drawn
}

fn attempt(seed: u64, sort: usize) -> Drawn {
    let slips = PLAIN.len();
    let probed = slips + SLIPS.len();
    let changes = probed + probe_days::SLIPS.len();
    let damages = changes + CHANGES.len();
    let tables = damages + DAMAGES.len();
    match sort {
        sort if sort < slips => plain(seed, sort),
        sort if sort < probed => slipped(seed, sort - slips),
        sort if sort < changes => slipped_probe(seed, sort - probed),
        sort if sort < damages => changed(seed, sort - changes),
        sort if sort < tables => damaged(seed, sort - damages),
        sort => wrong_table(seed, sort - tables),
    }
}

/// A fresh end with a small table, mostly, that has all classes.
fn end<'w>(seed: u64) -> Generator<'w> {
    Generator::of_a_day(seed, |random| match random.percent(50) {
        true => faults::rich_of_either(random, 50),
        false => Model::random(random),
    })
}

/// A table of all classes with probe and acknowledge.
fn probed(random: &mut Random) -> Model {
    let mut model = faults::rich_of_either(random, 50);
    model.add_probe(random, true);
    model
}

/// A table with an operation that takes long arguments.
fn large(random: &mut Random) -> Model {
    let mut model = faults::rich_of_either(random, 60);
    model.operations[if model.names.is_some() { 5 } else { 1 }].argument = 0x30;
    model
}

fn drawn(name: &'static str, way: Option<&'static str>, end: &mut Generator<'_>) -> Drawn {
    Drawn { name, way, capture: days::capture(end.entries()), table: end.model.octets() }
}

fn plain(seed: u64, sort: usize) -> Drawn {
    let mut end = match sort {
        6 | 7 => Generator::of_a_day(seed, large),
        8 if seed % 16 > 0 => Generator::of_a_day(seed, Model::full_of_names),
        8 => Generator::of_a_day(seed, Model::full),
        10 | 11 => Generator::of_a_day(seed, |random| faults::rich_of_either(random, 50)),
        12 | 13 => Generator::of_a_day(seed, probed),
        _ => end(seed),
    };
    let few = end.random.between(1, 8);
    match sort {
        0 => end.live_on(few),
        3 => (0..30).for_each(|_| end.ordinary_call()),
        4 => end.live_on(300),
        5 => end.live_on(1000),
        6 | 7 => {
            end.invoke_of(State::OCTETS, sort == 7);
            end.live_on(few);
            end.invoke_of(State::OCTETS, sort == 7);
            end.live_on(few);
        }
        9 => end.fill_records(),
        10 | 11 => {
            end.live_on(few);
            end.ask_twice(sort == 11);
            end.live_on(few);
        }
        12 | 13 => {
            end.probe_day(if sort == 12 { few } else { 12 + few });
            if sort == 13 {
                end.probe_the_oldest();
            }
            end.live_on(few);
        }
        _ => end.live_on(10 + 5 * few),
    }
    drawn(PLAIN[sort], Some(RIGHT), &mut end)
}

/// The slip as soon as it can be made, in so many tries, and more behind it where the day goes on.
fn slip_in(end: &mut Generator<'_>, slip: Slip, tries: usize, behind: usize, wait: fn(&mut Generator<'_>)) {
    for _ in 0..tries {
        match slip(end) {
            Some(true) => {
                end.live_on(behind);
                return;
            }
            Some(false) => return,
            None => wait(end),
        }
    }
}

fn slipped(seed: u64, sort: usize) -> Drawn {
    let (name, way, slip) = SLIPS[sort];
    let mut end = end(seed);
    let late = end.random.percent(5);
    let (before, behind) = (if late { 400 } else { end.random.below(20) }, end.random.below(12));
    end.live_on(before);
    slip_in(&mut end, slip, 60, behind, |end| end.live_on(1));
    drawn(name, Some(way), &mut end)
}

/// A day with probes that differs in what receive wrote.
fn slipped_probe(seed: u64, sort: usize) -> Drawn {
    let (name, way, slip) = probe_days::SLIPS[sort];
    let mut end = Generator::of_a_day(seed, probed);
    let (rounds, behind) = (end.random.between(1, 10), end.random.below(8));
    end.probe_day(rounds);
    slip_in(&mut end, slip, 20, behind, |end| end.probe_day(1));
    drawn(name, Some(way), &mut end)
}

fn changed(seed: u64, sort: usize) -> Drawn {
    let (name, change) = CHANGES[sort];
    let mut end = end(seed);
    for _ in 0..20 {
        let more = end.random.between(1, 25);
        end.live_on(more);
        let mut random = Random::new(end.random.draw());
        if change(end.entries(), &mut random) {
            break;
        }
    }
    drawn(name, None, &mut end)
}

/// A damaged capture, half of them with an entry that would differ first.
fn damaged(seed: u64, sort: usize) -> Drawn {
    let (name, way, damage) = DAMAGES[sort];
    let mut end = end(seed);
    let entries = end.random.between(2, 12);
    end.live_on(entries);
    let mut random = Random::new(end.random.draw());
    let mut day = std::mem::take(end.entries());
    if way != RIGHT && random.percent(50) || day.len() < 2 {
        day.insert(0, Logged::new(SENT, &[0xA5, 0x00]));
        day.push(Logged::new(SENT, &[0xA5, 0x00]));
    }
    Drawn { name, way: Some(way), capture: damage(&mut day, &mut random), table: end.model.octets() }
}

fn wrong_table(seed: u64, sort: usize) -> Drawn {
    let (name, way) = TABLES[sort];
    let mut random = Random::new(seed);
    let other = random.draw();
    let made = match sort {
        1 => slipped(other, random.below(SLIPS.len())),
        2 => damaged(other, random.below(DAMAGES.len())),
        _ => plain(other, random.below(4)),
    };
    let capture = if sort == 3 { Vec::new() } else { made.capture };
    let table = match sort {
        4 => [Model::full(&mut random).octets(), vec![0; random.between(1, 3)]].concat(),
        5 => Vec::new(),
        _ => {
            let fault = random.below(faults::table_names().len());
            faults::table(fault, &mut random).1
        }
    };
    Drawn { name, way: Some(way), table, capture }
}
