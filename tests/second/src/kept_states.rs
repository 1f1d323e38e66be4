//! States with kept answers, by name: those that are not sound, and sound ones next to them.
//! Follows docs/RULES.md, "Kept answers".

use crate::faults::StateFault;
use crate::kept::{Kept, OCTETS};
use crate::random::Random;
use crate::resting_states::rest;
use crate::state::State;
use crate::values::{element, integer_contents};

/// Each makes a sound state unsound.
pub const UNSOUND: &[(&str, StateFault)] = &[
    ("kept count 9", |state, random| over(state, random, 9)),
    ("kept count over 9", |state, random| {
        let count = random.between(10, 65_535) as u16;
        over(state, random, count);
    }),
    ("kept count 8 too large", |state, random| {
        renew(state, random, 3);
        state.kept.count += State::KEPT as u16;
    }),
    ("kept id twice, neighbours", |state, random| {
        let count = renew_between(state, random, 2);
        let at = random.between(1, count - 1);
        state.kept.ids[at] = state.kept.ids[at - 1];
    }),
    ("kept id twice, first and last", |state, random| {
        let count = renew_between(state, random, 3);
        state.kept.ids[count - 1] = state.kept.ids[0];
    }),
    ("kept id twice of eight, first and last", |state, random| {
        renew(state, random, State::KEPT);
        state.kept.ids[State::KEPT - 1] = state.kept.ids[0];
    }),
    ("kept id twice among some of its remainder", |state, random| {
        of_one_remainder(state, random, 6);
        state.kept.ids[5] = state.kept.ids[random.below(5)];
    }),
    ("kept 0 twice", |state, random| {
        let count = renew_between(state, random, 2);
        let second = random.between(1, count - 1);
        (state.kept.ids[second], state.kept.ids[random.below(second)]) = (0, 0);
    }),
    ("kept id of the first peer record", |state, random| live(state, random, |_, _| 0)),
    ("kept id of the last peer record", |state, random| live(state, random, |_, count| count - 1)),
    ("kept id of any peer record", |state, random| live(state, random, Random::below)),
    ("kept id of a peer record, eight kept", |state, random| {
        live(state, random, Random::below);
        keep(random, state, State::KEPT);
        state.kept.ids.swap(0, random.below(State::KEPT));
    }),
    ("kept length 513", |state, random| long(state, random, 513)),
    ("kept length over 513", |state, random| {
        let length = [514, 768, 1024, 0x8000, u16::MAX, random.between(514, 65_535) as u16][random.below(6)];
        long(state, random, length);
    }),
    ("kept length 513, the last of eight", |state, random| {
        renew(state, random, State::KEPT);
        state.kept.lengths[State::KEPT - 1] = 513;
    }),
    ("kept length right modulo 512", |state, random| {
        let at = one(state, random);
        state.kept.lengths[at] += OCTETS as u16;
    }),
    ("octet behind a kept answer", |state, random| behind(state, random, |length, _| length)),
    ("last octet behind a kept answer", |state, random| behind(state, random, |_, _| OCTETS - 1)),
    ("any octet behind a kept answer", |state, random| {
        behind(state, random, |length, random| random.between(length, OCTETS - 1))
    }),
    ("octet behind a kept answer of length 0", |state, random| {
        let at = one(state, random);
        (state.kept.lengths[at], state.kept.store[at]) = (0, [0; OCTETS]);
        state.kept.store[at][random.below(OCTETS)] = random.octet() | 1;
    }),
    ("kept length one too small", |state, random| {
        let at = one(state, random);
        let last = usize::from(state.kept.lengths[at]) - 1;
        (state.kept.lengths[at], state.kept.store[at][last]) = (last as u16, random.octet() | 1);
    }),
    ("id in the first unused kept place", |state, random| {
        let at = unused(state, random, true);
        state.kept.ids[at] = nonzero(random);
    }),
    ("id in any unused kept place", |state, random| {
        let at = unused(state, random, false);
        state.kept.ids[at] = nonzero(random);
    }),
    ("length in the first unused kept place", |state, random| {
        let at = unused(state, random, true);
        state.kept.lengths[at] = random.between(1, OCTETS) as u16;
    }),
    ("length in any unused kept place", |state, random| {
        let at = unused(state, random, false);
        state.kept.lengths[at] = random.between(1, OCTETS) as u16;
    }),
    ("octet in the first unused kept place", |state, random| {
        let at = unused(state, random, true);
        state.kept.store[at][random.below(OCTETS)] = random.octet() | 1;
    }),
    ("octet in any unused kept place", |state, random| {
        let at = unused(state, random, false);
        state.kept.store[at][random.below(OCTETS)] = random.octet() | 1;
    }),
    ("first octet of an unused kept place", |state, random| {
        let at = unused(state, random, false);
        state.kept.store[at][0] = random.octet() | 1;
    }),
    ("last octet of the last kept place", |state, random| {
        unused(state, random, false);
        state.kept.store[State::KEPT - 1][OCTETS - 1] = random.octet() | 1;
    }),
    ("id in a kept place, none kept", |state, random| {
        state.kept = Kept::none();
        state.kept.ids[random.below(State::KEPT)] = nonzero(random);
    }),
    ("octet in a kept place, none kept", |state, random| {
        state.kept = Kept::none();
        state.kept.store[random.below(State::KEPT)][random.below(OCTETS)] = random.octet() | 1;
    }),
    ("kept count too small", |state, random| {
        renew_between(state, random, 1);
        state.kept.count -= 1;
    }),
];

/// Each gives a sound state with kept answers.
pub const SOUND: &[(&str, StateFault)] = &[
    ("eight kept answers", |state, random| renew(state, random, State::KEPT)),
    ("seven kept answers", |state, random| renew(state, random, State::KEPT - 1)),
    ("kept answer of length 0", |state, random| {
        let at = one(state, random);
        (state.kept.lengths[at], state.kept.store[at]) = (0, [0; OCTETS]);
    }),
    ("kept 0 of length 0, the last", |state, random| {
        let count = random.between(1, State::KEPT - 1);
        zero(state, random, count);
        let last = usize::from(state.kept.count) - 1;
        (state.kept.lengths[last], state.kept.store[last]) = (0, [0; OCTETS]);
    }),
    ("kept 0 the last of eight", |state, random| zero(state, random, State::KEPT)),
    ("kept octets that are no APDU", |state, random| {
        let at = one(state, random);
        state.kept.store[at] = [0; OCTETS];
        let length = [1, 2, 40, OCTETS][random.below(4)];
        state.kept.store[at][..length].iter_mut().for_each(|octet| *octet = random.octet());
        state.kept.lengths[at] = length as u16;
    }),
    ("kept answer of 512 octets", |state, random| {
        let at = one(state, random);
        fill(state, at);
    }),
    ("eight kept answers of 512 octets", |state, random| {
        renew(state, random, State::KEPT);
        (0..State::KEPT).for_each(|at| fill(state, at));
    }),
    ("kept answer of zeros", |state, random| {
        let at = one(state, random);
        (state.kept.lengths[at], state.kept.store[at]) = (random.between(1, OCTETS) as u16, [0; OCTETS]);
    }),
    ("kept id of an own record", |state, random| {
        let at = one(state, random);
        let own: Vec<i32> =
            state.own.live().iter().map(|record| record.id).filter(|id| !is_taken(state, *id)).collect();
        state.kept.ids[at] = random.pick(&own).unwrap_or(state.kept.ids[at]);
    }),
    ("kept id that rests", |state, random| {
        let at = one(state, random);
        rest(random, state, 5);
        let resting: Vec<i32> = state.resting.ids().iter().copied().filter(|id| !is_taken(state, *id)).collect();
        state.kept.ids[at] = random.pick(&resting).unwrap_or(state.kept.ids[at]);
    }),
    ("the same octets kept twice", |state, random| {
        renew_between(state, random, 2);
        (state.kept.lengths[1], state.kept.store[1]) = (state.kept.lengths[0], state.kept.store[0]);
    }),
    ("kept ids of one remainder by 64", |state, random| {
        let count = random.between(2, State::KEPT);
        of_one_remainder(state, random, count);
    }),
    ("kept id with a peer record's remainder by 64", |state, random| {
        let at = one(state, random);
        let peers: Vec<i32> = state.peer.live().iter().map(|record| record.id).collect();
        let Some(peer) = random.pick(&peers) else { return };
        state.kept.ids[at] = unless_taken(state, random, |random| of_the_remainder(random, peer));
    }),
];

/// Keeps answers to ids that no peer record has until there are so many.
pub fn keep(random: &mut Random, state: &mut State, count: usize) {
    while state.kept.ids().len() < count {
        let id = unless_taken(state, random, Random::number);
        let answer = answer(random, id);
        state.kept.add(id, &answer);
    }
}

/// An answer to an id: a result or an error, short mostly.
fn answer(random: &mut Random, id: i32) -> Vec<u8> {
    let id = element(0x02, &integer_contents(id));
    let code = element(0x02, &integer_contents(random.number()));
    let length = [0, 1, 5, 40, 200, 480][random.below(6)];
    let value = element(0x04, &vec![random.octet(); length]);
    match random.below(3) {
        0 => element(0xA2, &id),
        1 => element(0xA2, &[id, element(0x30, &[code, value].concat())].concat()),
        _ => element(0xA3, &[id, code, value].concat()),
    }
}

/// A state with some kept answers, and the place of one.
fn one(state: &mut State, random: &mut Random) -> usize {
    let count = renew_between(state, random, 1);
    [0, count - 1, random.below(count)][random.below(3)]
}

/// 512 octets in a place.
fn fill(state: &mut State, at: usize) {
    state.kept.store[at].fill(0x30 | at as u8);
    state.kept.lengths[at] = OCTETS as u16;
}

fn is_taken(state: &State, id: i32) -> bool {
    state.kept.find(id).is_some() || state.peer.find(id).is_some()
}

/// An id that is neither kept nor a peer record's.
fn unless_taken(state: &State, random: &mut Random, mut id: impl FnMut(&mut Random) -> i32) -> i32 {
    loop {
        let id = id(random);
        if !is_taken(state, id) {
            return id;
        }
    }
}

/// Another id with the same remainder by 64.
fn of_the_remainder(random: &mut Random, id: i32) -> i32 {
    id.wrapping_add(64 * random.between(1, (1 << 26) - 1) as i32)
}

fn nonzero(random: &mut Random) -> i32 {
    random.number_unless(|id| id == 0)
}

/// Other kept answers, so many.
fn renew(state: &mut State, random: &mut Random, count: usize) {
    state.kept = Kept::none();
    keep(random, state, count);
}

/// Other kept answers, at least so many; gives how many.
fn renew_between(state: &mut State, random: &mut Random, least: usize) -> usize {
    let count = [least, least, random.between(least, State::KEPT), State::KEPT][random.below(4)];
    renew(state, random, count);
    count
}

fn over(state: &mut State, random: &mut Random, count: u16) {
    renew(state, random, State::KEPT);
    state.kept.count = count;
}

/// So many answers to ids of one remainder by 64.
fn of_one_remainder(state: &mut State, random: &mut Random, count: usize) {
    state.kept = Kept::none();
    let first = random.number();
    while state.kept.ids().len() < count {
        let id = unless_taken(state, random, |random| of_the_remainder(random, first));
        let answer = answer(random, id);
        state.kept.add(id, &answer);
    }
}

/// So many answers, the last to 0, which no peer record has.
fn zero(state: &mut State, random: &mut Random, count: usize) {
    if let Some(at) = state.peer.find(0) {
        state.peer.retire(at);
    }
    state.kept = Kept::none();
    while state.kept.ids().len() < count {
        let last = state.kept.ids().len() + 1 == count;
        let id = if last { 0 } else { unless_taken(state, random, nonzero) };
        let answer = answer(random, id);
        state.kept.add(id, &answer);
    }
}

/// The peer record at a drawn place has a kept answer, the first of them.
fn live(state: &mut State, random: &mut Random, at: fn(&mut Random, usize) -> usize) {
    if state.peer.count == 0 {
        state.peer.add(random.number(), Default::default());
    }
    let count = random.below(State::KEPT);
    let peer = state.peer.live()[at(random, usize::from(state.peer.count))].id;
    state.kept = Kept::none();
    let answer = answer(random, peer);
    state.kept.add(peer, &answer);
    keep(random, state, count + 1);
}

fn long(state: &mut State, random: &mut Random, length: u16) {
    let at = one(state, random);
    if random.percent(50) {
        fill(state, at);
    }
    state.kept.lengths[at] = length;
}

/// An octet behind a kept answer, at a drawn place.
fn behind(state: &mut State, random: &mut Random, at: fn(usize, &mut Random) -> usize) {
    let place = one(state, random);
    let length = usize::from(state.kept.lengths[place]);
    let at = at(length, random);
    state.kept.store[place][at] = random.octet() | 1;
}

/// A place that is unused, the first or any.
fn unused(state: &mut State, random: &mut Random, first: bool) -> usize {
    let count = random.below(State::KEPT);
    renew(state, random, count);
    if first {
        count
    } else {
        random.between(count, State::KEPT - 1)
    }
}
