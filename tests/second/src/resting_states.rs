//! States with resting ids, by name: those that are not sound, and sound ones next to them.
//! Follows docs/RULES.md, "Ids that rest".

use crate::faults::StateFault;
use crate::random::Random;
use crate::resting::Resting;
use crate::state::State;

/// Each makes a sound state unsound.
pub const UNSOUND: &[(&str, StateFault)] = &[
    ("resting count 65", |state, random| over(state, random, 65)),
    ("resting count over 65", |state, random| {
        let count = random.between(66, 65_535) as u16;
        over(state, random, count);
    }),
    ("resting count 64 too large", |state, random| {
        renew(state, random, 3);
        state.resting.count += State::RESTING as u16;
    }),
    ("resting id twice, neighbours", |state, random| {
        let count = renew_between(state, random, 2);
        let at = random.between(1, count - 1);
        state.resting.places[at] = state.resting.places[at - 1];
    }),
    ("resting id twice, first and last", |state, random| {
        let count = renew_between(state, random, 3);
        state.resting.places[count - 1] = state.resting.places[0];
    }),
    ("resting id twice of 64, first and last", |state, random| {
        renew(state, random, State::RESTING);
        state.resting.places[State::RESTING - 1] = state.resting.places[0];
    }),
    ("resting id twice, others between", |state, random| {
        let count = renew_between(state, random, 3);
        let second = random.between(2, count - 1);
        state.resting.places[second] = state.resting.places[random.below(second - 1)];
    }),
    ("resting id twice among some of its remainder", |state, random| {
        of_one_remainder(state, random, 6);
        state.resting.places[5] = state.resting.places[random.below(5)];
    }),
    ("resting 0 twice", |state, random| {
        let count = renew_between(state, random, 2);
        let second = random.between(1, count - 1);
        (state.resting.places[second], state.resting.places[random.below(second)]) = (0, 0);
    }),
    ("resting id of the first own record", |state, random| live(state, random, |_, _| 0)),
    ("resting id of the last own record", |state, random| live(state, random, |_, count| count - 1)),
    ("resting id of any own record", |state, random| live(state, random, Random::below)),
    ("resting id of an own record, 64 resting", |state, random| {
        live(state, random, Random::below);
        rest(random, state, State::RESTING);
        state.resting.places.swap(0, random.below(State::RESTING));
    }),
    ("id in the first unused resting place", |state, random| behind(state, random, |count, _| count)),
    ("id in the last unused resting place", |state, random| behind(state, random, |_, _| State::RESTING - 1)),
    ("id in any unused resting place", |state, random| {
        behind(state, random, |count, random| random.between(count, State::RESTING - 1))
    }),
    ("id in a resting place, none resting", |state, random| {
        renew(state, random, 0);
        state.resting.places[random.below(State::RESTING)] = nonzero(random);
    }),
    ("resting count too small", |state, random| {
        let count = renew_between(state, random, 1);
        state.resting.places[count - 1] = other(random, state);
        state.resting.count -= 1;
    }),
];

/// Each gives a sound state with resting ids.
pub const SOUND: &[(&str, StateFault)] = &[
    ("64 resting ids", |state, random| renew(state, random, State::RESTING)),
    ("63 resting ids", |state, random| renew(state, random, State::RESTING - 1)),
    ("resting id of a peer record", |state, random| {
        renew_between(state, random, 1);
        let peers = state.peer.live().iter().map(|record| record.id);
        let ids: Vec<i32> = peers.filter(|id| !is_taken(state, *id)).collect();
        if let Some(id) = random.pick(&ids) {
            state.resting.places[random.below(state.resting.ids().len())] = id;
        }
    }),
    ("0 resting before unused places", |state, random| {
        let count = random.between(0, 5);
        zero_at(state, random, count, count);
    }),
    ("0 the last of 64 resting ids", |state, random| zero_at(state, random, State::RESTING - 1, State::RESTING - 1)),
    ("0 resting first", |state, random| {
        let count = random.between(0, State::RESTING - 1);
        zero_at(state, random, count, 0);
    }),
    ("resting ids of one remainder by 512", |state, random| {
        let count = random.between(2, State::RESTING);
        of_one_remainder(state, random, count);
    }),
    ("resting id with an own record's remainder by 512", |state, random| {
        renew_between(state, random, 1);
        let own: Vec<i32> = state.own.live().iter().map(|record| record.id).collect();
        let Some(own) = random.pick(&own) else { return };
        let id = unless_taken(state, random, |random| of_the_remainder(random, own));
        state.resting.places[random.below(state.resting.ids().len())] = id;
    }),
    ("resting ids that differ in their first octet", |state, random| {
        renew(state, random, 0);
        let low = random.draw() as i32 & 0xFF_FFFF;
        let count = random.between(2, State::RESTING);
        while state.resting.ids().len() < count {
            let id = unless_taken(state, random, |random| i32::from(random.octet()) << 24 | low);
            state.resting.add(id);
        }
    }),
];

/// Adds ids that no own record has until so many rest; some share their remainder by 512 with one before.
pub fn rest(random: &mut Random, state: &mut State, count: usize) {
    while state.resting.ids().len() < count {
        let before = random.pick(state.resting.ids()).filter(|_| random.percent(15));
        let id = unless_taken(state, random, |random| match before {
            Some(id) => of_the_remainder(random, id),
            None => random.number(),
        });
        state.resting.add(id);
    }
}

fn is_taken(state: &State, id: i32) -> bool {
    state.resting.contains(id) || state.own.find(id).is_some()
}

/// An id that neither rests nor is an own record's.
fn unless_taken(state: &State, random: &mut Random, mut id: impl FnMut(&mut Random) -> i32) -> i32 {
    loop {
        let id = id(random);
        if !is_taken(state, id) {
            return id;
        }
    }
}

/// Another id with the same remainder by 512.
pub fn of_the_remainder(random: &mut Random, id: i32) -> i32 {
    id.wrapping_add(512 * random.between(1, (1 << 23) - 1) as i32)
}

fn nonzero(random: &mut Random) -> i32 {
    random.number_unless(|id| id == 0)
}

/// An id that is not 0, not resting and no own record's.
fn other(random: &mut Random, state: &State) -> i32 {
    unless_taken(state, random, nonzero)
}

/// Other resting ids, so many.
fn renew(state: &mut State, random: &mut Random, count: usize) {
    state.resting = Resting::none();
    rest(random, state, count);
}

/// Other resting ids, at least so many; gives how many.
fn renew_between(state: &mut State, random: &mut Random, least: usize) -> usize {
    let count = [least, random.between(least, 9), random.between(least, State::RESTING), State::RESTING];
    let count = count[random.below(4)];
    renew(state, random, count);
    count
}

fn over(state: &mut State, random: &mut Random, count: u16) {
    renew(state, random, State::RESTING);
    state.resting.count = count;
}

/// So many ids of one remainder by 512.
fn of_one_remainder(state: &mut State, random: &mut Random, count: usize) {
    state.resting = Resting::none();
    let first = random.number();
    while state.resting.ids().len() < count {
        let id = unless_taken(state, random, |random| of_the_remainder(random, first));
        state.resting.add(id);
    }
}

/// So many ids and 0 at this place of them, which no own record has.
fn zero_at(state: &mut State, random: &mut Random, count: usize, at: usize) {
    if let Some(own) = state.own.find(0) {
        state.own.retire(own);
    }
    state.resting = Resting::none();
    while state.resting.ids().len() <= count {
        let id = if state.resting.ids().len() == at { 0 } else { other(random, state) };
        state.resting.add(id);
    }
}

/// The own record at a drawn place has a resting id, the first of them.
fn live(state: &mut State, random: &mut Random, at: fn(&mut Random, usize) -> usize) {
    if state.own.count == 0 {
        state.own.add(random.number(), Default::default());
    }
    let count = random.below(State::RESTING);
    let own = state.own.live()[at(random, usize::from(state.own.count))].id;
    state.resting = Resting::none();
    state.resting.add(own);
    rest(random, state, count + 1);
}

/// An id in a drawn place that is unused.
fn behind(state: &mut State, random: &mut Random, at: fn(usize, &mut Random) -> usize) {
    let count = random.below(State::RESTING);
    renew(state, random, count);
    state.resting.places[at(count, random)] = other(random, state);
}
