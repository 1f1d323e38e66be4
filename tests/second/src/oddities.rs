//! The generator's invalid tables, unsound states, and named elements and APDUs.

use crate::cases::{self, Named};
use crate::code::Code;
use crate::faults;
use crate::frame::{self, Frame};
use crate::generate::{free_id, Generator, Group};
use crate::indefinite;
use crate::model::Model;
use crate::names;
use crate::state::State;

/// Named octets, and what they are there to show.
pub type List = (Group, &'static [Named]);

/// What is received: an element as a value in an APDU that is right otherwise, or the octets as they are.
pub const ARRIVALS: &[List] = &[
    (Group::MalformedReceived, cases::MALFORMED),
    (Group::MalformedReceived, indefinite::MALFORMED),
    (Group::MalformedReceived, indefinite::BEHIND),
    (Group::WellFormedReceived, cases::WELL_FORMED),
    (Group::WellFormedReceived, indefinite::WELL_FORMED),
    (Group::MalformedApdu, indefinite::MALFORMED_APDUS),
    (Group::MistypedWithId, cases::MISTYPED_WITH_ID),
    (Group::MistypedWithId, indefinite::MISTYPED_WITH_ID),
    (Group::MistypedWithoutId, cases::MISTYPED_WITHOUT_ID),
    (Group::MistypedWithoutId, indefinite::MISTYPED_WITHOUT_ID),
    (Group::Unrecognized, cases::UNRECOGNIZED),
    (Group::Unrecognized, indefinite::UNRECOGNIZED),
    (Group::UnacceptableReject, cases::UNACCEPTABLE_REJECTS),
    (Group::UnacceptableReject, indefinite::UNACCEPTABLE_REJECTS),
    (Group::AcceptableReject, cases::ACCEPTABLE_REJECTS),
    (Group::AcceptableReject, indefinite::ACCEPTABLE_REJECTS),
];

/// What is given as the value of a request.
pub const VALUES: &[List] = &[
    (Group::MalformedValue, cases::MALFORMED),
    (Group::MalformedValue, indefinite::MALFORMED),
    (Group::OctetsBehindValue, indefinite::BEHIND),
    (Group::OctetsBehindValue, indefinite::NOT_ONE),
    (Group::WellFormedValue, cases::WELL_FORMED),
    (Group::WellFormedValue, indefinite::WELL_FORMED),
];

/// Lists that are gone through in turn, so that none of their cases is left out for long.
#[derive(Clone, Copy)]
pub(crate) enum Deck {
    Tables,
    Arrivals,
    Values,
    States,
    RightInsides,
    WrongInsides,
    KeptStates,
    OwnProbes,
    Fetched,
    NotFetched,
}

/// How many such lists there are.
pub(crate) const DECKS: usize = Deck::NotFetched as usize + 1;

impl Generator<'_> {
    /// An invalid table for a few calls, at times in an unsound state.
    pub(crate) fn invalid_table(&mut self) {
        let fault = self.turn(Deck::Tables, faults::table_names().len());
        let (name, octets, model) = faults::table(fault, &mut self.random);
        self.set_model(model);
        let state = self.random_state();
        self.set_state(&state);
        self.set(frame::TABLE, &octets);
        self.trouble = 20;
        for _ in 0..self.random.between(1, 2) {
            self.label = Some((Group::InvalidTable, name));
            self.any_call();
        }
        self.trouble = 0;
        match self.random.below(3) {
            0 => self.unsound_state(),
            1 => self.lacking_table(),
            _ => {}
        }
        let model = Model::random(&mut self.random);
        self.set_model(model);
        self.set_state(&State::fresh());
    }

    /// A valid table without a live record's code on one side.
    pub(crate) fn lacking_table(&mut self) {
        let model = if self.random.percent(50) { self.model.clone() } else { Model::close(&mut self.random) };
        self.set_model(model);
        let mut state = self.random_state();
        let code = self.lacked_code();
        let id = free_id(&mut self.random, &state, true);
        let other = free_id(&mut self.random, &state, false);
        match self.random.below(2) {
            0 if !state.own.is_full() => state.own.add(id, code),
            _ if !state.peer.is_full() => state.peer.add(other, code),
            _ => return,
        }
        self.set_state(&state);
        self.ordinary_call();
    }

    /// A code that no operation has, often an error's name or one that differs from an operation's in its length only.
    fn lacked_code(&mut self) -> Code {
        let operations: Vec<Code> = self.model.operations.iter().map(|row| row.code).collect();
        let errors: Vec<Code> = self.model.errors.iter().map(|row| row.code).collect();
        let is_name = |code: &Code| matches!(code, Code::Name(_));
        let code = match self.random.below(4) {
            0 => self.random.pick_where(&errors, is_name),
            1 => self.random.pick_where(&operations, is_name).and_then(names::of_another_length),
            _ => None,
        };
        let lacked = code.filter(|code| code.is_right() && !operations.contains(code));
        lacked.unwrap_or_else(|| self.unlisted_code())
    }

    /// A state that is not sound for a few calls.
    pub(crate) fn unsound_state(&mut self) {
        let states = faults::states();
        let (name, spoil) = states[self.turn(Deck::States, states.len())];
        let mut state = self.random_state();
        spoil(&mut state, &mut self.random);
        self.set_state(&state);
        self.trouble = 20;
        for _ in 0..self.random.between(1, 2) {
            self.label = Some((Group::UnsoundState, name));
            self.any_call();
        }
        self.trouble = 0;
        self.set_state(&State::fresh());
    }

    /// A call, or a request whose value is mostly at fault.
    fn any_call(&mut self) {
        match self.random.percent(15) {
            true => self.with_flawed_values(Self::request),
            false => self.ordinary_call(),
        }
    }

    /// The next of so many cases.
    pub(crate) fn turn(&mut self, deck: Deck, cases: usize) -> usize {
        self.turns[deck as usize] += 1;
        self.turns[deck as usize] % cases
    }

    /// One of the named elements or APDUs, received.
    pub(crate) fn named_arrival(&mut self) {
        let (group, (name, octets)) = self.named(Deck::Arrivals, ARRIVALS);
        self.label = Some((group, name));
        match group {
            Group::MalformedReceived | Group::WellFormedReceived => self.receive_value(octets),
            _ => {
                let lent = (self.room() + self.random.below(6)) as u16;
                self.call(Frame { kind: frame::RECEIVE, lent, payload: octets, ..Frame::default() });
            }
        }
    }

    /// One of the named elements as the value of a request.
    pub(crate) fn named_value(&mut self) {
        let (group, (name, octets)) = self.named(Deck::Values, VALUES);
        self.label = Some((group, name));
        self.send_value(octets);
    }

    /// The next of the named octets in lists.
    fn named(&mut self, deck: Deck, lists: &[List]) -> (Group, Named) {
        let at = self.turn(deck, lists.iter().map(|(_, list)| list.len()).sum());
        let mut all = lists.iter().flat_map(|(group, list)| list.iter().map(|named| (*group, *named)));
        all.nth(at).expect("a turn is below the number of cases")
    }
}
