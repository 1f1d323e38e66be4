//! Scripts from a seed: episodes of calls that fit the state reached, with faults, limits and damage among them.
//! The calls themselves are made in `requests`, `arrivals`, `lookups`, `named_calls`, `resting_calls`, `probe_calls`,
//! `kept_calls`, `limits`, `oddities` and `flawed_calls`.

use crate::answer::Answer;
use crate::code::Code;
use crate::days::{self, Logged};
use crate::drive::{Drive, Step};
use crate::engine::REJECT_OCTETS;
use crate::flawed::Flaw;
use crate::frame::{self, Frame};
use crate::kept_states;
use crate::model::Model;
use crate::oddities::DECKS;
use crate::random::Random;
use crate::resting_states;
use crate::state::{Record, Side, State};
use crate::table::Table;

/// A call as it was made, for coverage.
pub struct Seen<'a> {
    pub table: &'a [u8],
    pub before: &'a State,
    pub frame: &'a Frame<'a>,
    pub answer: &'a Answer<'a>,
    pub written: &'a [u8],
    pub label: Option<Label>,
    /// The first fault that the octets were made with.
    pub flaw: Option<Flaw>,
    /// The state is the one the call before left.
    pub follows: bool,
}

/// What a call was made to show: a group of cases and one of their names.
pub type Label = (Group, &'static str);

#[derive(Clone, Copy, Debug, PartialEq, Eq)]
pub enum Group {
    InvalidTable,
    UnsoundState,
    MalformedReceived,
    MalformedApdu,
    MalformedValue,
    OctetsBehindValue,
    WellFormedReceived,
    WellFormedValue,
    MistypedWithId,
    MistypedWithoutId,
    Unrecognized,
    UnacceptableReject,
    AcceptableReject,
    Damaged,
    SoundState,
    Forgotten,
    AskedAgain,
    StillResting,
    RightInside,
    WrongInside,
    KeptInARow,
    Fetched,
    NotFetched,
}

type Watch<'w> = dyn FnMut(&Seen<'_>) + 'w;

pub struct Generator<'w> {
    pub(crate) random: Random,
    pub(crate) drive: Drive,
    /// The table in force unless an invalid one stands in for a few calls.
    pub(crate) model: Model,
    pub(crate) label: Option<Label>,
    pub(crate) flaw: Option<Flaw>,
    /// Whether values of requests are mostly at fault.
    pub(crate) flawed_values: bool,
    /// What the last call wrote.
    pub(crate) written: Vec<u8>,
    /// How many times in a hundred to do a thing wrong.
    pub(crate) trouble: usize,
    script: Vec<u8>,
    left: usize,
    follows: bool,
    /// Where each list of named cases is gone on with.
    pub(crate) turns: [usize; DECKS],
    /// How far the kinds of fault are gone through.
    pub(crate) flaws: usize,
    watch: Option<&'w mut Watch<'w>>,
    /// The entries of a day, if one is kept.
    pub(crate) day: Option<Vec<Logged>>,
}

/// The script of a seed with so many calls.
pub fn script(seed: u64, calls: usize) -> Vec<u8> {
    Generator::new(seed, calls, None).run()
}

/// Shows every call of a script.
pub fn watch<'w>(seed: u64, calls: usize, watch: &'w mut Watch<'w>) {
    Generator::new(seed, calls, Some(watch)).run();
}

impl<'w> Generator<'w> {
    fn new(seed: u64, calls: usize, watch: Option<&'w mut Watch<'w>>) -> Self {
        let mut random = Random::new(seed);
        Generator {
            turns: [0; DECKS].map(|_| random.below(1000)),
            random,
            drive: Drive::default(),
            model: Model::default(),
            label: None,
            flaw: None,
            flawed_values: false,
            flaws: seed as usize % 1000 * 31,
            written: Vec::new(),
            script: Vec::new(),
            left: calls,
            trouble: 0,
            follows: false,
            watch,
            day: None,
        }
    }

    /// A fresh end with one table, whose calls are kept as the entries of a day.
    pub(crate) fn of_a_day(seed: u64, model: impl FnOnce(&mut Random) -> Model) -> Self {
        let mut end = Generator { day: Some(Vec::new()), ..Generator::new(seed, usize::MAX, None) };
        let model = model(&mut end.random);
        end.set_model(model);
        end
    }

    fn run(mut self) -> Vec<u8> {
        while self.left > 0 {
            match self.random.below(298) {
                0..=20 => self.invalid_table(),
                21..=26 => self.unsound_state(),
                27..=30 => self.lacking_table(),
                31..=72 => self.limit(),
                73..=130 => self.named_arrival(),
                131..=164 => self.named_value(),
                165..=174 => self.lookups(),
                175..=182 => self.named_calls(),
                183..=198 => self.resting_calls(),
                199..=203 => self.episode(),
                204..=262 => self.flawed_call(),
                263..=268 => self.flawed_requests(),
                269..=286 => self.probe_calls(),
                _ => self.kept_calls(),
            }
        }
        self.end();
        self.script
    }

    /// Makes a call, unless the script has all its calls.
    pub(crate) fn call(&mut self, frame: Frame<'_>) {
        let (label, flaw) = (self.label.take(), self.flaw.take());
        if self.left == 0 {
            return;
        }
        self.left -= 1;
        frame.append(&mut self.script);
        let before = self.watch.is_some().then(|| self.drive.state.clone());
        let Step::Called(answer) = self.drive.step(&frame) else { return };
        self.written.clear();
        self.written.extend(self.drive.output(answer.written()));
        if let Some(day) = &mut self.day {
            days::note(day, &frame, &answer, &self.written);
        }
        if let (Some(watch), Some(before)) = (&mut self.watch, before) {
            let (table, written, follows) = (&self.drive.table[..], &self.written[..], self.follows);
            watch(&Seen { table, before: &before, frame: &frame, answer: &answer, written, label, flaw, follows });
        }
        self.follows = true;
    }

    pub(crate) fn set(&mut self, kind: u8, payload: &[u8]) {
        let frame = Frame { kind, payload, ..Frame::default() };
        frame.append(&mut self.script);
        self.drive.step(&frame);
        self.follows = false;
    }

    pub(crate) fn set_model(&mut self, model: Model) {
        self.set(frame::TABLE, &model.octets());
        self.model = model;
    }

    pub(crate) fn set_state(&mut self, state: &State) {
        let shorter = match self.random.below(5) {
            0..=1 => frame::local_image(state),
            2 => frame::named_image(state),
            3 => frame::resting_image(state),
            _ => None,
        };
        self.set(frame::STATE, &shorter.unwrap_or_else(|| frame::image(state)));
    }

    /// How many octets receive needs with the table in force.
    pub(crate) fn room(&self) -> usize {
        Table::new(&self.drive.table).map_or(REJECT_OCTETS, |table| table.listed.room(REJECT_OCTETS))
    }

    /// Whether to do the next thing wrong.
    pub(crate) fn fault(&mut self) -> bool {
        self.trouble > 0 && self.random.percent(self.trouble)
    }

    /// A few calls that fit the state reached, most of them right, some wrong in one way, some in many.
    fn episode(&mut self) {
        self.set_table_and_state();
        for _ in 0..self.random.between(6, 20) {
            self.trouble = [0, 0, 0, 0, 0, 12, 20, 30, 50, 50][self.random.below(10)];
            self.ordinary_call();
        }
        self.trouble = 0;
    }

    fn set_table_and_state(&mut self) {
        match self.random.below(10) {
            0 => {
                let model = self.model.extended(&mut self.random);
                if model.is_valid() {
                    self.set_model(model);
                }
            }
            1 => self.set_state(&State::fresh()),
            2 => {
                let length = [0, 258, 515, 517, 674, 1347, 1349, 1605, 1607, 5751, 5753][self.random.below(11)];
                self.set(frame::STATE, &vec![0xFF; length]);
            }
            _ => {
                let model = self.random_model();
                self.set_model(model);
                let state = self.random_state();
                self.set_state(&state);
            }
        }
    }

    /// A table for an episode: mostly a small one, now and then a full one or one with lists of drawn lengths.
    fn random_model(&mut self) -> Model {
        match self.random.below(25) {
            0 => Model::full(&mut self.random),
            1..=3 => Model::searched(&mut self.random),
            _ => Model::random(&mut self.random),
        }
    }

    /// A sound state whose codes are in the table, few of the own ones synchronous.
    pub(crate) fn random_state(&mut self) -> State {
        let mut state = State::fresh();
        if self.random.percent(30) {
            return state;
        }
        for own in [true, false] {
            let count = match self.random.below(12) {
                0 => 31,
                1 => 32,
                _ => self.random.below(7),
            };
            let blocking = self.random.percent(20);
            let model = &self.model;
            let side = if own { &mut state.own } else { &mut state.peer };
            fill(&mut self.random, side, count, |random| {
                random.pick_where(&model.operations, |row| !own || blocking || row.class != 1).map(|row| row.code)
            });
        }
        if self.random.percent(40) {
            let count = [1, 2, 5, 62, 63, 64][self.random.below(6)];
            resting_states::rest(&mut self.random, &mut state, count);
        }
        if self.random.percent(30) {
            let count = [1, 2, 7, 8][self.random.below(4)];
            kept_states::keep(&mut self.random, &mut state, count);
        }
        state
    }

    /// Behind the last call: a frame that ends the run before another call, a frame cut short, or nothing.
    fn end(&mut self) {
        let forget = Frame { kind: frame::FORGET, ..Frame::default() };
        match self.random.below(3) {
            0 => {
                Frame { kind: 8 + self.random.octet() % 248, ..Frame::default() }.append(&mut self.script);
                forget.append(&mut self.script);
            }
            1 => {
                Frame { payload: &[0; 40], ..forget }.append(&mut self.script);
                self.script.truncate(self.script.len() - self.random.between(1, 57));
            }
            _ => {}
        }
    }
}

/// Adds records with new ids until the side has so many.
pub(crate) fn fill(
    random: &mut Random,
    side: &mut Side,
    count: usize,
    mut code: impl FnMut(&mut Random) -> Option<Code>,
) {
    while usize::from(side.count) < count {
        let Some(code) = code(random) else { return };
        let id = random.number_unless(|id| side.find(id).is_some());
        side.add(id, code);
    }
}

/// An id that no live record of the side has and that, on the own side, does not rest.
pub(crate) fn free_id(random: &mut Random, state: &State, own: bool) -> i32 {
    random.number_unless(|id| side(state, own).find(id).is_some() || own && state.resting.contains(id))
}

/// A live record of the side, if there is one.
pub(crate) fn live(random: &mut Random, side: &Side) -> Option<Record> {
    random.pick(side.live())
}

pub(crate) fn side(state: &State, own: bool) -> &Side {
    if own {
        &state.own
    } else {
        &state.peer
    }
}
