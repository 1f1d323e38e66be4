//! The generator's calls about resting ids: many forgets, late answers, and ids asked for again.
//! Follows docs/RULES.md, "Ids that rest".

use crate::answer::Problem;
use crate::apdu::Outgoing;
use crate::faults;
use crate::frame::{self, Frame};
use crate::generate::{fill, live, Generator, Group};
use crate::model::OperationRow;
use crate::resting_states::{of_the_remainder, rest, SOUND};
use crate::state::{Record, State};
use crate::values;

/// Forgets in a row from a state in which no id rests.
pub(crate) const FORGOTTEN: [&str; 3] = ["the 64th in a row", "the 65th in a row", "a later one in a row"];

/// Ids that an invoke may have again: what happened to them before.
pub(crate) const ASKED_AGAIN: [&str; 9] = [
    "an id answered by a result",
    "an id answered by an error",
    "an id rejected",
    "an id of class 5",
    "an id whose forget was refused 11",
    "an id forgotten on the peer side",
    "an id whose forget on the peer side was refused 12",
    LEFT,
    LEFT_IN_A_ROW,
];
const LEFT: &str = "an id that left with the 65th";
const LEFT_IN_A_ROW: &str = "an id that left in a row of forgets";

/// Ids that an invoke may not have: what happened while they rested.
pub(crate) const STILL_RESTING: [&str; 10] = [
    "after a late result",
    "after a late error",
    "after a late Reject",
    "after a peer's invoke with it",
    "after a peer's invoke linked to it",
    "after an invoke refused 22",
    "after a forget refused 11",
    "after another forget",
    OLDEST,
    OLDEST_OF_A_ROW,
];
const OLDEST: &str = "the oldest when the 65th came";
const OLDEST_OF_A_ROW: &str = "the oldest after a row of forgets";

/// Room for every APDU.
const LENT: u16 = State::OCTETS as u16;

impl Generator<'_> {
    pub(crate) fn resting_calls(&mut self) {
        match self.random.below(60) {
            0 => self.many_forgets(),
            1..=7 => self.past_the_limit(),
            8..=22 => self.sound_state(),
            23..=34 => self.ask_again(),
            35..=46 => self.ask_still_resting(),
            _ => self.ask_resting(),
        }
    }

    /// A resting id: the oldest, the newest or any.
    pub(crate) fn resting_id(&mut self) -> Option<i32> {
        let ids = self.drive.state.resting.ids();
        match self.random.below(3) {
            0 => ids.first().copied(),
            1 => ids.last().copied(),
            _ => self.random.pick(ids),
        }
    }

    /// A table of all classes, so many asynchronous own records, a few peer records and so many resting ids.
    fn set_resting(&mut self, own: usize, resting: usize) {
        let model = faults::rich_of_either(&mut self.random, 50);
        self.set_model(model);
        let (mut state, operations) = (State::fresh(), &self.model.operations);
        fill(&mut self.random, &mut state.own, own, |random| {
            random.pick_where(operations, |row| matches!(row.class, 2..=4)).map(|row| row.code)
        });
        fill(&mut self.random, &mut state.peer, 4, |random| random.pick(operations).map(|row| row.code));
        let first = if self.random.percent(20) { 0 } else { state.peer.places[self.random.below(4)].id };
        if resting > 0 && state.own.find(first).is_none() && self.random.percent(40) {
            state.resting.add(first);
        }
        rest(&mut self.random, &mut state, resting);
        self.set_state(&state);
    }

    /// The operation of a class, any of 2 to 4 for 0.
    fn of_class(&mut self, class: u8) -> OperationRow {
        let fits = |row: &OperationRow| if class == 0 { matches!(row.class, 2..=4) } else { row.class == class };
        self.random.pick_where(&self.model.operations, fits).expect("the table has all classes")
    }

    /// An invoke that is right but for its id.
    pub(crate) fn ask(&mut self, id: i32, row: OperationRow) {
        let value = self.value(row.argument_rule());
        let frame = Frame { kind: frame::INVOKE, lent: LENT, id, ..Frame::default() };
        self.call(frame.asking(row.code.asked(), &value, &mut Vec::new()));
    }

    pub(crate) fn forget_own(&mut self, id: i32) {
        self.call(Frame { kind: frame::FORGET, id, ..Frame::default() });
    }

    fn forget_peer(&mut self, id: i32) {
        self.call(Frame { kind: frame::FORGET, detail: 1, id, ..Frame::default() });
    }

    /// A Reject with a problem of a kind that has so many.
    fn arrive_reject(&mut self, id: i32, problem: fn(u8) -> Problem, numbers: usize) {
        let problem = problem(self.random.below(numbers) as u8);
        self.arrive(&Outgoing::Reject { id: Some(id), problem }.to_vec());
    }

    pub(crate) fn arrive_invoke(&mut self, id: i32, linked: Option<i32>, row: OperationRow) {
        let value = self.argument(row);
        self.arrive(&Outgoing::Invoke { id, linked, code: row.code.asked(), value: &value }.to_vec());
    }

    /// More than 64 forgets in a row; then an invoke with the id that left last, and one with the oldest that rests.
    fn many_forgets(&mut self) {
        self.set_resting(State::RECORDS, 0);
        let (most, mut forgotten) = (self.random.between(State::RESTING + 1, State::RESTING + 4), Vec::new());
        while forgotten.len() < most {
            let Some(id) = self.own_id() else { return };
            forgotten.push(id);
            let sort = forgotten.len().checked_sub(State::RESTING);
            self.label = sort.map(|sort| (Group::Forgotten, FORGOTTEN[sort.min(2)]));
            self.forget_own(id);
        }
        let oldest = most - State::RESTING;
        self.ask_both((forgotten[oldest - 1], LEFT_IN_A_ROW), (forgotten[oldest], OLDEST_OF_A_ROW));
    }

    /// The id of a live own record, which is asked for first if there is none.
    fn own_id(&mut self) -> Option<i32> {
        if self.drive.state.own.count == 0 {
            let row = self.random.pick_where(&self.model.operations, |row| matches!(row.class, 2..=4))?;
            let id = self.free(true);
            self.ask(id, row);
        }
        live(&mut self.random, &self.drive.state.own).map(|record| record.id)
    }

    /// So many forgets of own records; nothing where no operation makes one.
    pub(crate) fn forget_many(&mut self, count: usize) -> Option<()> {
        for _ in 0..count {
            let id = self.own_id()?;
            self.forget_own(id);
        }
        Some(())
    }

    /// An invoke with an id that rests no more and one with an id that does, in either order.
    fn ask_both(&mut self, gone: (i32, &'static str), resting: (i32, &'static str)) {
        let mut asked = [(Group::AskedAgain, gone), (Group::StillResting, resting)];
        if self.random.percent(50) {
            asked.reverse();
        }
        for (group, (id, name)) in asked {
            let row = self.of_class(0);
            self.label = Some((group, name));
            self.ask(id, row);
        }
    }

    /// Forgets where 63 or 64 ids rest; then invokes with the id that left and with the oldest that rests.
    fn past_the_limit(&mut self) {
        let (own, resting) = (self.random.between(2, 4), State::RESTING - usize::from(self.random.percent(40)));
        self.set_resting(own, resting);
        for _ in 0..self.random.between(1, own - 1) {
            let ids = &self.drive.state.resting.places;
            let (oldest, next, full) = (ids[0], ids[1], self.drive.state.resting.ids().len() == State::RESTING);
            self.forget_many(1);
            if full {
                self.ask_both((oldest, LEFT), (next, OLDEST));
            }
        }
    }

    /// A sound state with resting ids, and a call.
    fn sound_state(&mut self) {
        let (name, change) = SOUND[self.random.below(SOUND.len())];
        self.set_resting(3, 0);
        let mut state = self.drive.state.clone();
        change(&mut state, &mut self.random);
        self.set_state(&state);
        self.label = Some((Group::SoundState, name));
        self.ordinary_call();
    }

    /// An invoke with an id that was used before and does not rest.
    fn ask_again(&mut self) {
        let (own, resting) = (self.random.below(4), [0, 1, 5, 63, 64][self.random.below(5)]);
        self.set_resting(own, resting);
        let State { own, peer, resting, .. } = &self.drive.state;
        let taken = |id| own.find(id).is_some() || peer.find(id).is_some() || resting.contains(id);
        let (id, sort) = (self.random.number_unless(taken), self.random.below(7));
        let row = self.of_class([2, 2, 0, 5, 0, 0, 2][sort]);
        match sort {
            0..=2 => self.ask_and_answer(id, row, sort),
            3 => self.ask(id, row),
            4 => self.forget_own(id),
            _ => {
                let heard = self.of_class(if sort == 5 { 3 } else { 2 });
                self.arrive_invoke(id, None, heard);
                self.forget_peer(id);
            }
        }
        self.label = Some((Group::AskedAgain, ASKED_AGAIN[sort]));
        self.ask(id, row);
    }

    /// An invoke, and a result, an error or a Reject that ends it.
    fn ask_and_answer(&mut self, id: i32, row: OperationRow, sort: usize) {
        self.ask(id, row);
        match sort {
            0 => self.arrive_result(id, row),
            1 => self.arrive_error(id, row),
            _ => self.arrive_reject(id, Problem::Invoke, 8),
        }
    }

    /// An invoke with a resting id, and before it something that leaves the id resting.
    fn ask_still_resting(&mut self) {
        let resting = [1, 2, 5, 63, 64][self.random.below(5)];
        self.set_resting(3, resting);
        let sort = self.random.below(8);
        let newest = self.drive.state.resting.ids().last().copied().filter(|_| sort == 7);
        let Some(id) = newest.or_else(|| self.resting_id()) else { return };
        let row = self.of_class([2, 2, 2, 2, 2, 0, 0, 0][sort]);
        match sort {
            0 => self.arrive_result(id, row),
            1 => self.arrive_error(id, row),
            2 => self.arrive_reject(id, Problem::Invoke, 8),
            3 => self.arrive_invoke(id, None, row),
            4 => {
                let heard = self.free(false);
                self.arrive_invoke(heard, Some(id), row);
            }
            5 => self.ask(id, row),
            6 => self.forget_own(id),
            _ => {
                let own = self.drive.state.own.places[self.random.below(3)].id;
                self.forget_own(own);
            }
        }
        self.label = Some((Group::StillResting, STILL_RESTING[sort]));
        self.ask(id, row);
    }

    /// Invokes with resting ids that would be refused otherwise too, and other calls among them.
    fn ask_resting(&mut self) {
        let own = [0, 2, 3, 32][self.random.below(4)];
        let resting = [1, 2, 5, 63, 64, 64][self.random.below(6)];
        self.set_resting(own, resting);
        if own < State::RECORDS && self.random.percent(25) {
            let (mut state, id) = (self.drive.state.clone(), self.free(true));
            state.own.add(id, self.of_class(1).code);
            self.set_state(&state);
        }
        for _ in 0..self.random.between(2, 5) {
            let Some(id) = self.resting_id() else { return };
            self.trouble = [0, 0, 25, 50][self.random.below(4)];
            match self.random.below(16) {
                0..=7 => self.invoke_with(id),
                8 => self.ask_with_a_wrong_value(id),
                9 => self.ask_with_the_remainder(id),
                10 => self.arrive_reject(id, Problem::Result, 3),
                11 => self.arrive_reject(id, Problem::Error, 5),
                12..=13 => self.meet_a_peer_record(),
                _ => self.ordinary_call(),
            }
            self.trouble = 0;
        }
    }

    /// An invoke whose APDU would have over 4,096 octets or 16 levels, or whose value has octets behind it.
    fn ask_with_a_wrong_value(&mut self, id: i32) {
        let mut model = self.model.clone();
        model.operations.iter_mut().for_each(|row| row.argument = 0x30);
        self.set_model(model);
        let code = self.of_class(0).code;
        let value = match self.random.below(3) {
            0 => values::sized(State::OCTETS, self.random.percent(50)),
            1 => values::deep(0x30, State::LEVELS, self.random.percent(50)),
            _ => vec![0x30, 0x00, self.random.octet()],
        };
        let frame = Frame { kind: frame::INVOKE, lent: LENT, id, ..Frame::default() };
        self.call(frame.asking(code.asked(), &value, &mut Vec::new()));
    }

    /// An invoke received with a peer record's id that rests too, or a forget of that record.
    fn meet_a_peer_record(&mut self) {
        let State { peer, resting, .. } = &self.drive.state;
        let both = self.random.pick_where(peer.live(), |record| resting.contains(record.id));
        let (Some(Record { id, .. }), row) = (both, self.of_class(0)) else { return };
        match self.random.percent(40) {
            true => self.arrive_invoke(id, None, row),
            false => self.forget_peer(id),
        }
    }

    /// An invoke with another id that has a resting one's remainder by 512.
    fn ask_with_the_remainder(&mut self, resting: i32) {
        let (id, row) = (of_the_remainder(&mut self.random, resting), self.of_class(0));
        self.ask(id, row);
    }
}
