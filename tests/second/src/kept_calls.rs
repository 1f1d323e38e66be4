//! The generator's calls about kept answers: what is kept, what leaves, and what a probe then finds.
//! Follows docs/RULES.md, "Kept answers".

use crate::answer::Problem;
use crate::apdu::Outgoing;
use crate::frame::{self, Frame};
use crate::generate::{fill, Generator, Group};
use crate::kept::OCTETS;
use crate::model::{Model, OperationRow, IDEMPOTENT};
use crate::oddities::Deck;
use crate::probe::{self, ACKNOWLEDGE, PROBE};
use crate::probe_calls::Wanted;
use crate::state::{Record, State};
use crate::table::Rule;
use crate::values;

/// Answers in a row from a state in which none is kept.
pub(crate) const GIVEN: [&str; 3] = ["the 8th in a row", "the 9th in a row", "a later one in a row"];

/// Ids whose answer a probe fetches: what happened before.
pub(crate) const FETCHED: [&str; 10] = [
    "after a result",
    "after an error",
    "after an answer of 512 octets",
    "after a probe",
    "after an own invoke with its id",
    "after an Invoke with its id that is refused",
    "after an answer of 513 octets to another",
    "after a table without probe",
    "after an acknowledge of another",
    OLDEST,
];
const OLDEST: &str = "the oldest after a row of answers";

/// Ids that a probe finds nothing of: what happened before.
pub(crate) const NOT_FETCHED: [&str; 7] = [
    "after an answer of 513 octets",
    "after an idempotent answer",
    "after a user reject",
    "after an acknowledge",
    "after a class 5 Invoke with its id",
    "after a forget of an Invoke with its id",
    LEFT,
];
const LEFT: &str = "an id that left in a row of answers";

/// Room for every APDU.
const LENT: u16 = State::OCTETS as u16;

impl Generator<'_> {
    pub(crate) fn kept_calls(&mut self) {
        match self.random.below(100) {
            0..=2 => self.answers_in_a_row(),
            3..=21 => self.fetch(),
            22..=36 => self.find_nothing(),
            37..=63 => self.keep_some(),
            _ => self.kept_ids_again(),
        }
    }

    /// A probe that is to fetch an answer, or to find nothing.
    fn probe_after(&mut self, asked: i32, group: Group, name: &'static str) {
        let id = self.random.number_unless(|id| id == asked || self.drive.state.peer.find(id).is_some());
        self.label = Some((group, name));
        self.arrive_probe(id, PROBE, asked);
    }

    /// The operation of a class that is no probe or acknowledge, idempotent or not where that is asked for.
    fn kept_row(&mut self, class: u8, idempotent: Option<bool>) -> Option<OperationRow> {
        let fits = |row: &OperationRow| {
            let same = idempotent.is_none_or(|wanted| wanted == (row.flags & IDEMPOTENT != 0));
            row.class == class && same && !probe::is_answered_here(&row.code)
        };
        self.random.pick_where(&self.model.operations, fits)
    }

    /// A peer's invocation of an operation, with an id that nothing has.
    pub(crate) fn invoked_anew(&mut self, row: OperationRow) -> i32 {
        let State { own, peer, resting, kept } = &self.drive.state;
        let taken =
            |id| own.find(id).is_some() || peer.find(id).is_some() || resting.contains(id) || kept.find(id).is_some();
        let id = self.random.number_unless(taken);
        self.arrive_invoke(id, None, row);
        id
    }

    /// A result to a peer record; a value of so many octets with what is around it, if that is asked for.
    pub(crate) fn give_result(&mut self, id: i32, row: OperationRow, octets: Option<usize>) {
        let outgoing = |value| Outgoing::Result { id, code: row.code.asked(), value };
        let around = outgoing(&[0; 400]).octets() - 400;
        let value = match octets {
            Some(octets) => sized(row.result, octets - around),
            None => self.value(row.result_rule()),
        };
        self.call(Frame { kind: frame::RESULT, lent: LENT, id, payload: &value, ..Frame::default() });
    }

    /// An error to a peer record; a value of so many octets with what is around it, if that is asked for.
    fn give_error(&mut self, id: i32, row: OperationRow, octets: Option<usize>) {
        let index = self.model.operation(row.code).map_or(0, |(index, _)| index);
        let listed = |pair: &(u16, u16)| usize::from(pair.0) == index;
        let fits = |rule: Rule| octets.is_none() || matches!(rule.kind, 0x04 | 0x30);
        let errors = &self.model.errors;
        let pair = self
            .random
            .pick_where(&self.model.error_pairs, |pair| listed(pair) && fits(errors[usize::from(pair.1)].rule()));
        let Some(error) = pair.map(|pair| self.model.errors[usize::from(pair.1)]) else {
            return self.give_result(id, row, octets);
        };
        let around = Outgoing::Error { id, code: error.code.asked(), value: &[0; 400] }.octets() - 400;
        let value = match octets {
            Some(octets) => sized(error.parameter, octets - around),
            None => self.value(error.rule()),
        };
        let frame = Frame { kind: frame::ERROR, lent: LENT, id, ..Frame::default() };
        self.call(frame.asking(error.code.asked(), &value, &mut Vec::new()));
    }

    /// Nine answers and more in a row; then a probe of the id that left last, and one of the oldest that is kept.
    fn answers_in_a_row(&mut self) {
        self.set_probed(Wanted::Both, 0, 0);
        let most = self.random.between(State::KEPT + 1, State::KEPT + 3);
        let mut given = Vec::new();
        while given.len() < most {
            let class = [1, 2, 2, 4][self.random.below(4)];
            let Some(row) = self.kept_row(class, Some(false)).or_else(|| self.kept_row(2, Some(false))) else { return };
            let id = self.invoked_anew(row);
            given.push(id);
            let sort = given.len().checked_sub(State::KEPT);
            self.label = sort.map(|sort| (Group::KeptInARow, GIVEN[sort.min(2)]));
            match self.random.percent(60) {
                true => self.give_result(id, row, None),
                false => self.give_error(id, row, None),
            }
        }
        let oldest = most - State::KEPT;
        self.probe_after(given[oldest - 1], Group::NotFetched, LEFT);
        self.probe_after(given[oldest], Group::Fetched, OLDEST);
    }

    /// An answer that is kept, something that leaves it kept, and a probe.
    fn fetch(&mut self) {
        let (sort, kept) = (self.turn(Deck::Fetched, FETCHED.len() - 1), [0, 1, 7, 8][self.random.below(4)]);
        self.set_probed(Wanted::Both, 2, kept);
        let with_probe = self.model.clone();
        if sort == 7 {
            self.set_without_probe();
        }
        let Some(row) = self.kept_row(2, Some(false)) else { return };
        let id = self.invoked_anew(row);
        match sort {
            1 => self.give_error(id, row, None),
            2 => self.give_result(id, row, Some(OCTETS)),
            _ => self.give_result(id, row, None),
        }
        match sort {
            3 => self.arrive_probe(id, PROBE, id),
            4 => self.ask(id, row),
            5 => self.arrive_unknown(id),
            6 => {
                let other = self.invoked_anew(row);
                self.give_result(other, row, Some(OCTETS + 1));
            }
            7 => self.set_model(with_probe),
            8 => {
                let (other, asked) = (self.free(false), self.random.number_unless(|other| other == id));
                self.arrive_probe(other, ACKNOWLEDGE, asked);
            }
            _ => {}
        }
        self.probe_after(id, Group::Fetched, FETCHED[sort]);
    }

    /// The same table without probe and acknowledge.
    fn set_without_probe(&mut self) {
        let is_probe = |row: &OperationRow| probe::is_answered_here(&row.code);
        let operations = self.model.operations.iter().copied().filter(|row| !is_probe(row)).collect();
        let model = Model { operations, error_pairs: Vec::new(), child_pairs: Vec::new(), ..self.model.clone() };
        self.set_model(model);
        let mut state = self.drive.state.clone();
        for side in [&mut state.own, &mut state.peer] {
            while let Some(at) = side.live().iter().position(|record| probe::is_answered_here(&record.code)) {
                side.retire(at);
            }
        }
        self.set_state(&state);
    }

    /// An Invoke of an operation that the table does not have.
    fn arrive_unknown(&mut self, id: i32) {
        let code = self.unlisted_code();
        self.arrive(&Outgoing::Invoke { id, linked: None, code: code.asked(), value: &[] }.to_vec());
    }

    /// An answer that is not kept or does not stay kept, and a probe.
    fn find_nothing(&mut self) {
        let (turn, kept) = (self.turn(Deck::NotFetched, 7), [0, 1, 7, 8][self.random.below(4)]);
        let sort = [0, 1, 1, 2, 3, 4, 5][turn];
        self.set_probed(Wanted::Both, 2, kept);
        if sort == 1 {
            self.mark_all_idempotent();
        }
        let Some(row) = self.kept_row(2, Some(sort == 1)) else { return };
        let id = self.invoked_anew(row);
        match sort {
            0 => self.give_result(id, row, Some(OCTETS + 1)),
            2 => self.call(Frame { kind: frame::REJECT, detail: 2, lent: LENT, id, ..Frame::default() }),
            _ => self.give_result(id, row, None),
        }
        match sort {
            3 => {
                let other = self.free(false);
                self.arrive_probe(other, ACKNOWLEDGE, id);
            }
            4 => {
                let Some(row) = self.kept_row(5, None) else { return };
                self.arrive_invoke(id, None, row);
            }
            5 => {
                let Some(row) = self.kept_row(3, None) else { return };
                self.arrive_invoke(id, None, row);
                self.call(Frame { kind: frame::FORGET, detail: 1, id, ..Frame::default() });
            }
            _ => {}
        }
        self.probe_after(id, Group::NotFetched, NOT_FETCHED[sort]);
    }

    /// The same table, but all operations are idempotent if its edition allows that.
    fn mark_all_idempotent(&mut self) {
        let mut model = self.model.clone();
        if model.names.is_some() {
            model.operations.iter_mut().for_each(|row| row.flags |= IDEMPOTENT);
            self.set_model(model);
        }
    }

    /// Answers to peer records of every class with so many kept before, at the limit of octets or not.
    fn keep_some(&mut self) {
        let wanted = [Wanted::Neither, Wanted::Acknowledge, Wanted::Both, Wanted::Both][self.random.below(4)];
        let kept = [0, 1, 6, 7, 8, 8][self.random.below(6)];
        self.set_probed(wanted, 0, kept);
        let (mut state, operations) = (self.drive.state.clone(), &self.model.operations);
        fill(&mut self.random, &mut state.peer, 32, |random| {
            let lent = random.percent(20);
            let fits = |row: &OperationRow| row.class != 5 && (!lent || probe::is_answered_here(&row.code));
            random.pick_where(operations, fits).map(|row| row.code)
        });
        // A peer record's id is no kept one.
        let kept_ids = state.kept.ids().to_vec();
        kept_ids.iter().for_each(|id| {
            if let Some(at) = state.peer.find(*id) {
                state.peer.retire(at);
            }
        });
        self.set_state(&state);
        for _ in 0..self.random.between(3, 8) {
            let Some(Record { id, code }) = self.random.pick(self.drive.state.peer.live()) else { return };
            let Some((_, row)) = self.model.operation(code) else { return };
            let served = probe::is_answered_here(&code);
            let octets = [None, Some(OCTETS - 1), Some(OCTETS), Some(OCTETS + 1)][self.random.below(4)];
            let octets = octets.filter(|_| !served);
            match self.random.below(20) {
                0..=1 => {
                    let needed = Outgoing::Reject { id: Some(id), problem: Problem::Invoke(3) }.octets() as u16;
                    let lent = [needed, needed - 1, LENT][self.random.below(3)];
                    self.call(Frame { kind: frame::REJECT, detail: 3, lent, id, ..Frame::default() });
                }
                2..=9 if row.class != 4 => self.give_error(id, row, octets),
                _ if row.class != 3 => self.give_result(id, row, octets),
                _ => self.give_error(id, row, None),
            }
        }
    }

    /// Received Invokes with kept ids, accepted or refused, and own invokes with them.
    fn kept_ids_again(&mut self) {
        let wanted = if self.random.percent(60) { Wanted::Both } else { Wanted::Neither };
        let (peers, kept) = ([0, 3, 31, 32][self.random.below(4)], [1, 2, 5, 8, 8][self.random.below(5)]);
        self.set_probed(wanted, peers, kept);
        for _ in 0..self.random.between(2, 4) {
            let ids = self.drive.state.kept.ids();
            let id = [ids.first().copied(), ids.last().copied(), self.random.pick(ids)][self.random.below(3)];
            let Some(id) = id else { return };
            let linked = self.random.percent(35).then(|| self.any_own_id());
            let class = self.random.between(1, 5) as u8;
            let Some(mut row) = self.kept_row(class, None) else { return };
            match self.random.below(12) {
                10..=11 => self.end_own_invocation(id),
                0 => self.arrive_unknown(id),
                1 => {
                    let value = self.wrong_value(row.argument_rule());
                    self.arrive(&Outgoing::Invoke { id, linked, code: row.code.asked(), value: &value }.to_vec());
                }
                2 => self.ask(id, row),
                _ => {
                    let parent = linked.and_then(|linked| self.own_record(linked));
                    row =
                        parent.and_then(|parent| self.child(parent)).filter(|_| self.random.percent(70)).unwrap_or(row);
                    self.arrive_invoke(id, linked, row);
                }
            }
        }
    }

    /// A forget of the own record with this id or a result to it, or of any if there is none.
    fn end_own_invocation(&mut self, id: i32) {
        let own = self.own_record(id).map_or_else(|| self.any_own_id(), |record| record.id);
        let row = self.own_record(own).and_then(|record| self.model.operation(record.code));
        match row.filter(|(_, row)| row.class != 3 && self.random.percent(50)) {
            Some((_, row)) => self.arrive_result(own, row),
            None => self.forget_own(own),
        }
    }

    /// An own record's id mostly.
    fn any_own_id(&mut self) -> i32 {
        let own = self.random.pick(self.drive.state.own.live()).filter(|_| self.random.percent(85));
        own.map_or(7, |record| record.id)
    }

    fn own_record(&self, id: i32) -> Option<Record> {
        self.drive.state.own.find(id).map(|at| self.drive.state.own.places[at])
    }
}

/// A value of this type, 04 or a constructed one, of exactly so many octets.
fn sized(kind: u8, octets: usize) -> Vec<u8> {
    let mut value = values::sized(octets, false);
    value[0] = kind;
    value
}
