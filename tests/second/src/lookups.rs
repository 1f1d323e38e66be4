//! The generator's lookups: codes at every sort of place in lists of every sort of length.

use crate::code::Code;
use crate::codes;
use crate::frame::{self, Frame};
use crate::generate::{fill, free_id, side, Generator};
use crate::model::Model;
use crate::names::Wanted;
use crate::state::{Record, State};
use crate::table::Rule;

/// Any room that is enough for the values drawn here.
const LENT: u16 = 200;

impl Generator<'_> {
    /// A table with lists of drawn lengths, and a few calls that each look a code up.
    pub(crate) fn lookups(&mut self) {
        let model = Model::searched(&mut self.random);
        self.set_model(model);
        let start = self.answerable_state();
        self.set_state(&start);
        for _ in 0..self.random.between(11, 19) {
            let state = &self.drive.state;
            let blocked = state.own.live().iter().any(|record| self.model.class(record.code) == Some(1));
            if blocked || state.own.count < 2 || state.peer.count < 2 {
                self.set_state(&start);
            }
            let own = self.random.percent(50);
            match self.answerable(own, &start).filter(|_| self.random.percent(50)) {
                Some(record) => self.look_up_error(own, record),
                None => self.look_up_operation(own),
            }
        }
    }

    /// A few records on each side, all of operations that have errors.
    fn answerable_state(&mut self) -> State {
        let mut state = State::fresh();
        let model = &self.model;
        for side in [&mut state.own, &mut state.peer] {
            fill(&mut self.random, side, 6, |random| {
                let pair = random.pick(&model.error_pairs);
                let paired = pair.map(|(operation, _)| model.operations[usize::from(operation)]);
                paired.or_else(|| random.pick_where(&model.operations, |row| row.class < 4)).map(|row| row.code)
            });
        }
        state
    }

    /// A live record that the state had at the start.
    fn answerable(&mut self, own: bool, start: &State) -> Option<Record> {
        let at_start = |record: &Record| side(start, own).live().contains(record);
        self.random.pick_where(side(&self.drive.state, own).live(), at_start)
    }

    /// An operation's code, in a request or received.
    fn look_up_operation(&mut self, own: bool) {
        let codes: Vec<Code> = self.model.operations.iter().map(|row| row.code).collect();
        let code = codes::asked(&codes, self.model.names(), &mut self.random);
        let row = self.model.operation(code).map(|(_, row)| row).or(self.random.pick(&self.model.operations));
        let value = self.value(row.map_or(Rule { kind: 0, optional: false }, |row| row.argument_rule()));
        let id = free_id(&mut self.random, &self.drive.state, own);
        if own {
            let frame = Frame { kind: frame::INVOKE, lent: LENT, id, ..Frame::default() };
            self.call(frame.asking(code.asked(), &value, &mut Vec::new()));
        } else {
            self.receive_code(0xA1, id, code, value);
        }
    }

    /// An error's code, in an answer to a peer's record or in one received for an own record.
    fn look_up_error(&mut self, own: bool, Record { id, .. }: Record) {
        let codes: Vec<Code> = self.model.errors.iter().map(|row| row.code).collect();
        let code = codes::asked(&codes, self.model.names(), &mut self.random);
        let listed = self.model.errors.iter().copied().find(|row| row.code == code);
        let row = listed.or(self.random.pick(&self.model.errors));
        let value = self.value(row.map_or(Rule { kind: 0, optional: false }, |row| row.rule()));
        if own {
            self.receive_code(0xA3, id, code, value);
        } else {
            let frame = Frame { kind: frame::ERROR, lent: LENT, id, ..Frame::default() };
            self.call(frame.asking(code.asked(), &value, &mut Vec::new()));
        }
    }

    /// Receives an Invoke or an Error with this code.
    fn receive_code(&mut self, kind: u8, id: i32, code: Code, value: Vec<u8>) {
        let code = Wanted::from(code).element(&mut self.random);
        let fields = vec![self.number(0x02, |_| id), code, value];
        let payload = self.apdu(kind, fields);
        self.arrive(&payload);
    }
}
