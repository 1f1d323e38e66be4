//! The generator's calls at, just below and just above each limit of docs/RULES.md, "What is built".

use crate::apdu::Outgoing;
use crate::code::Code;
use crate::frame::{self, Frame};
use crate::generate::{fill, free_id, Generator};
use crate::model::{ErrorRow, Model, OperationRow};
use crate::names::{self, Wanted};
use crate::random::Random;
use crate::state::State;
use crate::values::{self, constructed, element, integer_contents};

/// What a value at the limit lies in.
#[derive(Clone, Copy, PartialEq, Eq)]
enum Place {
    Invoke,
    Result,
    Error,
}

/// What a plain table and state hold: the id of both records, and the codes.
#[derive(Clone, Copy)]
struct Plain {
    id: i32,
    code: Code,
    silent: Code,
    error: Code,
}

impl Plain {
    /// The code that an APDU has.
    fn code_in(&self, place: Place) -> Code {
        match place {
            Place::Error => self.error,
            _ => self.code,
        }
    }
}

impl Generator<'_> {
    pub(crate) fn limit(&mut self) {
        match self.random.below(10) {
            0..=2 => self.received_value_limit(),
            3..=6 => self.sent_value_limit(),
            7..=8 => self.record_limit(),
            _ => self.table_limit(),
        }
    }

    /// A table with one operation of class 2, one of class 5 and one error, all values of one type, 0 for none, and optional;
    /// a state with one record of the first on each side. The codes are local, or names.
    fn set_plain(&mut self, kind: u8) -> Plain {
        // Neither code is then that of a probe or acknowledge.
        let number = self.random.number_unless(|number| (-8..0).contains(&number)) >> 1;
        let names = self.random.percent(45).then(|| names::different(&mut self.random, 3));
        let [code, silent, error] = match &names {
            Some(names) => [names[0], names[1], names[self.random.below(3)]].map(Code::Name),
            None => [number, number + 1, self.random.number()].map(Code::Local),
        };
        let optional = u8::from(kind != 0);
        let row = OperationRow { code, class: 2, argument: kind, result: kind, flags: 3 * optional };
        let last = OperationRow { code: silent, class: 5, argument: kind, result: 0, flags: optional };
        self.set_model(Model {
            operations: vec![row, last],
            errors: vec![ErrorRow { code: error, parameter: kind, optional }],
            error_pairs: vec![(0, 0)],
            child_pairs: vec![(0, 0), (0, 1)],
            names,
        });
        let id = self.random.number();
        let mut state = State::fresh();
        state.own.add(id, code);
        state.peer.add(id, code);
        self.set_state(&state);
        Plain { id, code, silent, error }
    }

    fn place(&mut self) -> Place {
        [Place::Invoke, Place::Result, Place::Error][self.random.below(3)]
    }

    /// Whether an APDU and a Result's 30 are of indefinite length, both definite more often.
    fn framing(&mut self) -> [bool; 2] {
        [[false, false], [false, false], [false, true], [true, false], [true, true]][self.random.below(5)]
    }

    /// Which levels are of indefinite length: none, all, or some.
    pub(crate) fn forms(&mut self) -> impl Fn(usize) -> bool {
        let levels = match self.random.below(4) {
            0 => 0,
            1..=2 => u64::MAX,
            _ => self.random.draw(),
        };
        move |level| levels >> level & 1 != 0
    }

    /// Received octets and levels: one below, at and above the limit.
    fn received_value_limit(&mut self) {
        let plain = self.set_plain(0x30);
        let place = self.place();
        let id = if place == Place::Invoke { free_id(&mut self.random, &self.drive.state, false) } else { plain.id };
        let (framing, code) = (self.framing(), Wanted::from(plain.code_in(place)).element(&mut self.random));
        let wrap = |value: &[u8]| wrapped(place, framing, id, &code, value);
        let apdu = if self.random.percent(50) {
            let around = wrap(&vec![0; 4000]).len() - 4000;
            let octets = self.random.between(4095, 4097) - around;
            wrap(&values::sized(octets, self.random.percent(50)))
        } else {
            let around = if place == Place::Result { 2 } else { 1 };
            let (levels, forms) = (self.random.between(15, 17) - around, self.forms());
            wrap(&values::deep_in_forms(0x30, levels, self.random.percent(50), forms))
        };
        let lent = [10, 11, 11, 11, 11, 12][self.random.below(6)];
        self.call(Frame { kind: frame::RECEIVE, lent, payload: &apdu, ..Frame::default() });
    }

    /// Receives a value, mostly of the right type, in an Invoke, a Result or an Error that is right otherwise.
    pub(crate) fn receive_value(&mut self, value: &[u8]) {
        let kind = if self.random.percent(8) { 0xC3 } else { type_of(value) };
        let plain = self.set_plain(kind);
        let place = self.place();
        let id = if place == Place::Invoke { free_id(&mut self.random, &self.drive.state, false) } else { plain.id };
        let (framing, code) = (self.framing(), Wanted::from(plain.code_in(place)).element(&mut self.random));
        let payload = wrapped(place, framing, id, &code, value);
        self.call(Frame { kind: frame::RECEIVE, lent: 11, payload: &payload, ..Frame::default() });
    }

    /// Sends a value of the right type in a request that is right otherwise.
    pub(crate) fn send_value(&mut self, value: &[u8]) {
        self.send_value_as(type_of(value), false, value);
    }

    /// Sends a value in a request that is right otherwise and is to have one of this type, 0 for none; at times with as
    /// many own records as there can be.
    pub(crate) fn send_value_as(&mut self, kind: u8, is_full: bool, value: &[u8]) {
        let plain = self.set_plain(kind);
        let place = self.place();
        if is_full {
            self.fill_own(plain.code);
        }
        self.send(place, plain, |_, _| value.to_vec());
    }

    /// As many own records as there can be, all of one operation.
    fn fill_own(&mut self, code: Code) {
        let mut state = self.drive.state.clone();
        fill(&mut self.random, &mut state.own, State::RECORDS, |_| Some(code));
        self.set_state(&state);
    }

    /// Sent octets and levels: one below, at and above the limit, and values that are too large themselves.
    fn sent_value_limit(&mut self) {
        let plain = self.set_plain(0x30);
        let place = self.place();
        if place == Place::Invoke && self.random.percent(15) {
            self.fill_own(plain.code);
        }
        let around_levels = if place == Place::Result { 2 } else { 1 };
        let forms = self.forms();
        self.send(place, plain, |random, around| match random.below(20) {
            0..=7 => values::sized(random.between(4095, 4097) - around, random.percent(50)),
            8 => values::sized(random.between(4097, 6000), random.percent(50)),
            9..=17 => values::deep_in_forms(0x30, random.between(15, 17) - around_levels, random.percent(40), forms),
            _ => values::deep_in_forms(0x30, random.between(16, 17), random.percent(40), forms),
        });
    }

    /// A request with the value made for so many octets around it.
    fn send(&mut self, place: Place, plain: Plain, value: impl FnOnce(&mut Random, usize) -> Vec<u8>) {
        let id = if place == Place::Invoke { free_id(&mut self.random, &self.drive.state, true) } else { plain.id };
        let linked = (place == Place::Invoke && self.random.percent(30)).then_some(plain.id);
        let code = plain.code_in(place);
        let code = code.asked();
        let outgoing = |value| match place {
            Place::Invoke => Outgoing::Invoke { id, linked, code, value },
            Place::Result => Outgoing::Result { id, code, value },
            Place::Error => Outgoing::Error { id, code, value },
        };
        let value = value(&mut self.random, outgoing(&[0; 4000]).octets() - 4000);
        let needed = outgoing(&value).octets();
        let lent = [needed, needed, needed + 1, needed - 1, needed + 40][self.random.below(5)] as u16;
        let detail = u8::from(linked.is_some());
        let frame = Frame { detail, lent, id, linked: linked.unwrap_or(0), ..Frame::default() };
        let mut room = Vec::new();
        self.call(match place {
            Place::Invoke => Frame { kind: frame::INVOKE, ..frame }.asking(code, &value, &mut room),
            Place::Result => Frame { kind: frame::RESULT, payload: &value, ..frame },
            Place::Error => Frame { kind: frame::ERROR, ..frame }.asking(code, &value, &mut room),
        });
    }

    /// 31 and 32 records on a side, then a new invocation of class 2 or 5, then one record less.
    fn record_limit(&mut self) {
        let Plain { code, silent, .. } = self.set_plain(0x30);
        let own = self.random.percent(50);
        let mut state = State::fresh();
        let filled = if own { &mut state.own } else { &mut state.peer };
        let count = self.random.between(30, 32);
        fill(&mut self.random, filled, count, |_| Some(code));
        let retired = filled.places[self.random.below(count)].id;
        self.set_state(&state);
        for _ in 0..self.random.between(1, 3) {
            let code = if self.random.percent(30) { silent } else { code };
            let id = free_id(&mut self.random, &self.drive.state, own);
            let short = self.random.percent(10);
            if own {
                let lent = if short { 3 } else { 40 };
                let frame = Frame { kind: frame::INVOKE, lent, id, ..Frame::default() };
                self.call(frame.asking(code.asked(), &[], &mut Vec::new()));
            } else {
                let code = Wanted::from(code).element(&mut self.random);
                let payload = wrapped(Place::Invoke, self.framing(), id, &code, &[]);
                self.call(Frame { kind: frame::RECEIVE, lent: 11, payload: &payload, ..Frame::default() });
            }
        }
        if own {
            self.call(Frame { kind: frame::FORGET, id: retired, ..Frame::default() });
        } else {
            self.call(Frame { kind: frame::RESULT, lent: 40, id: retired, ..Frame::default() });
        }
        self.ordinary_call();
    }

    /// Full tables, and tables with one entry less in one part; one entry more is an invalid table.
    fn table_limit(&mut self) {
        let mut model = Model::full(&mut self.random);
        match self.random.below(8) {
            0 => {
                model.operations.pop();
                let kept = model.operations.len() as u16;
                model.error_pairs.retain(|pair| pair.0 < kept);
                model.child_pairs.retain(|pair| pair.0 < kept && pair.1 < kept);
            }
            1 => {
                model.errors.pop();
                let kept = model.errors.len() as u16;
                model.error_pairs.retain(|pair| pair.1 < kept);
            }
            2 => drop(model.error_pairs.remove(self.random.below(256))),
            3 => drop(model.child_pairs.remove(self.random.below(256))),
            4..=5 => model.drop_a_name(&mut self.random),
            _ => {}
        }
        self.set_model(model);
        let state = self.random_state();
        self.set_state(&state);
        for _ in 0..self.random.between(2, 5) {
            self.ordinary_call();
        }
    }
}

/// An APDU with shortest or indefinite lengths around a value, or none if it is empty.
fn wrapped(place: Place, [outer, inner]: [bool; 2], id: i32, code: &[u8], value: &[u8]) -> Vec<u8> {
    let id = element(0x02, &integer_contents(id));
    match place {
        Place::Invoke => constructed(0xA1, &[&id, code, value].concat(), outer),
        Place::Result => {
            let returned = constructed(0x30, &[code, value].concat(), inner);
            constructed(0xA2, &[id, returned].concat(), outer)
        }
        Place::Error => constructed(0xA3, &[&id, code, value].concat(), outer),
    }
}

/// The first octet as the type in a table, or 30 if it cannot be one.
fn type_of(value: &[u8]) -> u8 {
    match value[0] {
        0 => 0x30,
        kind if kind & 0x1F == 0x1F => 0x30,
        kind => kind,
    }
}
