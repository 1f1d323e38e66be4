//! The generator's ordinary calls: the four requests and forget, each part right or wrong on its own.

use crate::answer::Problem;
use crate::apdu::Outgoing;
use crate::code::Code;
use crate::codes;
use crate::flawed;
use crate::frame::{self, Frame};
use crate::generate::{free_id, live, side, Generator};
use crate::model::OperationRow;
use crate::names::{self, Wanted};
use crate::oddities::VALUES;
use crate::state::Record;
use crate::table::Rule;
use crate::values;

impl Generator<'_> {
    /// A call that makes sense in the state reached.
    pub(crate) fn ordinary_call(&mut self) {
        let state = &self.drive.state;
        let blocked = state.own.live().iter().any(|record| self.model.class(record.code) == Some(1));
        let peers = state.peer.count > 0;
        match self.random.below(100) {
            0..=17 if !blocked || self.random.percent(50) => self.invoke(),
            18..=27 if peers || self.random.percent(20) => self.result(),
            28..=38 if peers || self.random.percent(20) => self.error(),
            39..=46 if peers || self.random.percent(30) => self.reject(),
            47..=54 => self.forget(),
            _ => self.receive(),
        }
    }

    /// A request with a value, of any of the three kinds.
    pub(crate) fn request(&mut self) {
        match self.random.below(10) {
            0..=4 => self.invoke(),
            5..=7 => self.result(),
            _ => self.error(),
        }
    }

    fn invoke(&mut self) {
        let resting = self.resting_id().filter(|_| self.fault() && self.random.percent(50));
        let id = resting.unwrap_or_else(|| self.id(true, false));
        self.invoke_with(id);
    }

    /// An invoke with this id, right or wrong otherwise.
    pub(crate) fn invoke_with(&mut self, id: i32) {
        let mut row = self.random.pick(&self.model.operations);
        let mut linked = None;
        if self.random.percent(35) {
            let parent = self.parent(false).filter(|_| !self.fault());
            linked =
                Some(parent.map_or_else(|| free_id(&mut self.random, &self.drive.state, false), |record| record.id));
            row = parent.and_then(|parent| self.child(parent)).filter(|_| !self.fault()).or(row);
        }
        let code = row.filter(|_| !self.fault()).map_or_else(|| self.unknown_code(), |row| row.code.into());
        let value = self.value(row.map_or(Rule { kind: 0, optional: false }, |row| row.argument_rule()));
        let lent = self.lent(Outgoing::Invoke { id, linked, code: code.asked(), value: &value }.octets());
        let detail = if linked.is_some() { frame::LINKED } else { [0, 0, 0, 0, 4, 0xFC][self.random.below(6)] };
        let linked = linked.unwrap_or_else(|| self.random.number());
        let frame = Frame { kind: frame::INVOKE, detail, lent, id, linked, ..Frame::default() };
        self.call(frame.asking(code.asked(), &value, &mut Vec::new()));
    }

    fn result(&mut self) {
        let record = self.answered(|class| !matches!(class, 3 | 5));
        let id = record.map_or_else(|| self.id(false, false), |record| record.id);
        let code = record.map_or(Code::default(), |record| record.code);
        let row = self.model.operation(code).map(|(_, row)| row);
        let value = self.value(row.map_or(Rule { kind: 0x04, optional: true }, |row| row.result_rule()));
        let lent = self.lent(Outgoing::Result { id, code: code.asked(), value: &value }.octets());
        self.call(Frame { kind: frame::RESULT, lent, id, payload: &value, ..Frame::default() });
    }

    fn error(&mut self) {
        let record = self.answered(|class| !matches!(class, 4 | 5));
        let id = record.map_or_else(|| self.id(false, false), |record| record.id);
        let (code, rule) = self.error_code(record.map_or(Code::default(), |record| record.code));
        let value = self.value(rule);
        let lent = self.lent(Outgoing::Error { id, code: code.asked(), value: &value }.octets());
        let frame = Frame { kind: frame::ERROR, lent, id, ..Frame::default() };
        self.call(frame.asking(code.asked(), &value, &mut Vec::new()));
    }

    fn reject(&mut self) {
        let id = self.id(false, true);
        let detail = if self.fault() {
            [0, 1, 5, 6, 7, 8, 255, self.random.octet()][self.random.below(8)]
        } else {
            self.random.between(2, 4) as u8
        };
        let problem = Problem::Invoke(detail);
        let lent = self.lent(Outgoing::Reject { id: Some(id), problem }.octets());
        let payload: &[u8] = if self.random.percent(10) { &[0x30] } else { &[] };
        self.call(Frame { kind: frame::REJECT, detail, lent, id, payload, ..Frame::default() });
    }

    fn forget(&mut self) {
        let own = self.random.percent(60);
        let mut id = self.id(own, true);
        if !own && !self.fault() {
            id = self.answered(|class| !matches!(class, 1 | 2)).map_or(id, |record| record.id);
        }
        let detail = if own { 0 } else { [1, 1, 1, 2, 255][self.random.below(5)] };
        let payload: &[u8] = if self.random.percent(10) { &[0x30, 0x80] } else { &[] };
        self.call(Frame { kind: frame::FORGET, detail, id, payload, ..Frame::default() });
    }

    /// A peer record, of a fitting class unless that is to go wrong.
    fn answered(&mut self, fits: impl Fn(u8) -> bool) -> Option<Record> {
        if self.fault() {
            return live(&mut self.random, &self.drive.state.peer).filter(|_| !self.fault());
        }
        let model = &self.model;
        let fitting = |record: &Record| model.class(record.code).is_some_and(&fits);
        self.random.pick_where(self.drive.state.peer.live(), fitting)
    }

    /// An id that is live on a side, or one that is not; the other way round if that is to go wrong.
    pub(crate) fn id(&mut self, own: bool, wanted: bool) -> i32 {
        let wanted = wanted != self.fault();
        let [this, other] = [own, !own].map(|own| side(&self.drive.state, own));
        if let Some(record) = live(&mut self.random, this).filter(|_| wanted) {
            return record.id;
        }
        match live(&mut self.random, other) {
            Some(record) if this.find(record.id).is_none() && self.random.percent(30) => record.id,
            _ => free_id(&mut self.random, &self.drive.state, own),
        }
    }

    /// A live record whose operation has children, or any.
    pub(crate) fn parent(&mut self, own: bool) -> Option<Record> {
        let model = &self.model;
        let side = side(&self.drive.state, own);
        let has_children = |record: &Record| {
            let index = model.operation(record.code).map(|(index, _)| index);
            model.child_pairs.iter().any(|&(parent, _)| Some(usize::from(parent)) == index)
        };
        match self.random.percent(85) {
            true => self.random.pick_where(side.live(), has_children),
            false => live(&mut self.random, side),
        }
    }

    /// A listed child of the record's operation, if it has one.
    pub(crate) fn child(&mut self, parent: Record) -> Option<OperationRow> {
        let (index, _) = self.model.operation(parent.code)?;
        let pair = self.random.pick_where(&self.model.child_pairs, |pair| usize::from(pair.0) == index)?;
        self.model.operations.get(usize::from(pair.1)).copied()
    }

    /// A listed error of the operation; another error or none of the table if that is to go wrong.
    pub(crate) fn error_code(&mut self, operation: Code) -> (Wanted, Rule) {
        let index = self.model.operation(operation).map(|(index, _)| index);
        let listed = self.random.pick_where(&self.model.error_pairs, |pair| Some(usize::from(pair.0)) == index);
        let listed = listed.and_then(|pair| self.model.errors.get(usize::from(pair.1)).copied());
        let any = self.random.pick(&self.model.errors);
        let row = if self.fault() { any.filter(|_| self.random.percent(50)) } else { listed.or(any) };
        match row {
            Some(row) => (row.code.into(), row.rule()),
            None => (self.unknown_error(), Rule { kind: 0x04, optional: true }),
        }
    }

    pub(crate) fn unknown_code(&mut self) -> Wanted {
        let codes: Vec<Code> = self.model.operations.iter().map(|row| row.code).collect();
        self.absent_code(&codes)
    }

    /// A code of no operation that a record can hold.
    pub(crate) fn unlisted_code(&mut self) -> Code {
        loop {
            if let Some(code) = self.unknown_code().asked().code().filter(Code::is_right) {
                return code;
            }
        }
    }

    pub(crate) fn unknown_error(&mut self) -> Wanted {
        let codes: Vec<Code> = self.model.errors.iter().map(|row| row.code).collect();
        self.absent_code(&codes)
    }

    /// A code that is not in the list, often next to one that is or with the same octets.
    fn absent_code(&mut self, codes: &[Code]) -> Wanted {
        let (random, names) = (&mut self.random, self.model.names());
        loop {
            let code = match random.below(8) {
                0..=2 => codes::absent(codes, names, random).into(),
                3..=4 => Wanted::Local(random.number()),
                5 => Wanted::from(Code::Name(names::other(random, names))),
                6 => Wanted::Name(names::no_name(random, names)),
                _ => random.pick(codes).map_or(Wanted::Local(7), names::of_the_other_sort),
            };
            if code.asked().code().is_none_or(|code| !codes.contains(&code)) {
                return code;
            }
        }
    }

    /// A value for a rule, empty for none; wrong in one of many ways if that is to go wrong.
    pub(crate) fn value(&mut self, rule: Rule) -> Vec<u8> {
        let kind = rule.kind;
        if self.flawed_values && self.random.percent(85) {
            return flawed::value(&mut self.random);
        }
        if !(self.fault() || self.trouble > 0 && self.random.percent(12)) {
            let none = kind == 0 || rule.optional && self.random.percent(30);
            return if none { Vec::new() } else { values::value(&mut self.random, kind) };
        }
        match self.random.below(10) {
            0..=1 => Vec::new(),
            2..=3 => values::value(&mut self.random, [0x02, 0x04, 0x30, 0x80][(kind & 3) as usize]),
            4 => values::value(&mut self.random, kind ^ [0x20, 0x40, 0x80, 0x01][(kind >> 3 & 3) as usize]),
            5..=7 => {
                let (group, list) = VALUES[self.random.below(VALUES.len())];
                let (name, octets) = list[self.random.below(list.len())];
                self.label = self.label.or(Some((group, name)));
                octets.to_vec()
            }
            8 => {
                let mut octets = values::value(&mut self.random, kind.max(1));
                match self.random.percent(50) {
                    true => values::damage(&mut self.random, &mut octets),
                    false => values::damage_closing(&mut self.random, &mut octets),
                }
                octets
            }
            _ => {
                let (levels, forms) = (self.random.between(14, 18), self.forms());
                values::deep_in_forms(kind | 0x20, levels, self.random.percent(50), forms)
            }
        }
    }

    /// How many octets to lend to a call that needs so many.
    fn lent(&mut self, needed: usize) -> u16 {
        let lent = if self.fault() {
            [needed.saturating_sub(1), needed.saturating_sub(1), 0, self.random.below(needed.max(1))]
        } else {
            [needed, needed, needed + 1, needed + self.random.below(40)]
        };
        let rarely = if self.random.percent(1) { u16::MAX } else { 0 };
        u16::try_from(lent[self.random.below(4)]).unwrap_or(u16::MAX).max(rarely)
    }
}
