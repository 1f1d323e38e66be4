//! The generator's received APDUs: fitting the state reached, with wrong fields and damaged octets among them.

use crate::code::Code;
use crate::frame::{self, Frame};
use crate::generate::{live, Generator, Group};
use crate::names::{self, Wanted};
use crate::octets::is_object_identifier;
use crate::table::Rule;
use crate::values::{self, element, element_in_form, integer_contents};

impl Generator<'_> {
    pub(crate) fn receive(&mut self) {
        let owns = self.drive.state.own.count > 0;
        let mut apdu = match self.random.below(100) {
            0..=39 => self.arriving_invoke(),
            40..=58 if owns || self.random.percent(15) => self.arriving_result(),
            59..=77 if owns || self.random.percent(15) => self.arriving_error(),
            78..=93 => self.arriving_reject(),
            94..=96 => self.written.clone(),
            97 => (0..self.random.below(20)).map(|_| self.random.octet()).collect(),
            _ => self.arriving_invoke(),
        };
        if self.fault() && self.random.percent(40) {
            self.label = self.label.or(Some((Group::Damaged, "octets changed, dropped or added")));
            values::damage(&mut self.random, &mut apdu);
        }
        if self.fault() && self.random.percent(20) {
            self.label = self.label.or(Some((Group::Damaged, "00 00 dropped, repeated, changed or added")));
            values::damage_closing(&mut self.random, &mut apdu);
        }
        if self.fault() && self.random.percent(4) {
            apdu.resize(4094 + self.random.below(6), 0);
        }
        let room = self.room();
        let lent = match self.fault() {
            true => [0, room - 1, self.random.below(room)][self.random.below(3)],
            false => room + [0, 0, 1, 9, 53][self.random.below(5)],
        };
        self.call(Frame { kind: frame::RECEIVE, lent: lent as u16, payload: &apdu, ..Frame::default() });
    }

    fn arriving_invoke(&mut self) -> Vec<u8> {
        let mut row = self.random.pick(&self.model.operations);
        let mut listed = true;
        let mut fields = vec![self.number(0x02, |this| this.id(false, false))];
        if self.random.percent(35) {
            let parent = self.parent(true).filter(|_| !self.fault());
            let id = parent.map_or_else(|| self.id(true, false), |record| record.id);
            let child = parent.and_then(|parent| self.child(parent));
            row = child.filter(|_| !self.fault() && self.random.percent(88)).or(row);
            listed = row == child;
            fields.push(self.number(0x80, |_| id));
        } else if self.random.percent(12) {
            let form = values::form(&mut self.random, 0);
            fields.push(element_in_form(0x81, &[], form));
        }
        let known = row.filter(|_| !self.fault()).map(|row| row.code.into());
        fields.push(self.code(known));
        let rule = row.map_or(Rule { kind: 0, optional: false }, |row| row.argument_rule());
        fields.push(match row {
            _ if !listed && self.random.percent(25) => self.wrong_value(rule),
            Some(row) => self.argument(row),
            None => self.value(rule),
        });
        self.apdu(0xA1, fields)
    }

    fn arriving_result(&mut self) -> Vec<u8> {
        let record = live(&mut self.random, &self.drive.state.own).filter(|_| !self.fault());
        let id = record.map_or_else(|| self.id(true, false), |record| record.id);
        let row = record.and_then(|record| self.model.operation(record.code)).map(|(_, row)| row);
        let mut fields = vec![self.number(0x02, |_| id)];
        let value = self.value(row.map_or(Rule { kind: 0x02, optional: true }, |row| row.result_rule()));
        if !value.is_empty() || self.fault() {
            let other = self.random.pick(&self.model.operations).filter(|_| self.random.percent(60));
            let wrong = self.fault() || self.trouble > 0 && self.random.percent(15);
            let returned = if wrong { other } else { row };
            let inner = vec![self.code(returned.map(|row| row.code.into())), value];
            fields.push(self.apdu(0x30, inner));
        }
        self.apdu(0xA2, fields)
    }

    fn arriving_error(&mut self) -> Vec<u8> {
        let record = live(&mut self.random, &self.drive.state.own).filter(|_| !self.fault());
        let id = record.map_or_else(|| self.id(true, false), |record| record.id);
        let (code, rule) = self.error_code(record.map_or(Code::default(), |record| record.code));
        let code = Some(code).filter(|_| !self.fault() || self.random.percent(50));
        let fields = vec![self.number(0x02, |_| id), self.code(code), self.value(rule)];
        self.apdu(0xA3, fields)
    }

    fn arriving_reject(&mut self) -> Vec<u8> {
        let kind = self.random.below(4);
        let own = self.random.percent(70);
        let id = if kind == 0 && self.random.percent(50) || self.fault() && self.random.percent(30) {
            let form = values::form(&mut self.random, 0);
            element_in_form(0x05, &[], form)
        } else {
            self.number(0x02, |this| this.id(own, true))
        };
        let numbers = [3, 8, 3, 5][kind] + usize::from(self.fault());
        let number = self.random.below(numbers);
        let form = values::form(&mut self.random, 1);
        let problem = element_in_form(0x80 + kind as u8 + u8::from(self.fault()), &[number as u8], form);
        self.apdu(0xA4, vec![id, problem])
    }

    /// A number as an element, at times in a longer form or in contents that are not shortest.
    pub(crate) fn number(&mut self, identifier: u8, number: impl FnOnce(&mut Self) -> i32) -> Vec<u8> {
        let mut contents = integer_contents(number(self));
        if self.fault() && self.random.percent(25) {
            match self.random.below(4) {
                0 => contents.insert(0, if contents[0] < 0x80 { 0x00 } else { 0xFF }),
                1 => contents.clear(),
                _ => contents = vec![0x01, 0, 0, 0, self.random.octet()],
            }
        }
        let form = values::form(&mut self.random, contents.len());
        element_in_form(identifier, &contents, form)
    }

    /// A code of the table, or one that equals none.
    fn code(&mut self, known: Option<Wanted>) -> Vec<u8> {
        let code = match known {
            Some(Wanted::Local(code)) => return self.number(0x02, |_| code),
            Some(code) => code,
            None => match self.random.below(6) {
                0 => return element(0x02, &[0x01, 0, 0, 0, self.random.octet()]),
                1 => return element(0x06, &integer_contents(self.random.below(40) as i32)),
                2 => Wanted::Name(names::long(&mut self.random, self.model.names())),
                _ => self.unknown_code(),
            },
        };
        match code {
            Wanted::Name(contents) if !is_object_identifier(&contents) => {
                element(0x06, &[0x2A, contents.len() as u8 & 0x7F])
            }
            code => code.element(&mut self.random),
        }
    }

    /// The fields in one element, at times with a field missing, repeated, replaced or out of place.
    pub(crate) fn apdu(&mut self, identifier: u8, mut fields: Vec<Vec<u8>>) -> Vec<u8> {
        fields.retain(|field| !field.is_empty());
        if self.fault() && self.random.percent(35) {
            self.spoil(&mut fields);
        }
        let identifier = match self.fault() && self.random.percent(10) {
            true => [0xA0, 0xA1, 0xA2, 0xA3, 0xA4, 0xA5, 0x30, 0x31, 0xB1][self.random.below(9)],
            false => identifier,
        };
        values::drawn(&mut self.random, identifier, &fields.concat())
    }

    fn spoil(&mut self, fields: &mut Vec<Vec<u8>>) {
        let at = self.random.below(fields.len().max(1));
        let other = self.random.below(fields.len().max(1));
        let kind = [0x02, 0x04, 0x05, 0x06, 0x30, 0x80, 0x81, 0x82, 0xA0, 0xA1][self.random.below(10)];
        let extra = values::value(&mut self.random, kind);
        match self.random.below(6) {
            0 => fields.push(extra),
            1 => fields.insert(at, extra),
            _ if fields.is_empty() => fields.push(extra),
            2 => drop(fields.remove(at)),
            3 => fields.swap(at, other),
            4 => fields.insert(at, fields[other].clone()),
            _ => fields[at] = extra,
        }
    }
}
