//! What slips are made of: what stands in the state reached, entries put in and the last entry changed.

use crate::answer::Problem;
use crate::apdu::{self, Outgoing};
use crate::cases::Named;
use crate::days::{Logged, SENT};
use crate::generate::{free_id, live, Generator};
use crate::model::OperationRow;
use crate::octets;
use crate::state::{Record, State};
use crate::table::Rule;
use crate::values::{self, element, element_in_form, indefinite, integer_contents};

impl Generator<'_> {
    /// An id that an invocation of a side may have.
    pub(crate) fn free(&mut self, own: bool) -> i32 {
        free_id(&mut self.random, &self.drive.state, own)
    }

    /// A live peer id, or any.
    pub(crate) fn peer_id(&mut self) -> i32 {
        live(&mut self.random, &self.drive.state.peer).map_or(7, |record| record.id)
    }

    pub(crate) fn is_blocked(&self) -> bool {
        self.drive.state.own.live().iter().any(|record| self.model.class(record.code) == Some(1))
    }

    /// The id and operation of a live peer record whose operation fits.
    pub(crate) fn invoked(&mut self, fits: impl Fn(&OperationRow) -> bool) -> Option<(i32, OperationRow)> {
        let row = |record: &Record| self.model.operation(record.code).map(|(_, row)| row).filter(&fits);
        let record = self.random.pick_where(self.drive.state.peer.live(), |record| row(record).is_some())?;
        Some((record.id, row(&record)?))
    }

    /// A well-formed value, or none, that breaks the rule.
    pub(crate) fn wrong_value(&mut self, rule: Rule) -> Vec<u8> {
        let kind = [0x04, 0x02, 0x30, 0x05][self.random.below(4)];
        match rule {
            Rule { kind: 1.., optional: false } if self.random.percent(50) => Vec::new(),
            _ if kind == rule.kind => values::value(&mut self.random, 0x01),
            _ => values::value(&mut self.random, kind),
        }
    }

    pub(crate) fn put_entry(&mut self, entry: Logged) -> Option<bool> {
        self.entries().push(entry);
        Some(true)
    }

    pub(crate) fn put(&mut self, apdu: Outgoing<'_>) -> Option<bool> {
        self.put_entry(Logged::new(SENT, &apdu.to_vec()))
    }

    /// An invoke of any operation with a right value.
    pub(crate) fn put_invoke(&mut self, id: i32, linked: Option<i32>) -> Option<bool> {
        let row = self.random.pick(&self.model.operations)?;
        let value = self.value(row.argument_rule());
        self.put(Outgoing::Invoke { id, linked, code: row.code.asked(), value: &value })
    }

    pub(crate) fn put_case(&mut self, lists: &[&[Named]]) -> Option<bool> {
        let list = lists[self.random.below(lists.len())];
        let octets = list[self.random.below(list.len())].1;
        self.put_entry(Logged::new(SENT, octets))
    }

    /// An Invoke or Error of a live peer id with this code.
    pub(crate) fn put_code(&mut self, apdu: u8, identifier: u8, code: &[u8]) -> Option<bool> {
        let id = element(0x02, &integer_contents(self.peer_id()));
        let octets = element(apdu, &[id, element(identifier, code)].concat());
        self.put_entry(Logged::new(SENT, &octets))
    }

    pub(crate) fn put_reject(&mut self, problem: fn(u8) -> Problem, numbers: usize) -> Option<bool> {
        let (id, problem) = (Some(self.peer_id()), problem(self.random.below(numbers) as u8));
        self.put(Outgoing::Reject { id, problem })
    }

    /// The last entry, if it is a Reject that the one before it called for.
    pub(crate) fn awaited(&mut self) -> Option<&mut Logged> {
        self.entries().last_mut().filter(|entry| entry.awaited && entry.octets[0] == apdu::REJECT)
    }

    pub(crate) fn put_before_last(&mut self, entry: Logged) -> Option<bool> {
        let at = self.entries().len().checked_sub(1)?;
        self.entries().insert(at, entry);
        Some(true)
    }

    /// Changes the last entry, if a request wrote it.
    pub(crate) fn change_last(&mut self, change: impl FnOnce(&mut Vec<u8>)) -> Option<bool> {
        let last = self.entries().last_mut().filter(|entry| entry.is_request())?;
        change(&mut last.octets);
        Some(true)
    }

    /// Changes the fields of the last entry, if a request wrote it and it is this APDU.
    pub(crate) fn change_fields(
        &mut self,
        apdu: u8,
        change: impl FnOnce(&mut Vec<Vec<u8>>) -> Option<()>,
    ) -> Option<bool> {
        let last = self.entries().last_mut().filter(|entry| entry.is_request() && entry.octets[0] == apdu)?;
        let mut fields = parts(octets::split(&last.octets, State::LEVELS)?.0.contents());
        change(&mut fields)?;
        last.octets = element(apdu, &fields.concat());
        Some(true)
    }

    /// Gives one of the lengths of an APDU more octets than it needs.
    pub(crate) fn lengthen(&mut self, apdu: u8) -> Option<bool> {
        let (form, inside) = (self.random.between(1, 4), self.random.percent(50));
        if !inside {
            let last = self.entries().last_mut().filter(|entry| entry.is_request() && entry.octets[0] == apdu)?;
            let contents = octets::split(&last.octets, State::LEVELS)?.0.contents().to_vec();
            let form = if contents.len() < 0x80 { form } else { 4 };
            last.octets = element_in_form(apdu, &contents, form);
            return Some(true);
        }
        self.change_fields(apdu, |fields| {
            let id = fields.first_mut()?;
            *id = element_in_form(id[0], &id[2..], form);
            Some(())
        })
    }

    /// Gives the length of a name more octets than it needs.
    pub(crate) fn lengthen_name(&mut self, apdu: u8) -> Option<bool> {
        let form = self.random.between(1, 4);
        self.change_fields(apdu, |fields| {
            let name = fields[1..].iter_mut().take(2).find(|field| field[0] == 0x06)?;
            *name = element_in_form(0x06, &name[2..], form);
            Some(())
        })
    }

    /// Gives an APDU an indefinite length.
    pub(crate) fn unmeasure(&mut self, apdu: u8) -> Option<bool> {
        let last = self.entries().last_mut().filter(|entry| entry.is_request() && entry.octets[0] == apdu)?;
        last.octets = indefinite(apdu, octets::split(&last.octets, State::LEVELS)?.0.contents());
        Some(true)
    }

    /// Gives the last entry's result another code.
    pub(crate) fn change_result(&mut self, code: impl FnOnce(&[u8]) -> Vec<u8>) -> Option<bool> {
        self.change_fields(apdu::RESULT, |fields| {
            let sequence = fields.get_mut(1)?;
            let mut inner = parts(octets::split(sequence, State::LEVELS)?.0.contents());
            inner[0] = code(&inner[0]);
            *sequence = element(0x30, &inner.concat());
            Some(())
        })
    }
}

/// The elements one after another.
fn parts(mut octets: &[u8]) -> Vec<Vec<u8>> {
    let mut parts = Vec::new();
    while let Some((element, rest)) = octets::split(octets, State::LEVELS) {
        parts.push(element.whole.to_vec());
        octets = rest;
    }
    parts
}
