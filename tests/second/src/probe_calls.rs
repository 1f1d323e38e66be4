//! The generator's calls about probe and acknowledge: what is asked about, in which form and with which room.
//! Follows docs/RULES.md, "Probe and acknowledge".

use crate::code::Code;
use crate::faults;
use crate::frame::{self, Frame};
use crate::generate::{fill, live, Generator, Group};
use crate::insides::{self, Inside, RIGHT, WRONG};
use crate::kept_states::{self, keep};
use crate::model::OperationRow;
use crate::oddities::Deck;
use crate::probe::{self, ACKNOWLEDGE, PROBE};
use crate::random::Random;
use crate::resting_states::rest;
use crate::state::State;
use crate::values::{self, element, integer_contents};

/// Room for every APDU.
const LENT: u16 = State::OCTETS as u16;

/// Which of the two operations a table is to have.
#[derive(Clone, Copy, PartialEq, Eq)]
pub(crate) enum Wanted {
    Neither,
    Acknowledge,
    Both,
}

impl Generator<'_> {
    pub(crate) fn probe_calls(&mut self) {
        match self.random.below(100) {
            0..=12 => self.asked_about(),
            13..=16 => self.insides(RIGHT, Group::RightInside, Deck::RightInsides),
            17..=31 => self.insides(WRONG, Group::WrongInside, Deck::WrongInsides),
            32..=41 => self.linked_probes(),
            42..=52 => self.lent_to_probes(),
            53..=76 => self.own_probes(),
            77..=84 => self.sound_kept_state(),
            85..=92 => self.unlisted_probes(),
            _ => self.duplicates(),
        }
    }

    /// A table of all classes that has the two operations or not, so many peer records, kept answers and own records.
    pub(crate) fn set_probed(&mut self, wanted: Wanted, peers: usize, kept: usize) {
        let mut model = faults::rich_of_either(&mut self.random, 50);
        if wanted != Wanted::Neither {
            model.add_probe(&mut self.random, wanted == Wanted::Both);
        }
        self.set_model(model);
        let (mut state, operations) = (State::fresh(), &self.model.operations);
        let own = self.random.below(4);
        fill(&mut self.random, &mut state.own, own, |random| {
            random.pick_where(operations, |row| matches!(row.class, 2..=4)).map(|row| row.code)
        });
        fill(&mut self.random, &mut state.peer, peers, |random| {
            let lent = random.percent(15);
            random.pick_where(operations, |row| lent || !probe::is_answered_here(&row.code)).map(|row| row.code)
        });
        let resting = self.random.between(1, 3);
        rest(&mut self.random, &mut state, resting);
        keep(&mut self.random, &mut state, kept);
        let free = |id: &i32| state.own.find(*id).is_none() && !state.resting.contains(*id);
        let both = self.random.pick_where(state.kept.ids(), free).filter(|_| own > 0 && self.random.percent(30));
        state.own.places[0].id = both.unwrap_or(state.own.places[0].id);
        self.set_state(&state);
    }

    fn both_or_acknowledge(&mut self) -> Wanted {
        if self.random.percent(75) {
            Wanted::Both
        } else {
            Wanted::Acknowledge
        }
    }

    /// One of the operations that the table has, probe more often.
    pub(crate) fn probe_code(&mut self) -> i32 {
        let has_probe = self.model.operation(Code::Local(PROBE)).is_some();
        if has_probe && self.random.percent(60) {
            PROBE
        } else {
            ACKNOWLEDGE
        }
    }

    /// An id of a live peer record, of a kept answer, or of neither.
    pub(crate) fn id_asked_about(&mut self) -> i32 {
        let State { own, peer, resting, kept } = &self.drive.state;
        let kept_ids = kept.ids();
        let known = match self.random.below(10) {
            0..=2 => live(&mut self.random, peer).map(|record| record.id),
            3..=4 => self.random.pick(kept_ids),
            5 => kept_ids.first().copied(),
            6 => kept_ids.last().copied(),
            7 => live(&mut self.random, own).map(|record| record.id),
            8 => self.random.pick(resting.ids()),
            _ => None,
        };
        known.unwrap_or_else(|| self.random.number())
    }

    /// An id for a probe or acknowledge itself: no live peer record's, at times a kept one.
    fn id_of_its_own(&mut self) -> i32 {
        let kept = self.random.pick(self.drive.state.kept.ids()).filter(|_| self.random.percent(25));
        kept.unwrap_or_else(|| self.free(false))
    }

    /// A right argument about an id, mostly with definite lengths.
    pub(crate) fn right_argument(&mut self, code: i32, asked: i32) -> Vec<u8> {
        match self.random.percent(70) {
            true => insides::plain(code, asked),
            false => {
                self.random.pick_where(RIGHT, |inside| inside.1 == code).map_or(Vec::new(), |(.., make)| make(asked))
            }
        }
    }

    /// A value for an Invoke of an operation; mostly a right argument where receive looks inside.
    pub(crate) fn argument(&mut self, row: OperationRow) -> Vec<u8> {
        match row.code {
            Code::Local(code) if probe::is_answered_here(&row.code) && !self.fault() => {
                let asked = self.id_asked_about();
                self.right_argument(code, asked)
            }
            _ => self.value(row.argument_rule()),
        }
    }

    /// A received Invoke of a probe or acknowledge in a drawn form.
    pub(crate) fn probe_apdu(&mut self, (id, linked, code): (i32, Option<i32>, i32), argument: &[u8]) -> Vec<u8> {
        let mut fields = element(0x02, &integer_contents(id));
        fields.extend(linked.map_or(Vec::new(), |linked| element(0x80, &integer_contents(linked))));
        fields.extend(element(0x02, &integer_contents(code)));
        fields.extend(argument);
        values::drawn(&mut self.random, 0xA1, &fields)
    }

    pub(crate) fn arrive_probe(&mut self, id: i32, code: i32, asked: i32) {
        let argument = self.right_argument(code, asked);
        let apdu = self.probe_apdu((id, None, code), &argument);
        let lent = (self.room() + [0, 0, 1, 30][self.random.below(4)]) as u16;
        self.call(Frame { kind: frame::RECEIVE, lent, payload: &apdu, ..Frame::default() });
    }

    /// A few probes and acknowledges, at times with as many peer records as there can be, and other calls among them.
    fn asked_about(&mut self) {
        let wanted = self.both_or_acknowledge();
        let peers = [0, 1, 3, 31, 32, 32][self.random.below(6)];
        let kept = [0, 1, 5, 8, 8, 8, 8][self.random.below(7)];
        self.set_probed(wanted, peers, kept);
        for _ in 0..self.random.between(2, 5) {
            let (code, id) = (self.probe_code(), self.id_of_its_own());
            let asked = if self.random.percent(15) { id } else { self.id_asked_about() };
            self.arrive_probe(id, code, asked);
            if self.random.percent(15) {
                self.ordinary_call();
            }
        }
    }

    /// Arguments of a list, received.
    fn insides(&mut self, list: &[Inside], group: Group, deck: Deck) {
        let peers = [0, 2, 32][self.random.below(3)];
        self.set_probed(Wanted::Both, peers, 3);
        for _ in 0..self.random.between(2, 5) {
            let (name, code, make) = list[self.turn(deck, list.len())];
            let (id, asked) = (self.id_of_its_own(), self.id_asked_about());
            let apdu = self.probe_apdu((id, None, code), &make(asked));
            self.label = Some((group, name));
            self.arrive(&apdu);
        }
    }

    /// Probes and acknowledges linked to own records, listed children or not, with right and wrong insides.
    fn linked_probes(&mut self) {
        let wanted = self.both_or_acknowledge();
        let peers = [0, 2, 32][self.random.below(3)];
        self.set_probed(wanted, peers, 3);
        let (mut state, operations) = (self.drive.state.clone(), &self.model.operations);
        fill(&mut self.random, &mut state.own, 8, |random| random.pick(operations).map(|row| row.code));
        self.set_state(&state);
        for _ in 0..self.random.between(2, 5) {
            let (code, id) = (self.probe_code(), self.id_of_its_own());
            let own = live(&mut self.random, &self.drive.state.own).map(|record| record.id);
            let linked = own.filter(|_| self.random.percent(75)).unwrap_or_else(|| self.free(true));
            let asked = self.id_asked_about();
            let argument = self.any_argument(code, asked);
            let apdu = self.probe_apdu((id, Some(linked), code), &argument);
            self.arrive(&apdu);
        }
    }

    /// A right argument, or one whose inside is wrong.
    fn any_argument(&mut self, code: i32, asked: i32) -> Vec<u8> {
        let wrong = self.random.pick_where(WRONG, |inside| inside.1 == code).filter(|_| self.random.percent(40));
        match wrong {
            Some((.., make)) => make(asked),
            None => self.right_argument(code, asked),
        }
    }

    /// Received APDUs of every sort with as much room as receive needs, or a little less or more.
    fn lent_to_probes(&mut self) {
        let wanted = if self.random.percent(50) { Wanted::Both } else { Wanted::Acknowledge };
        self.set_probed(wanted, 3, 3);
        for _ in 0..self.random.between(2, 4) {
            let room = self.room();
            let lent = [room - 1, room - 1, room - 1, room, room, room + 1, 11, 16][self.random.below(8)] as u16;
            let payload = match self.random.below(7) {
                0 => vec![0xA4, 0x06, 0x02, 0x01, 0x05, 0x81, 0x01, self.random.octet() % 9],
                1 => vec![0xA5, 0x00],
                2..=3 => vec![0; State::OCTETS + 1],
                4 => self.written.clone(),
                _ => {
                    let (code, id, asked) = (self.probe_code(), self.id_of_its_own(), self.id_asked_about());
                    self.probe_apdu((id, None, code), &insides::plain(code, asked))
                }
            };
            self.call(Frame { kind: frame::RECEIVE, lent, payload: &payload, ..Frame::default() });
        }
    }

    /// A probe or acknowledge whose own id is that of a live peer record, with a right or a wrong inside.
    fn duplicates(&mut self) {
        let wanted = self.both_or_acknowledge();
        self.set_probed(wanted, 4, 2);
        let (code, asked) = (self.probe_code(), self.id_asked_about());
        let id = self.peer_id();
        let argument = self.any_argument(code, asked);
        let apdu = self.probe_apdu((id, None, code), &argument);
        self.arrive(&apdu);
    }

    /// A probe or acknowledge that the table does not have, asked for or received.
    fn unlisted_probes(&mut self) {
        let wanted = if self.random.percent(70) { Wanted::Neither } else { Wanted::Acknowledge };
        self.set_probed(wanted, 2, 2);
        let code = if wanted == Wanted::Neither { [PROBE, ACKNOWLEDGE][self.random.below(2)] } else { PROBE };
        let (own, asked) = (self.random.percent(50), self.id_asked_about());
        let id = self.free(own);
        match own {
            true => self.ask_probe((id, None, code), &insides::plain(code, asked), LENT),
            false => {
                let apdu = self.probe_apdu((id, None, code), &insides::plain(code, asked));
                self.arrive(&apdu);
            }
        }
    }

    /// A sound state with kept answers, a few probes of them, and another call.
    fn sound_kept_state(&mut self) {
        let (name, change) = kept_states::SOUND[self.turn(Deck::KeptStates, kept_states::SOUND.len())];
        self.set_probed(Wanted::Both, 3, 0);
        let mut state = self.drive.state.clone();
        fill(&mut self.random, &mut state.own, 3, |random| {
            random.pick_where(&self.model.operations, |row| row.class == 2).map(|row| row.code)
        });
        change(&mut state, &mut self.random);
        self.set_state(&state);
        for at in 0..self.drive.state.kept.ids().len().min(3) {
            let (State { kept, peer, .. }, long) = (&self.drive.state, self.random.draw() as i32 | i32::MIN);
            let asked = [kept.ids[0], kept.ids[usize::from(kept.count) - 1], kept.ids[at]][at];
            let id = Some(long).filter(|id| peer.find(*id).is_none() && self.random.percent(50));
            let id = id.unwrap_or_else(|| self.free(false));
            self.label = Some((Group::SoundState, name));
            self.arrive_probe(id, PROBE, asked);
        }
        self.label = Some((Group::SoundState, name));
        self.ordinary_call();
    }

    fn ask_probe(&mut self, (id, linked, code): (i32, Option<i32>, i32), argument: &[u8], lent: u16) {
        let detail = if linked.is_some() { frame::LINKED } else { 0 };
        let linked = linked.unwrap_or(0);
        self.call(Frame { kind: frame::INVOKE, detail, lent, id, code, linked, payload: argument });
    }

    /// Own invokes of probe, acknowledge and other operations beside synchronous ones.
    fn own_probes(&mut self) {
        let wanted = self.both_or_acknowledge();
        self.set_probed(wanted, 3, 2);
        let mut state = self.drive.state.clone();
        let count = [0, 0, 31, 31, 30][self.random.below(5)];
        let operations = self.model.operations.clone();
        fill(&mut self.random, &mut state.own, count, |random| {
            random.pick_where(&operations, |row| row.class == 2).map(|row| row.code)
        });
        if !state.own.is_full() && self.random.percent(88) {
            let id = self.random.number_unless(|id| state.own.find(id).is_some() || state.resting.contains(id));
            state.own.add(id, synchronous(&mut self.random, &operations));
        }
        self.set_state(&state);
        for _ in 0..self.random.between(2, 5) {
            match self.random.percent(80) {
                true => self.own_probe(),
                false => {
                    let id = self.free(true);
                    self.invoke_with(id);
                }
            }
        }
    }

    /// An own invoke of a probe or acknowledge, right or wrong in one way.
    fn own_probe(&mut self) {
        let (code, asked) = (self.probe_code(), self.random.number());
        let mut argument = self.any_argument(code, asked);
        let (mut id, mut linked, mut lent) = (self.free(true), None, LENT);
        match self.turn(Deck::OwnProbes, 16) {
            0 => id = live(&mut self.random, &self.drive.state.own).map_or(id, |record| record.id),
            1..=2 => id = self.resting_id().unwrap_or(id),
            3 => linked = Some(self.free(false)),
            4..=5 => linked = live(&mut self.random, &self.drive.state.peer).map(|record| record.id),
            6 => argument = vec![0x30, 0x03, 0x02],
            7 => argument.extend([0x05, 0x00]),
            8..=9 if code == PROBE => argument = values::sized(State::OCTETS, false),
            8..=9 => argument = element(0x02, &vec![0x01; State::OCTETS]),
            10 => argument = element(0x04, &argument),
            11..=12 => lent = self.random.below(9) as u16,
            _ => {}
        }
        self.ask_probe((id, linked, code), &argument, lent);
    }
}

/// The code of an operation of class 1, a probe or acknowledge too.
fn synchronous(random: &mut Random, operations: &[OperationRow]) -> Code {
    random.pick_where(operations, |row| row.class == 1).map_or(Code::default(), |row| row.code)
}
