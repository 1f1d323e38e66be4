//! The generator's calls with octets at fault at a known place: received, in a received value, in a request.

use crate::flawed::{self, Flaw};
use crate::flaws::{Given, Kind, Second, BEHIND, KINDS, MISSING_CLOSE, OCTETS_BEHIND};
use crate::frame::{self, Frame};
use crate::generate::Generator;
use crate::model::Model;
use crate::state::State;
use crate::values::{self, element, integer_contents};

/// First octets of received octets: the APDUs', and others.
const FIRST: [u8; 8] = [0xA1, 0xA1, 0xA2, 0xA3, 0xA4, 0xA4, 0xA5, 0x30];

impl Generator<'_> {
    /// The next kind of fault, at a drawn level, and at times a second fault.
    pub(crate) fn flawed_call(&mut self) {
        self.flaws += 1;
        let unclosed = KINDS.iter().filter(|kind| kind.class == MISSING_CLOSE);
        let deck: Vec<&Kind> = KINDS.iter().chain(unclosed).chain(BEHIND).chain(BEHIND).collect();
        let (round, turn) = (self.flaws / deck.len(), self.flaws % deck.len());
        let (kind, given) = (deck[turn], Given::ALL[round % 3]);
        match kind.class {
            OCTETS_BEHIND => self.octets_behind(kind, given),
            _ => self.fault_at_a_level(kind, given),
        }
    }

    /// A few requests of which many are refused before their values, at fault, are looked at.
    pub(crate) fn flawed_requests(&mut self) {
        let model = Model::random(&mut self.random);
        self.set_model(model);
        let state = self.random_state();
        self.set_state(&state);
        self.with_flawed_values(|this| {
            for _ in 0..this.random.between(4, 8) {
                this.trouble = [10, 20, 40][this.random.below(3)];
                this.request();
            }
            this.trouble = 0;
        });
    }

    /// Makes calls whose values are mostly at fault.
    pub(crate) fn with_flawed_values(&mut self, calls: impl FnOnce(&mut Self)) {
        self.flawed_values = true;
        calls(self);
        self.flawed_values = false;
    }

    fn fault_at_a_level(&mut self, kind: &'static Kind, given: Given) {
        let seconds = if kind.class == MISSING_CLOSE { &Second::ALL[2..] } else { &Second::ALL };
        let second = self.random.pick(seconds).filter(|_| self.random.percent(60));
        let outer = self.outer(given);
        let least = if given == Given::ValueReceived { outer.len() + 1 } else { 1 };
        let (low, high) = kind.levels();
        let level = if self.random.percent(5) { low.max(least) } else { self.random.between(low.max(least), high) };
        let (mut octets, flaw) = flawed::make(&mut self.random, (kind, level), second, &outer, given);
        if given == Given::Received && matches!(octets[0], 0x30 | 0xA0) {
            octets[0] = FIRST[self.random.below(FIRST.len())];
        }
        self.give(&octets, flaw);
    }

    /// The outermost elements: an APDU with its first fields, or at times one with a long element in front.
    fn outer(&mut self, given: Given) -> Vec<(u8, Vec<u8>)> {
        let [id, code] = [0; 2].map(|_| element(0x02, &integer_contents(self.random.number())));
        match (given, self.random.below(12)) {
            (Given::Received, _) => vec![(FIRST[self.random.below(FIRST.len())], id)],
            (Given::ValueReceived, 0..=3) => vec![(0xA1, [id, code].concat())],
            (Given::ValueReceived, 4..=7) => vec![(0xA2, id), (0x30, code)],
            (Given::ValueReceived, _) => vec![(0xA3, [id, code].concat())],
            (Given::Request, 0) => vec![(0x30, values::sized(self.random.between(4080, 4200), true))],
            (Given::Request, _) => Vec::new(),
        }
    }

    /// A good element of any depth and length, and octets behind it.
    fn octets_behind(&mut self, kind: &'static Kind, given: Given) {
        let given = if given == Given::ValueReceived { Given::Request } else { given };
        let forms = self.forms();
        let mut octets = match self.random.below(10) {
            0..=1 => values::sized(State::OCTETS - 1, self.random.percent(50)),
            2 => values::sized(State::OCTETS + self.random.below(20), self.random.percent(50)),
            3 => values::value(&mut self.random, 0x30),
            4 => values::deep_in_forms(0x30, self.random.between(1, 13), self.random.percent(50), forms),
            _ => values::deep_in_forms(0x30, self.random.between(14, 17), self.random.percent(50), forms),
        };
        if given == Given::Received {
            octets[0] = FIRST[self.random.below(FIRST.len())];
        }
        let place = octets.len();
        let good = crate::octets::levels(&octets, State::LEVELS).is_some();
        octets.extend(kind.octets);
        self.flaw = good.then_some(Flaw { kind, level: 1, place, second: None, given });
        match self.random.below(10) {
            _ if given == Given::Received => self.receive_flawed(&octets),
            0 => self.send_value_as(0xC3, false, &octets),
            1 => self.send_value_as(0, false, &octets),
            2 => self.send_value_as(0x30, true, &octets),
            _ => self.send_value(&octets),
        }
    }

    fn give(&mut self, octets: &[u8], flaw: Flaw) {
        self.flaw = Some(flaw);
        match flaw.given {
            Given::Request => self.send_value(octets),
            _ => self.receive_flawed(octets),
        }
    }

    fn receive_flawed(&mut self, octets: &[u8]) {
        let (room, short) = (self.room(), self.random.percent(4));
        let lent = if short { room - 1 } else { room + self.random.below(6) } as u16;
        self.call(Frame { kind: frame::RECEIVE, lent, payload: octets, ..Frame::default() });
    }
}
