//! The generator's calls about names: each sort of code asked for and received, where a table has names that are close.

use crate::code::{self, Code, Name, NAME_OCTETS};
use crate::frame::{self, Frame};
use crate::generate::{fill, free_id, Generator};
use crate::model::{Model, OperationRow};
use crate::names::{self, Wanted};
use crate::octets::is_object_identifier;
use crate::random::Random;
use crate::state::{Record, State};
use crate::table::Rule;
use crate::values::{element, integer_contents};

/// Any room that is enough for the values drawn here.
const LENT: u16 = 400;

/// How a code that is asked for or received stands to those of a list.
#[derive(Clone, Copy)]
enum Sort {
    Listed,
    OfTheTable,
    OfTheOtherList,
    Close,
    OtherLength,
    Beginning,
    MoreOctets,
    OfTheOtherSort,
    Long,
    LongStart,
    NoName,
}

/// Listed codes more often, so that many calls are accepted.
const SORTS: [Sort; 24] = [
    Sort::Listed,
    Sort::Listed,
    Sort::Listed,
    Sort::Listed,
    Sort::Listed,
    Sort::Listed,
    Sort::Listed,
    Sort::Listed,
    Sort::Listed,
    Sort::Listed,
    Sort::Listed,
    Sort::LongStart,
    Sort::OfTheTable,
    Sort::OfTheOtherList,
    Sort::Close,
    Sort::OtherLength,
    Sort::Beginning,
    Sort::MoreOctets,
    Sort::OfTheOtherSort,
    Sort::OfTheOtherSort,
    Sort::OfTheOtherSort,
    Sort::Long,
    Sort::LongStart,
    Sort::NoName,
];

impl Generator<'_> {
    /// A table with close names, or one without, and a few calls that each have a code.
    pub(crate) fn named_calls(&mut self) {
        let model = Model::close(&mut self.random);
        self.set_model(model);
        let mut state = State::fresh();
        for side in [&mut state.own, &mut state.peer] {
            let operations = &self.model.operations;
            fill(&mut self.random, side, 8, |random| {
                random.pick_where(operations, |row| row.class == 2).map(|row| row.code)
            });
        }
        self.set_state(&state);
        for _ in 0..self.random.between(6, 12) {
            let operations: Vec<Code> = self.model.operations.iter().map(|row| row.code).collect();
            let errors: Vec<Code> = self.model.errors.iter().map(|row| row.code).collect();
            match self.random.below(13) {
                0..=2 => self.ask_operation(&operations, &errors),
                3..=5 => self.ask_error(&errors, &operations),
                6..=7 => self.hear_operation(&operations, &errors),
                8..=10 => self.hear_error(&errors, &operations),
                _ => self.hear_result(&operations),
            }
        }
    }

    fn ask_operation(&mut self, operations: &[Code], errors: &[Code]) {
        let code = self.sorted_code(operations, errors);
        let value = self.value(self.argument_of(&code));
        let id = free_id(&mut self.random, &self.drive.state, true);
        let frame = Frame { kind: frame::INVOKE, lent: LENT, id, ..Frame::default() };
        self.call(frame.asking(code.asked(), &value, &mut Vec::new()));
    }

    fn ask_error(&mut self, errors: &[Code], operations: &[Code]) {
        let code = self.sorted_code(errors, operations);
        let Some(Record { id, .. }) = self.random.pick(self.drive.state.peer.live()) else { return };
        let value = self.value(self.parameter(&code));
        let frame = Frame { kind: frame::ERROR, lent: LENT, id, ..Frame::default() };
        self.call(frame.asking(code.asked(), &value, &mut Vec::new()));
    }

    fn hear_operation(&mut self, operations: &[Code], errors: &[Code]) {
        let code = self.heard_code(operations, errors);
        let (id, value) = (free_id(&mut self.random, &self.drive.state, false), self.value(self.argument_of(&code)));
        let fields = [element(0x02, &integer_contents(id)), code.element(&mut self.random), value];
        self.hear(0xA1, &fields.concat());
    }

    fn hear_error(&mut self, errors: &[Code], operations: &[Code]) {
        let code = self.heard_code(errors, operations);
        let Some(Record { id, .. }) = self.random.pick(self.drive.state.own.live()) else { return };
        let value = self.value(self.parameter(&code));
        let fields = [element(0x02, &integer_contents(id)), code.element(&mut self.random), value];
        self.hear(0xA3, &fields.concat());
    }

    /// A result whose code is that of its record, or another.
    fn hear_result(&mut self, operations: &[Code]) {
        let Some(Record { id, code }) = self.random.pick(self.drive.state.own.live()) else { return };
        let value = self.value(Rule { kind: 0x04, optional: false });
        let returned = match self.random.below(10) {
            0..=3 => code.into(),
            9 if self.random.percent(50) => Wanted::Local(self.random.number()),
            4..=7 => self.heard_code_unless(code, operations),
            8 if names::has_another_sort(&code) => names::of_the_other_sort(code),
            _ => self.heard_code(operations, &[]),
        };
        let inner = element(0x30, &[returned.element(&mut self.random), value].concat());
        self.hear(0xA2, &[element(0x02, &integer_contents(id)), inner].concat());
    }

    fn hear(&mut self, kind: u8, fields: &[u8]) {
        self.arrive(&element(kind, fields));
    }

    fn argument_of(&self, code: &Wanted) -> Rule {
        let row = code.asked().code().and_then(|code| self.model.operation(code));
        row.map_or(Rule { kind: 0, optional: false }, |(_, row)| row.argument_rule())
    }

    fn parameter(&self, code: &Wanted) -> Rule {
        let code = code.asked().code();
        let row = self.model.errors.iter().find(|row| Some(row.code) == code);
        row.map_or(Rule { kind: 0, optional: false }, |row| row.rule())
    }

    /// A code whose contents are right for a 06.
    fn heard_code(&mut self, list: &[Code], other: &[Code]) -> Wanted {
        loop {
            match self.sorted_code(list, other) {
                Wanted::Name(contents) if !is_object_identifier(&contents) => {}
                code => return code,
            }
        }
    }

    /// A code that is not this one, but mostly close to it.
    fn heard_code_unless(&mut self, code: Code, operations: &[Code]) -> Wanted {
        loop {
            let heard = self.heard_code(&[code], operations);
            if heard != code.into() {
                return heard;
            }
        }
    }

    /// A code of a drawn sort.
    fn sorted_code(&mut self, list: &[Code], other: &[Code]) -> Wanted {
        let (random, names) = (&mut self.random, self.model.names());
        loop {
            let sort = SORTS[random.below(SORTS.len())];
            if let Some(code) = code_of(sort, [list, other], names, random) {
                return code;
            }
        }
    }
}

fn code_of(sort: Sort, [list, other]: [&[Code]; 2], names: &[Name], random: &mut Random) -> Option<Wanted> {
    let is_name = |code: &Code| matches!(code, Code::Name(_));
    let listed: Vec<u8> = match random.pick_where(list, is_name) {
        Some(Code::Name(name)) => code::contents(&name).to_vec(),
        _ => Vec::new(),
    };
    let derived = |contents: Vec<u8>| (!listed.is_empty()).then_some(Wanted::Name(contents));
    let mut changed = listed.clone();
    match sort {
        Sort::Listed => random.pick(list).map(Wanted::from),
        Sort::OfTheTable => random.pick(names).map(|name| Code::Name(name).into()),
        Sort::OfTheOtherList => random.pick_where(other, is_name).map(Wanted::from),
        Sort::Close => Some(Code::Name(names::other(random, names)).into()),
        Sort::OtherLength => {
            match changed.ends_with(&[0]) && changed.len() > 1 && random.percent(50) {
                true => drop(changed.pop()),
                false => changed.push(0),
            }
            derived(changed).filter(|_| listed.len() < NAME_OCTETS)
        }
        Sort::Beginning => {
            changed.truncate(random.between(1, listed.len().max(1)));
            derived(changed)
        }
        Sort::MoreOctets => {
            changed.extend([random.octet() & 0x7F, random.octet() & 0x7F].iter().take(random.between(1, 2)));
            derived(changed)
        }
        Sort::OfTheOtherSort => random.pick_where(list, names::has_another_sort).map(names::of_the_other_sort),
        Sort::Long => Some(Wanted::Name(names::long(random, names))),
        Sort::LongStart => {
            changed.resize([17, 18, 33, 40][random.below(4)], 0);
            derived(changed).filter(|_| listed.len() == NAME_OCTETS || random.percent(30))
        }
        Sort::NoName => Some(Wanted::Name(names::no_name(random, names))),
    }
}

impl Model {
    /// A valid table whose rows are few and take any value they can, mostly of edition 2 with close names.
    pub fn close(random: &mut Random) -> Model {
        let mut model = Model::of_edition_1(random);
        model.operations.truncate(8);
        model.errors.truncate(8);
        for row in &mut model.operations {
            let class = [2, 2, 2, 2, 2, 2, 5][random.below(7)];
            *row = OperationRow { class, argument: 0x04, result: 0x04, flags: 3, ..*row };
            Model::settle(row);
        }
        model.errors.iter_mut().for_each(|row| (row.parameter, row.optional) = (0x04, 1));
        if random.percent(90) {
            let more = random.below(8);
            model.renew(random, more);
        }
        model.error_pairs = model.allowed_error_pairs();
        model.child_pairs.clear();
        model
    }
}
