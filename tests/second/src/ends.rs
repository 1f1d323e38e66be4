//! A kiosk with table O and a controller with table N, which extends O, over a channel that loses, repeats and
//! reorders; every call is noted in the book and checked. Both ends are played by this program's engine
//! or by another program.

use crate::book::{Book, End, ROWS};
use crate::channel::Channel;
use crate::code::Code;
use crate::counted::{count_answer, count_fetched, count_kept, count_resting};
use crate::drive::Drive;
use crate::engine::REJECT_OCTETS;
use crate::flawed;
use crate::flaws::BEHIND;
use crate::frame::{self, Frame};
use crate::insides;
use crate::model::{extends, Model, OperationRow};
use crate::player::{Played, Player};
use crate::probe::{self, Listed, ACKNOWLEDGE, PROBE};
use crate::process::Process;
use crate::random::Random;
use crate::show;
use crate::state::Record;
use crate::table::{Rule, Table};
use crate::values;

/// How often each row must occur in a run of `LONG` calls; in a shorter one in proportion.
const LEAST: u64 = 1000;
const LONG: u64 = 1_000_000;

/// The editions of O and N, association by association.
const EDITIONS: [[u8; 2]; 6] = [[2, 2], [1, 1], [2, 2], [2, 1], [2, 2], [1, 2]];

/// Which of probe and acknowledge O lists, association by association.
const LISTED: [Listed; 7] =
    [Listed::Both, Listed::Neither, Listed::Both, Listed::Both, Listed::Acknowledge, Listed::Both, Listed::Neither];

/// In one of so many associations the kiosk forgets often; in others that list probe the channel loses many answers, and
/// the kiosk forgets little.
const FORGETFUL: usize = 5;

/// In one of so many associations the controller answers seldom.
const SLOW: usize = 4;

/// Runs associations until so many calls are made: the counts, and whether all is as "What is shown was given" says and often enough.
/// A program, if one is named, plays both ends.
pub fn run(program: Option<&str>, seed: u64, calls: u64) -> Result<(String, bool), String> {
    let mut random = Random::new(seed);
    let (mut counts, mut made, mut accepted, mut associations, mut full) = ([0; ROWS.len()], 0, 0, 0, 0);
    while made < calls {
        associations += 1;
        let most = random.between(100, 1200) as u64;
        let editions = EDITIONS[(associations - 1) % EDITIONS.len()];
        let listed = LISTED[(associations - 1) % LISTED.len()];
        let forgetful = associations % FORGETFUL == 1;
        let lossy = listed == Listed::Both && !forgetful;
        let slow = associations % SLOW == 2;
        let mut association = Association::new(&mut random, program, (editions, listed), [forgetful, lossy, slow])?;
        let stop = most.min(calls - made);
        for _ in 0..stop {
            if let Err(wrong) = association.step() {
                return Ok((format!("seed {seed} association {associations}: {wrong}\n"), false));
            }
        }
        made += stop;
        accepted += association.accepted;
        full += usize::from(association.book.has_counted("forgets with 64 ids resting"));
        counts.iter_mut().zip(association.book.counts.0).for_each(|(sum, count)| *sum += count);
    }
    let (rows, enough) = report(&counts, LEAST * calls / LONG);
    let said = format!("{made} calls in {associations} associations, {accepted} accepted");
    Ok((format!("{said}; a 65th id came to rest in {full} of them\n{rows}"), enough))
}

/// How often each row occurred, and whether that is often enough.
fn report(counts: &[u64], least: u64) -> (String, bool) {
    let mut text = String::new();
    for (row, &count) in ROWS.iter().zip(counts) {
        text += &format!("{count:8}  {row}{}\n", if count < least { "  TOO FEW" } else { "" });
    }
    let enough = counts.iter().all(|&count| count >= least);
    let verdict = if enough { "enough" } else { "NOT ENOUGH" };
    (text + &format!("no conclusion failed, each row needs {least}: {verdict}\n"), enough)
}

struct Association<'r> {
    random: &'r mut Random,
    book: Book,
    ends: [Played; 2],
    models: [Model; 2],
    /// How many octets receive needs at each end.
    rooms: [usize; 2],
    channel: Channel,
    /// The number of the APDU that is handed over.
    handed: Option<usize>,
    accepted: u64,
    /// Whether the kiosk forgets often.
    forgetful: bool,
    /// Whether the channel loses many of the controller's answers.
    lossy: bool,
    /// Whether the controller answers seldom.
    slow: bool,
}

impl<'r> Association<'r> {
    fn new(
        random: &'r mut Random,
        program: Option<&str>,
        sorts: ([u8; 2], Listed),
        [forgetful, lossy, slow]: [bool; 3],
    ) -> Result<Self, String> {
        let (o, n) = tables(random, sorts);
        let [kiosk, controller] = [&o, &n].map(|model| Played::new(player(program)?, &model.octets()));
        let rooms = [&o, &n].map(|model| listed(model).room(REJECT_OCTETS));
        let (ends, models, book) = ([kiosk?, controller?], [o, n], Book::default());
        let channel = Channel::new(lossy);
        Ok(Association {
            random,
            book,
            ends,
            models,
            rooms,
            channel,
            handed: None,
            accepted: 0,
            forgetful,
            lossy,
            slow,
        })
    }

    /// One call at one end, checked and noted.
    fn step(&mut self) -> Result<(), String> {
        if self.forgetful && self.random.percent(40) {
            return match self.random.percent(50) {
                true => self.invoke(End::Kiosk),
                false => self.forget(End::Kiosk),
            };
        }
        if let Some((code, asked)) = self.wanted_probe() {
            return self.probe(code, asked);
        }
        match self.random.below(100) {
            0..=15 => self.invoke(End::Kiosk),
            16..=43 => self.receive(End::Kiosk),
            44..=46 => self.forget(End::Kiosk),
            47..=51 => self.answer(End::Kiosk),
            52..=72 => self.receive(End::Controller),
            79..=90 if self.slow => self.receive(End::Controller),
            73..=90 => self.answer(End::Controller),
            91..=98 => self.invoke(End::Controller),
            _ => self.forget(End::Controller),
        }
    }

    fn call(&mut self, end: End, frame: Frame<'_>) -> Result<(), String> {
        let octets = self.models[0].octets();
        let o = Table::new(&octets).ok_or("the kiosk's table is not valid")?;
        let noted = self.ends[end as usize].call(&frame).and_then(|(before, line)| {
            self.accepted += u64::from(line.answer.is_accepted());
            if end == End::Kiosk {
                count_answer(&mut self.book, &self.models, &line.answer);
                count_resting(&mut self.book, before, (&frame, &line.answer));
                if let Some(lost) = self.handed.take().and_then(|at| self.channel.fetched(at)) {
                    count_fetched(&mut self.book, lost, &line.answer);
                }
            }
            count_kept(&mut self.book, (end, &self.models[end as usize]), before, (&frame, &line.answer));
            self.book.note(&o, end, (&frame, &line.answer, line.written))?;
            self.channel.take(self.random, &self.book, end, &line.answer);
            Ok(())
        });
        noted.map_err(|wrong| {
            let table = show::table(&self.models[end as usize].octets());
            let state = show::state(self.ends[end as usize].before());
            format!("{wrong}\n\nat the {end:?}, {}{state}{table}", show::frame(&frame))
        })
    }

    /// Hands over an APDU that the other end wrote.
    fn receive(&mut self, end: End) -> Result<(), String> {
        let Some(at) = self.channel.deliver(self.random, end) else { return self.pass(end) };
        let payload = self.book.wire(end.other())[at].clone();
        let (room, short) = (self.rooms[end as usize], end == End::Controller && self.random.percent(2));
        let lent = if short { self.random.below(room) } else { room + self.random.below(10) } as u16;
        self.handed = Some(at).filter(|_| end == End::Kiosk);
        self.call(end, Frame { kind: frame::RECEIVE, lent, payload: &payload, ..Frame::default() })
    }

    /// What an end does that has nothing to receive.
    fn pass(&mut self, end: End) -> Result<(), String> {
        match self.lossy {
            true => self.invoke(end),
            false => self.forget(end),
        }
    }

    /// A probe or acknowledge that the kiosk now sends, if it does: often about an answer that it awaits and the
    /// controller keeps.
    fn wanted_probe(&mut self) -> Option<(i32, i32)> {
        let lists = |code: i32| self.models[0].operation(Code::Local(code)).is_some();
        let [kiosk, controller] = [&self.ends[0], &self.ends[1]].map(Played::state);
        let (kept, awaits) = (&controller.kept, |id: i32| kiosk.own.find(id).is_some());
        let is_lost = |id: i32| {
            let answer = kept.find(id).map_or(&[][..], |at| kept.answer(at));
            awaits(id) && self.channel.has_lost(&self.book, answer)
        };
        if let Some(id) = self.random.pick_where(kept.ids(), |id| lists(PROBE) && is_lost(*id)) {
            return self.random.percent(30).then_some((PROBE, id));
        }
        let running = self.random.pick_where(controller.peer.live(), |record| lists(PROBE) && awaits(record.id));
        if let Some(record) = running.filter(|_| self.random.percent(if self.slow { 8 } else { 2 })) {
            return Some((PROBE, record.id));
        }
        if !lists(ACKNOWLEDGE) || !self.random.percent(4) {
            return None;
        }
        let ids = |records: &[Record]| records.iter().map(|record| record.id).collect::<Vec<i32>>();
        let asked = match self.random.below(10) {
            0..=4 => self.random.pick(kept.ids()),
            5..=6 => self.random.pick(&ids(controller.peer.live())),
            7..=8 => self.random.pick(&ids(kiosk.own.live())),
            _ => None,
        };
        let code = if lists(PROBE) && self.random.percent(65) { PROBE } else { ACKNOWLEDGE };
        Some((code, asked.unwrap_or_else(|| self.random.number())))
    }

    /// The kiosk's probe or acknowledge about an id.
    fn probe(&mut self, code: i32, asked: i32) -> Result<(), String> {
        let (id, payload, lent) = (self.new_id(End::Kiosk), insides::plain(code, asked), self.lent());
        self.call(End::Kiosk, Frame { kind: frame::INVOKE, lent, id, code, payload: &payload, ..Frame::default() })
    }

    /// An argument of an operation; mostly a right one about a recent id where the other end looks inside.
    fn argument(&mut self, end: End, row: &OperationRow) -> Vec<u8> {
        let kept = self.random.pick(self.ends[end.other() as usize].state().kept.ids());
        match row.code {
            Code::Local(code) if probe::is_answered_here(&row.code) && self.random.percent(80) => {
                insides::plain(code, kept.unwrap_or_else(|| self.random.number()))
            }
            _ => self.value(row.argument_rule()),
        }
    }

    fn invoke(&mut self, end: End) -> Result<(), String> {
        let parent = self.peer_record(end).filter(|_| self.random.percent(50));
        let model = &self.models[end as usize];
        let few = !self.random.percent(15);
        let mut row = self.random.pick_where(&model.operations, |row| !few || !probe::is_answered_here(&row.code));
        if let Some((index, _)) = parent.and_then(|parent| model.operation(parent.code)) {
            let pair = self.random.pick_where(&model.child_pairs, |pair| usize::from(pair.0) == index);
            row = pair.map(|pair| model.operations[usize::from(pair.1)]).or(row);
        }
        let Some(row) = row else { return self.forget(end) };
        let id = self.new_id(end);
        let payload = self.argument(end, &row);
        let (detail, linked) = parent.map_or((0, 0), |parent| (1, parent.id));
        let lent = self.lent();
        let frame = Frame { kind: frame::INVOKE, detail, lent, id, linked, ..Frame::default() };
        self.call(end, frame.asking(row.code.asked(), &payload, &mut Vec::new()))
    }

    /// An id for an invocation: the kiosk's is live or rests, and so is refused, or was never accepted.
    fn new_id(&mut self, end: End) -> i32 {
        if end == End::Controller {
            return self.random.number();
        }
        let state = self.ends[end as usize].state();
        let live = state.own.live().first().copied();
        if let Some(record) = live.filter(|record| self.book.live().contains(&record.id) && self.random.percent(5)) {
            return record.id;
        }
        if let Some(id) = self.random.pick(state.resting.ids()).filter(|_| self.random.percent(8)) {
            return id;
        }
        loop {
            let id = match self.random.percent(50) {
                true => self.random.number(),
                false => self.random.draw() as i32,
            };
            if !self.book.was_asked(id) {
                return id;
            }
        }
    }

    /// A result, an error or a user reject to an invocation of the other end.
    fn answer(&mut self, end: End) -> Result<(), String> {
        let Some(record) = self.peer_record(end) else { return self.receive(end) };
        let id = if self.random.percent(3) { self.random.number() } else { record.id };
        let lent = self.lent();
        if self.random.percent(5) {
            let detail = self.random.between(1, 4) as u8;
            return self.call(end, Frame { kind: frame::REJECT, detail, lent, id, ..Frame::default() });
        }
        let model = &self.models[end as usize];
        let Some((index, row)) = model.operation(record.code) else { return self.receive(end) };
        let errors = self.random.percent(if row.class == 3 { 90 } else { 55 });
        if errors && row.class != 4 {
            let pair = self.random.pick_where(&model.error_pairs, |pair| usize::from(pair.0) == index);
            let any = self.random.pick(&model.errors).filter(|_| self.random.percent(10));
            let error = pair.map(|pair| model.errors[usize::from(pair.1)]).or(any);
            if let Some(error) = error {
                let payload = self.value(error.rule());
                let frame = Frame { kind: frame::ERROR, lent, id, ..Frame::default() };
                return self.call(end, frame.asking(error.code.asked(), &payload, &mut Vec::new()));
            }
        }
        let payload = self.value(row.result_rule());
        self.call(end, Frame { kind: frame::RESULT, lent, id, payload: &payload, ..Frame::default() })
    }

    /// Forgets an own record mostly, so that late answers come; else a peer record.
    fn forget(&mut self, end: End) -> Result<(), String> {
        let own = self.random.percent(80);
        let state = self.ends[end as usize].state();
        let side = if own { &state.own } else { &state.peer };
        // Where many answers are lost, the oldest is the least likely to be fetched.
        let oldest = side.live().first().copied().filter(|_| self.lossy);
        let id = oldest.or_else(|| self.random.pick(side.live())).map_or(7, |record| record.id);
        self.call(end, Frame { kind: frame::FORGET, detail: u8::from(!own), id, ..Frame::default() })
    }

    fn peer_record(&mut self, end: End) -> Option<Record> {
        self.random.pick(self.ends[end as usize].state().peer.live())
    }

    /// A right value, or none where none is right; rarely one that breaks the rule or is at fault, often one of
    /// indefinite length.
    fn value(&mut self, rule: Rule) -> Vec<u8> {
        match self.random.below(50) {
            0 => return flawed::value(self.random),
            1 => {
                let good = values::value(self.random, rule.kind.max(1));
                return [&good, BEHIND[self.random.below(BEHIND.len())].octets].concat();
            }
            _ => {}
        }
        let broken = self.random.percent(3);
        if broken != (rule.kind == 0 || rule.optional && self.random.percent(40)) {
            return Vec::new();
        }
        let kind = if broken { 0x0C } else { rule.kind };
        match self.random.percent(65) {
            true => values::indefinite_value(self.random, kind),
            false => values::value(self.random, kind),
        }
    }

    /// Room enough, mostly.
    fn lent(&mut self) -> u16 {
        if self.random.percent(2) {
            self.random.below(12) as u16
        } else {
            1000
        }
    }
}

/// Which of probe and acknowledge a table lists.
fn listed(model: &Model) -> Listed {
    Table::new(&model.octets()).map_or(Listed::Neither, |table| table.listed)
}

/// A valid table O that lists these of probe and acknowledge, and a valid table N that extends it, of these editions.
fn tables(random: &mut Random, (editions, wanted): ([u8; 2], Listed)) -> (Model, Model) {
    loop {
        let mut o = Model::random(random);
        if wanted != Listed::Neither {
            o.add_probe(random, wanted == Listed::Both);
        }
        // A synchronous one that is not answered stops every other invoke.
        if random.percent(80) {
            o.operations.iter_mut().filter(|row| probe::is_answered_here(&row.code)).for_each(|row| row.class = 2);
        }
        let mut n = o.extended(random);
        if random.percent(65) {
            n.add_probe(random, true);
        }
        if [&o, &n].map(|model| if model.names.is_some() { 2 } else { 1 }) != editions
            || editions == [2, 2] && !o.lists_a_name()
            || listed(&o) != wanted
        {
            continue;
        }
        let (old, new) = (o.octets(), n.octets());
        if let (Some(old), Some(new)) = (Table::new(&old), Table::new(&new)) {
            assert!(extends(&new, &old), "the controller's table extends the kiosk's");
            return (o, n);
        }
    }
}

/// The program, started anew, or this program's engine.
fn player(program: Option<&str>) -> Result<Box<dyn Player>, String> {
    Ok(match program {
        Some(program) => Box::new(Process::start(program)?),
        None => Box::new(Drive::default()),
    })
}
