//! One end of an association, played by the engine or by another program, and what each of its lines must keep to.

use crate::answer::{Answer, Indication, Problem, Refusal, REFUSALS};
use crate::apdu::{self, Apdu, Invoke};
use crate::drive::Drive;
use crate::frame::{self, Frame};
use crate::kept_after;
use crate::line::{Line, Room};
use crate::state::State;
use crate::table::Table;

/// Who plays an end.
pub trait Player {
    /// Takes a frame and appends the line of a call.
    fn play(&mut self, frame: &Frame<'_>, line: &mut Vec<u8>) -> Result<(), String>;
}

impl Player for Drive {
    fn play(&mut self, frame: &Frame<'_>, line: &mut Vec<u8>) -> Result<(), String> {
        Drive::play(self, frame, line);
        Ok(())
    }
}

/// An end that is played, what its last line showed, and the records before.
pub struct Played {
    player: Box<dyn Player>,
    text: Vec<u8>,
    room: Room,
    before: State,
    table: Vec<u8>,
}

impl Played {
    /// An end in the fresh state with this table.
    pub fn new(mut player: Box<dyn Player>, table: &[u8]) -> Result<Self, String> {
        let frame = Frame { kind: frame::TABLE, payload: table, ..Frame::default() };
        player.play(&frame, &mut Vec::new())?;
        Ok(Played { player, text: Vec::new(), room: Room::default(), before: State::fresh(), table: table.to_vec() })
    }

    /// The records as the last line showed them.
    pub fn state(&self) -> &State {
        self.room.state()
    }

    /// The records before the last call.
    pub fn before(&self) -> &State {
        &self.before
    }

    /// Makes a call: the state before it and what its line shows, or what is wrong with the line.
    pub fn call(&mut self, frame: &Frame<'_>) -> Result<(&State, Line<'_>), String> {
        self.before.clone_from(self.room.state());
        self.text.clear();
        self.player.play(frame, &mut self.text)?;
        let text = String::from_utf8_lossy(&self.text);
        let line = text.strip_suffix('\n').and_then(|text| Line::read(text, &mut self.room));
        let line = line.ok_or_else(|| format!("no line of the drive protocol: {}", text.trim_end()))?;
        let table = Table::new(&self.table).ok_or("the table is not valid")?;
        match broken_rule(&table, frame, &self.before, &line) {
            Some(rule) => Err(format!("{rule}: {}", text.trim_end())),
            None => Ok((&self.before, line)),
        }
    }
}

/// What the line breaks of the rules for every call, whatever the call asks.
fn broken_rule(table: &Table<'_>, frame: &Frame<'_>, before: &State, line: &Line<'_>) -> Option<&'static str> {
    let rules = [
        (answers(frame.kind, &line.answer), "the call has no such answer"),
        (!refuses_table_or_state(&line.answer), "refused by a table that is valid or a state that is sound"),
        (shows(frame.payload, &line.answer), "the indication does not show the APDU's fields"),
        (wrote(frame, before, line), "other octets were written than the answer says"),
        (line.written.len() <= usize::from(frame.lent), "more octets were written than lent"),
        (!line.spoiled, "an octet behind the written ones was changed"),
        (line.place == 0 || has_place(&line.answer), "the answer has no place"),
        (line.place == 0 || line.place < frame.value().len(), "the place is not in the given octets"),
        (line.state.resting.ids() == rested(frame, before, &line.answer), "other ids rest than the call says"),
        (kept_after::is_right(table, frame, before, line), "other answers are kept than the call says"),
        (
            !is_answered(&line.answer) || same_records(before, line.state),
            "an answered probe or acknowledge made a record",
        ),
        (line.answer.is_accepted() || line.state == before, "a refused call changed the records"),
        (line.state.is_sound(), "the records are not sound"),
    ];
    rules.into_iter().find(|(kept, _)| !kept).map(|(_, rule)| rule)
}

/// The ids that rest after a call: the last 64 of those before and the own one it forgot.
fn rested(frame: &Frame<'_>, before: &State, answer: &Answer<'_>) -> Vec<i32> {
    let mut ids = before.resting.ids().to_vec();
    if *answer == Answer::Forgotten && frame.detail == 0 {
        ids.push(frame.id);
    }
    ids.split_off(ids.len().saturating_sub(State::RESTING))
}

/// Whether a call of this kind can have the answer.
fn answers(kind: u8, answer: &Answer<'_>) -> bool {
    match answer {
        Answer::Indicated(_) | Answer::Answered { .. } => kind == frame::RECEIVE,
        Answer::Sent { .. } => (frame::INVOKE..=frame::REJECT).contains(&kind),
        Answer::Forgotten => kind == frame::FORGET,
        Answer::Refused(refusal) => REFUSALS[usize::from(kind - frame::RECEIVE)].1.contains(&refusal.number()),
    }
}

fn is_answered(answer: &Answer<'_>) -> bool {
    matches!(answer, Answer::Answered { .. })
}

fn same_records(before: &State, after: &State) -> bool {
    before.own == after.own && before.peer == after.peer
}

/// Whether the answer is 1 or 19, which an end with one valid table never gives from the fresh state on.
fn refuses_table_or_state(answer: &Answer<'_>) -> bool {
    matches!(answer, Answer::Refused(Refusal::InvalidTable | Refusal::UnsoundState))
}

/// Whether the answer is one that names the place of a fault: general 2, 9, 17 or 21.
fn has_place(answer: &Answer<'_>) -> bool {
    match answer {
        Answer::Refused(Refusal::Rejected { problem, .. }) => *problem == Problem::BADLY_STRUCTURED_APDU,
        Answer::Refused(refusal) => matches!(refusal.number(), 9 | 17 | 21),
        _ => false,
    }
}

/// Whether an indication shows the kind and every field of the received APDU.
fn shows(octets: &[u8], answer: &Answer<'_>) -> bool {
    match *answer {
        Answer::Indicated(indication) => apdu::read(octets).is_ok_and(|apdu| apdu == shown(indication)),
        _ => true,
    }
}

/// The APDU that an indication shows.
fn shown(indication: Indication<'_>) -> Apdu<'_> {
    match indication {
        Indication::Invoke { id, linked, code, value } => Apdu::Invoke(Invoke { id, linked, code: Some(code), value }),
        Indication::Result { id, code, value, .. } => Apdu::Result { id, returned: Some((Some(code), value)) },
        Indication::AbsentResult { id, .. } => Apdu::Result { id, returned: None },
        Indication::Error { id, code, value, .. } => Apdu::Error { id, code: Some(code), value },
        Indication::UserReject { id, problem } => Apdu::Reject { id: Some(id), problem },
        Indication::ProviderReject { id, problem } => Apdu::Reject { id, problem },
    }
}

/// Whether a request wrote its APDU, 18 its Reject, receive its answer, and everything else nothing.
fn wrote(frame: &Frame<'_>, before: &State, line: &Line<'_>) -> bool {
    let kind = frame.kind;
    match (line.answer, apdu::read(line.written)) {
        (Answer::Answered { .. }, _) => kept_after::written(frame, before).is_some_and(|octets| octets == line.written),
        (Answer::Sent { .. }, Ok(apdu)) => match apdu {
            Apdu::Invoke(_) => kind == frame::INVOKE,
            Apdu::Result { .. } => kind == frame::RESULT,
            Apdu::Error { .. } => kind == frame::ERROR,
            Apdu::Reject { .. } => kind == frame::REJECT,
        },
        (Answer::Refused(Refusal::Rejected { problem, .. }), Ok(Apdu::Reject { problem: written, .. })) => {
            problem == written
        }
        (Answer::Sent { .. } | Answer::Refused(Refusal::Rejected { .. }), _) => false,
        _ => line.written.is_empty(),
    }
}
