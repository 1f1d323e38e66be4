//! What every call must leave kept, and what receive must write to answer a probe or acknowledge, from what its line
//! and the state before it show.
//! Follows docs/RULES.md, "Kept answers".

use crate::answer::{Answer, Indication};
use crate::apdu::{self, Apdu};
use crate::code::Code;
use crate::frame::{self, Frame};
use crate::kept::{Kept, OCTETS};
use crate::line::Line;
use crate::probe::{self, ACKNOWLEDGE, PROBE};
use crate::state::State;
use crate::table::Table;
use crate::values::{element, integer_contents};

/// The ids and octets of kept answers, oldest first.
type Answers = Vec<(i32, Vec<u8>)>;

fn answers(kept: &Kept) -> Answers {
    kept.ids().iter().enumerate().map(|(at, id)| (*id, kept.answer(at).to_vec())).collect()
}

/// Whether the call left the right answers kept.
pub fn is_right(table: &Table<'_>, frame: &Frame<'_>, before: &State, line: &Line<'_>) -> bool {
    if matches!(line.answer, Answer::Refused(_) | Answer::Forgotten) || frame.kind == frame::INVOKE {
        return line.state.kept == before.kept;
    }
    let mut kept = answers(&before.kept);
    match line.answer {
        Answer::Answered { .. } => {
            if let Some((_, ACKNOWLEDGE, asked)) = asked(frame) {
                kept.retain(|(id, _)| *id != asked);
            }
        }
        Answer::Indicated(Indication::Invoke { id, .. }) => kept.retain(|(other, _)| *other != id),
        Answer::Sent { .. } if is_kept(table, frame, before) && line.written.len() <= OCTETS => {
            kept.push((frame.id, line.written.to_vec()));
        }
        _ => {}
    }
    answers(&line.state.kept) == kept[kept.len().saturating_sub(State::KEPT)..]
}

/// Whether the answer of a request is one that is kept if it is short enough.
fn is_kept(table: &Table<'_>, frame: &Frame<'_>, before: &State) -> bool {
    let record = before.peer.find(frame.id).map(|at| before.peer.places[at]);
    let operation = record.and_then(|record| table.operation(&record.code));
    let keeps = operation.is_some_and(|row| !row.idempotent && !probe::is_answered_here(&row.code));
    keeps && matches!(frame.kind, frame::RESULT | frame::ERROR)
}

/// The id and code of a received probe or acknowledge, and the id that it asks about.
fn asked(frame: &Frame<'_>) -> Option<(i32, i32, i32)> {
    let Ok(Apdu::Invoke(invoke)) = apdu::read(frame.payload) else { return None };
    let Some(Code::Local(code @ (PROBE | ACKNOWLEDGE))) = invoke.code else { return None };
    Some((invoke.id, code, probe::asked_id(code, invoke.value?)?))
}

/// What receive writes to answer a probe or acknowledge.
pub fn written(frame: &Frame<'_>, before: &State) -> Option<Vec<u8>> {
    let (id, code, asked) = asked(frame)?;
    let kept = answers(&before.kept).into_iter().find(|(id, _)| *id == asked).map(|(_, octets)| octets);
    let running = before.peer.live().iter().any(|record| record.id == asked);
    let found = match (code, running, &kept) {
        (PROBE, true, _) | (ACKNOWLEDGE, _, Some(_)) => 0,
        (PROBE, false, Some(_)) | (ACKNOWLEDGE, _, None) => 1,
        _ => 2,
    };
    let number = |number| element(0x02, &integer_contents(number));
    let returned = element(0x30, &[number(code), vec![0x0A, 0x01, found]].concat());
    let mut octets = element(0xA2, &[number(id), returned].concat());
    octets.extend(kept.filter(|_| code == PROBE && found == 1).unwrap_or_default());
    Some(octets)
}
