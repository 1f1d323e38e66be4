//! What the two ends meet besides the book: how O and N differ about an answer, resting ids, and kept answers.

use crate::answer::{Answer, Indication, Problem, Refusal};
use crate::apdu::{self, Apdu};
use crate::book::{Book, End};
use crate::code::Code;
use crate::codes;
use crate::frame::{self, Frame};
use crate::model::Model;
use crate::probe::{self, ACKNOWLEDGE, PROBE};
use crate::state::State;

/// Counts in what O and N differ about an operation whose answer reached the kiosk.
pub fn count_answer(book: &mut Book, [o, n]: &[Model; 2], answer: &Answer<'_>) {
    let Some(operation) = answered(answer) else { return };
    let row = |model: &Model| model.operation(operation).map(|(_, row)| row.flags & 8 != 0);
    let place = |model: &Model| codes::place(&operation, model.names());
    let is_name = matches!(operation, Code::Name(_));
    book.count_if(is_name && place(o) != place(n), "answers of a name that N numbers otherwise");
    let only_n = (row(o), row(n)) == (Some(false), Some(true));
    book.count_if(only_n, "answers of an operation that only N marks idempotent");
    book.count(match (o.names.is_some(), n.names.is_some()) {
        (false, false) => "answers, both tables of edition 1",
        (false, true) => "answers, O of edition 1 and N of edition 2",
        (true, false) => "answers, O of edition 2 and N of edition 1",
        (true, true) => "answers, both tables of edition 2",
    });
    let lists = |model: &Model, code: i32| model.operation(Code::Local(code)).is_some();
    book.count(match (lists(o, PROBE), lists(o, ACKNOWLEDGE), lists(n, ACKNOWLEDGE)) {
        (true, ..) => "answers, O lists probe and acknowledge",
        (_, true, _) => "answers, O lists acknowledge alone",
        (.., true) => "answers, O lists neither, N does",
        _ => "answers, both tables list neither",
    });
}

/// Counts an answer of the controller that a probe fetched and that now reached the kiosk; `lost` is whether it was lost
/// when it was sent first.
pub fn count_fetched(book: &mut Book, lost: bool, answer: &Answer<'_>) {
    match answered(answer) {
        Some(_) => book.count_if(lost, "lost answers fetched by a probe and indicated"),
        None => book.count_if(!lost, "fetched answers that were not lost and are late or repeated"),
    }
}

/// Counts what a call has to do with kept answers and with the operations that receive answers.
pub fn count_kept(book: &mut Book, (end, model): (End, &Model), before: &State, seen: (&Frame<'_>, &Answer<'_>)) {
    match (end, seen) {
        (End::Kiosk, (frame, Answer::Sent { .. })) if frame.kind == frame::INVOKE => {
            let is_probe = frame.asked().code().is_some_and(|code| probe::is_answered_here(&code));
            let beside = before.own.live().iter().any(|record| model.class(record.code) == Some(1));
            book.count_if(is_probe && beside, "probes and acknowledges sent beside a synchronous invocation");
        }
        (End::Controller, (_, Answer::Indicated(Indication::Invoke { id, .. }))) => {
            book.count_if(before.kept.find(*id).is_some(), "kept answers dropped by an Invoke with their id");
        }
        (End::Kiosk, (_, Answer::Answered { .. })) => {
            book.count("answers to the controller's probes and acknowledges");
        }
        _ => {}
    }
}

/// The operation of a result or error that is indicated.
fn answered(answer: &Answer<'_>) -> Option<Code> {
    match *answer {
        Answer::Indicated(
            Indication::Result { operation, .. }
            | Indication::AbsentResult { operation, .. }
            | Indication::Error { operation, .. },
        ) => Some(operation),
        _ => None,
    }
}

/// Counts what a call at the kiosk has to do with the ids that rested before it.
pub fn count_resting(book: &mut Book, before: &State, (frame, answer): (&Frame<'_>, &Answer<'_>)) {
    let full = before.resting.ids().len() == State::RESTING;
    match (frame.kind, answer) {
        (frame::FORGET, Answer::Forgotten) if frame.detail == 0 => {
            book.count_if(full, "forgets with 64 ids resting");
        }
        (frame::INVOKE, Answer::Refused(Refusal::IdResting)) => book.count("invokes refused with 22"),
        (frame::RECEIVE, Answer::Refused(Refusal::Rejected { problem, .. })) => {
            let row = match (apdu::read(frame.payload), *problem) {
                (Ok(Apdu::Result { id, .. }), Problem::RESULT_UNRECOGNIZED_INVOCATION)
                | (Ok(Apdu::Error { id, .. }), Problem::ERROR_UNRECOGNIZED_INVOCATION) => Some(id),
                _ => None,
            };
            book.count_if(row.is_some_and(|id| before.resting.contains(id)), "late answers to a resting id");
        }
        _ => {}
    }
}
