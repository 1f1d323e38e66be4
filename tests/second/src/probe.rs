//! Probe and acknowledge: their rules in a table, the ids that they ask about, and what receive answers.
//! Follows docs/RULES.md, "Probe and acknowledge".

use crate::apdu::Outgoing;
use crate::code::Code;
use crate::fields::Fields;
use crate::kept;
use crate::octets;
use crate::state::State;

/// The codes of the two operations that receive answers itself.
pub const PROBE: i32 = -2;
pub const ACKNOWLEDGE: i32 = -3;

/// The types of their arguments and of their results.
pub const PROBE_ARGUMENT: u8 = 0x30;
pub const ACKNOWLEDGE_ARGUMENT: u8 = 0x02;
pub const RESULT: u8 = 0x0A;

/// What an id is asked about in.
const ASKED: u8 = 0xA0;

/// The longest result that receive writes; behind a probe's there may be a kept answer.
pub const RESULT_OCTETS: usize = 16;

/// What a probe finds.
const RUNNING: u8 = 0;
const FINISHED: u8 = 1;
const UNKNOWN: u8 = 2;

/// What an acknowledge finds.
const ACKNOWLEDGED: u8 = 0;
const NOT_KEPT: u8 = 1;

/// Whether receive answers this operation itself.
#[inline]
pub fn is_answered_here(code: &Code) -> bool {
    matches!(code, Code::Local(PROBE | ACKNOWLEDGE))
}

/// Which of the two operations a valid table has.
#[derive(Clone, Copy, Debug, Default, PartialEq, Eq)]
pub enum Listed {
    #[default]
    Neither,
    Acknowledge,
    Both,
}

impl Listed {
    /// How many octets receive needs where so many hold every Reject.
    pub fn room(self, reject: usize) -> usize {
        match self {
            Listed::Neither => reject,
            Listed::Acknowledge => RESULT_OCTETS,
            Listed::Both => RESULT_OCTETS + kept::OCTETS,
        }
    }
}

/// Which of the two the entries of a rising list have, by the place of a code; none if one of them is not right.
pub fn listed(operations: &[[u8; 8]], place: fn(&[u8; 8]) -> i64) -> Option<Listed> {
    let first = operations.partition_point(|entry| place(entry) < i64::from(ACKNOWLEDGE));
    let entry = |at: usize, code: i32| operations.get(at).filter(|entry| place(entry) == i64::from(code));
    let Some(acknowledge) = entry(first, ACKNOWLEDGE) else {
        return entry(first, PROBE).is_none().then_some(Listed::Neither);
    };
    let probe = entry(first + 1, PROBE);
    let right = is_right(acknowledge, ACKNOWLEDGE_ARGUMENT) && probe.is_none_or(|row| is_right(row, PROBE_ARGUMENT));
    right.then_some(if probe.is_some() { Listed::Both } else { Listed::Acknowledge })
}

/// Class 1 or 2, the argument's type and the result's, and neither of them optional.
fn is_right(entry: &[u8; 8], wanted: u8) -> bool {
    let [.., class, argument, result, flags] = *entry;
    matches!(class, 1 | 2) && argument == wanted && result == RESULT && flags & 3 == 0
}

/// The id that a probe or acknowledge with this code asks about; none if the inside of its argument is wrong.
pub fn asked_id(code: i32, argument: &[u8]) -> Option<i32> {
    match code {
        PROBE => {
            let mut fields = Fields::of(argument, State::LEVELS)?;
            let id = fields.take_within(ASKED, |inner| inner.id().filter(|_| inner.are_taken()))?;
            fields.are_taken().then_some(id)
        }
        _ => octets::integer(octets::split(argument, State::LEVELS)?.0.contents()),
    }
}

/// Answers a probe or acknowledge with this id and code about an id; gives how many octets the result has, and how
/// many the kept answer behind it.
pub fn answer(state: &mut State, (id, code): (i32, i32), asked: i32, output: &mut [u8]) -> (usize, usize) {
    let mut write = |found| {
        let value = [RESULT, 1, found];
        Outgoing::Result { id, code: Code::Local(code).asked(), value: &value }.write(output)
    };
    match (code, state.kept.find(asked)) {
        (PROBE, _) if state.peer.find(asked).is_some() => (write(RUNNING), 0),
        (PROBE, None) => (write(UNKNOWN), 0),
        (PROBE, Some(at)) => {
            let (result, answer) = (write(FINISHED), state.kept.answer(at));
            output[result..][..answer.len()].copy_from_slice(answer);
            (result, answer.len())
        }
        (_, Some(at)) => {
            state.kept.remove(at);
            (write(ACKNOWLEDGED), 0)
        }
        (_, None) => (write(NOT_KEPT), 0),
    }
}
