//! The six calls: receive, the four requests and forget. A refused call leaves the state as given.
//! Follows docs/RULES.md, "Receiving, in order of check", "Requests, in order of check", "Where octets are at fault",
//! "Names", "Ids that rest", "Kept answers" and "Probe and acknowledge".

use crate::answer::{Indication, Problem, Received, Refusal};
use crate::apdu::{self, Apdu, Invoke, Outgoing};
use crate::code::{Asked, Code};
use crate::fault;
use crate::octets;
use crate::probe;
use crate::state::{Side, State};
use crate::table::{Operation, Rule, Table};

/// The longest Reject; receive needs room for it, and for more where the table has a probe or acknowledge.
pub const REJECT_OCTETS: usize = 11;

/// Which side's record to forget.
#[derive(Clone, Copy, Debug, PartialEq, Eq)]
pub enum Invocation {
    Own(i32),
    Peer(i32),
}

/// How many octets a request wrote, or why it was refused.
type Sent = Result<usize, Refusal>;

/// The check every call starts with: 19, then 1.
fn open<'t>(table: &'t [u8], state: &State) -> Result<Table<'t>, Refusal> {
    if !state.is_sound() {
        return Err(Refusal::UnsoundState);
    }
    let table = Table::new(table).ok_or(Refusal::InvalidTable)?;
    let knows = |side: &Side| side.live().iter().all(|record| table.has_operation(&record.code));
    if knows(&state.own) && knows(&state.peer) {
        Ok(table)
    } else {
        Err(Refusal::InvalidTable)
    }
}

/// Takes a received APDU: an indication, an answer to a probe or acknowledge, or a refusal with a Reject written (18)
/// or without.
pub fn receive<'a>(
    table: &[u8],
    state: &mut State,
    octets: &'a [u8],
    output: &mut [u8],
) -> Result<Received<'a>, Refusal> {
    let table = open(table, state)?;
    if octets.len() > State::OCTETS {
        return Err(Refusal::ReceivedTooLong);
    }
    if output.len() < table.listed.room(REJECT_OCTETS) {
        return Err(Refusal::ShortOutput);
    }
    let reject = |output: &mut [u8], id, problem| {
        let written = Outgoing::Reject { id, problem }.write(output);
        let place = fault_place(octets, problem);
        Refusal::Rejected { problem, written, place }
    };
    match apdu::read(octets) {
        Ok(Apdu::Invoke(invoke)) => {
            receive_invoke(&table, state, invoke, output).map_err(|problem| reject(output, Some(invoke.id), problem))
        }
        Ok(Apdu::Result { id, returned }) => {
            let received = receive_result(&table, state, id, returned).map(Received::Indicated);
            received.map_err(|problem| reject(output, Some(id), problem))
        }
        Ok(Apdu::Error { id, code, value }) => {
            let received = receive_error(&table, state, id, code, value).map(Received::Indicated);
            received.map_err(|problem| reject(output, Some(id), problem))
        }
        Ok(Apdu::Reject { id, problem }) => Ok(Received::Indicated(receive_reject(state, id, problem))),
        Err(unreadable) if octets.first() == Some(&apdu::REJECT) => {
            Err(Refusal::UnacceptableReject { place: fault_place(octets, unreadable.problem) })
        }
        Err(unreadable) => Err(reject(output, unreadable.id, unreadable.problem)),
    }
}

/// The place of the first fault of received octets, 0 if the problem is another.
fn fault_place(octets: &[u8], problem: Problem) -> usize {
    match problem {
        Problem::BADLY_STRUCTURED_APDU => fault::place(octets, State::LEVELS),
        _ => 0,
    }
}

fn receive_invoke<'a>(
    table: &Table,
    state: &mut State,
    invoke: Invoke<'a>,
    output: &mut [u8],
) -> Result<Received<'a>, Problem> {
    let Invoke { id, linked, code, value } = invoke;
    if state.peer.find(id).is_some() {
        return Err(Problem::DUPLICATE_INVOCATION);
    }
    let mut parent = None;
    if let Some(linked) = linked {
        let at = state.own.find(linked).ok_or(Problem::UNRECOGNIZED_LINKED_ID)?;
        parent = table.operation(&state.own.places[at].code);
        if !parent.is_some_and(|parent| table.has_children(&parent)) {
            return Err(Problem::LINKED_RESPONSE_UNEXPECTED);
        }
    }
    let operation = code.and_then(|code| table.operation(&code)).ok_or(Problem::UNRECOGNIZED_OPERATION)?;
    if !operation.argument.allows(value) {
        return Err(Problem::MISTYPED_ARGUMENT);
    }
    let asked = asked_about(&operation, value)?;
    if parent.is_some_and(|parent| !table.lists_child(&parent, &operation)) {
        return Err(Problem::UNEXPECTED_LINKED_OPERATION);
    }
    if let Some((code, asked)) = asked {
        let (result, kept) = probe::answer(state, (id, code), asked, output);
        return Ok(Received::Answered { result, kept });
    }
    if operation.class != 5 {
        if state.peer.is_full() {
            return Err(Problem::RESOURCE_LIMITATION);
        }
        state.peer.add(id, operation.code);
    }
    state.kept.drop_id(id);
    Ok(Received::Indicated(Indication::Invoke { id, linked, code: operation.code, value }))
}

/// The code of a probe or acknowledge and the id that it asks about; none of any other operation.
fn asked_about(operation: &Operation, value: Option<&[u8]>) -> Result<Option<(i32, i32)>, Problem> {
    match operation.code {
        Code::Local(code) if probe::is_answered_here(&operation.code) => {
            let asked = value.and_then(|value| probe::asked_id(code, value));
            Ok(Some((code, asked.ok_or(Problem::MISTYPED_ARGUMENT)?)))
        }
        _ => Ok(None),
    }
}

fn receive_result<'a>(
    table: &Table,
    state: &mut State,
    id: i32,
    returned: Option<(Option<Code>, &'a [u8])>,
) -> Result<Indication<'a>, Problem> {
    let problems = [Problem::RESULT_UNRECOGNIZED_INVOCATION, Problem::RESULT_RESPONSE_UNEXPECTED];
    let (at, operation) = answered(table, &state.own, id, Operation::has_results, problems)?;
    if returned.is_some_and(|(code, _)| code != Some(operation.code)) {
        return Err(Problem::RESULT_UNRECOGNIZED_INVOCATION);
    }
    let value = returned.map(|(_, value)| value);
    if !operation.result.allows(value) {
        return Err(Problem::MISTYPED_RESULT);
    }
    state.own.retire(at);
    Ok(match value {
        Some(value) => Indication::Result { id, code: operation.code, value, operation: operation.code },
        None => Indication::AbsentResult { id, operation: operation.code },
    })
}

fn receive_error<'a>(
    table: &Table,
    state: &mut State,
    id: i32,
    code: Option<Code>,
    value: Option<&'a [u8]>,
) -> Result<Indication<'a>, Problem> {
    let problems = [Problem::ERROR_UNRECOGNIZED_INVOCATION, Problem::ERROR_RESPONSE_UNEXPECTED];
    let (at, operation) = answered(table, &state.own, id, Operation::has_errors, problems)?;
    let error = code.and_then(|code| table.error(&code)).ok_or(Problem::UNRECOGNIZED_ERROR)?;
    if !table.lists_error(&operation, &error) {
        return Err(Problem::UNEXPECTED_ERROR);
    }
    if !error.parameter.allows(value) {
        return Err(Problem::MISTYPED_PARAMETER);
    }
    state.own.retire(at);
    Ok(Indication::Error { id, code: error.code, value, operation: operation.code })
}

/// The place and the operation of the record that an answer is to: refused if there is no record, then by its class.
#[inline(always)]
fn answered<E>(
    table: &Table,
    side: &Side,
    id: i32,
    allowed: fn(&Operation) -> bool,
    [no_record, by_class]: [E; 2],
) -> Result<(usize, Operation), E> {
    let at = side.find(id).ok_or(no_record)?;
    let operation = table.operation(&side.places[at].code).filter(allowed).ok_or(by_class)?;
    Ok((at, operation))
}

fn receive_reject<'a>(state: &mut State, id: Option<i32>, problem: Problem) -> Indication<'a> {
    let Some(id) = id.filter(|_| !matches!(problem, Problem::General(_))) else {
        return Indication::ProviderReject { id, problem };
    };
    if let (Problem::Invoke(_), Some(at)) = (problem, state.own.find(id)) {
        state.own.retire(at);
    }
    Indication::UserReject { id, problem }
}

/// Asks for an operation; gives how many octets of the APDU were written. An empty value is none.
pub fn request_invoke(
    table: &[u8],
    state: &mut State,
    (id, linked, code): (i32, Option<i32>, Asked<'_>),
    value: &[u8],
    output: &mut [u8],
) -> Sent {
    let table = open(table, state)?;
    let operation = code.code().and_then(|code| table.operation(&code)).ok_or(Refusal::UnknownOperation)?;
    if state.own.find(id).is_some() {
        return Err(Refusal::IdInUse);
    }
    if state.resting.contains(id) {
        return Err(Refusal::IdResting);
    }
    let class = |code| table.operation(code).map(|operation| operation.class);
    let spared = probe::is_answered_here(&operation.code);
    if !spared && state.own.live().iter().any(|record| class(&record.code) == Some(1)) {
        return Err(Refusal::SynchronousInvocationLive);
    }
    if let Some(linked) = linked {
        let at = state.peer.find(linked).ok_or(Refusal::UnknownLinkedId)?;
        let parent = table.operation(&state.peer.places[at].code);
        if !parent.is_some_and(|parent| table.lists_child(&parent, &operation)) {
            return Err(Refusal::NotAChild);
        }
    }
    let levels = value_levels(value, operation.argument)?;
    if operation.class != 5 && state.own.is_full() {
        return Err(Refusal::OwnRecordsFull);
    }
    let written = write(Outgoing::Invoke { id, linked, code, value }, levels, output)?;
    if operation.class != 5 {
        state.own.add(id, operation.code);
    }
    Ok(written)
}

/// Answers a peer's invocation with a result, or with an absent result if the value is empty.
pub fn request_result(table: &[u8], state: &mut State, id: i32, value: &[u8], output: &mut [u8]) -> Sent {
    let table = open(table, state)?;
    let refusals = [Refusal::NoSuchRecord, Refusal::ClassForbids];
    let (at, operation) = answered(&table, &state.peer, id, Operation::has_results, refusals)?;
    let levels = value_levels(value, operation.result)?;
    let written = answer(state, at, Outgoing::Result { id, code: operation.code.asked(), value }, levels, output)?;
    keep(state, id, &operation, &output[..written]);
    Ok(written)
}

/// Answers a peer's invocation with an error.
pub fn request_error(
    table: &[u8],
    state: &mut State,
    (id, code): (i32, Asked<'_>),
    value: &[u8],
    output: &mut [u8],
) -> Sent {
    let table = open(table, state)?;
    let refusals = [Refusal::NoSuchRecord, Refusal::ClassForbids];
    let (at, operation) = answered(&table, &state.peer, id, Operation::has_errors, refusals)?;
    let error = code.code().and_then(|code| table.error(&code));
    let error = error.filter(|error| table.lists_error(&operation, error)).ok_or(Refusal::UnlistedError)?;
    let levels = value_levels(value, error.parameter)?;
    let written = answer(state, at, Outgoing::Error { id, code, value }, levels, output)?;
    keep(state, id, &operation, &output[..written]);
    Ok(written)
}

/// Rejects a peer's invocation with invoke problem 2, 3 or 4.
pub fn request_reject(table: &[u8], state: &mut State, (id, problem): (i32, u8), output: &mut [u8]) -> Sent {
    open(table, state)?;
    if !matches!(problem, 2..=4) {
        return Err(Refusal::NoUserProblem);
    }
    let at = state.peer.find(id).ok_or(Refusal::NoSuchRecord)?;
    answer(state, at, Outgoing::Reject { id: Some(id), problem: Problem::Invoke(problem) }, 0, output)
}

/// Retires an own record, whose id then rests, or a peer record whose class is neither 1 nor 2.
pub fn forget(table: &[u8], state: &mut State, invocation: Invocation) -> Result<(), Refusal> {
    let table = open(table, state)?;
    let (side, id) = match invocation {
        Invocation::Own(id) => (&mut state.own, id),
        Invocation::Peer(id) => (&mut state.peer, id),
    };
    let at = side.find(id).ok_or(Refusal::NoSuchRecord)?;
    let awaited = table.operation(&side.places[at].code).is_some_and(|operation| matches!(operation.class, 1 | 2));
    if awaited && matches!(invocation, Invocation::Peer(_)) {
        return Err(Refusal::ClassForbids);
    }
    side.retire(at);
    if let Invocation::Own(id) = invocation {
        state.resting.add(id);
    }
    Ok(())
}

/// How many levels a value to send has, 0 for none; 9, then 21, then 10.
fn value_levels(value: &[u8], rule: Rule) -> Result<usize, Refusal> {
    let given = (!value.is_empty()).then_some(value);
    let levels = match given {
        Some(value) => element_levels(value)?,
        None => 0,
    };
    if rule.allows(given) {
        Ok(levels)
    } else {
        Err(Refusal::ValueRuleBroken)
    }
}

/// How many levels one element filling a value has; 9, then 21.
fn element_levels(value: &[u8]) -> Result<usize, Refusal> {
    match octets::split(value, State::LEVELS) {
        Some((element, [])) => Ok(element.levels),
        Some((element, _)) => Err(Refusal::OctetsBehindValue { place: element.whole.len() }),
        None => Err(Refusal::MalformedValue { place: fault::place(value, State::LEVELS) }),
    }
}

/// Writes the answer to the peer record at this place and retires it; 15, then 2.
#[inline(always)]
fn answer(state: &mut State, at: usize, apdu: Outgoing<'_>, levels: usize, output: &mut [u8]) -> Sent {
    let written = write(apdu, levels, output)?;
    state.peer.retire(at);
    Ok(written)
}

/// Keeps an answer, unless its operation is idempotent or one that receive answers.
#[inline]
fn keep(state: &mut State, id: i32, operation: &Operation, apdu: &[u8]) {
    if !operation.idempotent && !probe::is_answered_here(&operation.code) {
        state.kept.add(id, apdu);
    }
}

/// Writes an APDU whose value has so many levels; 15, then 2.
fn write(apdu: Outgoing<'_>, levels: usize, output: &mut [u8]) -> Sent {
    let octets = apdu.octets();
    if octets > State::OCTETS || apdu.levels(levels) > State::LEVELS {
        return Err(Refusal::ApduTooLarge);
    }
    if output.len() < octets {
        return Err(Refusal::ShortOutput);
    }
    Ok(apdu.write(output))
}
