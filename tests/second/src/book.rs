//! The book kept beside a list of calls at a kiosk and a controller, and the conclusions drawn from it.
//! Follows docs/RULES.md, "The book" and "Probe and acknowledge"; it never looks at a state.

use std::collections::{HashMap, HashSet};

use crate::answer::{Answer, Indication, Problem, Refusal};
use crate::apdu::{self, Apdu};
use crate::code::Code;
use crate::frame::{self, Frame};
use crate::octets;
use crate::probe::{ACKNOWLEDGE, PROBE};
use crate::show;
use crate::table::Table;

#[derive(Clone, Copy, Debug, PartialEq, Eq)]
pub enum End {
    Kiosk,
    Controller,
}

impl End {
    pub fn other(self) -> End {
        match self {
            End::Kiosk => End::Controller,
            End::Controller => End::Kiosk,
        }
    }
}

/// A result (with no error code) or an error, given by the controller's caller or indicated at the kiosk.
#[derive(Clone, Debug, PartialEq, Eq)]
struct Given {
    id: i32,
    operation: Option<Code>,
    error: Option<Code>,
    value: Option<Vec<u8>>,
}

/// What must occur often enough in a long run.
pub const ROWS: [&str; 46] = [
    "results",
    "absent results",
    "errors",
    "unlisted errors, O lacks the code",
    "unlisted errors, O lacks the pair",
    "repeated answers",
    "late answers",
    "late answers to a resting id",
    "retiring Rejects",
    "forgets",
    "forgets with 64 ids resting",
    "invokes refused with 22",
    "class 5 invokes",
    "linked invokes",
    "results given with an indefinite value",
    "errors given with an indefinite value",
    "invokes heard with an indefinite value",
    "values at fault refused with 9",
    "values with octets behind refused with 21",
    "invokes asked with a name",
    "results of an operation with a name",
    "errors with a name",
    "unlisted errors with a name, O lacks the name",
    "unlisted errors with a name, O lacks the pair",
    "answers of a name that N numbers otherwise",
    "answers of an operation that only N marks idempotent",
    "answers, both tables of edition 1",
    "answers, O of edition 1 and N of edition 2",
    "answers, O of edition 2 and N of edition 1",
    "answers, both tables of edition 2",
    "answers, O lists probe and acknowledge",
    "answers, O lists acknowledge alone",
    "answers, O lists neither, N does",
    "answers, both tables list neither",
    "probes answered: running",
    "probes answered: finished",
    "probes answered: unknown",
    "acknowledges answered: acknowledged",
    "acknowledges answered: unknown",
    "results of a probe",
    "results of an acknowledge",
    "lost answers fetched by a probe and indicated",
    "fetched answers that were not lost and are late or repeated",
    "probes and acknowledges sent beside a synchronous invocation",
    "kept answers dropped by an Invoke with their id",
    "answers to the controller's probes and acknowledges",
];

/// The book of one association, and how often each row occurred.
#[derive(Default)]
pub struct Book {
    wire: [Vec<Vec<u8>>; 2],
    asked: HashMap<i32, Code>,
    heard: HashMap<i32, Code>,
    given: HashMap<i32, Vec<Given>>,
    answers: HashMap<Vec<u8>, Vec<Given>>,
    live: HashSet<i32>,
    indicated: HashSet<i32>,
    pub counts: Counts,
}

/// How often each row occurred.
pub struct Counts(pub [u64; ROWS.len()]);

impl Default for Counts {
    fn default() -> Self {
        Counts([0; ROWS.len()])
    }
}

impl Book {
    /// The APDUs an end wrote, in order.
    pub fn wire(&self, end: End) -> &[Vec<u8>] {
        &self.wire[end as usize]
    }

    pub fn was_asked(&self, id: i32) -> bool {
        self.asked.contains_key(&id)
    }

    pub fn live(&self) -> &HashSet<i32> {
        &self.live
    }

    pub fn count(&mut self, row: &str) {
        self.count_if(true, row);
    }

    pub fn count_if(&mut self, occurred: bool, row: &str) {
        self.counts.0[place(row)] += u64::from(occurred);
    }

    pub fn has_counted(&self, row: &str) -> bool {
        self.counts.0[place(row)] > 0
    }

    /// Checks the conclusions for a call and notes it; says what is wrong otherwise.
    pub fn note(
        &mut self,
        o: &Table<'_>,
        end: End,
        (frame, answer, written): (&Frame<'_>, &Answer<'_>, &[u8]),
    ) -> Result<(), String> {
        if end == End::Kiosk && frame.kind == frame::RECEIVE {
            self.check_answer(o, frame.payload, answer)?;
            self.check_indication(answer)?;
        }
        match answer {
            Answer::Refused(Refusal::MalformedValue { .. }) => self.count("values at fault refused with 9"),
            Answer::Refused(Refusal::OctetsBehindValue { .. }) => {
                self.count("values with octets behind refused with 21");
            }
            _ => {}
        }
        if answer.is_accepted() {
            match end {
                End::Kiosk => self.note_kiosk(o, frame)?,
                End::Controller => self.note_controller(frame, answer, written)?,
            }
        }
        // One receive may write two APDUs: a result, and the kept answer behind it.
        let (first, second) = match answer {
            Answer::Answered { .. } => apdu::split_result(written),
            _ => (written, &[][..]),
        };
        let apdus = [first, second].into_iter().filter(|apdu| !apdu.is_empty());
        self.wire[end as usize].extend(apdus.map(<[u8]>::to_vec));
        Ok(())
    }

    /// An answer that reaches the kiosk is accepted exactly when its id is live and O lists it, if it is an error.
    fn check_answer(&mut self, o: &Table<'_>, octets: &[u8], answer: &Answer<'_>) -> Result<(), String> {
        for given in self.answers.get(octets).cloned().unwrap_or_default() {
            let live = self.live.contains(&given.id);
            let unlisted = given.error.and_then(|error| unlisted(o, given.operation, error));
            if answer.is_accepted() != (live && unlisted.is_none()) {
                return Err(format!("the answer {} gave {answer:?}; live: {live}, {given:?}", show::hex(octets)));
            }
            match (live, unlisted) {
                (true, Some(problem)) => {
                    let right =
                        matches!(answer, Answer::Refused(Refusal::Rejected { problem: p, .. }) if *p == problem);
                    if !right {
                        return Err(format!("the unlisted {given:?} gave {answer:?} in place of {problem:?}"));
                    }
                    let is_name = matches!(given.error, Some(Code::Name(_)));
                    self.count(match (problem, is_name) {
                        (Problem::UNRECOGNIZED_ERROR, false) => "unlisted errors, O lacks the code",
                        (Problem::UNRECOGNIZED_ERROR, true) => "unlisted errors with a name, O lacks the name",
                        (_, false) => "unlisted errors, O lacks the pair",
                        (_, true) => "unlisted errors with a name, O lacks the pair",
                    });
                }
                (false, _) if self.indicated.contains(&given.id) => self.count("repeated answers"),
                (false, _) => self.count("late answers"),
                (true, None) => {}
            }
        }
        Ok(())
    }

    /// A result or error indicated at the kiosk stands in given, its id and operation in asked; one id has one.
    fn check_indication(&mut self, answer: &Answer<'_>) -> Result<(), String> {
        let Answer::Indicated(indication) = *answer else { return Ok(()) };
        let (row, id, operation, error, value) = match indication {
            Indication::Result { id, value, operation, .. } => ("results", id, operation, None, Some(value)),
            Indication::AbsentResult { id, operation } => ("absent results", id, operation, None, None),
            Indication::Error { id, code, value, operation } => ("errors", id, operation, Some(code), value),
            _ => return Ok(()),
        };
        let shown = Given { id, operation: Some(operation), error, value: value.map(<[u8]>::to_vec) };
        if !self.given.get(&id).is_some_and(|given| given.contains(&shown)) {
            return Err(format!("{shown:?} was indicated and never given"));
        }
        if self.asked.get(&id) != Some(&operation) {
            return Err(format!("{shown:?} was indicated and never asked"));
        }
        if !self.indicated.insert(id) {
            return Err(format!("{shown:?} was indicated, the second for its id"));
        }
        self.count(row);
        self.count_if(error.is_none() && matches!(operation, Code::Name(_)), "results of an operation with a name");
        self.count_if(matches!(error, Some(Code::Name(_))), "errors with a name");
        self.count_if(operation == Code::Local(PROBE), "results of a probe");
        self.count_if(operation == Code::Local(ACKNOWLEDGE), "results of an acknowledge");
        Ok(())
    }

    fn note_kiosk(&mut self, o: &Table<'_>, frame: &Frame<'_>) -> Result<(), String> {
        match (frame.kind, apdu::read(frame.payload)) {
            (frame::INVOKE, _) => {
                let code = frame.asked().code().ok_or("an invoke of a code that no table has was accepted")?;
                self.count_if(matches!(code, Code::Name(_)), "invokes asked with a name");
                if self.asked.insert(frame.id, code).is_some() {
                    return Err(format!("id {} was used for two invocations", frame.id));
                }
                if o.operation(&code).is_some_and(|operation| operation.class == 5) {
                    self.count("class 5 invokes");
                } else {
                    self.live.insert(frame.id);
                }
            }
            (frame::FORGET, _) if frame.detail == 0 => {
                self.live.remove(&frame.id);
                self.count("forgets");
            }
            (frame::RECEIVE, Ok(Apdu::Result { id, .. } | Apdu::Error { id, .. })) => {
                self.live.remove(&id);
            }
            (frame::RECEIVE, Ok(Apdu::Reject { id: Some(id), problem: Problem::Invoke(_) })) => {
                let retired = self.live.remove(&id);
                self.count_if(retired, "retiring Rejects");
            }
            (frame::RECEIVE, Ok(Apdu::Invoke(invoke))) if invoke.linked.is_some() => self.count("linked invokes"),
            _ => {}
        }
        Ok(())
    }

    fn note_controller(&mut self, frame: &Frame<'_>, answer: &Answer<'_>, written: &[u8]) -> Result<(), String> {
        match (frame.kind, apdu::read(frame.payload)) {
            (frame::RECEIVE, Ok(Apdu::Invoke(invoke))) => {
                if let Some(code) = invoke.code {
                    self.heard.insert(invoke.id, code);
                }
                let indefinite = invoke.value.is_some_and(octets::is_indefinite);
                self.count_if(indefinite, "invokes heard with an indefinite value");
                if let Answer::Answered { .. } = answer {
                    self.note_answered(invoke.id, written)?;
                }
            }
            (frame::RESULT | frame::ERROR, _) => {
                let row = match frame.kind {
                    frame::RESULT => "results given with an indefinite value",
                    _ => "errors given with an indefinite value",
                };
                self.count_if(octets::is_indefinite(frame.value()), row);
                let given = Given {
                    id: frame.id,
                    operation: self.heard.get(&frame.id).copied(),
                    error: frame.asked().code().filter(|_| frame.kind == frame::ERROR),
                    value: (!frame.value().is_empty()).then(|| frame.value().to_vec()),
                };
                self.give(given, written);
            }
            _ => {}
        }
        Ok(())
    }

    /// The controller's receive answered a probe or acknowledge: its result counts as given, and the APDU behind it is
    /// one that was given before.
    fn note_answered(&mut self, id: i32, written: &[u8]) -> Result<(), String> {
        let (result, kept) = apdu::split_result(written);
        let Ok(Apdu::Result { returned: Some((_, value)), .. }) = apdu::read(result) else {
            return Err(format!("{} answers a probe or acknowledge", show::hex(written)));
        };
        if !kept.is_empty() && !self.answers.contains_key(kept) {
            return Err(format!("the kept answer {} was never given", show::hex(kept)));
        }
        let operation = self.heard.get(&id).copied();
        self.count(match (operation == Some(Code::Local(PROBE)), value.last()) {
            (true, Some(0)) => "probes answered: running",
            (true, Some(1)) => "probes answered: finished",
            (true, _) => "probes answered: unknown",
            (false, Some(0)) => "acknowledges answered: acknowledged",
            (false, _) => "acknowledges answered: unknown",
        });
        self.give(Given { id, operation, error: None, value: Some(value.to_vec()) }, result);
        Ok(())
    }

    /// Notes what was given, and the APDU that is the answer.
    fn give(&mut self, given: Given, apdu: &[u8]) {
        self.answers.entry(apdu.to_vec()).or_default().push(given.clone());
        self.given.entry(given.id).or_default().push(given);
    }
}

fn place(row: &str) -> usize {
    ROWS.iter().position(|name| *name == row).expect("only named rows are counted")
}

/// Why O does not list the error for the operation, if it does not.
fn unlisted(o: &Table<'_>, operation: Option<Code>, error: Code) -> Option<Problem> {
    let Some(error) = o.error(&error) else { return Some(Problem::UNRECOGNIZED_ERROR) };
    let listed = operation.and_then(|code| o.operation(&code)).is_some_and(|row| o.lists_error(&row, &error));
    (!listed).then_some(Problem::UNEXPECTED_ERROR)
}
