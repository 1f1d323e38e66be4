//! What a generated call shows: its kind, the limits it touches, and whether a named case did what it is there for.

use crate::answer::{Answer, Indication, Problem, Refusal};
use crate::apdu::{self, Outgoing};
use crate::code::Code;
use crate::frame::{self, Frame};
use crate::generate::{Group, Seen};
use crate::octets;
use crate::state::{Record, State};
use crate::table::Table;

/// Whether the answer shows what a case of the group is there to show.
pub fn expects(group: Group, seen: &Seen<'_>) -> bool {
    let problem = match seen.answer {
        Answer::Refused(Refusal::Rejected { problem, .. }) => Some(*problem),
        _ => None,
    };
    let number = refusal(seen.answer);
    match group {
        Group::InvalidTable => number == 1,
        Group::UnsoundState => number == 19,
        Group::MalformedReceived | Group::MalformedApdu => problem == Some(Problem::BADLY_STRUCTURED_APDU),
        Group::MalformedValue => number == 9,
        Group::OctetsBehindValue => number == 21,
        Group::WellFormedReceived => !matches!(number, 1 | 2 | 19) && problem != Some(Problem::BADLY_STRUCTURED_APDU),
        Group::WellFormedValue => matches!(number, 0 | 10),
        Group::MistypedWithId => problem == Some(Problem::MISTYPED_APDU) && seen.written[2] == 0x02,
        Group::MistypedWithoutId => problem == Some(Problem::MISTYPED_APDU) && seen.written[2] == 0x05,
        Group::Unrecognized => problem == Some(Problem::UNRECOGNIZED_APDU),
        Group::UnacceptableReject => number == 17,
        Group::AcceptableReject => number == 0,
        Group::Damaged => true,
        Group::SoundState => !matches!(number, 1 | 19),
        Group::Forgotten | Group::AskedAgain => number == 0,
        Group::StillResting => number == 22,
        Group::RightInside => matches!(seen.answer, Answer::Answered { .. }),
        Group::WrongInside => problem == Some(Problem::MISTYPED_ARGUMENT),
        Group::KeptInARow => number == 0,
        Group::Fetched => probe_found(seen) == Some(1),
        Group::NotFetched => probe_found(seen) == Some(2),
    }
}

/// What the result of a probe or acknowledge says that receive wrote.
pub fn probe_found(seen: &Seen<'_>) -> Option<u8> {
    let Answer::Answered { .. } = seen.answer else { return None };
    apdu::split_result(seen.written).0.last().copied()
}

/// The number of a refusal, 0 if the call was accepted.
pub fn refusal(answer: &Answer<'_>) -> u8 {
    match answer {
        Answer::Refused(refusal) => refusal.number(),
        _ => 0,
    }
}

pub fn sort(answer: &Answer<'_>) -> &'static str {
    match answer {
        Answer::Indicated(Indication::Invoke { .. }) => "an invoke",
        Answer::Indicated(Indication::UserReject { .. } | Indication::ProviderReject { .. }) => "a reject",
        Answer::Indicated(_) => "an answer",
        Answer::Answered { .. } => "an answered probe or acknowledge",
        Answer::Sent { .. } => "a request",
        Answer::Forgotten => "a forget",
        Answer::Refused(Refusal::Rejected { .. }) => "refusal 18",
        Answer::Refused(_) => "another refusal",
    }
}

/// Whether the id in the written Reject is an own record's.
pub fn rejected_id_is_live(seen: &Seen<'_>) -> bool {
    let id =
        octets::split(&seen.written[2..], State::LEVELS).and_then(|(element, _)| octets::integer(element.contents()));
    id.is_some_and(|id| seen.before.own.find(id).is_some())
}

/// The accepted kinds a call belongs to.
pub fn accepted_kinds(seen: &Seen<'_>, answer: &Answer<'_>) -> Vec<&'static str> {
    let detail = seen.frame.detail;
    match *answer {
        Answer::Indicated(Indication::Invoke { linked, code, value, .. }) => {
            let mut kinds = vec![either(value.is_some(), "invoke with value", "invoke without value")];
            kinds.extend(linked.map(|_| "linked invoke"));
            kinds.extend((class(seen, Some(code)) == 5).then_some("class 5 invoke"));
            kinds
        }
        Answer::Indicated(Indication::Result { .. }) => vec!["result"],
        Answer::Indicated(Indication::AbsentResult { .. }) => vec!["absent result"],
        Answer::Indicated(Indication::Error { value, .. }) => {
            vec![either(value.is_some(), "error with value", "error without value")]
        }
        Answer::Indicated(Indication::ProviderReject { id, .. }) => {
            vec![either(id.is_some(), "reject-p with id", "reject-p without id")]
        }
        Answer::Indicated(Indication::UserReject { id, problem }) => vec![match problem {
            Problem::Result(_) => "reject-u 82",
            Problem::Error(_) => "reject-u 83",
            _ => either(seen.before.own.find(id).is_some(), "reject-u 81 retiring", "reject-u 81 without record"),
        }],
        Answer::Answered { .. } => vec!["answered"],
        Answer::Sent { .. } => sent_kinds(seen),
        _ => vec![either(detail == 0, "forgotten own", "forgotten peer")],
    }
}

/// The accepted kinds a request belongs to.
fn sent_kinds(seen: &Seen<'_>) -> Vec<&'static str> {
    let payload = seen.frame.value();
    match seen.frame.kind {
        frame::INVOKE => {
            let mut kinds = vec![either(payload.is_empty(), "sent invoke without value", "sent invoke with value")];
            kinds.extend(seen.frame.linked_id().map(|_| "sent linked invoke"));
            kinds.extend((class(seen, seen.frame.asked().code()) == 5).then_some("sent class 5 invoke"));
            kinds
        }
        frame::RESULT => {
            vec![either(payload.is_empty(), "sent absent result", "sent result")]
        }
        frame::ERROR => {
            vec![either(payload.is_empty(), "sent error without value", "sent error with value")]
        }
        _ => vec!["sent user reject"],
    }
}

fn either(test: bool, yes: &'static str, no: &'static str) -> &'static str {
    if test {
        yes
    } else {
        no
    }
}

fn class(seen: &Seen<'_>, code: Option<Code>) -> u8 {
    let operation = Table::new(seen.table).zip(code).and_then(|(table, code)| table.operation(&code));
    operation.map_or(0, |operation| operation.class)
}

/// Limits of records and of tables that lack a record's code.
pub fn record_limits(seen: &Seen<'_>) -> Vec<&'static str> {
    let State { own, peer, .. } = seen.before;
    let mut limits = Vec::new();
    match *seen.answer {
        Answer::Sent { .. } if seen.frame.kind == frame::INVOKE => {
            match (own.count, class(seen, seen.frame.asked().code())) {
                (32, 5) => limits.push("32 own records, class 5 sent"),
                (31, 1..=4) => limits.push("31 own records, sent"),
                _ => {}
            }
        }
        Answer::Refused(Refusal::OwnRecordsFull) => limits.push("32 own records, refused 14"),
        Answer::Indicated(Indication::Invoke { code, .. }) => match (peer.count, class(seen, Some(code))) {
            (32, 5) => limits.push("32 peer records, class 5 accepted"),
            (31, 1..=4) => limits.push("31 peer records, accepted"),
            _ => {}
        },
        Answer::Refused(Refusal::Rejected { problem: Problem::RESOURCE_LIMITATION, .. }) => {
            limits.push("32 peer records, 81 03");
        }
        Answer::Refused(Refusal::InvalidTable) => {
            if let Some(table) = Table::new(seen.table) {
                let lacks = |record: &Record| table.operation(&record.code).is_none();
                limits.extend(own.live().iter().any(lacks).then_some("table lacks an own record's code"));
                limits.extend(peer.live().iter().any(lacks).then_some("table lacks a peer record's code"));
            }
        }
        _ => {}
    }
    let zero = |records: &[Record]| records.len() < State::RECORDS && records.contains(&Record::default());
    if seen.answer.is_accepted() && (zero(own.live()) || zero(peer.live())) {
        limits.push("live 0, 0, accepted");
    }
    limits
}

/// The answer in short: a Reject that was written by its problem.
pub fn answered(answer: &Answer<'_>) -> String {
    match answer {
        Answer::Sent { .. } => "sent".to_string(),
        Answer::Answered { .. } => "answered".to_string(),
        Answer::Refused(Refusal::Rejected { problem, .. }) => {
            let (kind, number) = problem.octets();
            format!("{kind:02x} {number:02x}")
        }
        Answer::Refused(refusal) => format!("refused {}", refusal.number()),
        _ => "accepted".to_string(),
    }
}

/// Limits of octets, levels and lent output.
pub fn value_limits(call: &str, seen: &Seen<'_>) -> Vec<String> {
    let mut limits = Vec::new();
    let answer = match seen.answer {
        Answer::Refused(refusal @ Refusal::Rejected { problem, .. }) if *problem != Problem::BADLY_STRUCTURED_APDU => {
            format!("refused {}", refusal.number())
        }
        answer => answered(answer),
    };
    let (value, lent) = (seen.frame.value(), usize::from(seen.frame.lent));
    let value_levels = levels(value);
    let limit = |text: String| format!("{text}, {answer}");
    if seen.frame.kind == frame::RECEIVE {
        limits.push(limit(format!("received {} octets", value.len())));
        limits.extend(value_levels.map(|levels| limit(format!("received {levels} levels"))));
        limits.push(limit(format!("receive lent {lent}")));
    } else if let Some(apdu) = outgoing(seen) {
        limits.push(limit(format!("{call} of {} octets", apdu.octets())));
        limits.extend(value_levels.map(|levels| limit(format!("{call} of {} levels", apdu.levels(levels)))));
        limits.extend(value_levels.map(|levels| limit(format!("value of {levels} levels"))));
        limits.extend((value.len() > State::OCTETS).then(|| limit("value over 4096 octets".to_string())));
        match lent.cmp(&apdu.octets()) {
            std::cmp::Ordering::Equal => limits.push(limit(format!("{call} lent exactly"))),
            _ if lent + 1 == apdu.octets() => limits.push(limit(format!("{call} lent one less"))),
            _ if lent == apdu.octets() + 1 => limits.push(limit(format!("{call} lent one more"))),
            _ => {}
        }
    }
    limits
}

/// Levels counted past the limit.
fn levels(octets: &[u8]) -> Option<usize> {
    octets::levels(octets, 2 * State::LEVELS)
}

/// The APDU that a request asks for.
pub fn outgoing<'a>(seen: &'a Seen<'_>) -> Option<Outgoing<'a>> {
    let (Frame { kind, detail, id, .. }, code, value) = (*seen.frame, seen.frame.asked(), seen.frame.value());
    match kind {
        frame::INVOKE => Some(Outgoing::Invoke { id, linked: seen.frame.linked_id(), code, value }),
        frame::RESULT => {
            let at = seen.before.peer.find(id)?;
            Some(Outgoing::Result { id, code: seen.before.peer.places[at].code.asked(), value })
        }
        frame::ERROR => Some(Outgoing::Error { id, code, value }),
        frame::REJECT => Some(Outgoing::Reject { id: Some(id), problem: Problem::Invoke(detail) }),
        _ => None,
    }
}
