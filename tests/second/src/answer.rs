//! What the six calls answer: indications, refusals and problems.
//! Follows docs/RULES.md, "Receiving, in order of check", "The table of refusals" and "Where octets are at fault".

use crate::code::Code;

/// The calls and the refusals each can give, in order of check.
pub const REFUSALS: [(&str, &[u8]); 6] = [
    ("receive", &[19, 1, 3, 2, 17, 18]),
    ("invoke", &[19, 1, 4, 5, 22, 6, 7, 8, 9, 21, 10, 14, 15, 2]),
    ("result", &[19, 1, 11, 12, 9, 21, 10, 15, 2]),
    ("error", &[19, 1, 11, 12, 13, 9, 21, 10, 15, 2]),
    ("user reject", &[19, 1, 16, 11, 2]),
    ("forget", &[19, 1, 11, 12]),
];

/// What a call answered.
#[derive(Clone, Copy, Debug, PartialEq, Eq)]
pub enum Answer<'a> {
    Indicated(Indication<'a>),
    /// Receive answered a probe or acknowledge itself.
    Answered {
        written: usize,
    },
    Sent {
        written: usize,
    },
    Forgotten,
    Refused(Refusal),
}

impl<'a> Answer<'a> {
    pub fn is_accepted(&self) -> bool {
        !matches!(self, Answer::Refused(_))
    }

    /// How many octets the call wrote.
    pub fn written(&self) -> usize {
        match *self {
            Answer::Sent { written }
            | Answer::Answered { written }
            | Answer::Refused(Refusal::Rejected { written, .. }) => written,
            _ => 0,
        }
    }

    /// The place of the first fault of the octets that were given, 0 for every answer that is not about one.
    pub fn place(&self) -> usize {
        match self {
            Answer::Refused(refusal) => refusal.place(),
            _ => 0,
        }
    }

    /// The value of an indication, if it has one.
    pub fn value(&self) -> Option<&'a [u8]> {
        match *self {
            Answer::Indicated(Indication::Invoke { value, .. } | Indication::Error { value, .. }) => value,
            Answer::Indicated(Indication::Result { value, .. }) => Some(value),
            _ => None,
        }
    }
}

impl<'a> From<Received<'a>> for Answer<'a> {
    fn from(received: Received<'a>) -> Self {
        match received {
            Received::Indicated(indication) => Answer::Indicated(indication),
            Received::Answered { result, kept } => Answer::Answered { written: result + kept },
        }
    }
}

/// What an accepted receive gives.
#[derive(Clone, Copy, Debug, PartialEq, Eq)]
pub enum Received<'a> {
    Indicated(Indication<'a>),
    /// Nothing to be indicated: a result of so many octets was written, and behind it a kept answer of so many.
    Answered {
        result: usize,
        kept: usize,
    },
}

/// What an indication shows. Values are parts of the lent APDU, identifier included.
#[derive(Clone, Copy, Debug, PartialEq, Eq)]
pub enum Indication<'a> {
    Invoke {
        id: i32,
        linked: Option<i32>,
        code: Code,
        value: Option<&'a [u8]>,
    },
    Result {
        id: i32,
        code: Code,
        value: &'a [u8],
        operation: Code,
    },
    AbsentResult {
        id: i32,
        operation: Code,
    },
    Error {
        id: i32,
        code: Code,
        value: Option<&'a [u8]>,
        operation: Code,
    },
    /// RO-REJECT-U: an invoke, result or error problem.
    UserReject {
        id: i32,
        problem: Problem,
    },
    /// RO-REJECT-P: a general problem.
    ProviderReject {
        id: Option<i32>,
        problem: Problem,
    },
}

/// A problem of a Reject with its number.
#[derive(Clone, Copy, Debug, PartialEq, Eq)]
pub enum Problem {
    General(u8),
    Invoke(u8),
    Result(u8),
    Error(u8),
}

impl Problem {
    pub const UNRECOGNIZED_APDU: Problem = Problem::General(0);
    pub const MISTYPED_APDU: Problem = Problem::General(1);
    pub const BADLY_STRUCTURED_APDU: Problem = Problem::General(2);

    pub const DUPLICATE_INVOCATION: Problem = Problem::Invoke(0);
    pub const UNRECOGNIZED_OPERATION: Problem = Problem::Invoke(1);
    pub const MISTYPED_ARGUMENT: Problem = Problem::Invoke(2);
    pub const RESOURCE_LIMITATION: Problem = Problem::Invoke(3);
    pub const UNRECOGNIZED_LINKED_ID: Problem = Problem::Invoke(5);
    pub const LINKED_RESPONSE_UNEXPECTED: Problem = Problem::Invoke(6);
    pub const UNEXPECTED_LINKED_OPERATION: Problem = Problem::Invoke(7);

    pub const RESULT_UNRECOGNIZED_INVOCATION: Problem = Problem::Result(0);
    pub const RESULT_RESPONSE_UNEXPECTED: Problem = Problem::Result(1);
    pub const MISTYPED_RESULT: Problem = Problem::Result(2);

    pub const ERROR_UNRECOGNIZED_INVOCATION: Problem = Problem::Error(0);
    pub const ERROR_RESPONSE_UNEXPECTED: Problem = Problem::Error(1);
    pub const UNRECOGNIZED_ERROR: Problem = Problem::Error(2);
    pub const UNEXPECTED_ERROR: Problem = Problem::Error(3);
    pub const MISTYPED_PARAMETER: Problem = Problem::Error(4);

    /// The problem a Reject carries, if its number is in range.
    pub fn new(identifier: u8, number: u8) -> Option<Problem> {
        match (identifier, number) {
            (0x80, 0..=2) => Some(Problem::General(number)),
            (0x81, 0..=7) => Some(Problem::Invoke(number)),
            (0x82, 0..=2) => Some(Problem::Result(number)),
            (0x83, 0..=4) => Some(Problem::Error(number)),
            _ => None,
        }
    }

    /// The identifier octet and the number.
    pub fn octets(self) -> (u8, u8) {
        match self {
            Problem::General(number) => (0x80, number),
            Problem::Invoke(number) => (0x81, number),
            Problem::Result(number) => (0x82, number),
            Problem::Error(number) => (0x83, number),
        }
    }
}

/// Why a call was refused. A place is that of the first fault of the octets that were given.
#[derive(Clone, Copy, Debug, PartialEq, Eq)]
pub enum Refusal {
    InvalidTable,
    ShortOutput,
    ReceivedTooLong,
    UnknownOperation,
    IdInUse,
    SynchronousInvocationLive,
    UnknownLinkedId,
    NotAChild,
    MalformedValue {
        place: usize,
    },
    ValueRuleBroken,
    NoSuchRecord,
    ClassForbids,
    UnlistedError,
    OwnRecordsFull,
    ApduTooLarge,
    NoUserProblem,
    /// The place is 0 if only the fields are wrong.
    UnacceptableReject {
        place: usize,
    },
    /// A Reject of this many octets was written; the place is 0 but for a badly structured APDU.
    Rejected {
        problem: Problem,
        written: usize,
        place: usize,
    },
    UnsoundState,
    OctetsBehindValue {
        place: usize,
    },
    IdResting,
}

impl Refusal {
    /// The refusal of a number, if there is one that needs no problem; with the place, if it has one.
    pub fn plain(number: u8, place: usize) -> Option<Refusal> {
        let every_other_than_18 = [
            Refusal::InvalidTable,
            Refusal::ShortOutput,
            Refusal::ReceivedTooLong,
            Refusal::UnknownOperation,
            Refusal::IdInUse,
            Refusal::SynchronousInvocationLive,
            Refusal::UnknownLinkedId,
            Refusal::NotAChild,
            Refusal::MalformedValue { place },
            Refusal::ValueRuleBroken,
            Refusal::NoSuchRecord,
            Refusal::ClassForbids,
            Refusal::UnlistedError,
            Refusal::OwnRecordsFull,
            Refusal::ApduTooLarge,
            Refusal::NoUserProblem,
            Refusal::UnacceptableReject { place },
            Refusal::UnsoundState,
            Refusal::OctetsBehindValue { place },
            Refusal::IdResting,
        ];
        every_other_than_18.into_iter().find(|refusal| refusal.number() == number)
    }

    /// The place of the first fault of the octets that were given, 0 for refusals that are not about one.
    pub fn place(self) -> usize {
        match self {
            Refusal::MalformedValue { place }
            | Refusal::OctetsBehindValue { place }
            | Refusal::UnacceptableReject { place }
            | Refusal::Rejected { place, .. } => place,
            _ => 0,
        }
    }

    /// Its number in "The table of refusals".
    pub fn number(self) -> u8 {
        match self {
            Refusal::InvalidTable => 1,
            Refusal::ShortOutput => 2,
            Refusal::ReceivedTooLong => 3,
            Refusal::UnknownOperation => 4,
            Refusal::IdInUse => 5,
            Refusal::SynchronousInvocationLive => 6,
            Refusal::UnknownLinkedId => 7,
            Refusal::NotAChild => 8,
            Refusal::MalformedValue { .. } => 9,
            Refusal::ValueRuleBroken => 10,
            Refusal::NoSuchRecord => 11,
            Refusal::ClassForbids => 12,
            Refusal::UnlistedError => 13,
            Refusal::OwnRecordsFull => 14,
            Refusal::ApduTooLarge => 15,
            Refusal::NoUserProblem => 16,
            Refusal::UnacceptableReject { .. } => 17,
            Refusal::Rejected { .. } => 18,
            Refusal::UnsoundState => 19,
            Refusal::OctetsBehindValue { .. } => 21,
            Refusal::IdResting => 22,
        }
    }
}
