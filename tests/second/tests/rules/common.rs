//! Calls and answers in words, so that a case is one line.

use second::code::{Asked, Code};
use second::drive::{self, Drive};
use second::frame::{self, Frame};
use second::model::{ErrorRow, Model, OperationRow};
use second::state::State;

/// Table T of the marked examples.
pub const T: &str = "0001 0010 0001 0018 0001 001E 0000 0022 00000007 02020200 00000001 0000 0000 0000";

/// A state and a call in words with the answer as the drive protocol writes it.
pub struct Case<'a> {
    pub own: &'a [(i32, i32)],
    pub peer: &'a [(i32, i32)],
    pub call: &'a str,
    pub answer: &'a str,
}

pub fn hex(text: &str) -> Vec<u8> {
    let digits: Vec<u32> = text.chars().filter_map(|digit| digit.to_digit(16)).collect();
    digits.chunks(2).map(|pair| (pair[0] * 16 + pair[1]) as u8).collect()
}

pub fn state(own: &[(i32, i32)], peer: &[(i32, i32)]) -> State {
    let mut state = State::fresh();
    own.iter().for_each(|&(id, code)| state.own.add(id, Code::Local(code)));
    peer.iter().for_each(|&(id, code)| state.peer.add(id, Code::Local(code)));
    state
}

/// The lines of a script.
pub fn lines(script: &[u8], places: bool) -> String {
    let mut lines = Vec::new();
    drive::play(script, &mut lines, Drive::default().showing_places(places)).unwrap();
    String::from_utf8(lines).unwrap()
}

/// Operations (code, class, argument, result, flags), errors (code, parameter, optional) and pairs of indexes.
pub fn model(
    operations: &[(i32, u8, u8, u8, u8)],
    errors: &[(i32, u8, u8)],
    error_pairs: &[(u16, u16)],
    child_pairs: &[(u16, u16)],
) -> Model {
    let operation = |&(code, class, argument, result, flags): &(i32, u8, u8, u8, u8)| {
        let code = Code::Local(code);
        OperationRow { code, class, argument, result, flags }
    };
    let error = |&(code, parameter, optional): &(i32, u8, u8)| {
        let code = Code::Local(code);
        ErrorRow { code, parameter, optional }
    };
    Model {
        operations: operations.iter().map(operation).collect(),
        errors: errors.iter().map(error).collect(),
        error_pairs: error_pairs.to_vec(),
        child_pairs: child_pairs.to_vec(),
        names: None,
    }
}

/// Plays a call in words: `receive HEX`, `invoke ID CODE HEX`, `linked ID LINKED CODE HEX`, `result ID HEX`,
/// `error ID CODE HEX`, `reject ID PROBLEM`, `own ID`, `peer ID`; `@N` in front lends N octets. A CODE is a number, or a
/// name as `n` and hexadecimal digits. Gives the line.
pub fn play(table: &[u8], state: &State, call: &str) -> String {
    let mut words: Vec<&str> = call.split_whitespace().collect();
    let mut frame = Frame { lent: 5000, ..Frame::default() };
    if let Some(lent) = words[0].strip_prefix('@') {
        frame.lent = lent.parse().unwrap();
        words.remove(0);
    }
    let number = |at: usize| words[at].parse::<i32>().unwrap();
    let fields = match words[0] {
        "receive" => 0,
        "reject" | "error" | "invoke" => 2,
        "linked" => 3,
        _ => 1,
    };
    let (payload, mut room) = (hex(&words[1 + fields..].join("")), Vec::new());
    frame.payload = &payload;
    frame.id = if fields > 0 { number(1) } else { 0 };
    match words[0] {
        "receive" => frame.kind = frame::RECEIVE,
        "invoke" => frame.kind = frame::INVOKE,
        "linked" => (frame.kind, frame.detail, frame.linked) = (frame::INVOKE, 1, number(2)),
        "result" => frame.kind = frame::RESULT,
        "error" => frame.kind = frame::ERROR,
        "reject" => (frame.kind, frame.detail) = (frame::REJECT, number(2) as u8),
        "own" => (frame.kind, frame.detail) = (frame::FORGET, 0),
        "peer" => (frame.kind, frame.detail) = (frame::FORGET, 1),
        other => panic!("{other} is no call"),
    }
    if matches!(frame.kind, frame::INVOKE | frame::ERROR) {
        let word = words[fields];
        let name = word.strip_prefix('n').map(hex);
        let code = name.as_ref().map_or_else(|| Asked::Local(word.parse().unwrap()), |name| Asked::Name(name));
        frame = frame.asking(code, &payload, &mut room);
    }
    let (mut drive, mut line) = (Drive::new(table.to_vec(), state.clone()), Vec::new());
    assert!(drive.play(&frame, &mut line), "{call} is no call");
    let line = String::from_utf8(line).unwrap().trim_end().to_string();
    if line.starts_with("refused ") {
        assert_eq!(&drive.state, state, "{call} was refused and changed the records");
        assert_eq!(line.starts_with("refused 18 "), !line.contains(" out - "), "{call}");
    }
    line
}

/// Checks that each case's line starts with its answer (whole words) and spoils nothing.
pub fn check(table: &[u8], cases: &[Case]) {
    for Case { own, peer, call, answer } in cases {
        let line = play(table, &state(own, peer), call);
        let whole = line.strip_prefix(answer).is_some_and(|rest| rest.is_empty() || rest.starts_with(' '));
        assert!(whole, "{call} with own {own:?} peer {peer:?}\n  wanted {answer}\n  was    {line}");
        assert!(!line.contains("spoiled"), "{call}: {line}");
    }
}
