//! The line of a call, written and read.
//! Follows the drive protocol, docs/DRIVE.md, "A line".

use crate::answer::{Answer, Indication, Problem, Refusal};
use crate::code::Code;
use crate::kept::Kept;
use crate::resting::Resting;
use crate::state::{Record, Side, State};

/// What a line shows of a call.
#[derive(Clone, Copy)]
pub struct Line<'a> {
    pub answer: Answer<'a>,
    pub state: &'a State,
    pub written: &'a [u8],
    /// Whether a lent octet behind the written ones was changed.
    pub spoiled: bool,
    /// The place of the first fault of the octets that were given.
    pub place: usize,
}

/// What a line that is read refers to.
pub struct Room {
    state: State,
    written: Vec<u8>,
    value: Vec<u8>,
}

impl Room {
    /// The records as the last line that was read showed them.
    pub fn state(&self) -> &State {
        &self.state
    }
}

impl Default for Room {
    fn default() -> Self {
        Room { state: State::fresh(), written: Vec::new(), value: Vec::new() }
    }
}

impl<'a> Line<'a> {
    /// Appends the line, without its end.
    pub fn put(&self, line: &mut Vec<u8>) {
        put_answer(line, &self.answer);
        for (name, side) in [(" own ", &self.state.own), (" peer ", &self.state.peer)] {
            put(line, name);
            put_side(line, side);
        }
        put(line, " out ");
        put_octets(line, (!self.written.is_empty()).then_some(self.written), "-");
        if self.spoiled {
            put(line, " spoiled");
        }
        put(line, &format!(" place {}", self.place));
        put(line, " rest ");
        put_resting(line, &self.state.resting);
        put(line, " kept ");
        put_kept(line, &self.state.kept);
    }

    /// Takes a line apart; none unless it is exactly what the protocol writes.
    pub fn read(line: &str, room: &'a mut Room) -> Option<Line<'a>> {
        let (answer, rest) = line.split_once(" own ")?;
        let (own, rest) = rest.split_once(" peer ")?;
        let (peer, rest) = rest.split_once(" out ")?;
        let (out, rest) = rest.split_once(" place ")?;
        let (place, rest) = rest.split_once(" rest ")?;
        let (resting, kept) = rest.split_once(" kept ")?;
        let place = place.parse().ok()?;
        let spoiled = out.ends_with(" spoiled");
        let out = out.strip_suffix(" spoiled").unwrap_or(out);
        room.written = if out == "-" { Vec::new() } else { read_octets(out)? };
        (room.state.own, room.state.peer) = (read_side(own)?, read_side(peer)?);
        room.state.resting = read_resting(resting)?;
        read_kept(kept, &mut room.state.kept)?;
        let answer = read_answer(answer, (room.written.len(), place), &mut room.value)?;
        let read = Line { answer, state: &room.state, written: &room.written, spoiled, place };
        let mut again = Vec::with_capacity(line.len());
        read.put(&mut again);
        (again == line.as_bytes()).then_some(read)
    }
}

fn put_answer(line: &mut Vec<u8>, answer: &Answer<'_>) {
    match *answer {
        Answer::Indicated(indication) => put_indication(line, indication),
        Answer::Answered { .. } => put(line, "answered"),
        Answer::Sent { .. } => put(line, "sent"),
        Answer::Forgotten => put(line, "forgotten"),
        Answer::Refused(refusal) => {
            put(line, "refused ");
            put(line, &refusal.number().to_string());
            if let Refusal::Rejected { problem, .. } = refusal {
                put_problem(line, problem);
            }
        }
    }
}

fn put_indication(line: &mut Vec<u8>, indication: Indication<'_>) {
    match indication {
        Indication::Invoke { id, linked, code, value } => {
            put_kind(line, "invoke", Some(id));
            put_number(line, linked);
            put_code(line, " ", code);
            put_value(line, value);
        }
        Indication::Result { id, code, value, operation } => {
            put_kind(line, "result", Some(id));
            put_code(line, " ", code);
            put_value(line, Some(value));
            put_operation(line, operation);
        }
        Indication::AbsentResult { id, operation } => {
            put_kind(line, "result", Some(id));
            put(line, " none none");
            put_operation(line, operation);
        }
        Indication::Error { id, code, value, operation } => {
            put_kind(line, "error", Some(id));
            put_code(line, " ", code);
            put_value(line, value);
            put_operation(line, operation);
        }
        Indication::UserReject { id, problem } => {
            put_kind(line, "reject-u", Some(id));
            put_problem(line, problem);
        }
        Indication::ProviderReject { id, problem } => {
            put_kind(line, "reject-p", id);
            put_problem(line, problem);
        }
    }
}

/// Appends the place of a value and the place behind it.
pub fn put_value_place(line: &mut Vec<u8>, place: Option<(usize, usize)>) {
    match place {
        Some((at, end)) => put(line, &format!(" value {at} {end}")),
        None => put(line, " value none"),
    }
}

fn put_kind(line: &mut Vec<u8>, kind: &str, id: Option<i32>) {
    put(line, kind);
    put_number(line, id);
}

fn put(line: &mut Vec<u8>, text: &str) {
    line.extend_from_slice(text.as_bytes());
}

fn put_number(line: &mut Vec<u8>, number: Option<i32>) {
    line.push(b' ');
    match number {
        Some(number) => put_hex(line, &number.to_be_bytes()),
        None => put(line, "none"),
    }
}

fn put_value(line: &mut Vec<u8>, value: Option<&[u8]>) {
    line.push(b' ');
    put_octets(line, value, "none");
}

fn put_octets(line: &mut Vec<u8>, octets: Option<&[u8]>, none: &str) {
    match octets {
        Some(octets) => put_hex(line, octets),
        None => put(line, none),
    }
}

fn put_operation(line: &mut Vec<u8>, operation: Code) {
    put_code(line, " op ", operation);
}

/// A local code, or the length and the octets of a name behind the letter n.
fn put_code(line: &mut Vec<u8>, before: &str, code: Code) {
    put(line, before);
    match code {
        Code::Local(code) => put_hex(line, &code.to_be_bytes()),
        Code::Name(name) => {
            put(line, "n");
            put_hex(line, &name);
        }
    }
}

fn put_problem(line: &mut Vec<u8>, problem: Problem) {
    let (identifier, number) = problem.octets();
    line.push(b' ');
    put_hex(line, &[identifier]);
    line.push(b' ');
    put_hex(line, &[number]);
}

fn put_side(line: &mut Vec<u8>, side: &Side) {
    put_hex(line, &side.count.to_be_bytes());
    for place in side.shown() {
        put_number(line, Some(place.id));
        put_code(line, ":", place.code);
    }
}

fn put_resting(line: &mut Vec<u8>, resting: &Resting) {
    put_hex(line, &resting.count.to_be_bytes());
    resting.shown().iter().for_each(|id| put_number(line, Some(*id)));
}

fn put_kept(line: &mut Vec<u8>, kept: &Kept) {
    put_hex(line, &kept.count.to_be_bytes());
    for at in 0..kept.shown() {
        put_number(line, Some(kept.ids[at]));
        put(line, ":");
        put_hex(line, &kept.lengths[at].to_be_bytes());
        put(line, ":");
        let octets = kept.shown_octets(at);
        put_octets(line, (!octets.is_empty()).then_some(octets), "-");
    }
}

fn put_hex(line: &mut Vec<u8>, octets: &[u8]) {
    const DIGITS: &[u8; 16] = b"0123456789abcdef";
    line.extend(octets.iter().flat_map(|octet| [octet >> 4, octet & 15].map(|digit| DIGITS[usize::from(digit)])));
}

/// The answer of a call that wrote so many octets and showed this place; the octets of its value go into `room`.
fn read_answer<'a>(text: &str, (written, place): (usize, usize), room: &'a mut Vec<u8>) -> Option<Answer<'a>> {
    let words: Vec<&str> = text.split(' ').collect();
    Some(match words[..] {
        ["answered"] => Answer::Answered { written },
        ["sent"] => Answer::Sent { written },
        ["forgotten"] => Answer::Forgotten,
        ["refused", number] => Answer::Refused(Refusal::plain(number.parse().ok()?, place)?),
        ["refused", "18", kind, number] => {
            Answer::Refused(Refusal::Rejected { problem: read_problem(kind, number)?, written, place })
        }
        _ => Answer::Indicated(read_indication(&words, room)?),
    })
}

fn read_indication<'a>(words: &[&str], room: &'a mut Vec<u8>) -> Option<Indication<'a>> {
    Some(match *words {
        ["invoke", id, linked, code, value] => Indication::Invoke {
            id: read_number(id)?,
            linked: read_unless_none(linked, read_number)?,
            code: read_code(code)?,
            value: read_value(value, room)?,
        },
        ["result", id, "none", "none", "op", operation] => {
            Indication::AbsentResult { id: read_number(id)?, operation: read_code(operation)? }
        }
        ["result", id, code, value, "op", operation] => Indication::Result {
            id: read_number(id)?,
            code: read_code(code)?,
            value: read_value(value, room)??,
            operation: read_code(operation)?,
        },
        ["error", id, code, value, "op", operation] => Indication::Error {
            id: read_number(id)?,
            code: read_code(code)?,
            value: read_value(value, room)?,
            operation: read_code(operation)?,
        },
        ["reject-u", id, kind @ ("81" | "82" | "83"), number] => {
            Indication::UserReject { id: read_number(id)?, problem: read_problem(kind, number)? }
        }
        ["reject-p", id, kind @ "80", number] => {
            Indication::ProviderReject { id: read_unless_none(id, read_number)?, problem: read_problem(kind, number)? }
        }
        _ => return None,
    })
}

/// None inside for the word `none`, else what is read.
fn read_unless_none<T>(word: &str, read: impl FnOnce(&str) -> Option<T>) -> Option<Option<T>> {
    match word {
        "none" => Some(None),
        word => read(word).map(Some),
    }
}

fn read_value<'a>(word: &str, room: &'a mut Vec<u8>) -> Option<Option<&'a [u8]>> {
    read_unless_none(word, |word| {
        *room = read_octets(word)?;
        Some(&room[..])
    })
}

fn read_problem(kind: &str, number: &str) -> Option<Problem> {
    let [kind, number] = [kind, number].map(|word| u8::from_str_radix(word, 16).ok());
    Problem::new(kind?, number?)
}

fn read_number(word: &str) -> Option<i32> {
    u32::from_str_radix(word, 16).ok().map(u32::cast_signed)
}

fn read_code(word: &str) -> Option<Code> {
    match word.strip_prefix('n') {
        Some(digits) => read_octets(digits)?.try_into().ok().map(Code::Name),
        None => read_number(word).map(Code::Local),
    }
}

/// At least one octet.
fn read_octets(word: &str) -> Option<Vec<u8>> {
    let digits: Option<Vec<u8>> = word.chars().map(|digit| digit.to_digit(16).map(|digit| digit as u8)).collect();
    let (pairs, []) = digits.as_ref()?.as_chunks::<2>() else { return None };
    (!pairs.is_empty()).then(|| pairs.iter().map(|[high, low]| high << 4 | low).collect())
}

/// The count, then the places that are shown, at most all.
fn read_side(text: &str) -> Option<Side> {
    let mut side = Side::empty();
    let mut words = text.split(' ');
    side.count = u16::from_str_radix(words.next()?, 16).ok()?;
    for (at, word) in words.enumerate() {
        let (id, code) = word.split_once(':')?;
        *side.places.get_mut(at)? = Record { id: read_number(id)?, code: read_code(code)? };
    }
    Some(side)
}

/// The count, then the ids that are shown, at most all.
fn read_resting(text: &str) -> Option<Resting> {
    let mut resting = Resting::none();
    let mut words = text.split(' ');
    resting.count = u16::from_str_radix(words.next()?, 16).ok()?;
    for (at, word) in words.enumerate() {
        *resting.places.get_mut(at)? = read_number(word)?;
    }
    Some(resting)
}

/// The count, then the answers that are shown, at most all.
fn read_kept(text: &str, kept: &mut Kept) -> Option<()> {
    *kept = Kept::none();
    let mut words = text.split(' ');
    kept.count = u16::from_str_radix(words.next()?, 16).ok()?;
    for (at, word) in words.enumerate() {
        let (id, rest) = word.split_once(':')?;
        let (length, octets) = rest.split_once(':')?;
        *kept.ids.get_mut(at)? = read_number(id)?;
        kept.lengths[at] = u16::from_str_radix(length, 16).ok()?;
        let octets = if octets == "-" { Vec::new() } else { read_octets(octets)? };
        kept.store[at].get_mut(..octets.len())?.copy_from_slice(&octets);
    }
    Some(())
}
