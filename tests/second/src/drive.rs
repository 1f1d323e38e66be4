//! One end of an association driven by a script: frames in, one line out for each call.
//! Follows the drive protocol, docs/DRIVE.md.

use std::hint::black_box;
use std::io::{self, Read, Write};

use crate::answer::Answer;
use crate::engine::{self, Invocation};
use crate::frame::{self, Frame};
use crate::line::{self, Line};
use crate::octets;
use crate::state::State;

/// What the lent output is filled with before each call.
const FILLER: u8 = 0xA5;

/// The table and state of one end, and the output it lends.
pub struct Drive {
    pub table: Vec<u8>,
    pub state: State,
    output: Vec<u8>,
    /// How often each call is made, for measuring: each time from the state as it was.
    times: u64,
    /// Whether each line ends with the place of the indicated value.
    places: bool,
}

/// What a frame did.
pub enum Step<'a> {
    Set,
    Called(Answer<'a>),
    End,
}

impl Default for Drive {
    fn default() -> Self {
        Drive::new(Vec::new(), State::fresh())
    }
}

impl Drive {
    pub fn new(table: Vec<u8>, state: State) -> Self {
        Drive { table, state, output: vec![FILLER; usize::from(u16::MAX)], times: 1, places: false }
    }

    pub fn repeating(self, times: u64) -> Self {
        Drive { times, ..self }
    }

    pub fn showing_places(self, places: bool) -> Self {
        Drive { places, ..self }
    }

    pub fn step<'a>(&mut self, frame: &Frame<'a>) -> Step<'a> {
        match frame.kind {
            frame::TABLE => {
                self.table.clear();
                self.table.extend(frame.payload);
                Step::Set
            }
            frame::STATE => {
                if let Some(state) = frame::read_image(frame.payload) {
                    self.state = state;
                }
                Step::Set
            }
            frame::RECEIVE..=frame::FORGET => Step::Called(self.call(frame)),
            _ => Step::End,
        }
    }

    fn call<'a>(&mut self, frame: &Frame<'a>) -> Answer<'a> {
        self.output[..usize::from(frame.lent)].fill(FILLER);
        if self.times > 1 {
            let before = self.state.clone();
            for _ in 1..self.times {
                black_box(self.answer(frame));
                self.state.restore(&before);
            }
        }
        self.answer(frame)
    }

    fn answer<'a>(&mut self, frame: &Frame<'a>) -> Answer<'a> {
        let (id, code, value) = (frame.id, frame.asked(), frame.value());
        let output = &mut self.output[..usize::from(frame.lent)];
        let (table, state) = (&self.table[..], &mut self.state);
        let sent = match frame.kind {
            frame::RECEIVE => {
                return engine::receive(table, state, value, output).map_or_else(Answer::Refused, Answer::from)
            }
            frame::INVOKE => engine::request_invoke(table, state, (id, frame.linked_id(), code), value, output),
            frame::RESULT => engine::request_result(table, state, id, value, output),
            frame::ERROR => engine::request_error(table, state, (id, code), value, output),
            frame::REJECT => engine::request_reject(table, state, (id, frame.detail), output),
            _ => {
                let invocation = if frame.detail == 0 { Invocation::Own(id) } else { Invocation::Peer(id) };
                return engine::forget(table, state, invocation).map_or_else(Answer::Refused, |()| Answer::Forgotten);
            }
        };
        sent.map_or_else(Answer::Refused, |written| Answer::Sent { written })
    }

    /// The first octets of the output as the last call left them.
    pub fn output(&self, written: usize) -> &[u8] {
        &self.output[..written]
    }

    /// Plays a frame and appends the line of a call; false if the frame ends the run.
    pub fn play(&mut self, frame: &Frame<'_>, line: &mut Vec<u8>) -> bool {
        match self.step(frame) {
            Step::Set => true,
            Step::Called(answer) => {
                self.put_line(frame, answer, line);
                true
            }
            Step::End => false,
        }
    }

    fn put_line(&self, frame: &Frame<'_>, answer: Answer<'_>, line: &mut Vec<u8>) {
        let (written, behind) = self.output[..usize::from(frame.lent)].split_at(answer.written());
        let spoiled = behind.iter().fold(0, |changed, octet| changed | (octet ^ FILLER)) != 0;
        Line { answer, state: &self.state, written, spoiled, place: answer.place() }.put(line);
        if self.places {
            line::put_value_place(line, answer.value().map(|value| octets::place(frame.payload, value)));
        }
        line.push(b'\n');
    }
}

/// Plays a script until it ends; writes one line for each call, at once.
pub fn play(mut script: impl Read, mut lines: impl Write, mut drive: Drive) -> io::Result<()> {
    let (mut header, mut payload, mut line) = ([0; frame::HEADER], Vec::new(), Vec::new());
    while fill(&mut script, &mut header)? {
        payload.resize(Frame::payload_octets(&header), 0);
        line.clear();
        if !fill(&mut script, &mut payload)? || !drive.play(&Frame::new(&header, &payload), &mut line) {
            break;
        }
        lines.write_all(&line)?;
    }
    lines.flush()
}

/// Reads as many octets as the buffer holds; false if the script ends before.
fn fill(script: &mut impl Read, buffer: &mut [u8]) -> io::Result<bool> {
    match script.read_exact(buffer) {
        Err(error) if error.kind() == io::ErrorKind::UnexpectedEof => Ok(false),
        other => other.map(|()| true),
    }
}
