//! The marked examples P1 to P12 of docs/RULES.md: each call with the whole line that answers it.

use crate::code::Code;
use crate::frame::{self, Frame};
use crate::process;
use crate::show;
use crate::state::State;

/// Table T.
const T: [u8; 34] = [
    0x00, 0x01, 0x00, 0x10, 0x00, 0x01, 0x00, 0x18, 0x00, 0x01, 0x00, 0x1E, 0x00, 0x00, 0x00, 0x22, // header
    0x00, 0x00, 0x00, 0x07, 0x02, 0x02, 0x02, 0x00, // operation 7
    0x00, 0x00, 0x00, 0x01, 0x00, 0x00, // error 1
    0x00, 0x00, 0x00, 0x00, // error 1 of operation 7
];

/// Which record is live before the call.
#[derive(Clone, Copy)]
enum Live {
    None,
    Own,
    Peer,
}

/// An example: its name, the live record, the call, its line, and the place of the value.
type Example = (&'static str, Live, Frame<'static>, &'static str, &'static str);

#[rustfmt::skip]
const EXAMPLES: [Example; 12] = [
    ("P1", Live::None, invoke(5, 7, &[0x02, 0x01, 0x03]),
     "sent own 0001 00000005:00000007 peer 0000 out a109020105020107020103 place 0 rest 0000 kept 0000", "none"),
    ("P2", Live::Own, receive(&[0xA2, 0x0B, 0x02, 0x01, 0x05, 0x30, 0x06, 0x02, 0x01, 0x07, 0x02, 0x01, 0x00]),
     "result 00000005 00000007 020100 op 00000007 own 0000 peer 0000 out - place 0 rest 0000 kept 0000", "10 13"),
    ("P3", Live::Own, receive(&[0xA3, 0x06, 0x02, 0x01, 0x05, 0x02, 0x01, 0x01]),
     "error 00000005 00000001 none op 00000007 own 0000 peer 0000 out - place 0 rest 0000 kept 0000", "none"),
    ("P4", Live::Own, receive(&[0xA2, 0x03, 0x02, 0x01, 0x05]),
     "refused 18 82 02 own 0001 00000005:00000007 peer 0000 out a406020105820102 place 0 rest 0000 kept 0000", "none"),
    ("P5", Live::Own, receive(&[0xA2, 0x03, 0x02, 0x01, 0x06]),
     "refused 18 82 00 own 0001 00000005:00000007 peer 0000 out a406020106820100 place 0 rest 0000 kept 0000", "none"),
    ("P6", Live::Own, receive(&[]),
     "refused 18 80 02 own 0001 00000005:00000007 peer 0000 out a4050500800102 place 0 rest 0000 kept 0000", "none"),
    ("P7", Live::Own, receive(&[0xA5, 0x00]),
     "refused 18 80 00 own 0001 00000005:00000007 peer 0000 out a4050500800100 place 0 rest 0000 kept 0000", "none"),
    ("P8", Live::Own, receive(&[0xA4, 0x00]),
     "refused 17 own 0001 00000005:00000007 peer 0000 out - place 0 rest 0000 kept 0000", "none"),
    ("P9", Live::Peer, receive(&[0xA1, 0x09, 0x02, 0x01, 0x05, 0x02, 0x01, 0x07, 0x02, 0x01, 0x03]),
     "refused 18 81 00 own 0000 peer 0001 00000005:00000007 out a406020105810100 place 0 rest 0000 kept 0000", "none"),
    ("P10", Live::Own, receive(&[0xA2, 0x04, 0x02, 0x02, 0xFF, 0xFF]),
     "refused 18 80 02 own 0001 00000005:00000007 peer 0000 out a4050500800102 place 2 rest 0000 kept 0000", "none"),
    ("P11", Live::Own, receive(&[0xA2, 0x07, 0x02, 0x05, 0x00, 0x80, 0x00, 0x00, 0x00]),
     "refused 18 80 01 own 0001 00000005:00000007 peer 0000 out a4050500800101 place 0 rest 0000 kept 0000", "none"),
    ("P12", Live::Own, receive(&[0xA2, 0x06, 0x02, 0x04, 0x80, 0x00, 0x00, 0x00]),
     "refused 18 82 00 own 0001 00000005:00000007 peer 0000 out a409020480000000820100 place 0 rest 0000 kept 0000", "none"),
];

/// More octets are lent than any example writes, so that a change behind them is seen.
const LENT: u16 = 64;

const fn receive(payload: &'static [u8]) -> Frame<'static> {
    Frame { kind: frame::RECEIVE, detail: 0, lent: LENT, id: 0, code: 0, linked: 0, payload }
}

const fn invoke(id: i32, code: i32, payload: &'static [u8]) -> Frame<'static> {
    Frame { kind: frame::INVOKE, detail: 0, lent: LENT, id, code, linked: 0, payload }
}

/// The state with the record (5, 7) on one side, or on none.
fn state(live: Live) -> State {
    let mut state = State::fresh();
    match live {
        Live::None => {}
        Live::Own => state.own.add(5, Code::Local(7)),
        Live::Peer => state.peer.add(5, Code::Local(7)),
    }
    state
}

/// Table T, then each example's state and call.
pub fn script() -> Vec<u8> {
    let mut script = Vec::new();
    Frame { kind: frame::TABLE, payload: &T, ..Frame::default() }.append(&mut script);
    for (_, live, call, ..) in EXAMPLES {
        let image = frame::local_image(&state(live)).unwrap_or_default();
        Frame { kind: frame::STATE, payload: &image, ..Frame::default() }.append(&mut script);
        call.append(&mut script);
    }
    script
}

/// Plays the examples on a program: a line for each, and whether all are right.
pub fn run(program: &str, places: bool) -> Result<(String, bool), String> {
    let (lines, status) = process::play(program, places, &script())?;
    let (mut report, right) = report(&lines, places);
    if !status.success() {
        report += &format!("{program} ended with {status}\n");
    }
    Ok((report, right && status.success()))
}

/// Holds the lines of the script against the answers of the marked examples.
pub fn report(lines: &[u8], places: bool) -> (String, bool) {
    let text = String::from_utf8_lossy(lines);
    let (mut lines, mut report, mut right) = (text.split_terminator('\n'), String::new(), true);
    for (name, live, call, line, value) in EXAMPLES {
        let expected = if places { format!("{line} value {value}") } else { line.to_string() };
        let got = lines.next().unwrap_or("no line");
        if got == expected {
            report += &format!("{name} right\n");
        } else {
            let given = show::state(&state(live)) + &show::frame(&call);
            report += &format!("{name} differs\ngiven:    {given}expected: {expected}\ngot:      {got}\n");
            right = false;
        }
    }
    for more in lines {
        report += &format!("a line more than calls: {more}\n");
        right = false;
    }
    (report, right)
}
