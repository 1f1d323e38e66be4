//! A table, a state and a frame decoded for a reader.

use crate::capture::{Kind, Reader};
use crate::fault;
use crate::frame::{self, Frame};
use crate::kept::Kept;
use crate::octets::{self, Header, Length, CLOSING};
use crate::replay::End;
use crate::resting::Resting;
use crate::state::{Side, State};
use crate::table::{Rule, Table};

pub fn hex(octets: &[u8]) -> String {
    let digits: Vec<String> = octets.iter().map(|octet| format!("{octet:02X}")).collect();
    if digits.is_empty() {
        "none".to_string()
    } else {
        digits.join(" ")
    }
}

pub fn table(octets: &[u8]) -> String {
    let valid = if Table::new(octets).is_some() { "valid" } else { "not valid" };
    let mut text = format!("table, {} octets, {valid}\n", octets.len());
    let Some(parts) = Table::parts(octets) else { return text + &format!("  {}\n", hex(octets)) };
    for row in parts.operations() {
        let (argument, result) = (rule(row.argument), rule(row.result));
        let idempotent = if row.idempotent { " idempotent" } else { "" };
        text += &format!("  operation {} code {} class {}", row.index, row.code, row.class);
        text += &format!(" argument {argument} result {result}{idempotent}\n");
    }
    for row in parts.errors() {
        text += &format!("  error {} code {} parameter {}\n", row.index, row.code, rule(row.parameter));
    }
    let pairs = |pairs: Vec<(usize, usize)>| pairs.iter().map(|(a, b)| format!(" {a}-{b}")).collect::<String>();
    text += &format!("  error pairs{}\n", pairs(parts.error_pairs().collect()));
    text += &format!("  child pairs{}\n", pairs(parts.child_pairs().collect()));
    for (index, name) in parts.names().iter().enumerate() {
        text += &format!("  name {index} of length {}: {}\n", name[0], hex(&name[1..]));
    }
    text
}

fn rule(rule: Rule) -> String {
    match (rule.kind, rule.optional) {
        (0, false) => "none".to_string(),
        (kind, optional) => format!("{kind:02X}{}", if optional { " optional" } else { "" }),
    }
}

pub fn state(state: &State) -> String {
    let sound = if state.is_sound() { "sound" } else { "not sound" };
    let sides = side("own", &state.own) + &side("peer", &state.peer);
    format!("state, {sound}\n{sides}{}{}", resting(&state.resting), kept(&state.kept))
}

fn side(name: &str, side: &Side) -> String {
    let mut text = format!("  {name} count {}", side.count);
    for (at, record) in side.shown().iter().enumerate() {
        let unused = if at < usize::from(side.count) { "" } else { " (behind the count)" };
        text += &format!(", {} is operation {}{unused}", record.id, record.code);
    }
    text + "\n"
}

fn resting(resting: &Resting) -> String {
    let mut text = format!("  resting count {}", resting.count);
    for (at, id) in resting.shown().iter().enumerate() {
        let unused = if at < usize::from(resting.count) { "" } else { " (behind the count)" };
        text += &format!(", {id}{unused}");
    }
    text + "\n"
}

fn kept(kept: &Kept) -> String {
    let mut text = format!("  kept count {}\n", kept.count);
    for at in 0..kept.shown() {
        let unused = if at < usize::from(kept.count) { "" } else { " (behind the count)" };
        let (id, length, octets) = (kept.ids[at], kept.lengths[at], kept.shown_octets(at));
        text += &format!("    {id} of length {length}{unused}: {}\n", hex(octets));
    }
    text
}

pub fn frame(frame: &Frame<'_>) -> String {
    let Frame { kind, detail, lent, id, linked, .. } = *frame;
    let (code, payload) = (frame.asked(), frame.value());
    let what = match kind {
        frame::RECEIVE => "receive".to_string(),
        frame::INVOKE if frame.linked_id().is_some() => {
            format!("request invoke {id} of operation {code} linked to {linked}")
        }
        frame::INVOKE => format!("request invoke {id} of operation {code}"),
        frame::RESULT => format!("request result of {id}"),
        frame::ERROR => format!("request error {code} of {id}"),
        frame::REJECT => format!("request user reject of {id} with problem {detail}"),
        frame::FORGET => format!("forget {} {id}", if detail == 0 { "own" } else { "peer" }),
        other => format!("frame of kind {other}"),
    };
    let mut text = format!("{what}, {lent} octets lent, {} given\n", payload.len());
    elements(&mut text, payload, 1);
    if !payload.is_empty() && octets::levels(payload, State::LEVELS).is_none() {
        text += &format!("first fault at {}\n", fault::place(payload, State::LEVELS));
    }
    text
}

/// A capture's entries around a place, and the state before it.
pub fn capture(table: &[u8], capture: &[u8], place: usize) -> String {
    let mut text = format!("capture, {} octets\n", capture.len());
    let reader = match Reader::new(capture) {
        Ok(reader) => reader,
        Err(rule) => return text + &format!("  malformed: {rule:?}\n  {}\n", hex(&capture[..capture.len().min(256)])),
    };
    let (mut end, count, mut right) = (End::fresh(table), reader.entries(), true);
    let place = place.min(count);
    for (number, entry) in reader.enumerate().take(place + 3) {
        if number == place {
            text += &state(&end.state);
        }
        if number + 3 >= place {
            let kind = match entry.kind {
                Kind::Received => "received",
                Kind::Sent => "sent",
                Kind::Forget => "forget",
            };
            text += &format!("entry {number} of {count}, {kind}, {} octets\n", entry.octets.len());
            match entry.kind {
                Kind::Forget => text += &format!("  {}\n", hex(entry.octets)),
                _ => elements(&mut text, &entry.octets[..entry.octets.len().min(256)], 1),
            }
        }
        right = right && end.play(entry).is_ok();
    }
    text
}

/// The elements one under another, as far as they can be read.
fn elements(text: &mut String, mut octets: &[u8], level: usize) {
    while !octets.is_empty() {
        octets = element(text, octets, level);
    }
}

/// Shows the first element and gives what stands behind it.
fn element<'a>(text: &mut String, octets: &'a [u8], level: usize) -> &'a [u8] {
    let margin = "  ".repeat(level.min(20));
    let Some(Header { identifier, length, behind }) = octets::header(octets) else {
        *text += &format!("{margin}no element: {}\n", hex(octets));
        return &[];
    };
    let header = hex(&octets[..octets.len() - behind.len()]);
    match length {
        Length::Definite(length) => match behind.split_at_checked(length) {
            None => {
                *text += &format!("{margin}{header} too long: {}\n", hex(behind));
                &[]
            }
            Some((contents, rest)) if octets::is_constructed(identifier) => {
                *text += &format!("{margin}{header}\n");
                elements(text, contents, level + 1);
                rest
            }
            Some((contents, rest)) => {
                *text += &format!("{margin}{header} : {}\n", hex(contents));
                rest
            }
        },
        Length::Indefinite if octets::is_constructed(identifier) => {
            *text += &format!("{margin}{header}\n");
            open_elements(text, behind, level + 1)
        }
        Length::Indefinite => {
            *text += &format!("{margin}{header} primitive: {}\n", hex(behind));
            &[]
        }
    }
}

/// Shows elements up to closing octets and gives what stands behind those.
fn open_elements<'a>(text: &mut String, mut octets: &'a [u8], level: usize) -> &'a [u8] {
    while !octets.is_empty() && !octets.starts_with(&CLOSING) {
        octets = element(text, octets, level);
    }
    let margin = "  ".repeat(level.min(20));
    match octets.strip_prefix(&CLOSING) {
        Some(rest) => {
            *text += &format!("{margin}00 00 closes\n");
            rest
        }
        None => {
            *text += &format!("{margin}no closing octets\n");
            octets
        }
    }
}
