//! Rows of resting ids: which of them an invoke has, what else would be refused, and what else meets one.
//! Follows docs/RULES.md, "Ids that rest".

use crate::answer::{Answer, Indication};
use crate::apdu::{self, Apdu, Invoke};
use crate::engine;
use crate::frame::{self, Frame};
use crate::generate::Seen;
use crate::observe::{answered, refusal};
use crate::resting::Resting;
use crate::state::State;
use crate::table::Table;

/// Which of the resting ids an invoke has.
const WHICH: [&str; 6] = [
    "the oldest of 64",
    "the newest of 64",
    "one between of 64",
    "the only one",
    "the oldest of fewer",
    "the newest of fewer",
];

/// What an invoke with a resting id is besides.
const ASKED: [&str; 8] = ["class 1", "class 2", "class 3", "class 4", "class 5", "linked", "id 0", "a negative id"];

/// What would be answered if the id did not rest.
const OTHERWISE: [&str; 10] = [
    "sent",
    "refused 6",
    "refused 7",
    "refused 8",
    "refused 9",
    "refused 21",
    "refused 10",
    "refused 14",
    "refused 15",
    "refused 2",
];

/// What else meets a resting id, or stands beside some.
const MET: [&str; 26] = [
    "invoke with a resting id, refused 19",
    "invoke with a resting id, refused 1",
    "invoke with a resting id, refused 4",
    "invoke with a resting id's remainder by 512, sent",
    "result to a resting id, 82 00",
    "error to a resting id, 83 00",
    "Reject of an invoke with a resting id, accepted",
    "Reject of a result with a resting id, accepted",
    "Reject of an error with a resting id, accepted",
    "peer's invoke with a resting id, accepted",
    "peer's invoke with a resting id, 81 00",
    "peer's invoke linked to a resting id, 81 05",
    "forget of a resting id, refused 11",
    "forget of a peer record with a resting id, accepted",
    "forget of a peer record with a resting id, refused 12",
    "result of a peer record with a resting id, sent",
    "error of a peer record with a resting id, sent",
    "user reject of a peer record with a resting id, sent",
    "own record forgotten, none resting",
    "own record forgotten, some resting",
    "own record forgotten, 63 resting",
    "own record forgotten, 64 resting",
    "own record forgotten, id 0",
    "own record forgotten, a negative id",
    "peer record forgotten, 64 resting",
    "own record retired by an answer, 64 resting",
];

/// Every row that must occur.
pub fn rows() -> Vec<String> {
    let mut rows: Vec<String> = WHICH.map(|which| row(&format!("invoke with {which}, refused 22"))).to_vec();
    rows.extend(ASKED.map(|asked| row(&format!("invoke with a resting id, {asked}, refused 22"))));
    rows.extend(OTHERWISE.map(|answer| row(&format!("invoke refused 22 in place of {answer}"))));
    rows.extend(MET.map(row));
    rows
}

/// The rows that a call belongs to.
pub fn rows_of(call: &str, seen: &Seen<'_>) -> Vec<String> {
    let rows = match seen.frame.kind {
        frame::INVOKE => invoked(seen),
        frame::RECEIVE => received(seen),
        frame::FORGET => forgotten(seen),
        _ if rests(seen, seen.frame.id) => {
            vec![format!("{call} of a peer record with a resting id, {}", answered(seen.answer))]
        }
        _ => Vec::new(),
    };
    rows.iter().map(|what| row(what)).collect()
}

fn rests(seen: &Seen<'_>, id: i32) -> bool {
    seen.before.resting.contains(id)
}

fn invoked(seen: &Seen<'_>) -> Vec<String> {
    let (id, ids, answer) = (seen.frame.id, seen.before.resting.ids(), answered(seen.answer));
    let Some(at) = ids.iter().position(|other| *other == id) else {
        let shares = ids.iter().any(|other| other.wrapping_sub(id) % 512 == 0);
        return shares.then(|| format!("invoke with a resting id's remainder by 512, {answer}")).into_iter().collect();
    };
    let mut rows = vec![format!("invoke with a resting id, {answer}")];
    if refusal(seen.answer) == 22 {
        rows.push(format!("invoke with {}, refused 22", which(at, ids.len())));
        rows.extend(besides(seen).iter().map(|asked| format!("invoke with a resting id, {asked}, refused 22")));
        rows.push(format!("invoke refused 22 in place of {}", otherwise(seen)));
    }
    rows
}

fn which(at: usize, count: usize) -> &'static str {
    match (at, count) {
        (0, 1) => "the only one",
        (0, State::RESTING) => "the oldest of 64",
        (at, State::RESTING) if at + 1 == State::RESTING => "the newest of 64",
        (_, State::RESTING) => "one between of 64",
        (0, _) => "the oldest of fewer",
        (at, count) if at + 1 == count => "the newest of fewer",
        _ => "one between of fewer",
    }
}

fn besides(seen: &Seen<'_>) -> Vec<String> {
    let operation =
        Table::new(seen.table).zip(seen.frame.asked().code()).and_then(|(table, code)| table.operation(&code));
    let mut rows: Vec<String> = operation.map(|row| format!("class {}", row.class)).into_iter().collect();
    rows.extend(seen.frame.linked_id().map(|_| "linked".to_string()));
    rows.extend((seen.frame.id == 0).then(|| "id 0".to_string()));
    rows.extend((seen.frame.id < 0).then(|| "a negative id".to_string()));
    rows
}

/// What an invoke would be answered if its id did not rest.
fn otherwise(seen: &Seen<'_>) -> String {
    let (Frame { id, lent, .. }, mut state) = (*seen.frame, seen.before.clone());
    state.resting = Resting::none();
    let asked = (id, seen.frame.linked_id(), seen.frame.asked());
    let mut output = vec![0; usize::from(lent)];
    let sent = engine::request_invoke(seen.table, &mut state, asked, seen.frame.value(), &mut output);
    answered(&sent.map_or_else(Answer::Refused, |written| Answer::Sent { written }))
}

fn received(seen: &Seen<'_>) -> Vec<String> {
    let answer = answered(seen.answer);
    let mut rows = Vec::new();
    let retired = matches!(
        seen.answer,
        Answer::Indicated(Indication::Result { .. } | Indication::AbsentResult { .. } | Indication::Error { .. })
    );
    if retired && seen.before.resting.ids().len() == State::RESTING {
        rows.push("own record retired by an answer, 64 resting".to_string());
    }
    rows.extend(match apdu::read(seen.frame.payload) {
        Ok(Apdu::Result { id, .. }) if rests(seen, id) => Some(format!("result to a resting id, {answer}")),
        Ok(Apdu::Error { id, .. }) if rests(seen, id) => Some(format!("error to a resting id, {answer}")),
        Ok(Apdu::Reject { id: Some(id), problem }) if rests(seen, id) => {
            let of = ["a provider", "an invoke", "a result", "an error"][usize::from(problem.octets().0 & 3)];
            Some(format!("Reject of {of} with a resting id, {answer}"))
        }
        Ok(Apdu::Invoke(Invoke { linked: Some(linked), .. })) if rests(seen, linked) => {
            Some(format!("peer's invoke linked to a resting id, {answer}"))
        }
        Ok(Apdu::Invoke(Invoke { id, .. })) if rests(seen, id) => {
            Some(format!("peer's invoke with a resting id, {answer}"))
        }
        _ => None,
    });
    rows
}

fn forgotten(seen: &Seen<'_>) -> Vec<String> {
    let (id, count, answer) = (seen.frame.id, seen.before.resting.ids().len(), answered(seen.answer));
    if seen.frame.detail != 0 {
        let mut rows = vec![format!("peer record forgotten, {count} resting")];
        rows.retain(|_| seen.answer.is_accepted());
        rows.extend(rests(seen, id).then(|| format!("forget of a peer record with a resting id, {answer}")));
        return rows;
    }
    if !seen.answer.is_accepted() {
        return vec![format!("forget of a resting id, {answer}")].into_iter().filter(|_| rests(seen, id)).collect();
    }
    let resting = match count {
        0 => "none".to_string(),
        1..=62 => "some".to_string(),
        count => count.to_string(),
    };
    let mut rows = vec![format!("own record forgotten, {resting} resting")];
    rows.extend((id == 0).then(|| "own record forgotten, id 0".to_string()));
    rows.extend((id < 0).then(|| "own record forgotten, a negative id".to_string()));
    rows
}

fn row(what: &str) -> String {
    format!("resting: {what}")
}
