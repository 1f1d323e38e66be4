//! Lines read back, lines that the protocol does not have, and lines that break a rule of every call.

use crate::common::{hex, lines, model, T};
use second::drive::Drive;
use second::frame::{self, Frame};
use second::generate;
use second::line::{Line, Room};
use second::octets::place;
use second::player::{Played, Player};

#[test]
fn lines_are_read_back() {
    let mut room = Room::default();
    for line in lines(&generate::script(5, 2000), false).lines() {
        assert!(Line::read(line, &mut room).is_some(), "{line}");
    }
}

#[test]
fn other_lines_are_none() {
    let places = " 00000001:00000001".repeat(33);
    let others = [
        "",
        "sent",
        "sent own 0000 peer 0000 out",
        "sent own 0000 peer 0000 out  place 0",
        "sent own 0000 peer 0000 out a place 0",
        "sent own 0000 peer 0000 out A1 place 0",
        "sent own 0000 peer 0000 out a1  place 0",
        "sent own 0000 peer 0000 out - spoilt place 0",
        "sent  own 0000 peer 0000 out - place 0",
        "sent own 0 peer 0000 out - place 0",
        "sent own 0001 peer 0000 out - place 0",
        "sent own 0000 00000000:00000000 peer 0000 out - place 0",
        "sent own 0001 5:7 peer 0000 out - place 0",
        "sent peer 0000 own 0000 out - place 0",
        "refused 0 own 0000 peer 0000 out - place 0",
        "refused 18 own 0000 peer 0000 out - place 0",
        "refused 20 own 0000 peer 0000 out - place 0",
        "refused 23 own 0000 peer 0000 out - place 0",
        "refused 2 80 02 own 0000 peer 0000 out - place 0",
        "refused 18 80 03 own 0000 peer 0000 out a4050500800103 place 0",
        "invoke 00000005 none 00000007 own 0000 peer 0000 out - place 0",
        "invoke 00000005 none 00000007  own 0000 peer 0000 out - place 0",
        "result 00000005 none 020100 op 00000007 own 0000 peer 0000 out - place 0",
        "result 00000005 00000007 none op 00000007 own 0000 peer 0000 out - place 0",
        "result 00000005 00000007 020100 own 0000 peer 0000 out - place 0",
        "error 00000005 none none op 00000007 own 0000 peer 0000 out - place 0",
        "reject-u none 81 00 own 0000 peer 0000 out - place 0",
        "reject-u 00000005 80 00 own 0000 peer 0000 out - place 0",
        "reject-p 00000005 81 00 own 0000 peer 0000 out - place 0",
        &format!("forgotten own 0021{places} peer 0000 out - place 0"),
    ];
    for line in others {
        let line = format!("{line} rest 0000 kept 0000");
        assert!(Line::read(&line, &mut Room::default()).is_none(), "{line}");
    }
}

#[test]
fn lines_with_another_end_are_none() {
    let ends =
        ["", " place", " place ", " place none", " place 00", " place +1", " place -1", " place 0a", " place 5 "];
    let more = [" place 0 place 0", " place 0 spoiled", " place 0 value none", " value none place 0"];
    for end in ends.into_iter().chain(more) {
        let line = format!("sent own 0000 peer 0000 out -{end} rest 0000 kept 0000");
        assert!(Line::read(&line, &mut Room::default()).is_none(), "{line}");
    }
    for (answer, place) in [("sent", 0), ("refused 9", 5), ("refused 21", 5000), ("refused 10", 7)] {
        let (line, mut room) =
            (format!("{answer} own 0000 peer 0000 out - place {place} rest 0000 kept 0000"), Room::default());
        let read = Line::read(&line, &mut room).unwrap();
        let shown = if answer == "refused 10" { 0 } else { place };
        assert_eq!((read.place, read.answer.place()), (place, shown), "{line}");
    }
}

#[test]
fn lines_with_other_resting_ids_are_none() {
    let ids = |count: usize| " 00000007".repeat(count);
    let (most, over) = (format!(" rest 0040{}", ids(64)), format!(" rest 0041{}", ids(65)));
    for rest in
        ["", " rest", " rest ", " rest 0", " rest 0001", " rest 0000 00000000", " rest 0001 7", " rest none", &over]
    {
        let line = format!("sent own 0000 peer 0000 out - place 0{rest} kept 0000");
        assert!(Line::read(&line, &mut Room::default()).is_none(), "{line}");
    }
    let more =
        [" rest 0000 place 0", " rest 0000 spoiled", " rest 0000 value none", " rest 0000 rest 0000", " rest 0000 "];
    for end in more {
        let line = format!("sent own 0000 peer 0000 out - place 0{end} kept 0000");
        assert!(Line::read(&line, &mut Room::default()).is_none(), "{line}");
    }
    for rest in [" rest 0000", " rest 0001 00000000", " rest 0000 00000007", " rest 0002 ffffffff 00000000", &most] {
        let (line, mut room) = (format!("sent own 0000 peer 0000 out - place 0{rest} kept 0000"), Room::default());
        assert!(Line::read(&line, &mut room).is_some(), "{line}");
    }
}

#[test]
fn places_are_counted_in_the_received_octets() {
    let octets = [0; 13];
    assert_eq!(place(&octets, &octets), (0, 13));
    assert_eq!(place(&octets, &octets[10..]), (10, 13));
    assert_eq!(place(&octets, &octets[4..6]), (4, 6));
}

/// The engine, but with a text of its lines replaced.
struct Changed {
    drive: Drive,
    old: &'static str,
    new: &'static str,
}

impl Player for Changed {
    fn play(&mut self, frame: &Frame<'_>, line: &mut Vec<u8>) -> Result<(), String> {
        Player::play(&mut self.drive, frame, line)?;
        *line = String::from_utf8_lossy(line).replacen(self.old, self.new, 1).into_bytes();
        Ok(())
    }
}

/// P1's invoke and then another call, with a text of the lines replaced.
fn after_invoke(old: &'static str, new: &'static str, second: Frame<'_>) -> Result<(), String> {
    let mut end = Played::new(Box::new(Changed { drive: Drive::default(), old, new }), &hex(T))?;
    let value = hex("02 01 03");
    end.call(&Frame { kind: frame::INVOKE, lent: 64, id: 5, code: 7, payload: &value, ..Frame::default() })?;
    end.call(&second)?;
    Ok(())
}

#[test]
fn rules_of_every_call() {
    let (p2, p4) = (hex("A2 0B 02 01 05 30 06 02 01 07 02 01 00"), hex("A2 03 02 01 05"));
    let receive = |payload, lent| Frame { kind: frame::RECEIVE, lent, payload, ..Frame::default() };
    let (result, refused, short) = (receive(&p2, 11), receive(&p4, 11), receive(&p4, 7));
    let forget = Frame { kind: frame::FORGET, id: 6, ..Frame::default() };
    let forgets = Frame { id: 5, ..forget };
    for second in [result, refused, short, forget, forgets] {
        assert_eq!(after_invoke("", "", second), Ok(()));
    }
    let fields = "the indication does not show";
    let octets = "other octets were written";
    let records = "a refused call changed the records";
    let ids = "other ids rest than the call says";
    for (old, new, second, rule) in [
        ("sent own", "forgotten own", refused, "the call has no such answer"),
        ("refused 18 82 02", "sent", refused, "the call has no such answer"),
        ("refused 11", "refused 10", forget, "the call has no such answer"),
        ("020100 op", "020101 op", result, fields),
        ("00000007 020100 op", "none none op", result, fields),
        ("result 00000005 00000007 020100", "error 00000005 00000007 020100", result, fields),
        ("out a109020105020107020103", "out -", refused, octets),
        ("out a109020105020107020103", "out a306020105020101", refused, octets),
        ("out a109020105020107020103", "out a10902010502010702010300", refused, octets),
        ("refused 18 82 02", "refused 18 82 01", refused, octets),
        ("out a406020105820102", "out -", refused, octets),
        ("0000 out -", "0000 out a406020105820102", forget, octets),
        ("0000 out -", "0000 out a406020105820102", result, octets),
        ("refused 2 own", "refused 18 82 02 own", short, octets),
        ("out a406020105820102", "out a406020105820102 spoiled", refused, "an octet behind"),
        ("0000 out -", "0000 out - spoiled", forget, "an octet behind"),
        ("0000 out a406", "0001 00000005:00000007 out a406", refused, records),
        ("refused 11 own 0001 00000005:00000007", "refused 11 own 0000", forget, records),
        ("sent own 0001 00000005:00000007", "sent own 0000 00000005:00000007", refused, "the records are not sound"),
        ("20103 place 0 rest 0000", "20103 place 0 rest 0001 00000006", refused, ids),
        ("820102 place 0 rest 0000", "820102 place 0 rest 0001 00000005", refused, ids),
        ("place 0 rest 0001 00000005", "place 0 rest 0000", forgets, ids),
        ("place 0 rest 0001 00000005", "place 0 rest 0001 00000006", forgets, ids),
        ("20103 place 0 rest 0000", "20103 place 0 rest 0000 00000006", refused, "the records are not sound"),
        ("sent own", "sent own own", refused, "no line of the drive protocol"),
        ("\n", "", refused, "no line of the drive protocol"),
    ] {
        let told = after_invoke(old, new, second).err().unwrap_or_default();
        assert!(told.starts_with(rule), "{new}: {told}");
    }
}

/// A peer's invocation, its result, and then a probe of it, with a text of the lines replaced.
fn after_result(old: &'static str, new: &'static str, second: &str) -> Result<(), String> {
    let rows = [(-3, 2, 0x02, 0x0A, 0), (-2, 2, 0x30, 0x0A, 0), (7, 2, 0, 0x02, 0)];
    let table = model(&rows, &[], &[], &[]).octets();
    let mut end = Played::new(Box::new(Changed { drive: Drive::default(), old, new }), &table)?;
    let (value, invoke, probe) = (hex("02 01 03"), hex("A1 06 02 01 05 02 01 07"), hex(second));
    end.call(&Frame { kind: frame::RECEIVE, lent: 528, payload: &invoke, ..Frame::default() })?;
    end.call(&Frame { kind: frame::RESULT, lent: 64, id: 5, payload: &value, ..Frame::default() })?;
    end.call(&Frame { kind: frame::RECEIVE, lent: 528, payload: &probe, ..Frame::default() })?;
    Ok(())
}

#[test]
fn kept_answers_of_every_call() {
    let [probe, acknowledge, again] =
        ["A1 0D 02 01 06 02 01 FE 30 05 A0 03 02 01 05", "A1 09 02 01 06 02 01 FD 02 01 05", "A1 06 02 01 05 02 01 07"];
    for second in [probe, acknowledge, again] {
        assert_eq!(after_result("", "", second), Ok(()));
    }
    let (kept, octets) = ("other answers are kept than the call says", "other octets were written");
    for (old, new, second, rule) in [
        ("kept 0001 00000005:000d:a20b0201053006020107020103", "kept 0000", probe, kept),
        ("kept 0001 00000005", "kept 0001 00000006", probe, kept),
        (
            "020103 place 0 rest 0000 kept 0001 00000005:000d:a20b",
            "020103 place 0 rest 0000 kept 0001 00000005:000d:a30b",
            probe,
            kept,
        ),
        ("0a0101a20b", "0a0102a20b", probe, octets),
        ("0a0101a20b0201053006020107020103", "0a0101", probe, octets),
        ("0a0101a20b0201053006020107020103", "0a0101a20b0201053006020107020104", probe, octets),
        ("0a0100 place 0 rest 0000 kept 0000", "0a0101 place 0 rest 0000 kept 0000", acknowledge, octets),
        (
            "0a0100 place 0 rest 0000 kept 0000",
            "0a0100 place 0 rest 0000 kept 0001 00000005:0001:a2",
            acknowledge,
            kept,
        ),
        ("answered", "forgotten", probe, "the call has no such answer"),
        ("answered own 0000 peer 0000", "answered own 0000 peer 0001 00000006:fffffffe", probe, "an answered probe"),
    ] {
        let told = after_result(old, new, second).err().unwrap_or_default();
        assert!(told.starts_with(rule), "{new}: {told}");
    }
}

#[test]
fn places_of_every_call() {
    let [result, refused, at_fault] =
        ["A2 0B 02 01 05 30 06 02 01 07 02 01 00", "A2 03 02 01 05", "A1 80 02 01 05 00"].map(hex);
    let receive = |payload, lent| Frame { kind: frame::RECEIVE, lent, payload, ..Frame::default() };
    let forget = Frame { kind: frame::FORGET, id: 6, ..Frame::default() };
    let (none, outside) = ("the answer has no place", "the place is not in the given octets");
    for (old, new, second, rule) in [
        ("20103 place 0", "20103 place 2", forget, none),
        ("peer 0000 out - place 0", "peer 0000 out - place 1", receive(&result, 11), none),
        ("peer 0000 out - place 0", "peer 0000 out - place 4", receive(&refused, 7), none),
        ("peer 0000 out - place 0", "peer 0000 out - place 1", forget, none),
        ("820102 place 0", "820102 place 4", receive(&refused, 11), none),
        ("800102 place 5", "800102 place 6", receive(&at_fault, 11), outside),
        ("800102 place 5", "800102 place 60", receive(&at_fault, 11), outside),
    ] {
        let told = after_invoke(old, new, second).err().unwrap_or_default();
        assert!(told.starts_with(rule), "{new}: {told}");
    }
    for place in ["place 0", "place 4", "place 5"] {
        assert_eq!(after_invoke("place 5", place, receive(&at_fault, 11)), Ok(()));
    }
}

#[test]
fn no_more_is_written_than_lent() {
    let octets = hex("A2 03 02 01 05");
    let short = Frame { kind: frame::RECEIVE, lent: 7, payload: &octets, ..Frame::default() };
    let [old, new] = ["refused 2 own 0000 peer 0000 out -", "refused 18 82 00 own 0000 peer 0000 out a406020105820100"];
    let mut end = Played::new(Box::new(Changed { drive: Drive::default(), old, new }), &hex(T)).unwrap();
    assert!(end.call(&short).is_err_and(|told| told.starts_with("more octets were written than lent")));
}
