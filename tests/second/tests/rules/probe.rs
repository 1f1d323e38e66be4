//! Probe and acknowledge: the rules of their operations, the room of receive, what is found, what is refused, and what
//! the two ends and a replay make of them.
//! docs/RULES.md, "Probe and acknowledge".

use crate::common::{hex, model, play, state};
use second::days::{self, Logged};
use second::model::Model;
use second::replay::verdict;
use second::state::State;
use second::table::Table;

/// A row: code, class, argument, result, flags.
type Row = (i32, u8, u8, u8, u8);

const ACKNOWLEDGE: Row = (-3, 2, 0x02, 0x0A, 0);
const PROBE: Row = (-2, 2, 0x30, 0x0A, 0);

/// Acknowledge, probe, operation 1 of class 1 and operation 2 of class 2, which all three others are children of.
fn table() -> Model {
    let operations = [ACKNOWLEDGE, PROBE, (1, 1, 0x02, 0x02, 0), (2, 2, 0x02, 0x02, 0)];
    model(&operations, &[(1, 0, 0)], &[(3, 0)], &[(3, 0), (3, 1), (3, 2)])
}

/// Peer record 5, and answers kept to 6 and 7.
fn answering() -> State {
    let mut state = state(&[], &[(5, 2)]);
    state.kept.add(6, &hex("A203020106"));
    state.kept.add(7, &hex("A306020107020101"));
    state
}

fn check(table: &[u8], state: &State, cases: &[(&str, &str)]) {
    for (call, answer) in cases {
        let line = play(table, state, call);
        let whole = line.strip_prefix(answer).is_some_and(|rest| rest.is_empty() || rest.starts_with(' '));
        assert!(whole, "{call}\n  wanted {answer}\n  was    {line}");
    }
}

#[test]
fn tables_that_list_them() {
    let valid = |operations: &[Row]| Table::new(&model(operations, &[], &[], &[]).octets()).is_some();
    let with = |change: fn(&mut Row)| {
        let mut rows = [ACKNOWLEDGE, PROBE];
        change(&mut rows[0]);
        let acknowledge = valid(&rows);
        let mut rows = [ACKNOWLEDGE, PROBE];
        change(&mut rows[1]);
        [acknowledge, valid(&rows)]
    };
    assert!(valid(&[ACKNOWLEDGE]) && valid(&[ACKNOWLEDGE, PROBE]) && !valid(&[PROBE]));
    assert!(!valid(&[PROBE, (7, 2, 0, 0, 0)]) && !valid(&[(-4, 2, 0, 0, 0), PROBE]));
    assert_eq!(with(|row| row.1 = 1), [true, true]);
    assert_eq!(with(|row| row.4 = 1), [false, false]);
    assert_eq!(with(|row| row.4 = 2), [false, false]);
    assert_eq!(with(|row| row.4 = 8), [false, false]);
    assert_eq!(with(|row| (row.1, row.3) = (3, 0)), [false, false]);
    assert_eq!(with(|row| row.1 = 4), [false, false]);
    assert_eq!(with(|row| (row.1, row.3) = (5, 0)), [false, false]);
    assert_eq!(with(|row| row.2 = 0x30), [false, true]);
    assert_eq!(with(|row| row.2 = 0x02), [true, false]);
    assert_eq!(with(|row| row.2 = 0), [false, false]);
    assert_eq!(with(|row| row.3 = 0x02), [false, false]);
    assert_eq!(with(|row| row.3 = 0), [false, false]);
    let errors = model(&[], &[(-3, 0, 0), (-2, 0x04, 1)], &[], &[]);
    assert!(errors.is_valid());
    let mut second = table();
    second.names = Some(Vec::new());
    second.operations.iter_mut().for_each(|row| row.flags |= 8);
    assert!(second.is_valid());
    second.operations[1].flags = 9;
    assert!(!second.is_valid());
}

#[test]
fn receive_needs_room_by_the_table() {
    let (both, fresh) = (table().octets(), State::fresh());
    let alone = model(&[ACKNOWLEDGE, (2, 5, 0, 0, 0)], &[], &[], &[]).octets();
    for received in ["A4 06 02 01 05 81 01 00", "A5 00", "A4 00", "A1 09 02 01 05 02 01 FD 02 01 06", "A1 00"] {
        for (table, room) in [(&both, 528), (&alone, 16)] {
            check(table, &fresh, &[(&format!("@{} receive {received}", room - 1), "refused 2")]);
            let line = play(table, &fresh, &format!("@{room} receive {received}"));
            assert!(!line.starts_with("refused 2 "), "{line}");
        }
    }
    let long = format!("@0 receive A4 {}", "00".repeat(4096));
    check(&both, &fresh, &[(&long, "refused 3")]);
}

#[test]
fn probe_finds_running_finished_and_unknown() {
    let records = "own 0000 peer 0001 00000005:00000002";
    let kept = "place 0 rest 0000 kept 0002 00000006:0005:a203020106 00000007:0008:a306020107020101";
    for (call, out) in [
        ("A1 0D 02 01 09 02 01 FE 30 05 A0 03 02 01 05", "a20b02010930060201fe0a0100"),
        ("A1 0D 02 01 09 02 01 FE 30 05 A0 03 02 01 06", "a20b02010930060201fe0a0101a203020106"),
        ("A1 0D 02 01 07 02 01 FE 30 05 A0 03 02 01 07", "a20b02010730060201fe0a0101a306020107020101"),
        ("A1 0D 02 01 09 02 01 FE 30 05 A0 03 02 01 09", "a20b02010930060201fe0a0102"),
        ("A1 0E 02 02 01 00 02 01 FE 30 05 A0 03 02 01 08", "a20c0202010030060201fe0a0102"),
        ("A1 10 02 04 80 00 00 00 02 01 FE 30 05 A0 03 02 01 08", "a20e02048000000030060201fe0a0102"),
        ("A1 80 02 01 09 02 01 FE 30 80 A0 80 02 01 06 00 00 00 00 00 00", "a20b02010930060201fe0a0101a203020106"),
        ("A1 0F 02 01 09 02 81 01 FE 30 81 05 A0 03 02 01 05", "a20b02010930060201fe0a0100"),
    ] {
        let line = play(&table().octets(), &answering(), &format!("receive {call}"));
        assert_eq!(line, format!("answered {records} out {out} {kept}"), "{call}");
    }
}

#[test]
fn acknowledge_drops_what_it_finds() {
    let records = "own 0000 peer 0001 00000005:00000002";
    let both = "0002 00000006:0005:a203020106 00000007:0008:a306020107020101";
    for (call, found, kept) in [
        ("A1 09 02 01 09 02 01 FD 02 01 06", "0100", "0001 00000007:0008:a306020107020101"),
        ("A1 09 02 01 07 02 01 FD 02 01 07", "0100", "0001 00000006:0005:a203020106"),
        ("A1 09 02 01 09 02 01 FD 02 01 05", "0101", both),
        ("A1 09 02 01 09 02 01 FD 02 01 09", "0101", both),
        ("A1 0A 02 01 09 02 01 FD 02 81 01 08", "0101", both),
    ] {
        let line = play(&table().octets(), &answering(), &format!("receive {call}"));
        let id = &call[12..14].to_lowercase();
        let out = format!("a20b0201{id}30060201fd0a{found}");
        assert_eq!(line, format!("answered {records} out {out} place 0 rest 0000 kept {kept}"), "{call}");
    }
}

#[test]
fn wrong_insides_are_mistyped() {
    let probe = |inside: &str| {
        let inside = hex(inside);
        let apdu = second::values::element(0xA1, &[&hex("02 01 09 02 01 FE"), &inside[..]].concat());
        format!("receive {}", apdu.iter().map(|octet| format!("{octet:02X}")).collect::<String>())
    };
    for inside in [
        "",
        "30 00",
        "30 80 00 00",
        "30 02 05 00",
        "30 02 A0 00",
        "30 04 A0 02 05 00",
        "30 03 02 01 06",
        "30 03 80 01 06",
        "30 05 80 03 02 01 06",
        "30 05 A1 03 02 01 06",
        "30 09 A0 07 02 05 01 00 00 00 06",
        "30 09 A0 07 02 05 00 80 00 00 00",
        "30 0A A0 03 02 01 06 A0 03 02 01 06",
        "30 07 A0 03 02 01 06 05 00",
        "30 08 A0 06 02 01 06 02 01 06",
        "30 05 A0 03 0A 01 06",
        "31 05 A0 03 02 01 06",
        "A0 03 02 01 06",
        "02 01 06",
    ] {
        check(&table().octets(), &answering(), &[(&probe(inside), "refused 18 81 02")]);
    }
    for argument in ["", "05 00", "02 05 01 00 00 00 06", "30 03 02 01 06", "0A 01 06"] {
        let apdu = second::values::element(0xA1, &[hex("02 01 09 02 01 FD"), hex(argument)].concat());
        let call = format!("receive {}", apdu.iter().map(|octet| format!("{octet:02X}")).collect::<String>());
        check(&table().octets(), &answering(), &[(&call, "refused 18 81 02")]);
    }
}

#[test]
fn the_order_is_that_of_every_invoke() {
    let mut state = answering();
    state.own.add(20, second::code::Code::Local(2));
    state.own.add(21, second::code::Code::Local(-3));
    let table = table().octets();
    check(
        &table,
        &state,
        &[
            ("receive A1 0D 02 01 05 02 01 FE 30 05 A0 03 02 01 06", "refused 18 81 00"),
            ("receive A1 0A 02 01 05 02 01 FE 30 02 05 00", "refused 18 81 00"),
            ("receive A1 10 02 01 09 80 01 05 02 01 FE 30 05 A0 03 02 01 06", "refused 18 81 05"),
            ("receive A1 0D 02 01 09 80 01 05 02 01 FE 30 02 05 00", "refused 18 81 05"),
            ("receive A1 10 02 01 09 80 01 15 02 01 FE 30 05 A0 03 02 01 06", "refused 18 81 06"),
            ("receive A1 10 02 01 09 80 01 14 02 01 FE 30 05 A0 03 02 01 06", "answered"),
            ("receive A1 0C 02 01 09 80 01 14 02 01 FD 02 01 06", "answered"),
            ("receive A1 06 02 01 09 02 01 FC", "refused 18 81 01"),
        ],
    );
    let mut other = self::table();
    other.child_pairs = vec![(3, 2)];
    check(
        &other.octets(),
        &state,
        &[
            ("receive A1 10 02 01 09 80 01 14 02 01 FE 30 05 A0 03 02 01 06", "refused 18 81 07"),
            ("receive A1 0D 02 01 09 80 01 14 02 01 FE 30 02 05 00", "refused 18 81 02"),
        ],
    );
}

#[test]
fn full_peer_records_do_not_refuse_them() {
    let (table, mut full) = (table().octets(), answering());
    (40..71).for_each(|id| full.peer.add(id, second::code::Code::Local(2)));
    check(
        &table,
        &full,
        &[
            ("receive A1 0D 02 01 09 02 01 FE 30 05 A0 03 02 01 06", "answered"),
            ("receive A1 09 02 01 09 02 01 FD 02 01 06", "answered"),
            ("receive A1 09 02 01 09 02 01 02 02 01 06", "refused 18 81 03"),
        ],
    );
    let alone = model(&[ACKNOWLEDGE], &[], &[], &[]).octets();
    check(&alone, &State::fresh(), &[("receive A1 0D 02 01 09 02 01 FE 30 05 A0 03 02 01 06", "refused 18 81 01")]);
}

#[test]
fn refusal_6_spares_them() {
    let table = table().octets();
    let blocked = state(&[(4, 1)], &[(8, 2)]);
    check(
        &table,
        &blocked,
        &[
            ("invoke 9 2 02 01 00", "refused 6"),
            ("invoke 9 -2 30 05 A0 03 02 01 04", "sent"),
            ("invoke 9 -3 02 01 04", "sent"),
            ("invoke 9 -2 30 00", "sent"),
            ("invoke 9 -3 02 05 01 00 00 00 04", "sent"),
            ("invoke 9 -2", "refused 10"),
            ("invoke 4 -2 30 00", "refused 5"),
            ("linked 9 8 -2 30 00", "sent"),
            ("linked 9 7 -2 30 00", "refused 7"),
            ("invoke 9 -2 30 01", "refused 9"),
            ("invoke 9 -2 30 00 05", "refused 21"),
            ("@3 invoke 9 -2 30 00", "refused 2"),
        ],
    );
    let mut synchronous = self::table();
    synchronous.operations[1].class = 1;
    let probing = state(&[(4, -2)], &[]);
    let cases = [("invoke 9 2 02 01 00", "refused 6"), ("invoke 9 -2 30 00", "sent"), ("invoke 9 -3 02 01 04", "sent")];
    check(&synchronous.octets(), &probing, &cases);
    check(&table, &probing, &[("invoke 9 2 02 01 00", "sent")]);
}

#[test]
fn a_finished_probe_writes_kept_octets_as_they_are() {
    let mut state = State::fresh();
    [(6, &[][..]), (7, &[0xFF, 0x00]), (8, &[0x41; 512])].iter().for_each(|(id, octets)| state.kept.add(*id, octets));
    for (asked, octets) in [("06", String::new()), ("07", "ff00".to_string()), ("08", "41".repeat(512))] {
        let call = format!("@528 receive A1 10 02 04 7F FF FF FF 02 01 FE 30 05 A0 03 02 01 {asked}");
        let line = play(&table().octets(), &state, &call);
        let written = format!("out a20e02047fffffff30060201fe0a0101{octets} place 0");
        assert!(line.starts_with("answered ") && line.contains(&written), "{line}");
    }
}

#[test]
fn a_replay_awaits_each_apdu() {
    let entries = |day: &str| {
        let entries = day.split(',').map(|entry| match entry.trim().split_at(1) {
            ("<", octets) => Logged::new(0, &hex(octets)),
            (_, octets) => Logged::new(1, &hex(octets)),
        });
        days::capture(&entries.collect::<Vec<_>>())
    };
    let asked = "< A109 020105 020102 020107, > A203 020105";
    let mut table = table();
    table.operations[3].flags = 2;
    let probe = "< A10D 020109 0201FE 3005 A003 020105";
    let (result, kept) = ("A20B 020109 3006 0201FE 0A0101", "A203 020105");
    for (behind, line) in [
        (format!("{probe}, > {result}, > {kept}"), "entries 5 agree"),
        (format!("{probe}, > {result}, > {kept}, < A400"), "entries 6 agree"),
        (format!("{probe}"), "entry 3 differs"),
        (format!("{probe}, > {result}"), "entry 4 differs"),
        (format!("{probe}, > {kept}"), "entry 3 differs"),
        (format!("{probe}, > {kept}, > {result}"), "entry 3 differs"),
        (format!("{probe}, > {result} {kept}"), "entry 3 differs"),
        (format!("{probe}, > {result}, < {kept}"), "entry 4 differs"),
        (format!("{probe}, < {result}, > {kept}"), "entry 3 differs"),
        (format!("{probe}, > {result}, > {kept}, > {kept}"), "entry 5 differs"),
        (format!("{probe}, > {result}, > A203 020106"), "entry 4 differs"),
        ("< A109 020109 0201FD 020105, > A20B 020109 3006 0201FD 0A0100".to_string(), "entries 4 agree"),
        ("< A109 020109 0201FD 020105, > A20B 020109 3006 0201FD 0A0101".to_string(), "entry 3 differs"),
        ("< A109 020109 0201FD 020105".to_string(), "entry 3 differs"),
    ] {
        let day = format!("{asked}, {behind}");
        assert_eq!(verdict(&table.octets(), &entries(&day)).line(), format!("{line}\n"), "{day}");
    }
}
