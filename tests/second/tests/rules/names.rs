//! The readings of "Names", codes that are names, as plain examples.

use crate::common::{hex, lines, play, T};
use second::code::{self, Code, Name};
use second::days::{self, Logged};
use second::frame::{self, Frame};
use second::generate;
use second::model::{extends, ErrorRow, Model, OperationRow};
use second::replay;
use second::state::State;
use second::table::Table;

const LONG: &str = "2B06010401868D1F0102030405060708";

fn name(contents: &str) -> Name {
    code::name(&hex(contents)).unwrap()
}

fn named(contents: &str) -> Code {
    Code::Name(name(contents))
}

/// Operations 2, 2A, 2A 00 and one of 16 octets, all of class 2 with optional values of type 04, 2A 00 idempotent; errors
/// 1, 2A 00 and 2B 06 02; nothing has the name 05.
fn model() -> Model {
    let row = |code, flags| OperationRow { code, class: 2, argument: 0x04, result: 0x04, flags };
    let error = |code| ErrorRow { code, parameter: 0x04, optional: 1 };
    Model {
        operations: vec![row(Code::Local(2), 3), row(named("2A"), 3), row(named("2A00"), 11), row(named(LONG), 3)],
        errors: vec![error(Code::Local(1)), error(named("2A00")), error(named("2B0602"))],
        error_pairs: vec![(0, 0), (1, 1), (1, 2), (2, 0), (3, 2)],
        child_pairs: vec![(1, 2)],
        names: Some(vec![name("2A"), name("2A00"), name("05"), name("2B0602"), name(LONG)]),
    }
}

fn state(own: &[(i32, Code)], peer: &[(i32, Code)]) -> State {
    let mut state = State::fresh();
    own.iter().for_each(|&(id, code)| state.own.add(id, code));
    peer.iter().for_each(|&(id, code)| state.peer.add(id, code));
    state
}

/// Checks calls with own records (5, 2A), (6, 2) and peer record (7, 2A 00) live.
fn check(cases: &[(&str, &str)]) {
    let state = state(&[(5, named("2A")), (6, Code::Local(2))], &[(7, named("2A00")), (8, Code::Local(2))]);
    for (call, answer) in cases {
        let line = play(&model().octets(), &state, call);
        assert!(line.starts_with(&format!("{answer} ")), "{call}\n  wanted {answer}\n  was    {line}");
    }
}

#[test]
fn a_table_of_edition_2() {
    let octets = model().octets();
    let expected = "FFFF 0002 0004 0018 0003 0038 0005 004A 0001 005E 0005 0062
        00000002 02040403 00000000 02040407 00000001 0204040F 00000004 02040407
        00000001 0401 00000001 0403 00000003 0403
        0000 0000 0001 0001 0001 0002 0002 0000 0003 0002 0001 0002
        01 2A000000000000000000000000000000 02 2A000000000000000000000000000000 01 05000000000000000000000000000000
        03 2B060200000000000000000000000000 10 2B06010401868D1F0102030405060708";
    assert_eq!(octets, hex(expected));
    let table = Table::new(&octets).unwrap();
    assert_eq!(table.operations().map(|row| row.idempotent).collect::<Vec<_>>(), [false, false, true, false]);
    assert!(table.has_operation(&named("2A")) && !table.has_operation(&named("05")));
    let empty = "FFFF 0002 0000 0018 0000 0018 0000 0018 0000 0018 0000 0018";
    assert!(Table::new(&hex(empty)).is_some());
    for other in ["FFFF 0003", "FFFF 0001", "FFFF 0200", "FFFE 0002", "0000 0002"] {
        assert!(Table::new(&hex(&empty.replace("FFFF 0002", other))).is_none(), "{other}");
    }
    for length in 0..24 {
        assert!(Table::new(&hex(empty)[..length]).is_none(), "{length}");
    }
}

#[test]
fn a_06_equals_its_name_in_any_length_form() {
    let two_a = "n012a000000000000000000000000000000";
    let two_a_00 = "n022a000000000000000000000000000000";
    check(&[
        ("receive A1 06 02 01 09 06 01 2A", &format!("invoke 00000009 none {two_a} none")),
        ("receive A1 07 02 01 09 06 02 2A 00", &format!("invoke 00000009 none {two_a_00} none")),
        ("receive A1 07 02 01 09 06 81 01 2A", &format!("invoke 00000009 none {two_a} none")),
        ("receive A1 0A 02 01 09 06 84 00 00 00 01 2A", &format!("invoke 00000009 none {two_a} none")),
        ("receive A1 0A 02 01 09 80 01 05 06 02 2A 00", &format!("invoke 00000009 00000005 {two_a_00} none")),
        ("receive A1 09 02 01 09 80 01 05 06 01 2A", "refused 18 81 07"),
        ("receive A1 09 02 01 09 80 01 06 06 01 2A", "refused 18 81 06"),
        ("receive A1 08 02 01 09 06 03 2A 00 00", "refused 18 81 01"),
        ("receive A1 06 02 01 09 06 01 05", "refused 18 81 01"),
        ("receive A1 08 02 01 09 06 03 2B 06 02", "refused 18 81 01"),
        ("receive A1 06 02 01 09 06 01 02", "refused 18 81 01"),
        ("receive A1 06 02 01 09 02 01 2A", "refused 18 81 01"),
        ("receive A1 06 02 01 09 02 01 00", "refused 18 81 01"),
        ("receive A1 16 02 01 09 06 11 2B06010401868D1F0102030405060708 00", "refused 18 81 01"),
        ("receive A1 15 02 01 09 06 10 2B06010401868D1F0102030405060708", "invoke"),
        ("receive A1 07 02 01 09 06 02 2A 80", "refused 18 80 02"),
    ]);
}

#[test]
fn results_and_errors_with_names() {
    let op = "op n012a000000000000000000000000000000";
    check(&[
        ("receive A2 0A 02 01 05 30 05 06 01 2A 04 00", &format!("result 00000005 {} 0400 {op}", &op[3..])),
        ("receive A2 0B 02 01 05 30 06 06 81 01 2A 04 00", &format!("result 00000005 {} 0400 {op}", &op[3..])),
        ("receive A2 03 02 01 05", &format!("result 00000005 none none {op}")),
        ("receive A2 0B 02 01 05 30 06 06 02 2A 00 04 00", "refused 18 82 00"),
        ("receive A2 0A 02 01 05 30 05 02 01 2A 04 00", "refused 18 82 00"),
        ("receive A2 0A 02 01 05 30 05 06 01 05 04 00", "refused 18 82 00"),
        ("receive A2 0A 02 01 06 30 05 06 01 02 04 00", "refused 18 82 00"),
        ("receive A2 0A 02 01 06 30 05 02 01 02 04 00", "result 00000006 00000002 0400 op 00000002"),
        ("receive A3 07 02 01 05 06 02 2A 00", &format!("error 00000005 n022a{} none {op}", "00".repeat(15))),
        ("receive A3 08 02 01 05 06 03 2B 06 02", &format!("error 00000005 n032b0602{} none {op}", "00".repeat(13))),
        ("receive A3 06 02 01 05 06 01 2A", "refused 18 83 02"),
        ("receive A3 06 02 01 05 06 01 05", "refused 18 83 02"),
        ("receive A3 06 02 01 05 02 01 01", "refused 18 83 03"),
        ("receive A3 08 02 01 06 06 03 2B 06 02", "refused 18 83 03"),
    ]);
}

#[test]
fn requests_with_names() {
    check(&[
        ("invoke 9 n2A 0400", "sent"),
        ("invoke 9 n2A00", "sent"),
        ("invoke 9 n05", "refused 4"),
        ("invoke 9 n2B0602", "refused 4"),
        ("invoke 9 n2A0000", "refused 4"),
        ("invoke 9 n", "refused 4"),
        ("invoke 9 n80", "refused 4"),
        (&format!("invoke 9 n{LONG}00"), "refused 4"),
        (&format!("invoke 9 n{LONG}"), "sent"),
        ("invoke 9 42", "refused 4"),
        ("linked 9 7 n2A00", "refused 8"),
        ("error 7 1 0400", "sent"),
        ("error 7 n2A00", "refused 13"),
        ("error 7 n2A", "refused 13"),
        ("error 7 n", "refused 13"),
        (&format!("error 7 n{LONG}00"), "refused 13"),
        ("result 7 0400", "sent"),
        ("peer 7", "refused 12"),
        ("own 5", "forgotten"),
        ("reject 7 2", "sent"),
    ]);
    let written = |call: &str| {
        let line = play(&model().octets(), &state(&[], &[(7, named("2A00"))]), call);
        line.split(" out ").nth(1).unwrap().split(' ').next().unwrap().to_string()
    };
    assert_eq!(written("invoke 9 n2A 0400"), "a10802010906012a0400");
    assert_eq!(written("result 7 0400"), "a20b020107300606022a000400");
    assert_eq!(written("result 7"), "a203020107");
    assert_eq!(written("error 7 1"), "a306020107020101");
}

#[test]
fn sizes_grow_with_names() {
    let name = LONG;
    for (octets, answer) in [(4096, "sent"), (4097, "refused 15")] {
        // Behind the APDU's header, the id and the name the value has a header of four octets.
        let contents = octets - 4 - 3 - 18 - 4;
        let value = format!("0482{contents:04X}{}", "41".repeat(contents));
        check(&[(&format!("invoke 9 n{name} {value}"), answer)]);
    }
    check(&[
        (&format!("@22 invoke 9 n{name}"), "refused 2"),
        (&format!("@23 invoke 9 n{name}"), "sent"),
        ("@12 result 7 0400", "refused 2"),
        ("@13 result 7 0400", "sent"),
    ]);
}

#[test]
fn records_hold_names() {
    let table = model().octets();
    let told = |code: Code, table: &[u8]| {
        play(table, &state(&[(5, code)], &[]), "own 6").split(" own").next().unwrap().to_string()
    };
    assert_eq!(told(named("2A"), &table), "refused 11");
    for lacked in ["05", "2B0602", "2A0000", "7F"] {
        assert_eq!(told(named(lacked), &table), "refused 1", "{lacked}");
    }
    assert_eq!(told(named("2A"), &hex(T)), "refused 1");
    let wrong = |name: &str| told(Code::Name(hex(name).try_into().unwrap()), &table);
    for unsound in [
        "11 2A000000000000000000000000000000",
        "FF 2A000000000000000000000000000000",
        "01 2A010000000000000000000000000000",
        "01 2A000000000000000000000000000001",
        "01 80000000000000000000000000000000",
        "02 2A800000000000000000000000000000",
        "02 80010000000000000000000000000000",
        "03 2A800100000000000000000000000000",
        "10 FF818181818181818181818181818181",
    ] {
        assert_eq!(wrong(unsound), "refused 19", "{unsound}");
    }
    assert_eq!(wrong("03 818001 00000000000000000000000000"), "refused 1");
    let mut behind = State::fresh();
    behind.peer.places[31].code = named("2A");
    assert!(play(&table, &behind, "own 6").starts_with("refused 19"));
}

#[test]
fn images_of_every_sort() {
    let state = state(&[(5, named("2A")), (6, Code::Local(2))], &[]);
    let image = frame::image(&state);
    assert_eq!((image.len(), frame::local_image(&state)), (5752, None));
    assert_eq!(frame::named_image(&state), Some(image[..1348].to_vec()));
    assert_eq!(frame::resting_image(&state), Some(image[..1606].to_vec()));
    for image in [&image[..], &image[..1606], &image[..1348]] {
        assert_eq!(frame::read_image(image), Some(state.clone()));
    }
    let local = self::state(&[(6, Code::Local(-2))], &[(7, Code::Local(2))]);
    let short = frame::local_image(&local).unwrap();
    assert_eq!((short.len(), frame::read_image(&short)), (516, frame::read_image(&frame::image(&local))));
    for length in [0, 515, 517, 1347, 1349, 1605, 1607, 5751, 5753, 5754] {
        assert_eq!(frame::read_image(&vec![0; length]), None, "{length}");
    }
    let mut script = Vec::new();
    let table = model().octets();
    for (kind, payload) in [(frame::TABLE, &table[..]), (frame::STATE, &image), (frame::FORGET, &[])] {
        Frame { kind, payload, id: 6, ..Frame::default() }.append(&mut script);
    }
    let zeros = "00".repeat(15);
    let records = format!("own 0001 00000005:n012a{zeros} peer 0000");
    assert_eq!(lines(&script, false), format!("forgotten {records} out - place 0 rest 0001 00000006 kept 0000\n"));
}

#[test]
fn extension_reads_names_and_leaves_out_idempotent() {
    let [o, mut n] = [model(), model()];
    n.names = Some(vec![name(LONG), name("2B0602"), name("7F"), name("2A00"), name("2A")]);
    let order = [(0, 0), (3, 0), (2, 11), (1, 3)];
    n.operations = order.map(|(at, flags)| OperationRow { flags, ..o.operations[at] }).to_vec();
    n.operations[0].flags = 3;
    n.operations[1].flags = 11;
    n.errors = [0, 2, 1].map(|at| o.errors[at]).to_vec();
    n.error_pairs = vec![(0, 0), (1, 1), (2, 0), (3, 1), (3, 2)];
    n.child_pairs = vec![(3, 2)];
    let octets = [o.octets(), n.octets()];
    let [old, new] = [&octets[0], &octets[1]].map(|octets| Table::new(octets).unwrap());
    assert!(extends(&new, &old) && extends(&old, &new));
    n.operations[3].flags = 2;
    assert!(!extends(&Table::new(&n.octets()).unwrap(), &old));
    let local =
        |flags, names| Model { operations: vec![OperationRow { flags, ..o.operations[0] }], names, ..Model::default() };
    let pair = [local(3, None).octets(), local(11, Some(vec![name("2A")])).octets()];
    let [first, second] = [&pair[0], &pair[1]].map(|octets| Table::new(octets).unwrap());
    assert!(extends(&second, &first) && extends(&first, &second) && extends(&old, &first) && !extends(&first, &old));
}

#[test]
fn captures_with_names() {
    let replayed = |entries: &[(u8, &str)]| {
        let entries: Vec<Logged> = entries.iter().map(|(kind, octets)| Logged::new(*kind, &hex(octets))).collect();
        replay::verdict(&model().octets(), &days::capture(&entries)).line()
    };
    let sent = (1, "A106020109 06012A");
    assert_eq!(replayed(&[sent, (0, "A20A020109300506012A0400")]), "entries 2 agree\n");
    assert_eq!(replayed(&[sent, (0, "A20A020109300506020500")]), "entry 2 differs\n");
    assert_eq!(replayed(&[(1, "A10702010906 81012A")]), "entry 0 differs\n");
    assert_eq!(replayed(&[(1, "A106020109 060105")]), "entry 0 differs\n");
    assert_eq!(replayed(&[(1, &format!("A1160201090611{LONG}00"))]), "entry 0 differs\n");
}

/// The table of edition 2 with the same rows as one of edition 1.
fn of_edition_2(table: &[u8]) -> Vec<u8> {
    let mut octets = vec![0xFF, 0xFF, 0, 2];
    for pair in table[..16].chunks(4) {
        let offset = u16::from_be_bytes([pair[2], pair[3]]) + 8;
        octets.extend([pair[0], pair[1], offset.to_be_bytes()[0], offset.to_be_bytes()[1]]);
    }
    octets.extend([0, 0]);
    octets.extend((table.len() as u16 + 8).to_be_bytes());
    octets.extend(&table[16..]);
    octets
}

#[test]
fn edition_2_without_names_answers_as_edition_1() {
    let (script, mut again, mut changed) = (generate::script(9, 2000), Vec::new(), 0);
    let mut rest = &script[..];
    while let Some((frame, more)) = Frame::split(rest) {
        let valid = frame.kind == frame::TABLE && Table::new(frame.payload).is_some();
        match valid && !frame.payload.starts_with(&[0xFF]) {
            true => {
                Frame { payload: &of_edition_2(frame.payload), ..frame }.append(&mut again);
                changed += 1;
            }
            false => frame.append(&mut again),
        }
        rest = more;
    }
    again.extend(rest);
    assert!(changed > 100, "{changed}");
    assert_eq!(lines(&script, true), lines(&again, true));
}
