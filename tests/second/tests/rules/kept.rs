//! Kept answers: what enters and leaves, which states are sound, and what lines and images show.
//! docs/RULES.md, "Kept answers".

use crate::common::{hex, model, play, state};
use crate::readings::table;
use second::code::Code;
use second::drive::Drive;
use second::engine::{request_error, request_result};
use second::frame;
use second::kept::{Kept, OCTETS};
use second::line::{Line, Room};
use second::model::OperationRow;
use second::state::State;

/// What follows ` kept ` in the line of a call.
fn kept(table: &[u8], state: &State, call: &str) -> String {
    let line = play(table, state, call);
    line.split_once(" kept ").expect("each line shows what is kept").1.to_string()
}

/// Peer records of these operations, with the ids 100, 101 and so on, and answers kept to these ids.
fn answering(operations: &[i32], ids: &[i32]) -> State {
    let peers: Vec<_> = (100..).zip(operations.iter().copied()).collect();
    let mut state = state(&[], &peers);
    ids.iter().for_each(|id| state.kept.add(*id, &[0xA2]));
    state
}

#[test]
fn accepted_results_and_errors_are_kept_last() {
    let state = answering(&[1, 2, 3, 4], &[5]);
    for (call, answer) in [
        ("result 100 02 01 00", "00000064:000d:a20b0201643006020101020100"),
        ("result 101 02 01 00", "00000065:000d:a20b0201653006020102020100"),
        ("error 101 2 04 01 41", "00000065:000b:a309020165020102040141"),
        ("error 102 1", "00000066:0008:a306020166020101"),
        ("result 103", "00000067:0005:a203020167"),
        ("result 103 04 00", "00000067:000c:a20a02016730050201040400"),
    ] {
        assert_eq!(kept(&table(), &state, call), format!("0002 00000005:0001:a2 {answer}"), "{call}");
    }
    for call in [
        "reject 101 2",
        "result 102 02 01 00",
        "error 103 1",
        "error 101 3",
        "result 101 04 00",
        "@5 result 101 02 01 00",
        "result 5 02 01 00",
        "receive A5 00",
        "invoke 5 2 02 01 00",
        "peer 102",
    ] {
        assert_eq!(kept(&table(), &state, call), "0001 00000005:0001:a2", "{call}");
    }
}

#[test]
fn the_oldest_of_eight_makes_room() {
    let state = answering(&[2], &[1, 2, 3, 4, 5, 6, 7, 8]);
    let line = kept(&table(), &state, "error 100 1");
    let wanted: String = (2..=8).map(|id| format!(" {id:08x}:0001:a2")).collect();
    assert_eq!(line, format!("0008{wanted} 00000064:0008:a306020164020101"));
    let seven = answering(&[2], &[1, 2, 3, 4, 5, 6, 7]);
    assert!(kept(&table(), &seven, "error 100 1").starts_with("0008 00000001:0001:a2 "));
}

/// A state in which a result of so many octets, at least 300, was sent to id 100.
fn answered(octets: usize, ids: &[i32]) -> State {
    let table = model(&[(7, 2, 0, 0x04, 0)], &[], &[], &[]).octets();
    let mut state = answering(&[7], ids);
    // Around the value: A2 82 and its length, 02 01 64, 30 82 and its length, 02 01 07.
    let contents = vec![0x41; octets - 18];
    let value = [&[0x04, 0x82][..], &(contents.len() as u16).to_be_bytes(), &contents].concat();
    assert_eq!(request_result(&table, &mut state, 100, &value, &mut [0; 5000]), Ok(octets));
    assert!(state.is_sound() && state.peer.count == 0);
    state
}

#[test]
fn an_answer_over_512_octets_is_not_kept_and_nothing_leaves() {
    let eight = [1, 2, 3, 4, 5, 6, 7, 8];
    for octets in [511, OCTETS] {
        let state = answered(octets, &eight);
        assert_eq!(state.kept.ids(), [2, 3, 4, 5, 6, 7, 8, 100]);
        assert_eq!(state.kept.answer(7).len(), octets);
        assert_eq!(answered(octets, &[]).kept.ids(), [100]);
    }
    for octets in [OCTETS + 1, 600, 4096] {
        assert_eq!(answered(octets, &eight).kept.ids(), eight);
        assert_eq!(answered(octets, &[]).kept, Kept::none());
    }
}

#[test]
fn idempotent_operations_and_lent_records_of_probe_keep_nothing() {
    let mut model = model(&[(2, 2, 0, 0, 8), (7, 2, 0, 0, 0)], &[(1, 0, 0)], &[(0, 0), (1, 0)], &[]);
    model.names = Some(Vec::new());
    let row = |code, argument| OperationRow { code: Code::Local(code), class: 2, argument, result: 0x0A, flags: 0 };
    model.operations.splice(0..0, [row(-3, 0x02), row(-2, 0x30)]);
    model.error_pairs = vec![(0, 0), (1, 0), (2, 0), (3, 0)];
    let table = model.octets();
    let state = answering(&[-3, -2, 2, 7], &[]);
    for (call, count) in [
        ("result 100 0A 01 00", "0000"),
        ("result 101 0A 01 00", "0000"),
        ("error 101 1", "0000"),
        ("result 102", "0000"),
        ("error 102 1", "0000"),
        ("result 103", "0001 00000067:0005:a203020167"),
        ("error 103 1", "0001 00000067:0008:a306020167020101"),
    ] {
        assert!(play(&table, &state, call).starts_with("sent "), "{call}");
        assert_eq!(kept(&table, &state, call), count, "{call}");
    }
}

#[test]
fn another_accepted_invoke_with_a_kept_id_drops_the_answer() {
    let state = {
        let mut state = state(&[(9, 2)], &[(5, 2)]);
        [6, 7, 8].iter().for_each(|id| state.kept.add(*id, &[0xA2, 0x03, 0x02, 0x01, *id as u8]));
        state
    };
    let all = "0003 00000006:0005:a203020106 00000007:0005:a203020107 00000008:0005:a203020108";
    let without_7 = "0002 00000006:0005:a203020106 00000008:0005:a203020108";
    for (call, wanted) in [
        ("receive A1 09 02 01 07 02 01 01 02 01 00", without_7),
        ("receive A1 09 02 01 07 02 01 02 02 01 00", without_7),
        ("receive A1 09 02 01 07 02 01 05 02 01 00", without_7),
        ("receive A1 09 02 01 07 80 01 09 02 01 06", without_7),
        ("receive A1 06 02 01 07 02 01 63", all),
        ("receive A1 06 02 01 07 02 01 02", all),
        ("receive A1 09 02 01 07 80 01 06 02 01 06", all),
        ("receive A1 06 02 01 05 02 01 06", all),
        ("receive A2 03 02 01 07", all),
        ("receive A4 06 02 01 07 81 01 00", all),
        ("invoke 7 2 02 01 00", all),
        ("own 9", all),
    ] {
        assert_eq!(kept(&table(), &state, call), wanted, "{call}");
    }
}

/// A state with peer record 5 and these kept ids, lengths and first octets.
fn with(count: u16, places: &[(i32, u16, &str)]) -> State {
    let mut state = state(&[(4, 2)], &[(5, 2)]);
    state.kept.count = count;
    for (at, (id, length, octets)) in places.iter().enumerate() {
        (state.kept.ids[at], state.kept.lengths[at]) = (*id, *length);
        let octets = hex(octets);
        state.kept.store[at][..octets.len()].copy_from_slice(&octets);
    }
    state
}

/// States with octets at the ends of the store, and whether they are sound.
fn ends_of_the_store() -> [(State, bool); 3] {
    let (mut behind, mut full) = (with(1, &[(7, 1, "A2")]), with(1, &[(7, 512, "")]));
    behind.kept.store[7][511] = 1;
    full.kept.store[0].fill(1);
    let mut last_octet = with(1, &[(7, 511, "")]);
    last_octet.kept.store[0][511] = 1;
    [(behind, false), (full, true), (last_octet, false)]
}

#[test]
fn which_states_are_sound() {
    let eight: Vec<(i32, u16, &str)> = (64..72).map(|id| (id * 64, 1, "A2")).collect();
    let mut last = eight.clone();
    last[7].0 = last[0].0;
    let cases = [
        (with(0, &[]), true),
        (with(1, &[(0, 0, "")]), true),
        (with(1, &[(7, 0, "")]), true),
        (with(1, &[(7, 3, "FFFFFF")]), true),
        (with(2, &[(7, 1, "A2"), (71, 1, "A2")]), true),
        (with(1, &[(4, 1, "A2")]), true),
        (with(1, &[(69, 1, "A2")]), true),
        (with(8, &eight), true),
        (with(8, &last), false),
        (with(9, &eight), false),
        (with(0x0100, &[]), false),
        (with(2, &[(7, 1, "A2"), (7, 1, "A2")]), false),
        (with(2, &[(0, 0, ""), (0, 0, "")]), false),
        (with(1, &[(5, 1, "A2")]), false),
        (with(1, &[(7, 513, "")]), false),
        (with(1, &[(7, u16::MAX, "")]), false),
        (with(1, &[(7, 1, "A201")]), false),
        (with(1, &[(7, 0, "01")]), false),
        (with(0, &[(7, 0, "")]), false),
        (with(0, &[(0, 1, "")]), false),
        (with(0, &[(0, 0, "01")]), false),
        (with(1, &[(7, 1, "A2"), (0, 0, "01")]), false),
    ];
    for (state, sound) in cases.iter().chain(&ends_of_the_store()) {
        assert_eq!(state.is_sound(), *sound, "{:?}", (state.kept.count, state.kept.ids, state.kept.lengths));
        assert_eq!(frame::read_image(&frame::image(state)).as_ref(), Some(state));
        let answer = if *sound { "refused 11 " } else { "refused 19 " };
        assert!(play(&table(), state, "own 99").starts_with(answer));
    }
}

#[test]
fn lines_show_each_place_up_to_the_last_that_is_not_all_0() {
    let shown = |count: u16, places: &[(i32, u16, &str)]| kept(&table(), &with(count, places), "own 99");
    assert_eq!(shown(0, &[]), "0000");
    assert_eq!(shown(1, &[(0, 0, "")]), "0001 00000000:0000:-");
    assert_eq!(shown(1, &[(7, 3, "")]), "0001 00000007:0003:000000");
    assert_eq!(shown(1, &[(7, 1, "0102")]), "0001 00000007:0001:0102");
    assert_eq!(shown(0, &[(0, 0, ""), (0, 0, "0001")]), "0000 00000000:0000:- 00000000:0000:0001");
    assert_eq!(shown(9, &[]), format!("0009{}", " 00000000:0000:-".repeat(8)));
    assert_eq!(shown(1, &[(7, 0x0201, "")]), format!("0001 00000007:0201:{}", "00".repeat(512)));
    for (end, right) in [
        ("0000", true),
        ("0001 00000000:0000:-", true),
        ("0001 00000007:0001:0102", true),
        ("", false),
        ("0", false),
        ("0001", false),
        ("0000 00000000:0000:-", false),
        ("0001 00000007:0001", false),
        ("0001 00000007:0001:", false),
        ("0001 00000007:0002:01", false),
        ("0001 00000007:0001:0100", false),
        ("0001 7:0001:01", false),
        ("0000 value none", false),
    ] {
        let (line, mut room) = (format!("sent own 0000 peer 0000 out - place 0 rest 0000 kept {end}"), Room::default());
        assert_eq!(Line::read(&line, &mut room).is_some(), right, "{line}");
    }
}

#[test]
fn repeated_calls_start_from_the_same_kept_answers() {
    let state = answering(&[2, 2], &[1, 2, 3, 4, 5, 6, 7, 8]);
    let line = |drive: Drive| {
        let (mut drive, mut line) = (drive, Vec::new());
        let frame = frame::Frame { kind: frame::ERROR, id: 100, code: 1, lent: 64, ..Default::default() };
        assert!(drive.play(&frame, &mut line));
        (line, drive.state)
    };
    let [once, often] = [1, 5].map(|times| line(Drive::new(table(), state.clone()).repeating(times)));
    assert_eq!(once, often);
    let mut kept = Kept::none();
    assert_eq!((kept.find(0), kept.shown()), (None, 0));
    kept.drop_id(0);
    assert_eq!(kept, Kept::none());
}

#[test]
fn errors_are_kept_as_results_are() {
    let (table, mut state) = (table(), answering(&[2], &[]));
    let mut output = [0; 64];
    let asked = (100, second::code::Asked::Local(2));
    assert_eq!(request_error(&table, &mut state, asked, &[0x04, 0x00], &mut output), Ok(10));
    assert_eq!((state.kept.ids(), state.kept.answer(0)), (&[100][..], &output[..10]));
}
