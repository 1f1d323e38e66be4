//! The readings of the open points of the rules, one case each where a case can show them.

use crate::common::{check, hex, model, play, state, Case};
use second::code::Code;
use second::frame;
use second::state::{Record, State};

/// Operations 1 to 5 have their number as class, 6 is a class 5 child, 7 has an optional argument and result of 30,
/// 8 has no children; errors 1 (no parameter) and 2 (optional 04) are listed for 1 to 3, error 3 for none.
pub fn table() -> Vec<u8> {
    let operations = [
        (1, 1, 0x02, 0x02, 0),
        (2, 2, 0x02, 0x02, 0),
        (3, 3, 0x02, 0, 0),
        (4, 4, 0x02, 0x04, 2),
        (5, 5, 0x02, 0, 0),
        (6, 5, 0, 0, 0),
        (7, 2, 0x30, 0x30, 3),
        (8, 2, 0, 0, 0),
    ];
    let errors = [(1, 0, 0), (2, 0x04, 1), (3, 0x04, 0)];
    let error_pairs = [(0, 0), (0, 1), (1, 0), (1, 1), (2, 0), (2, 1), (6, 1)];
    model(&operations, &errors, &error_pairs, &[(1, 1), (1, 5), (3, 6)]).octets()
}

type Short<'a> = (&'a [(i32, i32)], &'a [(i32, i32)], &'a str, &'a str);

pub fn check_short(cases: &[Short]) {
    let cases: Vec<Case> = cases.iter().map(|&(own, peer, call, answer)| Case { own, peer, call, answer }).collect();
    check(&table(), &cases);
}

#[test]
fn receive_looks_at_table_state_and_lengths_first() {
    check_short(&[
        (&[], &[], "@10 receive A1 06 02 01 05 02 01 06", "refused 2"),
        (&[], &[], "@11 receive A1 06 02 01 05 02 01 06", "invoke"),
        (&[], &[], "@10 receive A4 00", "refused 2"),
        (&[], &[], "@10 receive A5 00", "refused 2"),
        (&[(5, 99)], &[], "@0 receive A5 00", "refused 1"),
        (&[], &[(5, 99)], "own 5", "refused 1"),
        (&[(5, 5)], &[], "own 5", "forgotten"),
    ]);
    let long = format!("@0 receive A4 {}", "00".repeat(4096));
    assert!(play(&table(), &State::fresh(), &long).starts_with("refused 3 "));
}

#[test]
fn unreadable_octets_are_judged_in_order() {
    check_short(&[
        (&[], &[], "receive A4 80", "refused 17"),
        (&[], &[], "receive A5 80", "refused 18 80 02 own 0000 peer 0000 out a4050500800102"),
        (&[], &[], "receive A1 03 02 81 05", "refused 18 80 02"),
        (&[], &[], "receive A1 07 02 81 01 05 04 01 07", "refused 18 80 01 own 0000 peer 0000 out a406020105800101"),
        (&[], &[], "receive A1 05 05 00 02 01 06", "refused 18 80 01 own 0000 peer 0000 out a4050500800101"),
    ]);
}

#[test]
fn fields_may_use_any_length_form() {
    check_short(&[
        (&[], &[], "receive A1 08 02 81 01 05 02 82 00 01 06", "refused 18 80 02"),
        (&[], &[], "receive A1 09 02 81 01 05 02 82 00 01 06", "invoke 00000005 none 00000006 none"),
        (&[], &[], "receive A1 0A 02 01 05 81 82 00 00 02 01 06", "invoke 00000005 none 00000006 none"),
        (&[], &[], "receive A4 08 05 82 00 00 80 81 01 02", "reject-p none 80 02"),
    ]);
}

#[test]
fn what_stands_after_the_code_is_the_value() {
    check_short(&[
        (&[], &[], "receive A1 08 02 01 05 02 01 06 80 00", "refused 18 81 02"),
        (&[], &[], "receive A1 09 02 01 05 02 01 02 02 01 06", "invoke 00000005 none 00000002 020106"),
        (&[], &[], "receive A1 08 02 01 05 02 01 07 30 00", "invoke 00000005 none 00000007 3000"),
        (&[], &[], "receive A1 09 02 01 05 02 01 02 06 01 06", "refused 18 81 02"),
    ]);
}

#[test]
fn foreign_codes_equal_no_code() {
    check_short(&[
        (&[], &[], "receive A1 06 02 01 05 06 01 06", "refused 18 81 01"),
        (&[], &[], "receive A1 0A 02 01 05 02 05 01 00 00 00 06", "refused 18 81 01"),
        (&[], &[(5, 2)], "receive A1 06 02 01 05 06 01 06", "refused 18 81 00"),
        (&[], &[], "receive A1 09 02 01 05 80 01 09 06 01 06", "refused 18 81 05"),
        (&[(9, 8)], &[], "receive A1 09 02 01 05 80 01 09 06 01 06", "refused 18 81 06"),
        (&[(9, 2)], &[], "receive A1 09 02 01 05 80 01 09 06 01 06", "refused 18 81 01"),
        (&[(5, 2)], &[], "receive A3 06 02 01 05 06 01 01", "refused 18 83 02"),
        (&[], &[], "receive A3 06 02 01 05 06 01 01", "refused 18 83 00"),
        (&[(5, 4)], &[], "receive A3 06 02 01 05 06 01 01", "refused 18 83 01"),
        (&[(5, 2)], &[], "receive A2 0B 02 01 05 30 06 06 01 02 02 01 00", "refused 18 82 00"),
        (&[(5, 3)], &[], "receive A2 0B 02 01 05 30 06 06 01 02 02 01 00", "refused 18 82 01"),
    ]);
}

#[test]
fn results_absent_results_and_errors_stay_three_things() {
    check_short(&[
        (&[(5, 4)], &[], "receive A2 03 02 01 05", "result 00000005 none none op 00000004 own 0000"),
        (&[(5, 4)], &[], "receive A2 0A 02 01 05 30 05 02 01 04 04 00", "result 00000005 00000004 0400 op 00000004"),
        (&[(5, 4)], &[], "receive A2 0A 02 01 05 30 05 02 01 02 04 00", "refused 18 82 00"),
        (&[(5, 2)], &[], "receive A2 03 02 01 05", "refused 18 82 02"),
        (&[(5, 2)], &[], "receive A3 06 02 01 05 02 01 02", "error 00000005 00000002 none op 00000002"),
        (&[(5, 2)], &[], "receive A3 08 02 01 05 02 01 02 04 00", "error 00000005 00000002 0400 op 00000002"),
        (&[(5, 2)], &[], "receive A3 08 02 01 05 02 01 03 04 00", "refused 18 83 03"),
        (&[(5, 2)], &[], "receive A3 06 02 01 05 02 01 04", "refused 18 83 02"),
        (&[(5, 2)], &[], "receive A3 08 02 01 05 02 01 01 04 00", "refused 18 83 04"),
        (&[(5, 8)], &[], "receive A2 03 02 01 05", "result 00000005 none none op 00000008"),
    ]);
}

#[test]
fn linked_invokes_are_judged_by_the_own_parent() {
    check_short(&[
        (&[(9, 8)], &[], "receive A1 09 02 01 05 80 01 09 02 01 06", "refused 18 81 06"),
        (&[(9, 4)], &[], "receive A1 09 02 01 05 80 01 09 02 01 06", "refused 18 81 07"),
        (&[(9, 4)], &[], "receive A1 09 02 01 05 80 01 09 02 01 02", "refused 18 81 02"),
        (&[(9, 2)], &[], "receive A1 09 02 01 05 80 01 09 02 01 06", "invoke 00000005 00000009 00000006 none"),
        (&[], &[(9, 2)], "receive A1 09 02 01 05 80 01 09 02 01 06", "refused 18 81 05"),
        (&[], &[(9, 2)], "linked 5 9 6", "sent own 0000 peer 0001 00000009:00000002 out a109020105800109020106"),
        (&[(9, 2)], &[], "linked 5 9 6", "refused 7"),
        (&[], &[(9, 8)], "linked 5 9 6", "refused 8"),
        (&[], &[(9, 2)], "linked 5 9 2 02 01 00", "sent"),
    ]);
}

#[test]
fn only_invoke_problems_retire() {
    let after = |kind: &str, number: u8| {
        let call = format!("receive A4 06 02 01 05 {kind} 01 {number:02x}");
        play(&table(), &state(&[(4, 2), (5, 2), (6, 2)], &[(5, 2)]), &call)
    };
    let gap =
        "own 0002 00000004:00000002 00000006:00000002 peer 0001 00000005:00000002 out - place 0 rest 0000 kept 0000";
    let three = "own 0003 00000004:00000002 00000005:00000002 00000006:00000002";
    let all = format!("{three} peer 0001 00000005:00000002 out - place 0 rest 0000 kept 0000");
    for number in 0..8 {
        assert_eq!(after("81", number), format!("reject-u 00000005 81 {number:02x} {gap}"));
    }
    for (kind, numbers) in [("82", 0..3), ("83", 0..5)] {
        for number in numbers {
            assert_eq!(after(kind, number), format!("reject-u 00000005 {kind} {number:02x} {all}"));
        }
    }
    for number in 0..3 {
        assert_eq!(after("80", number), format!("reject-p 00000005 80 {number:02x} {all}"));
    }
    let line = play(&table(), &State::fresh(), "receive A4 06 02 01 05 81 01 01");
    assert_eq!(line, "reject-u 00000005 81 01 own 0000 peer 0000 out - place 0 rest 0000 kept 0000");
}

#[test]
fn requests_are_judged_in_order() {
    check_short(&[
        (&[(9, 1)], &[], "linked 5 1 6", "refused 6"),
        (&[(9, 1)], &[], "invoke 9 6", "refused 5"),
        (&[(9, 1)], &[], "invoke 9 99", "refused 4"),
        (&[], &[], "invoke 5 2", "refused 10"),
        (&[], &[], "invoke 5 7 04 00", "refused 10"),
        (&[], &[], "invoke 5 7 04 01", "refused 9"),
        (&[], &[], "@4 invoke 5 7", "refused 2"),
        (&[], &[], "@8 invoke 5 7", "sent"),
        (&[], &[], "invoke 5 8 BF 1F 00", "refused 10"),
        (&[], &[(5, 4)], "result 5 04 00", "sent own 0000 peer 0000 out a20a02010530050201040400"),
        (&[], &[(5, 4)], "result 5", "sent own 0000 peer 0000 out a203020105"),
        (&[], &[(5, 3)], "result 5", "refused 12"),
        (&[], &[(5, 5)], "result 5", "refused 12"),
        (&[], &[(5, 4)], "error 5 1", "refused 12"),
        (&[], &[(5, 2)], "error 5 3", "refused 13"),
        (&[], &[(5, 2)], "error 5 99 04 01", "refused 13"),
        (&[], &[(5, 2)], "error 5 1", "sent own 0000 peer 0000 out a306020105020101"),
        (&[(5, 2)], &[], "error 5 1", "refused 11"),
        (&[], &[(5, 5)], "reject 5 4", "sent own 0000 peer 0000 out a406020105810104"),
        (&[], &[], "reject 5 5", "refused 16"),
        (&[], &[], "reject 5 1", "refused 16"),
        (&[], &[], "reject 5 2", "refused 11"),
        (&[(5, 1)], &[(5, 1)], "own 5", "forgotten own 0000 peer 0001"),
        (&[], &[(5, 1)], "peer 5", "refused 12"),
        (&[], &[(5, 2)], "peer 5", "refused 12"),
        (&[(5, 3)], &[(5, 3)], "peer 5", "forgotten own 0001 00000005:00000003 peer 0000"),
        (&[], &[(5, 5)], "peer 5", "forgotten"),
    ]);
}

#[test]
fn soundness() {
    let mut zero = State::fresh();
    zero.own.add(0, Code::Local(0));
    let mut twice = state(&[(5, 2), (6, 2), (5, 3)], &[]);
    let mut rubbish = State::fresh();
    rubbish.peer.places[31] = Record { id: 0, code: Code::Local(1) };
    let mut over = State::fresh();
    over.own.count = 33;
    let cases = [
        (State::fresh(), true),
        (zero, true),
        (state(&[(5, 2)], &[(5, 2)]), true),
        (twice.clone(), false),
        (rubbish, false),
        (over, false),
    ];
    for (state, sound) in &cases {
        assert_eq!(state.is_sound(), *sound, "{state:?}");
        assert_eq!(frame::read_image(&frame::image(state)).as_ref(), Some(state));
    }
    twice.own.retire(0);
    assert_eq!(twice, state(&[(6, 2), (5, 3)], &[]));
    let line = play(&[], &cases[4].0, "@0 own 1");
    assert!(line.starts_with("refused 19 own 0000 peer 0000 00000000:00000000 "), "{line}");
    let retired = play(&hex("0000 0010 0000 0010 0000 0010 0000 0010"), &State::fresh(), "own 1");
    assert_eq!(retired, "refused 11 own 0000 peer 0000 out - place 0 rest 0000 kept 0000");
}
