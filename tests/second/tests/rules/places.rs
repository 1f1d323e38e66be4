//! The readings of "Where octets are at fault", the place of the first fault, as plain examples, and faults made at
//! known places.

use crate::common::{check, hex, model, play, state, Case};
use second::answer::Answer;
use second::coverage::{CALLS, SEEDS};
use second::fault::place;
use second::flaws::{BEHIND, KINDS};
use second::placed::is_found;
use second::state::State;
use second::values::{deep, deep_in_forms, element, sized};
use second::{cases, generate, indefinite};

/// Operation 7 of class 2 and error 1, whose values are of type 30 and optional; operation 8 of class 4 without values.
fn table() -> Vec<u8> {
    model(&[(7, 2, 0x30, 0x30, 3), (8, 4, 0, 0, 0)], &[(1, 0x30, 1)], &[(0, 0)], &[(0, 0)]).octets()
}

fn text(octets: &[u8]) -> String {
    octets.iter().map(|octet| format!("{octet:02x}")).collect()
}

/// The line of a call with own record (5, 7) and peer records (6, 7) and (4, 8) live.
fn line(call: &str) -> String {
    play(&table(), &state(&[(5, 7)], &[(6, 7), (4, 8)]), call)
}

/// Checks a call's answer, as far as the records, and the place.
fn check_line(call: &str, answer: &str, place: usize) {
    let line = line(call);
    assert!(line.starts_with(&format!("{answer} own ")), "{call}\n  wanted {answer}\n  was    {line}");
    assert!(line.contains(&format!(" place {place} rest ")), "{call}\n  wanted place {place}\n  was    {line}");
}

/// Checks octets as received ones and as a value: general 2 or 17, and 9, with the same place.
fn check_everywhere(cases: &[(&str, usize)]) {
    for (octets, place) in cases {
        let answer = if octets.starts_with("A4") { "refused 17" } else { "refused 18 80 02" };
        check_line(&format!("receive {octets}"), answer, *place);
        for request in ["invoke 9 7", "result 6", "error 6 1"] {
            check_line(&format!("{request} {octets}"), "refused 9", *place);
        }
    }
}

#[test]
fn the_first_identifier_octet() {
    check_everywhere(&[
        ("A1 05 02 01 05 02 00", 5),
        ("A1 06 9F 81 00 00 10 00", 6),
        ("A1 04 BF 1E 05 00", 2),
        ("A1 05 02 01 05 9F 80", 5),
        ("BF 81 00 02 10 00", 4),
        ("A1 82 00 05 02 01 05 01 00", 7),
        ("30 07 9F FF FF FF FF 7F 00", 2),
        ("A4 04 05 00 21 00", 4),
    ]);
}

#[test]
fn rules_of_its_own_before_its_contents() {
    check_everywhere(&[
        ("A1 05 02 00", 0),
        ("A1 85 00 00 00 00 02 02 00", 0),
        ("22 02 02 00", 0),
        ("30 04 21 02 02 00", 2),
        ("30 05 30 04 02 00 05", 2),
        ("30 04 30 84 7F FF", 2),
        ("A1 04 04 03 41 41", 2),
        ("A1 80 30 02 04 03 41 41 00 00", 4),
        ("30 02 04 01 41", 2),
        ("30 80 04 7F 10 00", 2),
        ("A2 06 30 04 04 01 41 05", 7),
    ]);
    let deep_inside = [element(0x30, &[0x02, 0x00]), deep(0x30, 16, false)].concat();
    assert_eq!(place(&element(0x30, &deep_inside), State::LEVELS), 4);
    let too_deep = (0..16).fold(element(0x30, &[0x02, 0x00]), |inside, _| element(0x30, &inside));
    assert_eq!((place(&too_deep, 16), place(&too_deep, 17), place(&too_deep, 18)), (32, 34, 34));
}

#[test]
fn elements_in_octet_order() {
    check_everywhere(&[
        ("A1 09 02 01 05 02 00 10 00 02 00", 5),
        ("A1 0A 30 02 02 00 10 00 02 01 05 00", 4),
        ("30 80 30 02 05 00 10 00 00 00 02 00", 6),
        ("30 0A 30 80 05 00 00 00 02 00 10 00", 8),
        ("30 06 30 02 10 00 21 00", 4),
        ("30 80 02 00 21 00", 2),
    ]);
}

#[test]
fn octets_that_do_not_close_are_an_element() {
    check_everywhere(&[
        ("A1 80 02 01 05 00", 5),
        ("A1 80 02 01 05 00 01", 5),
        ("A1 80 02 01 05 00 81 00 00 00", 5),
        ("A1 80 00 80 00 00 00 00", 2),
        ("30 80 30 80 00", 4),
        ("30 05 30 80 05 00 00", 6),
        ("A1 02 00 00", 2),
        ("A1 05 02 01 05 00 00", 5),
        ("A1 80 30 02 00 00 00 00", 4),
        ("A1 04 02 01 05 00", 5),
        ("00 00", 0),
        ("00", 0),
    ]);
}

#[test]
fn a_missing_close_after_the_contents_and_innermost_first() {
    check_everywhere(&[
        ("A1 80 30 80 02 01 05", 2),
        ("A1 80 30 80 02 00", 4),
        ("A1 80 30 03 02 01 05", 0),
        ("A1 07 30 80 02 01 05 05 00", 2),
        ("A1 80 30 80 02 01 05 00 00", 0),
        ("A1 80", 0),
        ("A4 80", 0),
        ("A2 80 02 01 05 30 80 02 01 07", 5),
        ("30 80 30 80 30 80", 4),
        ("30 80 30 80 30 80 00 00", 2),
        ("30 80 30 02 30 80 00 00", 4),
        ("30 06 30 80 05 00 30 80", 6),
        ("30 08 30 04 30 80 05 00 10 00", 4),
        ("BF 1F 80 BF 1F 80 05 00", 3),
        ("30 80 04 02 00 00", 0),
        ("30 80 21 80 00 00", 2),
    ]);
    let open = [0x30, 0x80].repeat(16);
    assert_eq!((place(&open, 16), place(&[&open[..], &[0x05, 0x00]].concat(), 16)), (30, 32));
}

#[test]
fn levels_count_before_contents() {
    for forms in [|_| false, |_| true] {
        let value = deep_in_forms(0x30, 17, false, forms);
        check_everywhere(&[(&text(&value), 32)]);
        assert_eq!(place(&value, 17), 0);
    }
    let sideways = element(0x30, &[deep(0x30, 15, true), deep(0x30, 16, true)].concat());
    assert_eq!(place(&sideways, 16), 2 + 30 + 30);
}

#[test]
fn octets_behind_the_outer_element_count_last() {
    for (octets, place, fault) in [
        ("A1 80 00 00 00 00", 4, false),
        ("A1 03 02 01 05 00", 5, false),
        ("30 00 30 00", 2, false),
        ("30 00 02 00", 2, false),
        ("30 80 05 00 00 00 30 80", 6, false),
        ("A4 06 02 01 05 81 01 00 41", 8, false),
        ("A1 05 02 01 05 02 00 41", 5, true),
        ("A1 02 30 80 00 00", 2, true),
        ("30 03 30 80 00 00", 4, true),
        ("22 00 05 00", 0, true),
    ] {
        let answer = if octets.starts_with("A4") { "refused 17" } else { "refused 18 80 02" };
        check_line(&format!("receive {octets}"), answer, place);
        for request in ["invoke 9 7", "result 6", "error 6 1"] {
            check_line(&format!("{request} {octets}"), if fault { "refused 9" } else { "refused 21" }, place);
        }
    }
}

#[test]
fn no_place_without_a_fault_of_the_octets() {
    for (call, answer) in [
        ("receive", "refused 18 80 02"),
        ("receive A4 00", "refused 17"),
        ("receive A4 06 02 01 05 81 01 08", "refused 17"),
        ("receive A4 80 05 00 81 01 00 00 00", "refused 17"),
        ("receive A5 00", "refused 18 80 00"),
        ("receive A1 00", "refused 18 80 01"),
        ("receive A1 03 02 01 05", "refused 18 80 01"),
        ("receive A2 03 02 01 09", "refused 18 82 00"),
        ("receive A1 06 02 01 06 02 01 07", "refused 18 81 00"),
        ("@10 receive A1 02 10 00", "refused 2"),
        ("invoke 9 3 30 80", "refused 4"),
        ("invoke 5 7 30 80", "refused 5"),
        ("linked 9 5 7 30 80", "refused 7"),
        ("linked 9 6 8 30 80", "refused 8"),
        ("result 9 30 80", "refused 11"),
        ("error 4 1 30 80", "refused 12"),
        ("error 6 2 30 80", "refused 13"),
        ("invoke 9 7 31 00", "refused 10"),
        ("@3 invoke 9 7 30 00", "refused 2"),
        ("reject 6 1", "refused 16"),
        ("reject 9 2", "refused 11"),
        ("own 9", "refused 11"),
        ("peer 6", "refused 12"),
        ("receive A2 03 02 01 05", "result 00000005 none none op 00000007"),
        ("invoke 9 7 30 00", "sent"),
        ("reject 6 2", "sent"),
        ("own 5", "forgotten"),
    ] {
        check_line(call, answer, 0);
    }
    let long = format!("receive {}", text(&[0xA1; 4097]));
    check_line(&long, "refused 3", 0);
    assert!(play(&[], &State::fresh(), "receive A1 02 10 00")
        .ends_with("refused 1 own 0000 peer 0000 out - place 0 rest 0000 kept 0000"));
    let unsound = state(&[(5, 7), (5, 7)], &[]);
    assert!(play(&table(), &unsound, "invoke 9 7 30 80").starts_with("refused 19 own 0002 "));
    assert!(play(&table(), &unsound, "invoke 9 7 30 80").ends_with(" place 0 rest 0000 kept 0000"));
}

#[test]
fn octets_behind_a_value_before_every_later_check() {
    let cases = [
        ("invoke 9 7 31 00 41", "refused 21"),
        ("result 6 02 01 05 41", "refused 21"),
        ("result 4 30 00 41", "refused 21"),
        ("error 6 1 05 00 05 00", "refused 21"),
        ("invoke 9 7 31 00", "refused 10"),
        ("@0 invoke 9 7 30 00 41", "refused 21"),
        ("linked 9 6 7 30 00 41", "refused 21"),
        ("linked 9 6 8 30 00 41", "refused 8"),
        ("result 9 30 00 41", "refused 11"),
    ];
    check(&table(), &cases.map(|(call, answer)| Case { own: &[(5, 7)], peer: &[(6, 7), (4, 8)], call, answer }));
    for request in ["invoke 9 7", "result 6", "error 6 1"] {
        for depth in 13..=17 {
            let value = text(&deep(0x30, depth, false));
            let (answer, place) = if depth > 16 { ("refused 9", 32) } else { ("refused 21", 2 * depth) };
            check_line(&format!("{request} {value} 41"), answer, place);
        }
        for octets in [4090, 4096, 4097, 6000] {
            let value = sized(octets, true);
            check_line(&format!("{request} {} 00 00", text(&value)), "refused 21", octets);
            check_line(&format!("{request} {}", text(&value[..octets - 1])), "refused 9", octets - 2);
        }
    }
    let full: Vec<(i32, i32)> = (10..42).map(|id| (id, 7)).collect();
    let play = |value: &str| play(&table(), &state(&full, &[]), &format!("invoke 9 7 {value}"));
    assert!(play("30 00").starts_with("refused 14 ") && play("30 00 41").starts_with("refused 21 "));
}

#[test]
fn places_over_4096_in_requests() {
    let front = element(0x04, &[0x41; 5000]);
    let value = element(0x30, &[&front[..], &[0x10, 0x00]].concat());
    let at = value.len() - 2;
    for request in ["invoke 9 7", "result 6", "error 6 1"] {
        check_line(&format!("{request} {}", text(&value)), "refused 9", at);
    }
    check_line(&format!("receive {}", text(&value)), "refused 3", 0);
    let received = sized(4095, false);
    check_line(&format!("receive {}", text(&[&received[..], &[0x41]].concat())), "refused 18 80 02", 4095);
}

#[test]
fn good_octets_have_no_place() {
    for (name, octets) in [cases::WELL_FORMED, indefinite::WELL_FORMED].concat() {
        assert_eq!(place(octets, State::LEVELS), 0, "{name}");
    }
    for (name, octets) in [indefinite::BEHIND, indefinite::NOT_ONE].concat() {
        assert!((2..octets.len()).contains(&place(octets, State::LEVELS)), "{name}");
    }
    assert_eq!((place(&[], 16), place(&hex("30 80 00 00"), 16), place(&hex("30 80 00 00"), 0)), (0, 0, 0));
}

#[test]
fn faults_are_found_where_they_were_made() {
    let (mut found, mut earlier) = (0, 0);
    for seed in 1..=SEEDS {
        generate::watch(seed, CALLS, &mut |seen| match (seen.flaw, seen.answer) {
            (Some(flaw), Answer::Refused(refusal)) if matches!(refusal.number(), 1 | 2 | 3 | 19) => {
                assert_eq!(refusal.place(), 0, "{flaw:?}");
                earlier += 1;
            }
            (Some(flaw), answer) => {
                assert!(is_found(&flaw, seen), "{flaw:?} {answer:?} {}", text(seen.frame.payload));
                found += 1;
            }
            _ => {}
        });
    }
    assert!(found > 50 * (KINDS.len() + BEHIND.len()) && found > 10 * earlier, "{found} and {earlier}");
}
