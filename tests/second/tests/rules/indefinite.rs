//! The readings of "Indefinite lengths" as plain examples.

use crate::common::{check, hex, lines, model, play, state, Case, T};
use second::days::{self, Logged};
use second::frame::{self, Frame};
use second::octets::{header, levels, split, Length};
use second::replay;
use second::state::State;
use second::values::{deep_in_forms, sized};

/// Operation 7 and error 1, whose values are of type 30 and optional; 7 is a child of itself.
fn table() -> Vec<u8> {
    model(&[(7, 2, 0x30, 0x30, 3)], &[(1, 0x30, 1)], &[(0, 0)], &[(0, 0)]).octets()
}

fn text(octets: &[u8]) -> String {
    octets.iter().map(|octet| format!("{octet:02x}")).collect()
}

/// Checks how many levels each element has, none if it is not well-formed.
fn check_levels(cases: &[(&str, Option<usize>)]) {
    for (octets, expected) in cases {
        assert_eq!(levels(&hex(octets), State::LEVELS), *expected, "{octets}");
    }
}

/// Checks calls with own record (5, 7) and peer record (6, 7) live.
fn check_calls(cases: &[(&str, &str)]) {
    let case = |&(call, answer)| Case { own: &[(5, 7)], peer: &[(6, 7)], call, answer };
    check(&table(), &cases.iter().map(case).collect::<Vec<_>>());
}

/// The line of received octets with the place of the value, own record (5, 7) live.
fn shown(octets: &str) -> String {
    let (table, image, octets) = (table(), frame::image(&state(&[(5, 7)], &[])), hex(octets));
    let mut script = Vec::new();
    for (kind, payload) in [(frame::TABLE, &table), (frame::STATE, &image), (frame::RECEIVE, &octets)] {
        Frame { kind, lent: 11, payload, ..Frame::default() }.append(&mut script);
    }
    lines(&script, true)
}

#[test]
fn constructed_elements_only() {
    check_levels(&[
        ("30 80 00 00", Some(1)),
        ("20 80 00 00", Some(1)),
        ("24 80 04 01 41 00 00", Some(2)),
        ("A1 80 00 00", Some(1)),
        ("3F 1F 80 00 00", Some(1)),
        ("BF FF FF FF 7F 80 05 00 00 00", Some(2)),
        ("02 80 00 00", None),
        ("04 80 00 00", None),
        ("05 80 00 00", None),
        ("80 80 00 00", None),
        ("81 80 00 00", None),
        ("1F 1F 80 00 00", None),
        ("9F 1F 80 00 00", None),
        ("21 80 00 00", None),
        ("22 80 02 01 00 00 00", None),
        ("2A 80 00 00", None),
    ]);
    check_calls(&[
        ("receive A1 80 02 01 09 02 01 07 00 00", "invoke 00000009 none 00000007 none"),
        ("receive A1 80 02 01 09 80 01 05 02 01 07 00 00", "invoke 00000009 00000005 00000007 none"),
        ("receive A1 80 02 01 09 81 00 02 01 07 00 00", "invoke 00000009 none 00000007 none"),
        ("receive A1 80 02 01 09 81 80 00 00 02 01 07 00 00", "refused 18 80 02"),
        ("receive A2 80 02 01 05 00 00", "result 00000005 none none op 00000007"),
        ("receive A2 80 02 01 05 30 80 02 01 07 30 00 00 00 00 00", "result 00000005 00000007 3000 op 00000007"),
        ("receive A3 80 02 01 05 02 01 01 00 00", "error 00000005 00000001 none op 00000007"),
        ("receive A4 80 02 01 05 81 01 07 00 00", "reject-u 00000005 81 07 own 0000"),
        ("receive A4 80 05 00 80 01 02 00 00", "reject-p none 80 02"),
        ("receive A4 80 05 80 00 00 80 01 02 00 00", "refused 17"),
        ("receive A5 80 00 00", "refused 18 80 00"),
    ]);
}

#[test]
fn closed_directly_among_the_contents() {
    check_levels(&[
        ("30 80 04 02 00 00 00 00", Some(2)),
        ("30 80 04 02 00 00", None),
        ("30 80 02 01 00 00 00", Some(2)),
        ("30 80 05 00 00 00", Some(2)),
        ("30 80 30 80 00 00 00 00", Some(2)),
        ("30 80 30 80 00 00", None),
        ("30 02 00 00", None),
        ("30 80 30 02 00 00 00 00", None),
        ("30 80", None),
        ("30 80 00", None),
        ("30 80 00 05", None),
        ("30 80 00 81 00", None),
        ("30 80 00 81 00 00 00", None),
        ("30 80 00 00 00", None),
        ("30 80 00 00 00 00", None),
        ("30 00 00 00", None),
        ("00 00", None),
    ]);
}

#[test]
fn closing_octets_are_no_level() {
    for primitive in [false, true] {
        let nested = |levels| deep_in_forms(0x30, levels, primitive, |_| true);
        assert_eq!((levels(&nested(16), 16), levels(&nested(17), 16)), (Some(16), None));
    }
    check_levels(&[("30 80 00 00", Some(1)), ("30 80 30 80 00 00 00 00", Some(2)), ("30 80 05 00 00 00", Some(2))]);
    for (request, most) in [("invoke 9 7", 15), ("result 6", 14), ("error 6 1", 15)] {
        for (depth, answer) in [(most, "sent"), (most + 1, "refused 15"), (16, "refused 15"), (17, "refused 9")] {
            let call = format!("{request} {}", text(&deep_in_forms(0x30, depth, false, |_| true)));
            check_calls(&[(&call, answer)]);
        }
    }
    for (value, answer) in [(15, "invoke"), (16, "refused 18 80 02")] {
        let value = text(&deep_in_forms(0x30, value, false, |_| true));
        check_calls(&[(&format!("receive A1 80 02 01 09 02 01 07 {value} 00 00"), answer)]);
    }
}

#[test]
fn closed_inside_a_definite_parent() {
    check_levels(&[
        ("30 04 30 80 00 00", Some(2)),
        ("30 06 30 80 00 00 05 00", Some(2)),
        ("30 80 30 04 30 80 00 00 00 00", Some(3)),
        ("30 02 30 80 00 00", None),
        ("30 03 30 80 00 00", None),
        ("30 80 30 02 30 80 00 00", None),
        ("30 80 30 02 30 80 00 00 00 00", None),
    ]);
    check_calls(&[
        ("receive A1 0A 02 01 09 02 01 07 30 80 00 00", "invoke 00000009 none 00000007 30800000"),
        ("receive A1 08 02 01 09 02 01 07 30 80 00 00", "refused 18 80 02"),
        ("receive A2 80 02 01 05 30 05 02 01 07 30 80 00 00 00 00", "refused 18 80 02"),
    ]);
}

#[test]
fn a_value_is_shown_with_its_closing_octets() {
    for (octets, value, place) in [
        ("A1 0A 02 01 09 02 01 07 30 80 00 00", "30800000", "8 12"),
        ("A1 80 02 01 09 02 01 07 30 80 00 00 00 00", "30800000", "8 12"),
        ("A1 80 02 01 09 02 01 07 30 00 00 00", "3000", "8 10"),
        ("A1 80 02 01 09 02 01 07 30 80 30 80 00 00 00 00 00 00", "3080308000000000", "8 16"),
        ("A2 80 02 01 05 30 80 02 01 07 30 80 00 00 00 00 00 00", "30800000", "10 14"),
        ("A2 80 02 01 05 30 07 02 01 07 30 80 00 00 00 00", "30800000", "10 14"),
        ("A3 80 02 01 05 02 01 01 30 80 05 00 00 00 00 00", "308005000000", "8 14"),
    ] {
        let line = shown(octets);
        assert!(
            line.contains(&format!(" {value} ")) && line.ends_with(&format!(" value {place}\n")),
            "{octets}: {line}"
        );
    }
    assert!(shown("A1 80 02 01 09 02 01 07 00 00").ends_with(" value none\n"));
}

#[test]
fn a_callers_value_is_copied_as_given() {
    check_calls(&[
        ("invoke 9 7 30 80 05 00 00 00", "sent own 0002 00000005:00000007 00000009:00000007 peer 0001 00000006:00000007 out a10c020109020107308005000000"),
        ("result 6 30 80 00 00", "sent own 0001 00000005:00000007 peer 0000 out a20c020106300702010730800000"),
        ("error 6 1 30 80 00 00", "sent own 0001 00000005:00000007 peer 0000 out a30a02010602010130800000"),
        ("@12 invoke 9 7 30 80 00 00", "sent"),
        ("@11 invoke 9 7 30 80 00 00", "refused 2"),
        ("invoke 9 7 31 80 00 00", "refused 10"),
        ("invoke 9 7 30 80 00", "refused 9"),
    ]);
    for (request, around) in [("invoke 9 7", 10), ("result 6", 14), ("error 6 1", 10)] {
        for (octets, answer) in [(4096, "sent"), (4097, "refused 15")] {
            check_calls(&[(&format!("{request} {}", text(&sized(octets - around, true))), answer)]);
        }
    }
}

#[test]
fn received_octets_end_with_closing_ones() {
    for (octets, answer) in [(4096, "invoke"), (4097, "refused 3")] {
        let value = text(&sized(octets - 10, true));
        check_calls(&[(&format!("receive A1 80 02 01 09 02 01 07 {value} 00 00"), answer)]);
    }
}

#[test]
fn wrong_closing_octets_are_9_21_general_2_and_17() {
    for request in ["invoke 9 7", "result 6", "error 6 1"] {
        for value in ["30 80", "30 80 00", "30 80 00 01", "30 02 00 00", "04 80 00 00"] {
            check_calls(&[(&format!("{request} {value}"), "refused 9")]);
        }
        check_calls(&[(&format!("{request} 30 80 00 00 00 00"), "refused 21")]);
    }
    for octets in ["80 02 01 05", "80 02 01 05 00", "80 02 01 05 00 01", "80 02 01 05 00 00 00 00", "05 02 01 05 00 00"]
    {
        for kind in ["A1", "A2", "A3", "A5", "30"] {
            check_calls(&[(&format!("receive {kind} {octets}"), "refused 18 80 02")]);
        }
        check_calls(&[(&format!("receive A4 {octets}"), "refused 17")]);
    }
}

#[test]
fn the_first_length_octet_alone_is_indefinite() {
    let octets = [&[0x30, 0x81, 0x80, 0x04, 0x7E][..], &[0; 126]].concat();
    assert_eq!((octets.len(), levels(&octets, 16)), (131, Some(2)));
    assert!(header(&octets).is_some_and(|header| header.length == Length::Definite(128)));
    check_levels(&[("30 82 00 80", None), ("30 81 80 00 00", None)]);
}

#[test]
fn contents_and_rest_of_an_element() {
    for (octets, whole, contents, rest) in [
        ("30 80 00 00 00 00", "30 80 00 00", "", "00 00"),
        ("30 80 05 00 00 00 30 00", "30 80 05 00 00 00", "05 00", "30 00"),
        ("30 02 05 00 00 00", "30 02 05 00", "05 00", "00 00"),
        ("3F 1F 80 30 80 00 00 00 00 41", "3F 1F 80 30 80 00 00 00 00", "30 80 00 00", "41"),
    ] {
        let octets = hex(octets);
        let (element, behind) = split(&octets, 16).unwrap();
        assert_eq!((element.whole, element.contents(), behind), (&hex(whole)[..], &hex(contents)[..], &hex(rest)[..]));
    }
}

#[test]
fn document_01s_table_takes_them_too() {
    let line = play(&hex(T), &state(&[(5, 7)], &[]), "receive A2 80 02 01 05 30 80 02 01 07 02 01 00 00 00 00 00");
    assert_eq!(
        line,
        "result 00000005 00000007 020100 op 00000007 own 0000 peer 0000 out - place 0 rest 0000 kept 0000"
    );
}

#[test]
fn a_replay_reads_them() {
    let verdict = |entries: &[(u8, &str)]| {
        let entries: Vec<Logged> = entries.iter().map(|(kind, octets)| Logged::new(*kind, &hex(octets))).collect();
        replay::verdict(&table(), &days::capture(&entries)).line()
    };
    let (received, sent) = (0, 1);
    for (entries, line) in [
        (&[(sent, "A10A 020105 020107 30800000"), (received, "A280 020105 0000")][..], "entries 2 agree\n"),
        (&[(sent, "A180 020105 020107 30800000 0000")], "entry 0 differs\n"),
        (&[(received, "A180 020105 020107"), (sent, "A405 0500 800102")], "entries 2 agree\n"),
        (&[(received, "A180 020105 020107")], "entry 1 differs\n"),
        (&[(received, "A480 020105 810100")], "entries 1 agree\n"),
        (&[(received, "A180 020105 020107 0000"), (sent, "A20C 020105 3007 020107 30800000")], "entries 2 agree\n"),
        (
            &[(received, "A180 020105 020107 0000"), (sent, "A20E 020105 3080 020107 30800000 0000")],
            "entry 1 differs\n",
        ),
    ] {
        assert_eq!(verdict(entries), line, "{entries:?}");
    }
}
