//! Octets, limits and table validity, rule by rule.

use crate::common::{hex, model, play, state};
use crate::readings::table;
use second::cases;
use second::indefinite;
use second::octets::levels;
use second::state::State;
use second::table::Table;
use second::values::{deep, sized};

type Row = (i32, u8, u8, u8, u8);

fn text(octets: &[u8]) -> String {
    octets.iter().map(|octet| format!("{octet:02x}")).collect()
}

fn received(octets: &[u8]) -> String {
    play(&table(), &State::fresh(), &format!("receive {}", text(octets)))
}

#[test]
fn named_elements() {
    for (name, octets) in [cases::MALFORMED, indefinite::MALFORMED, indefinite::BEHIND, indefinite::NOT_ONE].concat() {
        assert_eq!(levels(octets, 16), None, "{name}");
    }
    for (name, octets) in [cases::WELL_FORMED, indefinite::WELL_FORMED].concat() {
        assert!(levels(octets, 16).is_some(), "{name}");
    }
}

#[test]
fn named_apdus() {
    let expected = [
        (&[][..], indefinite::MALFORMED_APDUS, "refused 18 80 02 own 0000 peer 0000 out a4050500800102"),
        (
            cases::MISTYPED_WITH_ID,
            indefinite::MISTYPED_WITH_ID,
            "refused 18 80 01 own 0000 peer 0000 out a406020105800101",
        ),
        (
            cases::MISTYPED_WITHOUT_ID,
            indefinite::MISTYPED_WITHOUT_ID,
            "refused 18 80 01 own 0000 peer 0000 out a4050500800101",
        ),
        (cases::UNRECOGNIZED, indefinite::UNRECOGNIZED, "refused 18 80 00 own 0000 peer 0000 out a4050500800100"),
        (cases::UNACCEPTABLE_REJECTS, indefinite::UNACCEPTABLE_REJECTS, "refused 17 own 0000 peer 0000 out -"),
        (cases::ACCEPTABLE_REJECTS, indefinite::ACCEPTABLE_REJECTS, "reject-"),
    ];
    for (definite, indefinite, answer) in expected {
        for (name, octets) in definite.iter().chain(indefinite) {
            let line = received(octets);
            assert!(line.starts_with(answer), "{name}: {line}");
        }
    }
}

#[test]
fn sixteen_levels() {
    for primitive in [true, false] {
        assert_eq!(levels(&deep(0x30, 16, primitive), 16), Some(16));
        assert_eq!(levels(&deep(0x30, 17, primitive), 16), None);
    }
    let requests = [("invoke 5 7", 15), ("result 6 ", 14), ("error 6 4", 15)];
    let operations = [(7, 2, 0x30, 0x30, 0)];
    let table = model(&operations, &[(4, 0x30, 0)], &[(0, 0)], &[]).octets();
    for (request, most) in requests {
        for (depth, answer) in [(most, "sent"), (most + 1, "refused 15"), (16, "refused 15"), (17, "refused 9")] {
            let call = format!("{request} {}", text(&deep(0x30, depth, false)));
            assert!(play(&table, &state(&[], &[(6, 7)]), &call).starts_with(answer), "{request} {depth}");
        }
    }
}

#[test]
fn four_thousand_and_ninety_six_octets() {
    // Identifier and three length octets, then id and code; a result has a sequence around code and value.
    for (request, around) in [("invoke 5 7", 10), ("result 6 ", 14), ("error 6 4", 10)] {
        let table = model(&[(7, 2, 0x30, 0x30, 0)], &[(4, 0x30, 0)], &[(0, 0)], &[]).octets();
        let whole = 4096 - around;
        for (lent, octets, answer) in [
            (4096, whole, "sent"),
            (4095, whole, "refused 2"),
            (0, whole + 1, "refused 15"),
            (9000, 5000, "refused 15"),
        ] {
            let call = format!("@{lent} {request} {}", text(&sized(octets, false)));
            assert!(play(&table, &state(&[], &[(6, 7)]), &call).starts_with(answer), "{request} {octets}");
        }
    }
}

#[test]
fn thirty_two_records() {
    let full: Vec<_> = (0..32).map(|id| (id, 2)).collect();
    let play = |own: &[_], peer: &[_], call: &str| play(&table(), &state(own, peer), call);
    assert!(play(&full, &[], "invoke 40 2 02 01 00").starts_with("refused 14 "));
    assert!(play(&full, &[], "invoke 40 6").starts_with("sent own 0020 "));
    assert!(play(&full[1..], &[], "invoke 40 2 02 01 00").starts_with("sent own 0020 "));
    assert!(play(&[], &full, "receive A1 09 02 01 28 02 01 02 02 01 00").starts_with("refused 18 81 03 "));
    assert!(play(&[], &full, "receive A1 06 02 01 28 02 01 06").starts_with("invoke "));
    assert!(play(&[], &full[1..], "receive A1 09 02 01 28 02 01 02 02 01 00").starts_with("invoke "));
}

#[test]
fn table_validity() {
    let valid = |octets: &[u8]| Table::new(octets).is_some();
    assert!(valid(&hex("0000 0010 0000 0010 0000 0010 0000 0010")));
    assert!(!valid(&hex("0000 0010 0000 0011 0000 0010 0000 0010")));
    let base = [(-4, 2, 0x02, 0x02, 0), (1, 3, 0, 0, 0), (2, 4, 0, 0, 0), (3, 5, 0, 0, 0)];
    let with = |change: fn(&mut [Row; 4])| {
        let mut operations = base;
        change(&mut operations);
        model(&operations, &[], &[], &[]).octets()
    };
    assert!(valid(&with(|_| {})));
    assert!(valid(&with(|rows| rows[0].2 = 0x2A)));
    assert!(!valid(&with(|rows| rows[0].2 = 0x3F)));
    assert!(!valid(&with(|rows| rows[0].0 = 1)));
    assert!(!valid(&with(|rows| rows[1].1 = 6)));
    assert!(!valid(&with(|rows| rows[1].1 = 0)));
    assert!(!valid(&with(|rows| rows[1].3 = 0x02)));
    assert!(!valid(&with(|rows| rows[3].3 = 0x02)));
    assert!(!valid(&with(|rows| rows[0].4 = 4)));
    assert!(!valid(&with(|rows| rows[1].4 = 1)));
    assert!(!valid(&with(|rows| rows[2].4 = 2)));
    let pairs = |errors: &[(u16, u16)], children: &[(u16, u16)]| {
        valid(&model(&base, &[(-1, 0, 0), (0, 0x04, 1)], errors, children).octets())
    };
    assert!(pairs(&[(0, 0), (0, 1), (1, 0)], &[(0, 0), (0, 3), (2, 1)]));
    assert!(!pairs(&[(0, 1), (0, 0)], &[]) && !pairs(&[(0, 0), (0, 0)], &[]));
    assert!(!pairs(&[(0, 2)], &[]) && !pairs(&[(4, 0)], &[]) && !pairs(&[], &[(0, 4)]));
    assert!(!pairs(&[(2, 0)], &[]) && !pairs(&[(3, 0)], &[]) && !pairs(&[], &[(3, 0)]));
    assert!(!valid(&model(&[], &[(0, 0, 1)], &[], &[]).octets()));
    assert!(!valid(&model(&[], &[(0, 4, 2)], &[], &[]).octets()));
    assert!(!valid(&model(&[], &[(0, 0, 0), (-1, 0, 0)], &[], &[]).octets()));
}
