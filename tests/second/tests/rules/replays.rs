//! The replay of a capture, entry by entry, its program and the comparison with another.

use std::fs;
use std::path::PathBuf;
use std::process::{self, Command};

use crate::common::{hex, model, T};
use second::days::{self, Logged};
use second::replay::verdict;
use second::replays;

const PROGRAM: &str = env!("CARGO_BIN_EXE_second");

/// Classes 1 to 5 by code, 1 and 5 children of 2; error 1 paired with 2 and 3, error 2 with none.
fn table() -> Vec<u8> {
    let operations =
        [(1, 1, 2, 2, 0), (2, 2, 2, 2, 2), (3, 3, 0, 0, 0), (4, 4, 0, 4, 0), (5, 5, 0, 0, 0), (300, 2, 0, 4, 0)];
    model(&operations, &[(1, 0, 0), (2, 0, 0)], &[(1, 0), (2, 0)], &[(1, 0), (1, 4)]).octets()
}

/// A capture of entries in words: `<` received, `>` sent, `!` forget, each with its octets.
fn capture(day: &str) -> Vec<u8> {
    let entries = day.split(',').filter(|entry| !entry.trim().is_empty()).map(|entry| match entry.trim().split_at(1) {
        ("<", octets) => Logged::new(0, &hex(octets)),
        (">", octets) => Logged::new(1, &hex(octets)),
        (_, octets) => Logged::new(2, &hex(octets)),
    });
    days::capture(&entries.collect::<Vec<_>>())
}

fn check(cases: &[(&str, &str)]) {
    for (day, line) in cases {
        assert_eq!(verdict(&table(), &capture(day)).line(), format!("{line}\n"), "{day}");
    }
}

#[test]
fn requests_are_read_back_from_what_was_sent() {
    check(&[
        ("", "entries 0 agree"),
        ("> A109 020105 020102 020107", "entries 1 agree"),
        ("> A106 020105 020105, > A106 020105 020105", "entries 2 agree"),
        ("< A109 020105 020102 020107, > A109 020105 800105 020105", "entries 2 agree"),
        ("< A109 020105 020102 020107, > A10C 020109 800105 020101 020107", "entries 2 agree"),
        ("< A109 020105 020102 020107, > A203 020105", "entries 2 agree"),
        ("< A109 020105 020102 020107, > A20B 020105 3006 020102 020100", "entries 2 agree"),
        ("< A109 020105 020102 020107, > A306 020105 020101", "entries 2 agree"),
        ("< A109 020105 020102 020107, > A406 020105 810104", "entries 2 agree"),
        ("< A106 020105 020103, ! 0100000005, ! 0100000005", "entry 2 differs"),
        ("> A109 020105 020101 020107, ! 0000000005, > A109 020105 020101 020107", "entry 2 differs"),
        ("> A109 020105 020101 020107, ! 0000000005, > A109 020106 020101 020107", "entries 3 agree"),
        ("> A109 020105 020102 020107, < A203 020105, > A109 020105 020102 020107", "entries 3 agree"),
        ("> A109 020105 020102 020107, < A406 020105 810102, > A109 020105 020102 020107", "entries 3 agree"),
        ("> A109 020105 020102 020107, ! 0000000005, < A203 020105, > A406 020105 820100", "entries 4 agree"),
        ("> A106 020105 020104, > A106 020105 020104", "entry 1 differs"),
        ("> A109 020105 020101 020107, > A106 020106 020105", "entry 1 differs"),
        ("> A109 020105 800107 020105", "entry 0 differs"),
        ("> A109 020105 020102 020107, ! 0100000005", "entry 1 differs"),
        ("< A109 020105 020102 020107, ! 0100000005", "entry 1 differs"),
        ("< A106 020105 020103, ! 0200000005", "entry 1 differs"),
        ("< A106 020105 020103, ! FF00000005", "entry 1 differs"),
    ]);
}

#[test]
fn other_octets_differ() {
    let invoked = "< A109 020105 020102 020107";
    check(&[
        ("> A18106 020105 020104", "entry 0 differs"),
        ("> A107 02810105 020104", "entry 0 differs"),
        ("> A108 020105 8100 020104", "entry 0 differs"),
        (&format!("{invoked}, > A20B 020105 3006 020101 020100"), "entry 1 differs"),
        (&format!("{invoked}, > A20B 020105 3006 060102 020100"), "entry 1 differs"),
        (&format!("{invoked}, > A20F 020105 300A 02050100000002 020100"), "entry 1 differs"),
        (&format!("{invoked}, > A4810602010581 0102"), "entry 1 differs"),
        ("> A180 020105 020104 0000", "entry 0 differs"),
        (&format!("{invoked}, > A280 020105 3006 020102 020100 0000"), "entry 1 differs"),
        (&format!("{invoked}, > A20D 020105 3080 020102 020100 0000"), "entry 1 differs"),
        (&format!("{invoked}, > A380 020105 020101 0000"), "entry 1 differs"),
        (&format!("{invoked}, > A480 020105 810102 0000"), "entry 1 differs"),
        // The value itself is copied as it is.
        ("< A107 020105 0202012C, > A210 020105 300B 0202012C 0484 00000001 41", "entries 2 agree"),
    ]);
    // The code is the record's: one octet more than the code that was sent, and one more than 4,096.
    let sent = format!("A2820FFC 020105 30820FF5 020107 04820FEE {}", "41".repeat(4078));
    check(&[(&format!("< A107 020105 0202012C, > {sent}"), "entry 1 differs")]);
}

#[test]
fn what_fits_no_call_differs() {
    for sent in [
        "00",
        "A1",
        "A180",
        "A180 020105 020104",
        "A180 020105 020104 0000 0000",
        "A108 020105 020104 0000",
        "A5 00",
        "A103 020105",
        "A106 020105 060104",
        "A10A 020105 02050100000004",
        "A306 020105 060101",
        "A405 0500 800102",
        "A405 0500 810102",
        "A406 020105 800101",
        "A406 020105 820100",
        "A406 020105 830100",
        "A406 020105 810101",
        "A406 020105 810105",
        "A406 020105 810108",
    ] {
        check(&[(&format!("< A106 020105 020103, > {sent}, < A400"), "entry 1 differs")]);
    }
}

#[test]
fn a_written_reject_is_the_next_entry() {
    check(&[
        ("< A500, > A405 0500 800100", "entries 2 agree"),
        ("< A500", "entry 1 differs"),
        ("< A500, < A405 0500 800100", "entry 1 differs"),
        ("< A500, ! 0000000005", "entry 1 differs"),
        ("< A500, > A405 0500 800102", "entry 1 differs"),
        ("< A500, > A106 020105 020104, > A405 0500 800100", "entry 1 differs"),
        ("< A500, < A400, > A405 0500 800100", "entry 1 differs"),
        ("< A500, < A500, > A405 0500 800100, > A405 0500 800100", "entry 1 differs"),
        ("< A500, > A405 0500 800100, > A405 0500 800100", "entry 2 differs"),
        ("< A400, < A500", "entry 2 differs"),
        // As a request it would be refused 11; written by the engine it is not asked for again.
        ("< A106 020105 020102, > A406 020105 810102", "entries 2 agree"),
        // As a request it would retire the invocation that the duplicate has the id of.
        ("< A106 020105 020103, < A106 020105 020103, > A406 020105 810100, > A306 020105 020101", "entries 4 agree"),
    ]);
}

#[test]
fn an_unacceptable_reject_goes_by() {
    check(&[
        ("< A400", "entries 1 agree"),
        ("< A4, < A480, < A403 800100", "entries 3 agree"),
        ("> A106 020105 020104, < A406 020105 810108, ! 0000000005", "entries 3 agree"),
        ("> A106 020105 020104, < A406 020105 810107, ! 0000000005", "entry 2 differs"),
    ]);
}

#[test]
fn refusals_come_first_and_in_order() {
    let (right, wrong, bad_table) = (capture("> 00"), hex("00000000 00000000"), hex("0000"));
    for (table, capture, line) in [
        (&bad_table, &right, "refused 1\n"),
        (&bad_table, &wrong, "refused 1\n"),
        (&table(), &wrong, "refused 20\n"),
        (&table(), &[&right[..], &[0]].concat(), "refused 20\n"),
        (&table(), &right, "entry 0 differs\n"),
    ] {
        assert_eq!(verdict(table, capture).line(), line);
    }
}

#[test]
fn the_marked_examples_replay() {
    let day = "> A109 020105 020107 020103, < A20B 020105 3006 020107 020100, > A109 020105 020107 020103,
               < A306 020105 020101, < A203 020105, > A406 020105 820100, < A400";
    assert_eq!(verdict(&hex(T), &capture(day)).line(), "entries 7 agree\n");
}

/// A folder of the temporary folder with a table and captures in it.
fn folder(name: &str) -> PathBuf {
    let folder = std::env::temp_dir().join(format!("second-rules-{name}-{}", process::id()));
    fs::create_dir_all(&folder).unwrap();
    let mut entries = Vec::new();
    days::fill(&mut entries, 60_000);
    let long = days::capture(&entries);
    let files = [
        ("table", table()),
        ("long-table", [table(), vec![0; 3000]].concat()),
        ("right", capture("< A500, > A405 0500 800100")),
        ("long", long.clone()),
        ("too-long", [long, vec![0]].concat()),
    ];
    files.iter().for_each(|(name, octets)| fs::write(folder.join(name), octets).unwrap());
    folder
}

#[test]
fn the_program_writes_one_line() {
    let folder = folder("program");
    let cases: [(&[&str], &str); 11] = [
        (&["table", "right"], "entries 2 agree\n"),
        (&["table", "long"], "entries 15 agree\n"),
        (&["table", "too-long"], "refused 20\n"),
        (&["long-table", "right"], "refused 1\n"),
        (&["table", "missing"], "refused 20\n"),
        (&["table", "."], "refused 20\n"),
        (&["missing", "right"], "refused 1\n"),
        (&[".", "missing"], "refused 1\n"),
        (&["table", "places"], "refused 20\n"),
        (&["table"], "refused 20\n"),
        (&[], "refused 1\n"),
    ];
    for (names, line) in cases {
        let output = Command::new(PROGRAM).arg("replay").args(names).current_dir(&folder).output().unwrap();
        assert!(output.status.success() && output.stderr.is_empty(), "{names:?}");
        assert_eq!(String::from_utf8_lossy(&output.stdout), line, "{names:?}");
    }
    fs::remove_dir_all(folder).unwrap();
}

#[test]
fn a_program_is_held_to_the_lines_here() {
    let (report, right) = replays::run(&format!("{PROGRAM} replay"), 1, replays::LEAST).unwrap();
    assert!(right, "{report}");
    let (report, right) = replays::run("echo refused 20", 1, replays::LEAST).unwrap();
    assert!(!right && report.contains("seed 1 differs") && report.contains("entry 0 of "), "{report}");
    let (report, right) = replays::run("false", 1, replays::LEAST).unwrap();
    assert!(!right && report.contains("exit status: 1"), "{report}");
    assert!(replays::run("./none", 1, replays::LEAST).is_err_and(|error| error.contains("does not start")));
}
