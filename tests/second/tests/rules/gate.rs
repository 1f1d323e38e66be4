//! Short runs of the generator, its coverage, the comparison and the two ends, and of the command line.

use std::process::{Command, Output, Stdio};

use crate::common::{hex, lines, model, T};
use second::compare::{compare, first_difference};
use second::coverage::{Coverage, CALLS, SEEDS};
use second::frame::{self, Frame};
use second::model::extends;
use second::table::Table;
use second::{ends, examples, generate};

const PROGRAM: &str = env!("CARGO_BIN_EXE_second");

fn second(arguments: &[&str]) -> Output {
    Command::new(PROGRAM).args(arguments).stdin(Stdio::null()).output().unwrap()
}

#[test]
fn scripts_reach_every_row() {
    let (report, enough) = Coverage::of(SEEDS, CALLS).report();
    assert!(enough, "{report}");
}

#[test]
fn what_is_shown_was_given() {
    let (report, right) = ends::run(None, 1, 60_000).unwrap();
    assert!(right, "{report}");
}

#[test]
fn a_program_plays_both_ends_as_the_engine_does() {
    assert_eq!(ends::run(Some(PROGRAM), 1, 3000), ends::run(None, 1, 3000));
    for (program, told) in [("true", "true ended before it answered"), ("yes", "no line of the drive protocol: y\n")] {
        let (report, right) = ends::run(Some(program), 1, 10).unwrap();
        assert!(!right && report.contains(told), "{report}");
    }
    assert!(ends::run(Some("no such program"), 1, 10).is_err_and(|error| error.contains("does not start")));
}

#[test]
fn scripts_are_the_same_for_the_same_seed() {
    for calls in [0, 1, 300] {
        let script = generate::script(7, calls);
        assert_eq!(script, generate::script(7, calls));
        assert_eq!(lines(&script, false).lines().count(), calls);
    }
    assert_ne!(generate::script(7, 300), generate::script(8, 300));
}

#[test]
fn the_program_agrees_with_itself_and_not_with_another() {
    for places in [false, true] {
        assert_eq!(compare(PROGRAM, 1..=3, 400, places), Ok(true));
        assert!(examples::run(PROGRAM, places).is_ok_and(|(_, right)| right));
    }
    assert_eq!(compare("true", 1..=1, 10, false), Ok(false));
    assert_eq!(compare("false", 1..=1, 0, false), Ok(false));
    assert!(
        examples::run("false", false).is_ok_and(|(report, _)| report.ends_with("false ended with exit status: 1\n"))
    );
    assert!(compare("no such program", 1..=1, 10, false).is_err_and(|error| error.contains("does not start")));
    let difference = first_difference(b"one\ntwo\n", b"one\ntow\n").unwrap();
    assert_eq!((difference.call, &difference.here[..], &difference.there[..]), (2, "two", "tow"));
    let missing = first_difference(b"one\ntwo\n", b"one\n").unwrap();
    assert_eq!((missing.call, &missing.there[..]), (2, "no line"));
}

#[test]
fn the_example_of_the_protocol_and_the_ends_of_a_run() {
    let (table, value, error) = (hex(T), hex("020103"), hex("A306020105020101"));
    let mut script = Vec::new();
    let mut append = |kind, lent, id, code, payload: &[u8]| {
        Frame { kind, lent, id, code, payload, ..Frame::default() }.append(&mut script);
    };
    append(frame::TABLE, 0, 0, 0, &table);
    append(frame::STATE, 0, 0, 0, &[1; frame::IMAGE_OCTETS + 1]);
    append(frame::STATE, 0, 0, 0, &[1; frame::RESTING_IMAGE_OCTETS + 1]);
    append(frame::STATE, 0, 0, 0, &[1; frame::LOCAL_IMAGE_OCTETS - 1]);
    append(frame::INVOKE, 64, 5, 7, &value);
    append(frame::RECEIVE, 11, 0, 0, &error);
    append(8, 0, 0, 0, &[]);
    append(frame::FORGET, 0, 5, 0, &[]);
    let wanted = "sent own 0001 00000005:00000007 peer 0000 out a109020105020107020103 place 0 rest 0000 kept 0000\n\
                  error 00000005 00000001 none op 00000007 own 0000 peer 0000 out - place 0 rest 0000 kept 0000\n";
    assert_eq!(lines(&script, false), wanted);
    let cut = script.len() - 2 * 18 - 1;
    assert_eq!(lines(&script[..cut], false), wanted[..wanted.find('\n').unwrap() + 1]);
    let mut untouched = Vec::new();
    Frame { kind: frame::FORGET, ..Frame::default() }.append(&mut untouched);
    assert_eq!(lines(&untouched, false), "refused 1 own 0000 peer 0000 out - place 0 rest 0000 kept 0000\n");
}

#[test]
fn extension_reads_pairs_by_codes() {
    let o = model(&[(2, 2, 0x02, 0, 0), (4, 2, 0, 0, 0)], &[(5, 0, 0)], &[(1, 0)], &[(0, 1)]).octets();
    let n = [(1, 2, 0, 0, 0), (2, 2, 0x02, 0, 0), (4, 2, 0, 0, 0)];
    let errors = [(4, 0, 0), (5, 0, 0)];
    let right = model(&n, &errors, &[(0, 0), (2, 1)], &[(1, 2)]).octets();
    let other_pair = model(&n, &errors, &[(1, 1)], &[(1, 2)]).octets();
    let other_child = model(&n, &errors, &[(2, 1)], &[(0, 1)]).octets();
    let other_rule = model(&n, &[(4, 0, 0), (5, 0x04, 0)], &[(2, 1)], &[(1, 2)]).octets();
    for (n, extended) in [(&right, true), (&o, true), (&other_pair, false), (&other_child, false), (&other_rule, false)]
    {
        assert_eq!(extends(&Table::new(n).unwrap(), &Table::new(&o).unwrap()), extended);
    }
}

#[test]
fn the_command_line_says_what_is_wrong() {
    let cases: [(&[&str], &str); 14] = [
        (&["dance"], "'dance' with 0 more arguments is no command"),
        (&["generate", "x", "5"], "SEED is 'x', but must be a number from 0 up"),
        (&["ends", "1"], "'ends' with 1 more arguments is no command"),
        (&["coverage", "places"], "'coverage' with 1 more arguments is no command"),
        (&["compare", "true", "0", "10"], "SEEDS is '0', but must be a number from 1 up"),
        (&["compare", "true", "5..4", "10"], "TO is '4', but must be a number from 5 up"),
        (&["ends", "true", "1", "0"], "COUNT is '0', but must be a number from 1 up"),
        (&["tables", "true", "true", "1", "99"], "COUNT is '99', but must be a number from 100 up"),
        (&["tables", "true", "./none", "1", "100"], "./none does not start"),
        (&["replay", "a", "b", "c"], "'replay' with 3 more arguments is no command"),
        (&["replays", "true", "1", "399"], "COUNT is '399', but must be a number from 400 up"),
        (&["capture", "x", "a", "b"], "SEED is 'x', but must be a number from 0 up"),
        (&["samples", "./none"], "./none/no-entries.capture: "),
        (&["compare", "no such program", "1", "10"], "give the path of a program of the drive protocol"),
    ];
    for (arguments, message) in cases {
        let output = second(arguments);
        assert_eq!(output.status.code(), Some(2), "{arguments:?}");
        assert!(String::from_utf8_lossy(&output.stderr).contains(message), "{arguments:?}");
    }
    for arguments in [&[][..], &["play"], &["places"], &["play", "places"]] {
        assert!(second(arguments).status.success(), "{arguments:?}");
    }
    assert_eq!(second(&["generate", "3", "50"]).stdout, generate::script(3, 50));
}
