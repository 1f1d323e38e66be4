//! The marked examples P1 to P12 by this program's engine, and what is said of other lines.

use crate::common::lines;
use second::examples::{report, script};

#[test]
fn marked_examples() {
    for places in [false, true] {
        let (text, right) = report(lines(&script(), places).as_bytes(), places);
        assert!(right, "{text}");
        assert_eq!(text.lines().count(), 12);
        assert!(text.starts_with("P1 right\nP2 right\n") && text.ends_with("P11 right\nP12 right\n"), "{text}");
    }
}

#[test]
fn other_lines_are_told() {
    let lines = lines(&script(), true);
    for (old, new, told) in [
        ("value 10 13", "value 10 12", "P2 differs"),
        ("value 10 13", "value none", "P2 differs"),
        ("error 00000005 00000001 none op", "result 00000005 00000001 none op", "P3 differs"),
        ("out a406020105810100", "out a406020105810100 spoiled", "P9 differs"),
        ("refused 17 own 0001 00000005:00000007", "refused 17 own 0000", "P8 differs"),
    ] {
        let (text, right) = report(lines.replacen(old, new, 1).as_bytes(), true);
        assert!(!right && text.contains(told), "{text}");
        assert_eq!(text.matches(" right\n").count(), 11, "{text}");
        assert!(text.contains("\nexpected: ") && text.contains("\ngot:      "), "{text}");
    }
    assert!(!report(lines.as_bytes(), false).1);
    assert!(report(b"", true).0.contains("got:      no line"));
    assert!(report((lines + "sent\n").as_bytes(), true).0.ends_with("a line more than calls: sent\n"));
}
