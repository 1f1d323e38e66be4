//! Stored samples: a table, a capture and the line for each, small ones wherever the rule allows.

use crate::capture::{ENTRIES, OCTETS};
use crate::days::{self, Logged, FORGET, RECEIVED, SENT};
use crate::state::State;

/// Operations 1 to 5 of classes 1 to 5, errors 1 and 2; 1 and 3 are children of 2.
const TABLE: &str = "0005 0010 0002 0038 0004 0044 0002 0054
    00000001 01020200 00000002 02020202 00000003 03000000 00000004 04000400 00000005 05000000
    00000001 0000 00000002 0401 0000 0000 0001 0000 0001 0001 0002 0000 0001 0000 0001 0002";

/// Days by name: their entries, each with its kind in front, and the line.
const DAYS: &[(&str, &str, &str)] = &[
    ("no-entries", "", "entries 0 agree"),
    (
        "every-kind-of-entry",
        "sent A109020105020102020107, received A20B020105300602010202 0100, received A109020106020102020107,
         sent A109020105800106020103, received A306020105020101, sent A20B0201063006020102020109,
         received A106020107020103, sent A306020107020101, received A106020108020104, sent A406020108810103,
         received A106020109020103, forget 0100000009, received A400, received A20302010A, sent A40602010A820100",
        "entries 15 agree",
    ),
    ("reject-like-a-user-reject", "received A106020105020102, sent A406020105810102", "entries 2 agree"),
    ("request-refused", "received A400, sent A106020105020163", "entry 1 differs"),
    ("id-in-use", "sent A106020105020104, sent A106020105020103", "entry 1 differs"),
    (
        "resting-id-asked-again",
        "sent A106020105020104, received A20A02010530050201040400, sent A106020105020104, forget 0000000005,
         received A20A02010530050201040400, sent A406020105820100, sent A106020105020104",
        "entry 6 differs",
    ),
    ("linked-to-an-own-invocation", "sent A109020105020102020107, sent A109020106800105020103", "entry 1 differs"),
    ("result-of-no-invocation", "sent A20B0201053006020102020107", "entry 0 differs"),
    ("error-not-paired", "received A106020105020103, sent A306020105020102", "entry 1 differs"),
    ("user-reject-of-no-invocation", "sent A406020105810102", "entry 0 differs"),
    ("forget-refused", "forget 0000000005", "entry 0 differs"),
    ("forget-of-an-awaited-answer", "received A109020105020102020107, forget 0100000005", "entry 1 differs"),
    ("another-side", "sent A106020105020104, forget 0200000005", "entry 1 differs"),
    ("other-octets-long-length", "sent A18106020105020104", "entry 0 differs"),
    (
        "other-octets-code-of-a-result",
        "received A109020105020102020107, sent A20B0201053006020101020107",
        "entry 1 differs",
    ),
    ("fits-no-call-octets", "sent A106020105020204", "entry 0 differs"),
    ("fits-no-call-first-octet", "sent A506020105020104", "entry 0 differs"),
    ("fits-no-call-fields", "sent A103020105", "entry 0 differs"),
    ("fits-no-call-code-06", "sent A106020105060104", "entry 0 differs"),
    ("fits-no-call-code-of-five-octets", "sent A10A02010502050100000004", "entry 0 differs"),
    ("fits-no-call-reject-80", "received A106020105020103, sent A406020105800101", "entry 1 differs"),
    ("fits-no-call-reject-05-00", "sent A4050500800102", "entry 0 differs"),
    ("fits-no-call-reject-82", "received A106020105020103, sent A406020105820100", "entry 1 differs"),
    ("fits-no-call-reject-83", "received A106020105020103, sent A406020105830100", "entry 1 differs"),
    ("fits-no-call-problem-1", "received A106020105020103, sent A406020105810101", "entry 1 differs"),
    ("reject-missing-at-end", "received A500", "entry 1 differs"),
    ("reject-not-sent", "received A500, received A4050500800100", "entry 1 differs"),
    ("reject-with-other-octets", "received A500, sent A4050500800102", "entry 1 differs"),
    ("reject-twice", "received A500, sent A4050500800100, sent A4050500800100", "entry 2 differs"),
];

/// Operation 2 of class 2 and error 1, each with an optional value of type 30.
const CONSTRUCTED: &str = "0001 0010 0001 0018 0001 001E 0000 0022 00000002 02303003 00000001 3001 0000 0000";

/// Days with elements of indefinite length.
const INDEFINITE: &[(&str, &str, &str)] = &[
    (
        "indefinite-received",
        "sent A106020105020102, received A2800201053080020102308002010700000000 0000,
         sent A106020106020102, received A380020106020101308000000000,
         received A180020107020102308002010700000000, received A4800201078101000000",
        "entries 6 agree",
    ),
    (
        "indefinite-values-sent",
        "sent A10D020105020102308002010700 00, received A106020107020102, sent A20F020107300A0201023080020107 0000,
         received A106020108020102, sent A30A02010802010130800000",
        "entries 5 agree",
    ),
    ("indefinite-invoke-sent", "sent A1800201050201020000", "entry 0 differs"),
    ("indefinite-result-sent", "received A106020107020102, sent A28002010730050201023000 0000", "entry 1 differs"),
    ("indefinite-30-sent", "received A106020107020102, sent A20C02010730800201023000 0000", "entry 1 differs"),
    ("indefinite-value-not-closed-sent", "sent A10A0201050201023080 0500", "entry 0 differs"),
    ("not-closed", "received A180020105020102, sent A4050500800102", "entries 2 agree"),
    ("not-closed-without-its-reject", "received A180020105020102", "entry 1 differs"),
    ("closed-twice", "received A18002010502010200000000, sent A4050500800102", "entries 2 agree"),
    ("closed-in-definite-contents", "received A1080201050201020000, sent A4050500800102", "entries 2 agree"),
    ("reject-not-closed", "received A480020105810100, received A480", "entries 2 agree"),
    ("reject-awaited-indefinite-sent", "received A500, sent A48005008001000000", "entry 1 differs"),
];

/// Operation 2 and operation 2A 07, both of class 2, and error 2B 06 02 of both.
const NAMES: &str = "FFFF 0002 0002 0018 0001 0028 0002 002E 0000 0036 0002 0036
    00000002 02020200 00000000 02020204 00000001 0002 0000 0000 0001 0000
    02 2A070000000000000000000000000000 03 2B060200000000000000000000000000";

/// Days with codes that are names.
const NAMED: &[(&str, &str, &str)] = &[
    (
        "names-of-every-kind",
        "sent A10A02010506022A07020103, received A20C020105300706022A07020100, received A10A02010606022A07020104,
         sent A20C020106300706022A07020109, sent A109020107020102020101, received A30802010706032B0602,
         received A109020108020102020101, sent A30802010806032B0602, received A10B0201090681022A07020104,
         received A10A02010A06022A08020104, sent A40602010A810101",
        "entries 11 agree",
    ),
    ("name-of-no-operation", "sent A10B02010506032B0602020103", "entry 0 differs"),
    ("name-with-a-zero-behind-it", "sent A10B02010506032A0700020103", "entry 0 differs"),
    ("name-in-long-form-sent", "sent A10B0201050681022A07020103", "entry 0 differs"),
    ("name-of-17-octets-sent", "sent A11902010506112A0700000000000000000000000000 0000020103", "entry 0 differs"),
    (
        "name-of-an-error-not-in-the-table",
        "received A109020105020102020101, sent A30702010506022A07",
        "entry 1 differs",
    ),
    (
        "name-of-another-operation-in-a-result",
        "received A10A02010606022A07020104, sent A20B0201063006020102020109",
        "entry 1 differs",
    ),
    ("name-unknown-without-its-reject", "received A10A02010A06022A08020104", "entry 1 differs"),
];

/// Acknowledge, probe and operation 2, all of class 2, and operation 3 of class 3; error 1 of 2 and 3.
const PROBED: &str = "0004 0010 0001 0030 0002 0036 0000 003E
    FFFFFFFD 02020A00 FFFFFFFE 02300A00 00000002 02020400 00000003 03000000
    00000001 0000 0002 0000 0003 0000";

/// Days with probes and acknowledges.
const PROBES: &[(&str, &str, &str)] = &[
    (
        "probe-finished",
        "received A109020105020102020107, received A10D0201060201FE3005A003020105, sent A20B02010630060201FE0A0100,
         sent A20C0201053007020102 04024142, received A10D0201070201FE3005A003020105, sent A20B02010730060201FE0A0101,
         sent A20C0201053007020102 04024142, received A10D0201080201FE3005A003020109, sent A20B02010830060201FE0A0102",
        "entries 9 agree",
    ),
    (
        "acknowledge",
        "received A106020105020103, sent A306020105020101, received A1090201060201FD020105,
         sent A20B02010630060201FD0A0100, received A1090201070201FD020105, sent A20B02010730060201FD0A0101,
         received A10D0201080201FE3005A003020105, sent A20B02010830060201FE0A0102",
        "entries 8 agree",
    ),
    (
        "probe-kept-answer-missing",
        "received A106020105020103, sent A306020105020101, received A10D0201070201FE3005A003020105,
         sent A20B02010730060201FE0A0101, received A1090201080201FD020105",
        "entry 4 differs",
    ),
    (
        "probe-kept-answer-missing-at-end",
        "received A106020105020103, sent A306020105020101, received A10D0201070201FE3005A003020105,
         sent A20B02010730060201FE0A0101",
        "entry 4 differs",
    ),
    (
        "probe-result-missing",
        "received A106020105020103, sent A306020105020101, received A10D0201070201FE3005A003020105,
         sent A306020105020101",
        "entry 3 differs",
    ),
    (
        "probe-both-in-one-entry",
        "received A106020105020103, sent A306020105020101, received A10D0201070201FE3005A003020105,
         sent A20B02010730060201FE0A0101A306020105020101",
        "entry 3 differs",
    ),
    (
        "probe-other-octets",
        "received A106020105020103, sent A306020105020101, received A10D0201070201FE3005A003020105,
         sent A20B02010730060201FE0A0101, sent A306020105020102",
        "entry 4 differs",
    ),
    (
        "probe-of-an-id-invoked-again",
        "received A106020105020103, sent A306020105020101, received A106020105020103,
         received A10D0201070201FE3005A003020105, sent A20B02010730060201FE0A0100, forget 0100000005,
         received A10D0201080201FE3005A003020105, sent A20B02010830060201FE0A0102",
        "entries 8 agree",
    ),
    (
        "probe-mistyped",
        "received A10A0201070201FE30020500, sent A406020107810102, received A1110201070201FE3080A08002010500000000,
         sent A20B02010730060201FE0A0102, received A1080201070201FD0500, sent A406020107810102",
        "entries 6 agree",
    ),
    ("acknowledge-result-missing", "received A1090201060201FD020105", "entry 1 differs"),
    (
        "probe-sent-beside-a-probe",
        "sent A10D0201060201FE3005A003020105, sent A10D0201070201FE3005A003020105,
         received A20B02010630060201FE0A0102",
        "entries 3 agree",
    ),
];

/// Whole captures that are malformed.
const MALFORMED: &[(&str, &str)] = &[
    ("no-octets", ""),
    ("index-cut", "00000001 00000010 00000002 000000"),
    ("data-cut", "00000001 00000010 00000002 00000010 A4"),
    ("octets-behind", "00000001 00000010 00000002 00000010 A400 00"),
    ("count-4294967295", "FFFFFFFF 00000000"),
    ("data-offset", "00000001 00000011 00000002 00000010 A400"),
    ("data-offset-without-entries", "00000000 00000000"),
    ("kind-3", "00000001 00000010 03000002 00000010 A400"),
    ("zero-octet-1", "00000001 00000010 00010002 00000010 A400"),
    ("length-0", "00000001 00000010 00000000 00000010"),
    ("forget-of-4-octets", "00000001 00000010 02000004 00000010 00000000"),
    ("forget-of-6-octets", "00000001 00000010 02000006 00000010 000000000500"),
    ("gap", "00000002 00000018 00000002 00000018 00000002 0000001B A400 00 A400"),
    ("overlap", "00000002 00000018 00000002 00000018 00000002 00000019 A4A400"),
    ("malformed-behind-an-entry-that-differs", "00000002 00000018 01000001 00000018 03000001 00000019 00A4"),
];

/// A capture by name, made when it is asked for, and its line.
type Long = (&'static str, fn() -> Vec<u8>, &'static str);

/// Samples that cannot be small: captures at a limit.
const LONG: &[Long] = &[
    ("length-4096", || passed_over(1, State::OCTETS), "entries 1 agree"),
    ("length-4097", || passed_over(1, State::OCTETS + 1), "refused 20"),
    ("count-1000", || passed_over(ENTRIES, 1), "entries 1000 agree"),
    ("count-1001", || passed_over(ENTRIES + 1, 1), "refused 20"),
    ("octets-60000", || filled(OCTETS), "entries 15 agree"),
    ("octets-60001", || filled(OCTETS + 1), "refused 20"),
    ("id-asked-again-after-64-more-forgets", asked_again, "entries 131 agree"),
];

/// Tables that are not valid, with their captures.
const TABLES: &[(&str, &str, &str)] = &[
    ("table-with-probe-alone", "0001 0010 0000 0018 0000 0018 0000 0018 FFFFFFFE 02300A00", "00000000 00000008"),
    ("table-not-valid", "0000 0010 0000 0010 0000 0010 0000 0011", "00000000 00000008"),
    ("table-of-edition-3", "FFFF 0003 0000 0018 0000 0018 0000 0018 0000 0018 0000 0018", "00000000 00000008"),
    ("table-before-capture", "0000 0010 0000 0010 0000 0010 0000 0011", "00000000 00000000"),
];

/// A sample: its name, table, capture and line.
pub struct Sample {
    pub name: &'static str,
    pub table: Vec<u8>,
    pub capture: Vec<u8>,
    pub line: String,
}

pub fn samples() -> Vec<Sample> {
    let sample =
        |name, table: &str, capture, line| Sample { name, table: octets(table), capture, line: format!("{line}\n") };
    let days = DAYS.iter().map(|(name, day, line)| sample(name, TABLE, days::capture(&entries(day)), *line));
    let indefinite =
        INDEFINITE.iter().map(|(name, day, line)| sample(name, CONSTRUCTED, days::capture(&entries(day)), *line));
    let named = NAMED.iter().map(|(name, day, line)| sample(name, NAMES, days::capture(&entries(day)), *line));
    let probes = PROBES.iter().map(|(name, day, line)| sample(name, PROBED, days::capture(&entries(day)), *line));
    let malformed = MALFORMED.iter().map(|(name, capture)| sample(name, TABLE, octets(capture), "refused 20"));
    let long = LONG.iter().map(|(name, capture, line)| sample(name, TABLE, capture(), *line));
    let tables = TABLES.iter().map(|(name, table, capture)| sample(name, table, octets(capture), "refused 1"));
    days.chain(indefinite).chain(named).chain(probes).chain(malformed).chain(long).chain(tables).collect()
}

/// The names of the samples' files with their octets. A sample without a table of its own has that of `right.table`.
pub fn files() -> Vec<(String, Vec<u8>)> {
    let right = octets(TABLE);
    let files = samples().into_iter().flat_map(|sample| {
        let own = (sample.table != right).then_some(("table", sample.table));
        let parts = [("capture", sample.capture), ("line", sample.line.into_bytes())].into_iter().chain(own);
        parts.map(move |(part, octets)| (format!("{}.{part}", sample.name), octets))
    });
    files.chain([("right.table".to_string(), octets(TABLE))]).collect()
}

fn octets(text: &str) -> Vec<u8> {
    let digits: Vec<u32> = text.chars().filter_map(|digit| digit.to_digit(16)).collect();
    digits.chunks(2).map(|pair| pair.iter().fold(0, |sum, digit| sum << 4 | *digit) as u8).collect()
}

/// Entries from their kinds and octets in words.
fn entries(day: &str) -> Vec<Logged> {
    let entries = day.split(',').filter_map(|entry| entry.trim().split_once(' '));
    let entries = entries.map(|(kind, text)| match kind {
        "received" => Logged::new(RECEIVED, &octets(text)),
        "sent" => Logged::new(SENT, &octets(text)),
        _ => Logged::new(FORGET, &octets(text)),
    });
    entries.collect()
}

/// So many received Rejects of a length that are passed over.
fn passed_over(count: usize, length: usize) -> Vec<u8> {
    let mut octets = vec![0; length];
    octets[0] = 0xA4;
    days::capture(&vec![Logged::new(RECEIVED, &octets); count])
}

/// An id asked for and forgotten, then 64 others, then the first again.
fn asked_again() -> Vec<u8> {
    let invoke = |id: u8| Logged::new(SENT, &[0xA1, 0x06, 0x02, 0x01, id, 0x02, 0x01, 0x04]);
    let others = 0..=State::RESTING as u8;
    let mut entries: Vec<Logged> = others.flat_map(|id| [invoke(id), Logged::forget(0, i32::from(id))]).collect();
    entries.push(invoke(0));
    days::capture(&entries)
}

fn filled(count: usize) -> Vec<u8> {
    let mut entries = Vec::new();
    days::fill(&mut entries, count);
    days::capture(&entries)
}
