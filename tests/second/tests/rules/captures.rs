//! The form of a capture, rule by rule, and the captures drawn from a seed and stored.

use std::collections::BTreeSet;
use std::fs;
use std::path::Path;

use crate::common::hex;
use second::capture::{Kind, Malformed, Reader};
use second::captures;
use second::days::{self, Logged};
use second::reached::{Reached, CAPTURES, LEAST};
use second::replay::{self, Verdict};
use second::samples::{files, samples};
use second::ways;

/// The first rule that a capture breaks.
fn broken(capture: &[u8]) -> Option<Malformed> {
    Reader::new(capture).err()
}

fn of(entries: &[(u8, usize)]) -> Vec<u8> {
    let entries: Vec<Logged> = entries.iter().map(|&(kind, length)| Logged::new(kind, &vec![7; length])).collect();
    days::capture(&entries)
}

#[test]
fn entries_are_read_in_order() {
    let capture = hex("00000003 00000020 00000002 00000020 01000001 00000022 02000005 00000023 A400 00 0100000005");
    let entries: Vec<_> = Reader::new(&capture).unwrap().map(|entry| (entry.kind, entry.octets)).collect();
    let expected = [(Kind::Received, "A400"), (Kind::Sent, "00"), (Kind::Forget, "0100000005")];
    assert_eq!(entries, expected.map(|(kind, octets)| (kind, hex(octets))).each_ref().map(|(k, o)| (*k, &o[..])));
}

#[test]
fn header_and_index() {
    let cases = [
        ("", Some(Malformed::HeaderCut)),
        ("00000000 000000", Some(Malformed::HeaderCut)),
        ("00000000 00000008", None),
        ("00000000 00000000", Some(Malformed::DataOffset)),
        ("00000000 00000010", Some(Malformed::DataOffset)),
        ("00000000 00000008 00", Some(Malformed::OctetsBehind)),
        ("00000001 00000008", Some(Malformed::DataOffset)),
        ("00000001 00000010", Some(Malformed::IndexCut)),
        ("00000001 00000010 00000002 000000", Some(Malformed::IndexCut)),
        ("20000000 00000008", Some(Malformed::Count)),
        ("FFFFFFFF 00000000", Some(Malformed::Count)),
        ("000003E9 00001F50", Some(Malformed::Count)),
        ("000003E8 00001F48", Some(Malformed::IndexCut)),
    ];
    for (capture, rule) in cases {
        assert_eq!(broken(&hex(capture)), rule, "{capture}");
    }
}

#[test]
fn places_of_entries() {
    let cases = [
        ("00000002 00000010 A400", None),
        ("01000002 00000010 A400", None),
        ("02000005 00000010 FF00000000", None),
        ("03000002 00000010 A400", Some(Malformed::Kind)),
        ("FF000002 00000010 A400", Some(Malformed::Kind)),
        ("00010002 00000010 A400", Some(Malformed::ZeroOctet)),
        ("00000000 00000010", Some(Malformed::NoOctets)),
        ("02000000 00000010", Some(Malformed::NoOctets)),
        ("02000004 00000010 00000000", Some(Malformed::ForgetLength)),
        ("02000006 00000010 000000000000", Some(Malformed::ForgetLength)),
        ("00000002 00000011 A40000", Some(Malformed::Gap)),
        ("00000002 00010010 A400", Some(Malformed::Gap)),
        ("00000002 0000000F A400", Some(Malformed::Overlap)),
        ("00000002 00000000 A400", Some(Malformed::Overlap)),
        ("00000002 00000010 A4", Some(Malformed::DataCut)),
        ("00000002 00000010 A40000", Some(Malformed::OctetsBehind)),
        ("00001000 00000010 A4", Some(Malformed::DataCut)),
        ("00001001 00000010 A4", Some(Malformed::EntryTooLong)),
    ];
    for (place, rule) in cases {
        assert_eq!(broken(&hex(&format!("00000001 00000010 {place}"))), rule, "{place}");
    }
    let second = |offset: &str| broken(&hex(&format!("00000002 00000018 00000001 00000018 00000001 {offset} A4A4")));
    assert_eq!(second("00000019"), None);
    assert_eq!((second("0000001A"), second("00000018")), (Some(Malformed::Gap), Some(Malformed::Overlap)));
}

#[test]
fn limits_of_octets_and_entries() {
    assert_eq!((broken(&of(&[(0, 4096)])), broken(&of(&[(0, 4097)]))), (None, Some(Malformed::EntryTooLong)));
    assert_eq!((broken(&of(&[(0, 1); 1000])), broken(&of(&[(0, 1); 1001]))), (None, Some(Malformed::Count)));
    // 8 octets, 14 entries of 4,104 with their places, and one with the rest.
    let filled = |last: usize| broken(&of(&[&[(0, 4096); 14][..], &[(0, last)]].concat()));
    assert_eq!((filled(2528), filled(2529)), (None, Some(Malformed::TooLong)));
}

#[test]
fn stored_samples_are_these() {
    let folder = Path::new(env!("CARGO_MANIFEST_DIR")).join("../replay");
    for (name, octets) in files() {
        assert!(fs::read(folder.join(&name)).is_ok_and(|stored| stored == octets), "{name}");
    }
    let names: BTreeSet<_> = samples().iter().map(|sample| sample.name).collect();
    assert_eq!(names.len(), samples().len());
    for sample in samples() {
        assert_eq!(replay::verdict(&sample.table, &sample.capture).line(), sample.line, "{}", sample.name);
    }
}

#[test]
fn captures_are_the_same_for_the_same_seed() {
    for seed in [0, 1, 30, 80, 120, 149, u64::MAX] {
        let [one, other] = [captures::draw(seed), captures::draw(seed)];
        assert_eq!((one.table, one.capture), (other.table, other.capture));
    }
    assert_ne!(captures::draw(1).capture, captures::draw(1 + captures::sorts() as u64).capture);
}

#[test]
fn captures_are_answered_in_the_way_they_were_made_for() {
    for seed in 0..captures::sorts() as u64 {
        let drawn = captures::draw(seed);
        let way = ways::way(&drawn.table, &drawn.capture);
        assert!(drawn.way.is_none_or(|wanted| wanted == way), "{}: {way}", drawn.name);
        let open = matches!(replay::verdict(&drawn.table, &drawn.capture), Verdict::Malformed(_));
        assert!(drawn.way.is_some() || !open, "{} is malformed", drawn.name);
    }
}

#[test]
fn captures_reach_every_row() {
    let (report, enough) = Reached::of(CAPTURES).report(LEAST);
    assert!(enough, "{report}");
}
