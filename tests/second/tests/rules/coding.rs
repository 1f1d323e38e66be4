//! Lengths and integers at each end of each octet count, written, measured and read back; APDUs measured.

use crate::common::hex;
use second::answer::Problem;
use second::apdu::Outgoing;
use second::code::Asked;
use second::octets::{element_octets, integer, integer_octets, length_octets, levels, split, Writer};
use second::values::{deep, deep_in_forms, element, element_in_form, sized};

/// The first and the last length of each octet count, and the octets of its shortest form.
const LENGTHS: [(usize, &str); 10] = [
    (0, "00"),
    (0x7F, "7F"),
    (0x80, "81 80"),
    (0xFF, "81 FF"),
    (0x100, "82 01 00"),
    (0xFFFF, "82 FF FF"),
    (0x1_0000, "83 01 00 00"),
    (0xFF_FFFF, "83 FF FF FF"),
    (0x100_0000, "84 01 00 00 00"),
    (0xFFFF_FFFF, "84 FF FF FF FF"),
];

/// The ends of each octet count, and the octets of the shortest form.
const INTEGERS: [(i32, &str); 18] = [
    (0, "00"),
    (1, "01"),
    (0x7F, "7F"),
    (0x80, "00 80"),
    (0x7FFF, "7F FF"),
    (0x8000, "00 80 00"),
    (0x7F_FFFF, "7F FF FF"),
    (0x80_0000, "00 80 00 00"),
    (i32::MAX - 1, "7F FF FF FE"),
    (i32::MAX, "7F FF FF FF"),
    (-1, "FF"),
    (-0x80, "80"),
    (-0x81, "FF 7F"),
    (-0x8000, "80 00"),
    (-0x8001, "FF 7F FF"),
    (-0x80_0000, "80 00 00"),
    (-0x80_0001, "FF 7F FF FF"),
    (i32::MIN, "80 00 00 00"),
];

/// What is written into six lent octets.
fn written(write: impl FnOnce(&mut Writer<'_>)) -> Vec<u8> {
    let mut output = [0; 6];
    let mut writer = Writer::new(&mut output);
    write(&mut writer);
    let written = writer.written();
    output[..written].to_vec()
}

#[test]
fn lengths_are_written_in_shortest_form() {
    for (length, octets) in LENGTHS {
        let octets = hex(octets);
        assert_eq!(length_octets(length), octets.len(), "{length}");
        assert_eq!(element_octets(length), 1 + octets.len() + length, "{length}");
        assert_eq!(written(|writer| writer.header(0x04, length)), [&[0x04], &octets[..]].concat(), "{length}");
    }
}

#[test]
fn lengths_are_read_back_in_every_form() {
    for (length, octets) in LENGTHS {
        let shortest = hex(octets).len() - 1;
        if length > 0x100_0000 {
            assert!(split(&[&[0x04][..], &hex(octets), &[0]].concat(), 16).is_none(), "{length}");
            continue;
        }
        let contents = vec![0x41; length];
        for form in shortest..=4 {
            let whole = element_in_form(0x04, &contents, form);
            assert_eq!(whole.len(), 2 + form + length, "{length} in {form}");
            assert_eq!(whole == element(0x04, &contents), form == shortest, "{length} in {form}");
            let (read, rest) = split(&whole, 1).unwrap();
            assert!(read.contents() == contents && rest.is_empty(), "{length} in {form}");
            assert!(split(&whole[..whole.len() - 1], 1).is_none(), "{length} in {form}, one octet short");
        }
    }
}

#[test]
fn integers_are_written_in_shortest_form_and_read_back() {
    for (number, octets) in INTEGERS {
        let contents = hex(octets);
        assert_eq!(integer_octets(number), contents.len(), "{number}");
        let whole = written(|writer| writer.integer(0x02, number));
        assert_eq!(whole, [&[0x02, contents.len() as u8], &contents[..]].concat(), "{number}");
        assert_eq!(levels(&whole, 16), Some(1), "{number}");
        assert_eq!(integer(&contents), Some(number));
    }
}

#[test]
fn integers_that_are_not_shortest_or_too_long_are_none() {
    for (number, octets) in INTEGERS {
        let more = if number < 0 { 0xFF } else { 0x00 };
        assert_eq!(integer(&[&[more], &hex(octets)[..]].concat()), None, "{number}");
    }
    for octets in ["", "00 80 00 00 00", "FF 7F FF FF FF", "01 00 00 00 00"] {
        assert_eq!(integer(&hex(octets)), None, "{octets}");
    }
}

#[test]
fn apdus_are_measured_as_they_are_written() {
    let (all, some) = (deep_in_forms(0x30, 16, false, |_| true), deep_in_forms(0x30, 9, true, |level| level % 2 == 0));
    let sized = [200, 300, 65_539].map(|octets| sized(octets, octets == 300));
    let name = [0x2A; 16];
    let values = [vec![Vec::new(), deep(0x30, 1, false), deep(0x30, 16, true), all, some], sized.to_vec()].concat();
    for (number, value) in INTEGERS.iter().flat_map(|(number, _)| values.iter().map(move |value| (*number, value))) {
        let problem = Problem::MISTYPED_APDU;
        let value_levels = levels(value, 99).unwrap_or(0);
        for (apdu, value_levels) in [
            (Outgoing::Invoke { id: number, linked: None, code: Asked::Local(7), value }, value_levels),
            (Outgoing::Invoke { id: 5, linked: Some(number), code: Asked::Local(number), value }, value_levels),
            (Outgoing::Result { id: number, code: Asked::Local(number), value }, value_levels),
            (Outgoing::Error { id: number, code: Asked::Local(number), value }, value_levels),
            (Outgoing::Invoke { id: number, linked: None, code: Asked::Name(&name[..1]), value }, value_levels),
            (Outgoing::Result { id: number, code: Asked::Name(&name), value }, value_levels),
            (Outgoing::Error { id: number, code: Asked::Name(&name[..9]), value }, value_levels),
            (Outgoing::Reject { id: Some(number), problem }, 0),
            (Outgoing::Reject { id: None, problem }, 0),
        ] {
            let mut output = vec![0xA5; apdu.octets()];
            assert_eq!(apdu.write(&mut output), output.len(), "{number}");
            assert_eq!(levels(&output, 99), Some(apdu.levels(value_levels)), "{number}");
        }
    }
}
