//! Arguments of probe and acknowledge by name: right ones in every form, and ones whose inside is wrong.
//! Follows docs/RULES.md, "Probe and acknowledge".

use crate::probe::{ACKNOWLEDGE, PROBE};
use crate::values::{element, element_in_form, indefinite, integer_contents};

/// What it is, the code of the operation, and the argument that asks about an id, or would.
pub type Inside = (&'static str, i32, fn(i32) -> Vec<u8>);

/// Arguments that ask about the id.
pub const RIGHT: &[Inside] = &[
    ("probe, definite lengths", PROBE, |id| element(0x30, &element(0xA0, &number(id)))),
    ("probe, indefinite 30", PROBE, |id| indefinite(0x30, &element(0xA0, &number(id)))),
    ("probe, indefinite A0", PROBE, |id| element(0x30, &indefinite(0xA0, &number(id)))),
    ("probe, indefinite 30 and A0", PROBE, |id| indefinite(0x30, &indefinite(0xA0, &number(id)))),
    ("probe, 30 in long form", PROBE, |id| element_in_form(0x30, &element(0xA0, &number(id)), 1)),
    ("probe, A0 in long form", PROBE, |id| element(0x30, &element_in_form(0xA0, &number(id), 4))),
    ("probe, id in long form", PROBE, |id| element(0x30, &element(0xA0, &long(id)))),
    ("acknowledge, shortest length", ACKNOWLEDGE, number),
    ("acknowledge, long form", ACKNOWLEDGE, long),
];

/// Arguments that are no right ones, though well-formed; an empty one is none.
pub const WRONG: &[Inside] = &[
    ("probe, no argument", PROBE, |_| Vec::new()),
    ("probe, another type", PROBE, |id| element(0x31, &element(0xA0, &number(id)))),
    ("probe, an acknowledge's argument", PROBE, number),
    ("probe, A0 without 30", PROBE, |id| element(0xA0, &number(id))),
    ("probe, nothing in 30", PROBE, |_| vec![0x30, 0x00]),
    ("probe, nothing in an indefinite 30", PROBE, |_| indefinite(0x30, &[])),
    ("probe, 05 00 in 30", PROBE, |_| vec![0x30, 0x02, 0x05, 0x00]),
    ("probe, the id in 30", PROBE, |id| element(0x30, &number(id))),
    ("probe, nothing in A0", PROBE, |_| vec![0x30, 0x02, 0xA0, 0x00]),
    ("probe, nothing in an indefinite A0", PROBE, |_| element(0x30, &indefinite(0xA0, &[]))),
    ("probe, 05 00 in A0", PROBE, |_| vec![0x30, 0x04, 0xA0, 0x02, 0x05, 0x00]),
    ("probe, id of five octets", PROBE, |_| element(0x30, &element(0xA0, &FIVE))),
    ("probe, id of five octets in indefinite lengths", PROBE, |_| indefinite(0x30, &indefinite(0xA0, &FIVE))),
    ("probe, id of 00 80 00 00 00", PROBE, |_| element(0x30, &element(0xA0, &[2, 5, 0, 0x80, 0, 0, 0]))),
    ("probe, 80 for A0", PROBE, |id| element(0x30, &element(0x80, &integer_contents(id)))),
    ("probe, 80 around an 02", PROBE, |id| element(0x30, &element(0x80, &number(id)))),
    ("probe, A1 for A0", PROBE, |id| element(0x30, &element(0xA1, &number(id)))),
    ("probe, 30 for A0", PROBE, |id| element(0x30, &element(0x30, &number(id)))),
    ("probe, E0 for A0", PROBE, |id| element(0x30, &element(0xE0, &number(id)))),
    ("probe, A0 in A0", PROBE, |id| element(0x30, &element(0xA0, &element(0xA0, &number(id))))),
    ("probe, A0 twice", PROBE, |id| element(0x30, &element(0xA0, &number(id)).repeat(2))),
    ("probe, an element behind A0", PROBE, |id| {
        element(0x30, &[element(0xA0, &number(id)), vec![0x05, 0x00]].concat())
    }),
    ("probe, an element behind an indefinite A0", PROBE, |id| {
        indefinite(0x30, &[indefinite(0xA0, &number(id)), vec![0x04, 0x00]].concat())
    }),
    ("probe, an element before A0", PROBE, |id| element(0x30, &[number(id), element(0xA0, &number(id))].concat())),
    ("probe, two ids in A0", PROBE, |id| element(0x30, &element(0xA0, &number(id).repeat(2)))),
    ("probe, an element behind the id", PROBE, |id| {
        element(0x30, &element(0xA0, &[number(id), vec![0x05, 0x00]].concat()))
    }),
    ("probe, an element behind the id in indefinite lengths", PROBE, |id| {
        indefinite(0x30, &indefinite(0xA0, &[number(id), vec![0x30, 0x00]].concat()))
    }),
    ("probe, an element before the id", PROBE, |id| {
        element(0x30, &element(0xA0, &[vec![0x05, 0x00], number(id)].concat()))
    }),
    ("probe, 0A for 02", PROBE, |id| element(0x30, &element(0xA0, &element(0x0A, &integer_contents(id))))),
    ("probe, 82 for 02", PROBE, |id| element(0x30, &element(0xA0, &element(0x82, &integer_contents(id))))),
    ("probe, 04 for 02", PROBE, |id| element(0x30, &element(0xA0, &element(0x04, &integer_contents(id))))),
    ("acknowledge, no argument", ACKNOWLEDGE, |_| Vec::new()),
    ("acknowledge, 05 00", ACKNOWLEDGE, |_| vec![0x05, 0x00]),
    ("acknowledge, a probe's argument", ACKNOWLEDGE, |id| element(0x30, &element(0xA0, &number(id)))),
    ("acknowledge, A0 around the id", ACKNOWLEDGE, |id| element(0xA0, &number(id))),
    ("acknowledge, 0A for 02", ACKNOWLEDGE, |id| element(0x0A, &integer_contents(id))),
    ("acknowledge, id of five octets", ACKNOWLEDGE, |_| FIVE.to_vec()),
    ("acknowledge, id of 00 80 00 00 00", ACKNOWLEDGE, |_| vec![2, 5, 0, 0x80, 0, 0, 0]),
    ("acknowledge, id of nine octets", ACKNOWLEDGE, |_| vec![2, 9, 1, 0, 0, 0, 0, 0, 0, 0, 5]),
];

const FIVE: [u8; 7] = [0x02, 0x05, 0x01, 0x00, 0x00, 0x00, 0x05];

fn number(id: i32) -> Vec<u8> {
    element(0x02, &integer_contents(id))
}

fn long(id: i32) -> Vec<u8> {
    element_in_form(0x02, &integer_contents(id), 2)
}

/// The right argument with definite lengths.
pub fn plain(code: i32, id: i32) -> Vec<u8> {
    match code {
        PROBE => element(0x30, &element(0xA0, &number(id))),
        _ => number(id),
    }
}
