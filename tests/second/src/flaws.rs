//! Kinds of fault that octets are made with, by name: what breaks a rule, and where it must stand to break it.
//! Follows docs/RULES.md, "Well-formed octets", "Indefinite lengths" and "Where octets are at fault", and their readings.

pub const IDENTIFIER: &str = "identifier";
pub const HIGH_TAG: &str = "high tag";
pub const LENGTH: &str = "length";
pub const CONTENTS: &str = "contents";
pub const LEVEL: &str = "level";
pub const MISSING_CLOSE: &str = "missing close";
pub const CLOSING_OCTETS: &str = "closing octets";
pub const OCTETS_BEHIND: &str = "octets behind";

/// The rules that one element can break.
pub const CLASSES: [&str; 7] = [IDENTIFIER, HIGH_TAG, LENGTH, CONTENTS, LEVEL, MISSING_CLOSE, CLOSING_OCTETS];

/// Where octets must stand to be at fault.
#[derive(Clone, Copy, Debug, PartialEq, Eq)]
pub enum Stands {
    Anywhere,
    /// Where the contents around them end, or all octets do.
    AtEnd,
    InDefinite,
    InIndefinite,
    AtEndInDefinite,
    AtEndInIndefinite,
    /// At the first level that is not allowed.
    TooDeep,
}

/// What more can be put behind the octets, so that it stands inside.
#[derive(Clone, Copy, Debug, PartialEq, Eq)]
pub enum Holds {
    Nothing,
    /// The last octet is the length of what is put inside.
    Counted,
    /// The octets stay as they are.
    Uncounted,
}

/// A kind of fault: its name, the rule it breaks, and the element that breaks it.
#[derive(Clone, Copy, Debug, PartialEq, Eq)]
pub struct Kind {
    pub name: &'static str,
    pub class: &'static str,
    pub octets: &'static [u8],
    pub stands: Stands,
    pub holds: Holds,
}

impl Kind {
    pub fn is_at_end(&self) -> bool {
        matches!(self.stands, Stands::AtEnd | Stands::AtEndInDefinite | Stands::AtEndInIndefinite)
    }

    /// Whether the element around must be of indefinite length, or must not; none if it need not be either.
    pub fn around(&self) -> Option<bool> {
        match self.stands {
            Stands::InIndefinite | Stands::AtEndInIndefinite => Some(true),
            Stands::InDefinite | Stands::AtEndInDefinite => Some(false),
            _ => None,
        }
    }

    /// The levels at which it can stand.
    pub fn levels(&self) -> (usize, usize) {
        match (self.stands, self.around()) {
            (Stands::TooDeep, _) => (17, 17),
            (_, Some(_)) => (2, 16),
            _ => (1, 16),
        }
    }

    const fn at(self, stands: Stands) -> Kind {
        Kind { stands, ..self }
    }

    const fn holding(self, holds: Holds) -> Kind {
        Kind { holds, ..self }
    }
}

const fn kind(class: &'static str, name: &'static str, octets: &'static [u8]) -> Kind {
    Kind { name, class, octets, stands: Stands::Anywhere, holds: Holds::Nothing }
}

pub const KINDS: &[Kind] = &[
    kind(IDENTIFIER, "identifier 00 and contents", &[0x00, 0x01, 0x41]),
    kind(IDENTIFIER, "identifier 10", &[0x10, 0x00]),
    kind(IDENTIFIER, "identifier 11", &[0x11, 0x00]),
    kind(IDENTIFIER, "identifier 21", &[0x21, 0x00]).holding(Holds::Counted),
    kind(IDENTIFIER, "identifier 22", &[0x22, 0x00]).holding(Holds::Counted),
    kind(IDENTIFIER, "identifier 25", &[0x25, 0x81, 0x00]).holding(Holds::Counted),
    kind(IDENTIFIER, "identifier 26", &[0x26, 0x00]).holding(Holds::Counted),
    kind(IDENTIFIER, "identifier 2A", &[0x2A, 0x00]).holding(Holds::Counted),
    kind(IDENTIFIER, "identifier 25 of indefinite length", &[0x25, 0x80, 0x00, 0x00]),
    kind(HIGH_TAG, "high tag first octet 80", &[0x9F, 0x80, 0x7F, 0x00]),
    kind(HIGH_TAG, "constructed high tag first octet 80", &[0xBF, 0x80, 0x1F, 0x00]).holding(Holds::Counted),
    kind(HIGH_TAG, "high tag number 30", &[0x9F, 0x1E, 0x00]),
    kind(HIGH_TAG, "constructed high tag number 30", &[0x3F, 0x1E, 0x00]).holding(Holds::Counted),
    kind(HIGH_TAG, "high tag number 0", &[0x5F, 0x00, 0x00]),
    kind(HIGH_TAG, "high tag of five more octets", &[0x9F, 0xFF, 0xFF, 0xFF, 0xFF, 0x7F, 0x00]),
    kind(HIGH_TAG, "high tag without more octets", &[0x9F]).at(Stands::AtEnd),
    kind(HIGH_TAG, "high tag without last octet", &[0xBF, 0xFF, 0xFF]).at(Stands::AtEnd),
    kind(HIGH_TAG, "high tag without length", &[0x9F, 0x81, 0x00]).at(Stands::AtEnd),
    kind(LENGTH, "no length", &[0x04]).at(Stands::AtEnd),
    kind(LENGTH, "no length of a constructed one", &[0x30]).at(Stands::AtEnd),
    kind(LENGTH, "length cut short", &[0x04, 0x82, 0x00]).at(Stands::AtEnd),
    kind(LENGTH, "length of five octets", &[0x30, 0x85, 0x00, 0x00, 0x00, 0x00, 0x00]).holding(Holds::Counted),
    kind(LENGTH, "length FF", &[0x04, 0xFF]),
    kind(LENGTH, "80 of a primitive", &[0x04, 0x80, 0x00, 0x00]),
    kind(LENGTH, "80 of 02", &[0x02, 0x80, 0x05, 0x00, 0x00]),
    kind(LENGTH, "80 of a primitive high tag", &[0x9F, 0x1F, 0x80, 0x00, 0x00]),
    kind(LENGTH, "length over every end", &[0x04, 0x84, 0xFF, 0xFF, 0xFF, 0xFF]),
    kind(LENGTH, "constructed, length over every end", &[0x30, 0x84, 0x7F, 0xFF, 0xFF, 0xFF]).holding(Holds::Uncounted),
    kind(LENGTH, "contents over the end by one", &[0x04, 0x02, 0x41]).at(Stands::AtEnd),
    kind(LENGTH, "constructed, contents over the end", &[0xA0, 0x7F, 0x05, 0x00])
        .at(Stands::AtEnd)
        .holding(Holds::Uncounted),
    kind(LENGTH, "contents over the end of its parent", &[0x04, 0x03, 0x41, 0x41]).at(Stands::AtEndInDefinite),
    kind(CONTENTS, "01 without contents", &[0x01, 0x00]),
    kind(CONTENTS, "01 with two octets", &[0x01, 0x02, 0x00, 0x00]),
    kind(CONTENTS, "02 without contents", &[0x02, 0x00]),
    kind(CONTENTS, "02 with needless 00", &[0x02, 0x02, 0x00, 0x7F]),
    kind(CONTENTS, "02 with needless FF", &[0x02, 0x02, 0xFF, 0x80]),
    kind(CONTENTS, "05 with contents", &[0x05, 0x01, 0x00]),
    kind(CONTENTS, "06 without contents", &[0x06, 0x00]),
    kind(CONTENTS, "06 without an end", &[0x06, 0x02, 0x2A, 0x81]),
    kind(CONTENTS, "06 starting with 80", &[0x06, 0x02, 0x80, 0x01]),
    kind(CONTENTS, "06 with a later part starting with 80", &[0x06, 0x03, 0x01, 0x80, 0x01]),
    kind(CONTENTS, "0A without contents", &[0x0A, 0x81, 0x00]),
    kind(CONTENTS, "0A with needless 00", &[0x0A, 0x02, 0x00, 0x01]),
    kind(LEVEL, "primitive too deep", &[0x05, 0x00]).at(Stands::TooDeep),
    kind(LEVEL, "constructed too deep", &[0x30, 0x00]).at(Stands::TooDeep).holding(Holds::Counted),
    kind(LEVEL, "indefinite too deep", &[0x30, 0x80, 0x00, 0x00]).at(Stands::TooDeep),
    kind(MISSING_CLOSE, "not closed, nothing inside", &[0x30, 0x80]).at(Stands::AtEnd),
    kind(MISSING_CLOSE, "high tag not closed, nothing inside", &[0xBF, 0x1F, 0x80]).at(Stands::AtEnd),
    kind(MISSING_CLOSE, "not closed in a definite one", &[0xA0, 0x80]).at(Stands::AtEndInDefinite),
    kind(MISSING_CLOSE, "not closed in an indefinite one", &[0x30, 0x80]).at(Stands::AtEndInIndefinite),
    kind(CLOSING_OCTETS, "00 00 in definite contents", &[0x00, 0x00]).at(Stands::InDefinite),
    kind(CLOSING_OCTETS, "lone 00 in definite contents", &[0x00]).at(Stands::AtEndInDefinite),
    kind(CLOSING_OCTETS, "lone 00 in indefinite contents", &[0x00]).at(Stands::AtEndInIndefinite),
    kind(CLOSING_OCTETS, "00 01 in indefinite contents", &[0x00, 0x01]).at(Stands::InIndefinite),
    kind(CLOSING_OCTETS, "00 05 in indefinite contents", &[0x00, 0x05]).at(Stands::InIndefinite),
    kind(CLOSING_OCTETS, "00 80 in indefinite contents", &[0x00, 0x80]).at(Stands::InIndefinite),
    kind(CLOSING_OCTETS, "00 81 00 in indefinite contents", &[0x00, 0x81, 0x00]).at(Stands::InIndefinite),
];

/// What stands behind one good element.
pub const BEHIND: &[Kind] = &[
    kind(OCTETS_BEHIND, "an octet behind", &[0x41]),
    kind(OCTETS_BEHIND, "00 behind", &[0x00]),
    kind(OCTETS_BEHIND, "00 00 behind", &[0x00, 0x00]),
    kind(OCTETS_BEHIND, "a good element behind", &[0x05, 0x00]),
    kind(OCTETS_BEHIND, "two good elements behind", &[0x30, 0x80, 0x00, 0x00, 0x02, 0x01, 0x05]),
    kind(OCTETS_BEHIND, "an element at fault behind", &[0x02, 0x00]),
    kind(OCTETS_BEHIND, "an element at fault inside behind", &[0x30, 0x02, 0x10, 0x00]),
    kind(OCTETS_BEHIND, "an element not closed behind", &[0x30, 0x80, 0x05, 0x00]),
];

/// What comes after the first fault.
#[derive(Clone, Copy, Debug, PartialEq, Eq)]
pub enum Second {
    /// A fault in the contents of the element at fault.
    Inside,
    /// A fault in an element behind it, in the same contents.
    Sibling,
    /// A fault in an element behind one around it.
    Around,
    /// An element around it is not closed.
    Unclosed,
    /// Octets behind the outer element.
    Behind,
}

impl Second {
    pub const ALL: [Second; 5] = [Second::Inside, Second::Sibling, Second::Around, Second::Unclosed, Second::Behind];

    pub fn name(self) -> &'static str {
        match self {
            Second::Inside => "a fault inside it",
            Second::Sibling => "a fault in a later sibling",
            Second::Around => "a fault behind an element around it",
            Second::Unclosed => "a missing close around it",
            Second::Behind => "octets behind the outer element",
        }
    }
}

/// Where the octets at fault are given.
#[derive(Clone, Copy, Debug, PartialEq, Eq)]
pub enum Given {
    Received,
    ValueReceived,
    Request,
}

impl Given {
    pub const ALL: [Given; 3] = [Given::Received, Given::ValueReceived, Given::Request];

    pub fn name(self) -> &'static str {
        match self {
            Given::Received => "received",
            Given::ValueReceived => "in a received value",
            Given::Request => "in a request",
        }
    }
}
