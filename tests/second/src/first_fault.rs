//! The first rule that octets break as a table, in the order of docs/TABLES.md, "The first fault".

use crate::asked::hex;
use crate::listing::PARTS;

const SIZES: [usize; 5] = [8, 6, 4, 4, 17];
const MOST: [usize; 5] = [64, 64, 256, 256, 128];
pub const LONGEST_FILE: usize = 5144;

/// Every rule by name, in the order of the faults as far as there is one.
pub const RULES: [&str; 46] = [
    "file length",
    "edition",
    "header length",
    "operation offset",
    "error offset",
    "error pair offset",
    "child pair offset",
    "name offset",
    "table length",
    "operation count",
    "operation class",
    "operation flags",
    "argument optional",
    "argument type",
    "result optional",
    "result type",
    "result of class",
    "operation name index",
    "probe class",
    "probe argument type",
    "probe argument optional",
    "probe result type",
    "probe result optional",
    "probe without acknowledge",
    "operation order",
    "error count",
    "error flags",
    "parameter optional",
    "parameter type",
    "error name index",
    "error order",
    "error pair count",
    "error pair first index",
    "error pair second index",
    "error pair class",
    "error pair order",
    "child pair count",
    "child pair first index",
    "child pair second index",
    "child pair class",
    "child pair order",
    "name count",
    "name length",
    "name contents",
    "name padding",
    "name twice",
];

/// What a fault is of: an entry by its part and its index there.
#[derive(Clone, Copy, Debug, PartialEq, Eq)]
pub enum Place {
    File,
    Header,
    Table,
    Entry(usize, usize),
}

#[derive(Clone, Debug, PartialEq, Eq)]
pub struct Fault {
    pub rule: String,
    pub place: Place,
    pub says: String,
}

impl Fault {
    /// What `tabcheck` writes of a file with this fault, its line end included.
    pub fn line(&self, name: &str) -> String {
        let says = &self.says;
        match self.place {
            Place::File => format!("{name}: {says}\n"),
            Place::Header => format!("{name}: header: {says}\n"),
            Place::Table => format!("{name}: table: {says}\n"),
            Place::Entry(part, index) => format!("{name}: {} {index}: {says}\n", PARTS[part]),
        }
    }
}

/// The first fault of the octets; none where they are a valid table.
pub fn first_fault(octets: &[u8]) -> Option<Fault> {
    check(octets).err()
}

fn check(octets: &[u8]) -> Result<(), Fault> {
    let length = octets.len();
    require(length <= LONGEST_FILE, "file length", Place::File, || {
        format!("longer than any table, which has at most {LONGEST_FILE} octets")
    })?;
    // Octets that end within the number of the edition are taken as a header that is cut short.
    let second = octets.starts_with(&[0xFF, 0xFF]);
    let edition = if second && length >= 4 { half(octets, 2) } else { 2 };
    require(edition == 2, "edition", Place::Header, || format!("edition is {edition}, expected 2"))?;
    let (mark, parts) = if second { (4, 5) } else { (0, 4) };
    let header = mark + 4 * parts;
    require(length >= header, "header length", Place::Header, || format!("{length} octets, expected {header}"))?;
    let parts = split(octets, (mark, parts))?;
    let flags = if second { [0x0F, 0x03] } else { [0x03, 0x01] };
    entries(&parts, flags)
}

/// Part by part, the counts and the entries.
fn entries(parts: &Parts<'_>, flags: [u8; 2]) -> Result<(), Fault> {
    for (part, entries) in parts.iter().enumerate() {
        let (name, count, most) = (PARTS[part], entries.len(), MOST[part]);
        require(count <= most, &format!("{name} count"), Place::Header, || {
            format!("{name} count is {count}, expected at most {most}")
        })?;
        for index in 0..count {
            match part {
                0 => operation(parts, index, flags[0])?,
                1 => error(parts, index, flags[1])?,
                4 => self::name(entries, index)?,
                _ => pair(parts, part, index)?,
            }
        }
    }
    Ok(())
}

/// The entries of each part, if the parts stand end to end and fill the octets; edition 1 has no names.
fn split(octets: &[u8], (mark, parts): (usize, usize)) -> Result<[Vec<&[u8]>; 5], Fault> {
    let (mut end, mut places) = (mark + 4 * parts, [(octets.len(), 0); 5]);
    for (part, name) in PARTS.into_iter().enumerate().take(parts) {
        let (count, offset) = (half(octets, mark + part * 4), half(octets, mark + part * 4 + 2));
        require(offset == end, &format!("{name} offset"), Place::Header, || {
            format!("{name} offset is {offset}, expected {end}")
        })?;
        places[part] = (offset, count);
        end += count * SIZES[part];
    }
    let length = octets.len();
    require(length == end, "table length", Place::Table, || format!("{length} octets, expected {end}"))?;
    Ok([0, 1, 2, 3, 4].map(|part| {
        let (offset, count) = places[part];
        octets[offset..].chunks_exact(SIZES[part]).take(count).collect()
    }))
}

type Parts<'a> = [Vec<&'a [u8]>; 5];

fn operation(parts: &Parts<'_>, index: usize, allowed: u8) -> Result<(), Fault> {
    let place = Place::Entry(0, index);
    let [class, argument, result, flags] = [4, 5, 6, 7].map(|at| parts[0][index][at]);
    require((1..=5).contains(&class), "operation class", place, || format!("class is {class}, expected 1 to 5"))?;
    require(flags & !allowed == 0, "operation flags", place, || {
        format!("flags are {flags:02x}, expected 00 to {allowed:02x}")
    })?;
    value("argument", argument, flags & 1 == 1, place)?;
    value("result", result, flags & 2 == 2, place)?;
    require(result == 0 || (class != 3 && class != 5), "result of class", place, || {
        format!("result type is {result:02x}, expected 00 for class {class}")
    })?;
    name_index(parts, 0, index)?;
    probe(parts, index)?;
    rising(parts, 0, index)
}

/// The local code of an operation, if it is that of a probe or acknowledge.
fn probe_code(parts: &Parts<'_>, index: usize) -> Option<i32> {
    match code(parts, 0, index) {
        (false, number) => Some(number as i32).filter(|code| matches!(code, -3 | -2)),
        (true, _) => None,
    }
}

/// The rules of a probe and an acknowledge.
fn probe(parts: &Parts<'_>, index: usize) -> Result<(), Fault> {
    let Some(code) = probe_code(parts, index) else { return Ok(()) };
    let place = Place::Entry(0, index);
    let (words, type_of) = if code == -2 { ("code -2 (probe)", 0x30) } else { ("code -3 (acknowledge)", 0x02) };
    let [class, argument, result, flags] = [4, 5, 6, 7].map(|at| parts[0][index][at]);
    require(class == 1 || class == 2, "probe class", place, || {
        format!("class is {class}, expected 1 or 2 for {words}")
    })?;
    for (name, kind, right, flag) in [("argument", argument, type_of, 1), ("result", result, 0x0A, 2)] {
        require(kind == right, &format!("probe {name} type"), place, || {
            format!("{name} type is {kind:02x}, expected {right:02x} for {words}")
        })?;
        require(flags & flag == 0, &format!("probe {name} optional"), place, || {
            format!("{name} is optional, expected not optional for {words}")
        })?;
    }
    let acknowledged = code == -3 || (0..parts[0].len()).any(|other| probe_code(parts, other) == Some(-3));
    require(acknowledged, "probe without acknowledge", place, || {
        format!("{words} needs an operation with code -3 (acknowledge)")
    })
}

fn error(parts: &Parts<'_>, index: usize, allowed: u8) -> Result<(), Fault> {
    let place = Place::Entry(1, index);
    let [parameter, flags] = [4, 5].map(|at| parts[1][index][at]);
    require(flags & !allowed == 0, "error flags", place, || {
        format!("flags are {flags:02x}, expected 00 {} {allowed:02x}", if allowed == 1 { "or" } else { "to" })
    })?;
    value("parameter", parameter, flags & 1 == 1, place)?;
    name_index(parts, 1, index)?;
    rising(parts, 1, index)
}

/// Whether an entry's code is the index of a name, and the number that it is.
fn code(parts: &Parts<'_>, part: usize, index: usize) -> (bool, u32) {
    let entry = parts[part][index];
    let number = entry[..4].iter().fold(0, |number, &octet| number << 8 | u32::from(octet));
    (if part == 0 { entry[7] & 4 != 0 } else { entry[5] & 2 != 0 }, number)
}

fn name_index(parts: &Parts<'_>, part: usize, index: usize) -> Result<(), Fault> {
    let ((named, number), names) = (code(parts, part, index), parts[4].len());
    let rule = ["operation name index", "error name index"][part];
    require(!named || (number as usize) < names, rule, Place::Entry(part, index), || {
        format!("name index is {number}, expected below {names}")
    })
}

/// Its length, its contents, what stands behind them, and that it is none of those before it.
fn name(entries: &[&[u8]], index: usize) -> Result<(), Fault> {
    let (place, entry) = (Place::Entry(4, index), entries[index]);
    let length = usize::from(entry[0]);
    require((1..=16).contains(&length), "name length", place, || format!("length is {length}, expected 1 to 16"))?;
    let (contents, behind) = entry[1..].split_at(length);
    let ends = |at: usize| contents[at] < 0x80;
    let right = ends(length - 1) && (0..length).all(|at| contents[at] != 0x80 || at > 0 && !ends(at - 1));
    require(right, "name contents", place, || format!("{} is no OBJECT IDENTIFIER", hex(contents)))?;
    require(behind.iter().all(|&octet| octet == 0), "name padding", place, || {
        "octets behind its length are not 0".to_string()
    })?;
    let before = entries[..index].iter().position(|other| *other == entry);
    require(before.is_none(), "name twice", place, || format!("the same as name {}", before.unwrap_or(0)))
}

/// Its two indexes, the first's class and its order; operations and errors are right by then.
fn pair(parts: &Parts<'_>, part: usize, index: usize) -> Result<(), Fault> {
    let (name, place, entry) = (PARTS[part], Place::Entry(part, index), parts[part][index]);
    let (first, second) = (half(entry, 0), half(entry, 2));
    let firsts = parts[0].len();
    let seconds = if part == 2 { parts[1].len() } else { firsts };
    require(first < firsts, &format!("{name} first index"), place, || {
        format!("first index is {first}, expected below {firsts}")
    })?;
    require(second < seconds, &format!("{name} second index"), place, || {
        format!("second index is {second}, expected below {seconds}")
    })?;
    let class = parts[0][first][4];
    require(class < if part == 2 { 4 } else { 5 }, &format!("{name} class"), place, || {
        format!("operation {first} is of class {class}, which has no {name}")
    })?;
    let rises = index == 0 || {
        let before = parts[part][index - 1];
        (half(before, 0), half(before, 2)) < (first, second)
    };
    require(rises, &format!("{name} order"), place, || "pairs do not rise".to_string())
}

/// Type 00 is not optional, and another type is one octet.
fn value(name: &str, kind: u8, optional: bool, place: Place) -> Result<(), Fault> {
    require(kind != 0 || !optional, &format!("{name} optional"), place, || {
        format!("{name} is optional but has type 00")
    })?;
    require(kind % 32 != 31, &format!("{name} type"), place, || {
        format!("{name} type is {kind:02x}, whose low five bits are all ones")
    })
}

/// The code is above that of the entry before: local codes as signed numbers, then indexes of names.
fn rising(parts: &Parts<'_>, part: usize, index: usize) -> Result<(), Fault> {
    let order = |index: usize| match code(parts, part, index) {
        (true, number) => (1, i64::from(number)),
        (false, number) => (0, i64::from(number as i32)),
    };
    let rises = index == 0 || order(index - 1) < order(index);
    let rule = ["operation order", "error order"][part];
    require(rises, rule, Place::Entry(part, index), || "codes do not rise".to_string())
}

fn require(holds: bool, rule: &str, place: Place, says: impl FnOnce() -> String) -> Result<(), Fault> {
    if holds {
        return Ok(());
    }
    Err(Fault { rule: rule.to_string(), place, says: says() })
}

fn half(octets: &[u8], at: usize) -> usize {
    usize::from(octets[at]) << 8 | usize::from(octets[at + 1])
}
