//! Tables as text that a hand might write. Follows docs/TABLES.md, "From text to octets".

use crate::asked::hex;
use crate::code::{self, Code};
use crate::listing::{CLASSES, EDITION, PARTS};
use crate::model::Model;
use crate::random::Random;
use crate::table::Rule;

/// The most octets of a text.
pub const LONGEST: usize = 65_536;

/// What a piece of a line is.
#[derive(Clone, Copy, Debug, PartialEq, Eq)]
pub enum Kind {
    Start,
    Index,
    Mark,
    Word,
    Number,
    /// The contents of a name.
    Name,
    Class,
    Words,
    No,
    Type,
    Optional,
    Idempotent,
}

#[derive(Clone, Debug, PartialEq, Eq)]
pub struct Piece {
    pub kind: Kind,
    pub text: String,
}

impl Piece {
    pub fn new(kind: Kind, text: impl ToString) -> Self {
        Piece { kind, text: text.to_string() }
    }
}

/// The line `edition 2` as an entry, behind the parts.
pub const EDITION_ENTRY: (usize, usize) = (5, 0);

/// The pieces of an entry's line as `tabcheck` writes it; an entry is its part and its index there.
pub fn pieces(model: &Model, (part, index): (usize, usize)) -> Vec<Piece> {
    if (part, index) == EDITION_ENTRY {
        return EDITION.split(' ').map(|word| Piece::new(Kind::Start, word)).collect();
    }
    let mut line: Vec<Piece> = PARTS[part].split(' ').map(|word| Piece::new(Kind::Start, word)).collect();
    line.extend([Piece::new(Kind::Index, index), Piece::new(Kind::Mark, ':')]);
    match part {
        0 => {
            let row = model.operations[index];
            code(&mut line, row.code);
            line.push(Piece::new(Kind::Mark, ','));
            line.extend([Piece::new(Kind::Word, "class"), Piece::new(Kind::Class, row.class)]);
            let words = CLASSES.get(usize::from(row.class).wrapping_sub(1));
            line.extend(words.map(|words| Piece::new(Kind::Words, format!("({words})"))));
            value(&mut line, "argument", row.argument_rule());
            value(&mut line, "result", row.result_rule());
            if row.flags & 8 != 0 {
                line.extend([Piece::new(Kind::Mark, ','), Piece::new(Kind::Idempotent, "idempotent")]);
            }
        }
        1 => {
            code(&mut line, model.errors[index].code);
            value(&mut line, "parameter", model.errors[index].rule());
        }
        4 => line.push(Piece::new(Kind::Name, hex(code::contents(&model.names()[index])))),
        _ => {
            let (first, second) = if part == 2 { model.error_pairs[index] } else { model.child_pairs[index] };
            let operation = |index: u16| model.operations[usize::from(index)].code;
            line.push(Piece::new(Kind::Word, "operation"));
            code(&mut line, operation(first));
            line.push(Piece::new(Kind::Mark, ','));
            line.push(Piece::new(Kind::Word, if part == 2 { "error" } else { "child" }));
            code(&mut line, if part == 2 { model.errors[usize::from(second)].code } else { operation(second) });
        }
    }
    line
}

fn code(line: &mut Vec<Piece>, code: Code) {
    line.extend(match code {
        Code::Local(code) => [Piece::new(Kind::Word, "code"), Piece::new(Kind::Number, code)],
        Code::Name(name) => [Piece::new(Kind::Word, "name"), Piece::new(Kind::Name, hex(code::contents(&name)))],
    });
}

fn value(line: &mut Vec<Piece>, word: &str, rule: Rule) {
    line.push(Piece::new(Kind::Mark, ','));
    if rule == (Rule { kind: 0, optional: false }) {
        line.extend([Piece::new(Kind::No, "no"), Piece::new(Kind::Word, word)]);
        return;
    }
    line.extend([Piece::new(Kind::Word, word), Piece::new(Kind::Type, format!("{:02x}", rule.kind))]);
    line.extend(rule.optional.then(|| Piece::new(Kind::Optional, "optional")));
}

/// Every entry of a table, part by part, behind the line of edition 2.
pub fn entries(model: &Model) -> Vec<(usize, usize)> {
    let [operations, errors] = [model.operations.len(), model.errors.len()];
    let counts = [operations, errors, model.error_pairs.len(), model.child_pairs.len(), model.names().len()];
    let parts = (0..5).flat_map(|part| (0..counts[part]).map(move |index| (part, index)));
    model.names.iter().map(|_| EDITION_ENTRY).chain(parts).collect()
}

/// A hand's way to write: how many times in a hundred it does what it need not.
#[derive(Default)]
pub struct Hand {
    blanks: usize,
    bare: usize,
    upper: usize,
    between: usize,
}

impl Hand {
    pub fn new(random: &mut Random) -> Self {
        let [blanks, bare, upper, between] = [0; 4].map(|_| [0, 10, 50, 100][random.below(4)]);
        Hand { blanks, bare, upper, between: between / 2 }
    }

    /// The pieces without or with another index and class words, and with types in upper case.
    pub fn change(&self, pieces: &mut Vec<Piece>, random: &mut Random) {
        const WORDS: [&str; 4] = ["(ask, then wait)", "()", "(no answer)", "(class 1)"];
        pieces.retain(|piece| !matches!(piece.kind, Kind::Index | Kind::Words) || !random.percent(self.bare));
        for piece in pieces {
            match piece.kind {
                Kind::Index if random.percent(self.bare) => piece.text = random.below(700).to_string(),
                Kind::Words if random.percent(self.bare) => piece.text = WORDS[random.below(4)].to_string(),
                Kind::Type | Kind::Name if random.percent(self.upper) => piece.text = piece.text.to_uppercase(),
                _ => {}
            }
        }
    }

    /// The line of these pieces.
    pub fn line(&self, pieces: &[Piece], random: &mut Random) -> String {
        let mut line = String::new();
        for (at, piece) in pieces.iter().enumerate() {
            let least = usize::from(at > 0 && piece.kind != Kind::Mark);
            let blanks = if random.percent(self.blanks) { random.between(least, 3) } else { least };
            for _ in 0..blanks {
                line.push(match random.percent(self.blanks / 3) {
                    true => ['\t', '\t', '\r'][random.below(3)],
                    false => ' ',
                });
            }
            line += &piece.text;
        }
        if random.percent(self.blanks) {
            line += ["  ", "\t", " \t ", "\r"][random.below(4)];
        }
        line
    }

    /// A line that is passed over.
    fn nothing(random: &mut Random) -> String {
        const LINES: [&str; 9] = [
            "",
            "",
            " \t  ",
            "# what may be asked",
            "#",
            "#operation 0: code 7, class 1, no argument, no result",
            "  # error pair: operation code 7, error code 1",
            "my.table: valid, 34 octets",
            "\tthe old one: valid, 2 octets  ",
        ];
        LINES[random.below(LINES.len())].to_string()
    }

    /// Entries in another order, those of one part in theirs.
    fn order(entries: Vec<(usize, usize)>, random: &mut Random) -> Vec<(usize, usize)> {
        let mut ranks: Vec<u64> = (0..6).map(|_| random.draw()).collect();
        if random.percent(50) {
            let mut sorted = entries;
            sorted.sort_by_key(|entry| ranks[entry.0]);
            return sorted;
        }
        // Each place takes the next entry of a part drawn for it.
        ranks = entries.iter().map(|_| random.draw()).collect();
        let mut places: Vec<(u64, usize)> = ranks.into_iter().zip(entries.iter().map(|entry| entry.0)).collect();
        places.sort_unstable();
        let mut next = [0; 6];
        let take = |(_, part): (u64, usize)| {
            next[part] += 1;
            (part, next[part] - 1)
        };
        places.into_iter().map(take).collect()
    }
}

/// A text, and for each of its lines the entry that stands there.
#[derive(Clone, Debug, Default)]
pub struct Text {
    pub lines: Vec<String>,
    entries: Vec<Option<(usize, usize)>>,
}

impl Text {
    /// A table by hand, its kinds in any order or in the table's; an entry may be given other pieces.
    pub fn new(model: &Model, mixed: bool, other: Option<((usize, usize), &[Piece])>, random: &mut Random) -> Text {
        let (hand, mut text) = (Hand::new(random), Text::default());
        let mut order = entries(model);
        if mixed {
            order = Hand::order(order, random);
        }
        for entry in order {
            while random.percent(hand.between) {
                text.push(Hand::nothing(random), None);
            }
            let pieces = match other {
                Some((place, pieces)) if place == entry => pieces.to_vec(),
                _ => {
                    let mut pieces = pieces(model, entry);
                    hand.change(&mut pieces, random);
                    pieces
                }
            };
            text.push(hand.line(&pieces, random), Some(entry));
        }
        text
    }

    fn push(&mut self, line: String, entry: Option<(usize, usize)>) {
        self.lines.push(line);
        self.entries.push(entry);
    }

    /// Drops an entry's line, if there is one.
    pub fn remove(&mut self, entry: (usize, usize)) -> Option<()> {
        let at = self.line_of(entry).checked_sub(1)?;
        self.lines.remove(at);
        self.entries.remove(at);
        Some(())
    }

    /// The number of an entry's line, counted from 1.
    pub fn line_of(&self, entry: (usize, usize)) -> usize {
        self.entries.iter().position(|place| *place == Some(entry)).map_or(0, |at| at + 1)
    }

    /// Lines that are passed over behind the last one, until the text has so many octets.
    pub fn fill(&mut self, octets: usize, random: &mut Random) {
        let mut left = octets.saturating_sub(self.octets().len());
        while left > 0 {
            let length = random.between(1, 5000).min(left);
            self.push("#".repeat(length - 1), None);
            left -= length;
        }
    }

    pub fn octets(&self) -> Vec<u8> {
        self.lines.iter().flat_map(|line| [line.as_bytes(), b"\n"]).flatten().copied().collect()
    }
}
