//! Right texts with one line spoiled, and what is then wrong. Follows docs/TABLES.md, "From text to octets".

use crate::broken;
use crate::code::Code;
use crate::first_fault::{first_fault, Place, RULES};
use crate::listing::{code_fields, PARTS};
use crate::model::Model;
use crate::names;
use crate::random::Random;
use crate::texts::{entries, pieces, Hand, Kind, Piece, Text, EDITION_ENTRY, LONGEST};

const START: &str = "expected edition, operation, error, error pair, child pair or name";
const NUMBER: &str = "expected a number from -2147483648 to 2147483647";
const CLASS: &str = "expected a class from 1 to 5";
const TYPE: &str = "expected a type of two hexadecimal digits";
const NAME: &str = "expected a name of 1 to 16 octets in hexadecimal";
const SECOND: &str = "expected a line 'edition 2'";
const END: &str = "expected the end of the line";

/// Every way to be wrong but for a table that is not valid, by name.
const REASONS: [&str; 16] = [
    "start of a line",
    "word or mark",
    "number",
    "name",
    "edition",
    "class",
    "type",
    "end of a line",
    "line cut short",
    "operation code in no line",
    "error code in no line",
    "operation name in no line",
    "error name in no line",
    "name in no line",
    "edition 2 in no line",
    "text too long",
];

/// Every way to be wrong: `REASONS`, and each rule that a table from a text can break.
pub fn ways() -> Vec<&'static str> {
    const OF_OCTETS: [&str; 6] = ["length", "offset", "flags", "index", "edition", "padding"];
    let of_octets = |rule: &&str| OF_OCTETS.iter().any(|end| rule.ends_with(end));
    REASONS.into_iter().chain(RULES.into_iter().filter(|rule| !of_octets(rule))).collect()
}

/// A text that is wrong in one line, counted from 1, for one of these reasons; with line 0 the text is too long.
pub struct Wrong {
    pub text: Vec<u8>,
    pub line: usize,
    pub reasons: Vec<String>,
}

/// A text that is wrong in one of the ways.
pub fn wrong(way: &str, random: &mut Random) -> Wrong {
    loop {
        let wrong = match RULES.iter().position(|rule| *rule == way) {
            Some(rule) if way != "edition" => not_valid(rule, random),
            _ if way == "name in no line" => unnamed(random),
            _ if way == "edition 2 in no line" => without_edition(random),
            _ if way == "text too long" => Some(too_long(random)),
            _ => spoiled_line(way, random),
        };
        if let Some(wrong) = wrong.filter(|wrong| wrong.line == 0 || wrong.text.len() <= LONGEST) {
            return wrong;
        }
    }
}

/// One line is spoiled, with kinds in the table's order, so that what may miss something of it stands behind it.
fn spoiled_line(way: &str, random: &mut Random) -> Option<Wrong> {
    let model = Model::varied(random);
    let entry = random.pick(&entries(&model))?;
    let mut line = pieces(&model, entry);
    Hand::new(random).change(&mut line, random);
    let reasons = match way {
        "start of a line" => start(&mut line, random)?,
        "word or mark" => word(&mut line, random)?,
        "number" => number(&mut line, random)?,
        "name" => name(&mut line, random)?,
        "edition" => edition(&mut line, entry, random)?,
        "class" => class(&mut line, random)?,
        "type" => kind(&mut line, random)?,
        "end of a line" => end(&mut line, random)?,
        "line cut short" => cut(&mut line, random)?,
        way => nowhere(&model, (entry.0, way), &mut line, random)?,
    };
    let text = Text::new(&model, false, Some((entry, &line)), random);
    Some(Wrong { text: text.octets(), line: text.line_of(entry), reasons })
}

fn start(line: &mut Vec<Piece>, random: &mut Random) -> Option<Vec<String>> {
    const WORDS: [&str; 8] = ["op", "operatoin", "pair", "code", "entry", "-", "7", ","];
    if line[1].text == "2" {
        line[0].text = WORDS[random.below(WORDS.len())].to_string();
        return Some(vec![START.to_string()]);
    }
    let two_words = line[1].kind == Kind::Start;
    if two_words && random.percent(30) {
        line.remove(1);
        return Some(without_pair(&line[0].text, &["code", "name"]));
    }
    match random.percent(30) {
        true => drop(line.remove(0)),
        false => line[0].text = WORDS[random.below(WORDS.len())].to_string(),
    }
    Some(vec![START.to_string()])
}

/// Without `pair` an error pair starts as an error does, which is told what it lacks.
fn without_pair(first: &str, of_an_error: &[&str]) -> Vec<String> {
    if first == "error" {
        return of_an_error.iter().map(|word| expected(word)).collect();
    }
    vec![START.to_string()]
}

/// A word or mark is missing, or another stands in its place.
fn word(line: &mut Vec<Piece>, random: &mut Random) -> Option<Vec<String>> {
    const OTHERS: [&str; 6] = ["kode", "is", "x", ";", ".", "="];
    let at = place(line, |kind| matches!(kind, Kind::Word | Kind::Mark | Kind::Idempotent), random)?;
    let mut reasons = told(&line[at..]);
    let missing = line.remove(at);
    if missing.kind == Kind::Mark && line.get(at).is_some_and(|next| next.kind == Kind::Idempotent) {
        reasons.push(END.to_string());
    }
    if random.percent(40) {
        line.insert(at, Piece::new(Kind::Word, OTHERS[random.below(OTHERS.len())]));
    }
    Some(reasons)
}

/// What is told where the first of these pieces is missing, a word or mark: of a code's two words either.
fn told(rest: &[Piece]) -> Vec<String> {
    let piece = &rest[0];
    match rest.get(1).map(|next| next.kind) {
        Some(Kind::Number | Kind::Name) if piece.kind == Kind::Word => vec![expected("code"), expected("name")],
        _ if piece.kind == Kind::Idempotent => vec![expected("idempotent"), END.to_string()],
        _ => vec![expected(&piece.text)],
    }
}

fn number(line: &mut Vec<Piece>, random: &mut Random) -> Option<Vec<String>> {
    const WRONG: [&str; 12] = [
        "",
        "x",
        "seven",
        "+7",
        "-",
        "--7",
        "2147483648",
        "-2147483649",
        "4294967303",
        "-4294967289",
        "18446744073709551623",
        "99999999999999999999999",
    ];
    const LOOSE: [&str; 3] = ["7x", "1.5", "0x10"];
    replace(line, Kind::Number, &WRONG, &LOOSE, NUMBER, random)
}

fn name(line: &mut Vec<Piece>, random: &mut Random) -> Option<Vec<String>> {
    const WRONG: [&str; 10] = [
        "",
        "2",
        "2b0",
        "2g",
        "g2",
        "xx",
        "-2b",
        "0x2b",
        "2b06012b06012b06012b06012b06012b06",
        "2b06012b06012b06012b06012b0601012",
    ];
    replace(line, Kind::Name, &WRONG, &[], NAME, random)
}

/// The line `edition 2` has another number or none; what it is told then is open.
fn edition(line: &mut Vec<Piece>, entry: (usize, usize), random: &mut Random) -> Option<Vec<String>> {
    if entry != EDITION_ENTRY {
        return None;
    }
    match random.below(5) {
        0 => drop(line.pop()),
        number => line[1].text = ["1", "3", "two", "22"][number - 1].to_string(),
    }
    Some(vec![expected("2"), START.to_string(), SECOND.to_string()])
}

fn class(line: &mut Vec<Piece>, random: &mut Random) -> Option<Vec<String>> {
    const WRONG: [&str; 8] = ["", "x", "two", "-1", "256", "258", "65538", "4294967298"];
    replace(line, Kind::Class, &WRONG, &["2x", "2.0"], CLASS, random)
}

fn kind(line: &mut Vec<Piece>, random: &mut Random) -> Option<Vec<String>> {
    const WRONG: [&str; 8] = ["", "2", "0", "g2", "2g", "x", "-1", "any"];
    replace(line, Kind::Type, &WRONG, &["002", "02h", "0x02"], TYPE, random)
}

/// A value is missing or wrong; for a loose one it is open whether its start counts and more stands behind it.
fn replace(
    line: &mut Vec<Piece>,
    kind: Kind,
    wrong: &[&str],
    loose: &[&str],
    reason: &str,
    random: &mut Random,
) -> Option<Vec<String>> {
    let at = place(line, |other| other == kind, random)?;
    let mut reasons = vec![reason.to_string()];
    let text = if random.percent(15) && !loose.is_empty() {
        reasons.extend(needed(&line[at + 1..]).unwrap_or(vec![END.to_string()]));
        random.pick(loose)?
    } else {
        random.pick(wrong)?
    };
    match text {
        "" => drop(line.remove(at)),
        _ => line[at].text = text.to_string(),
    }
    Some(reasons)
}

fn end(line: &mut Vec<Piece>, random: &mut Random) -> Option<Vec<String>> {
    const MORE: [&str; 9] = [",", ":", "7", "x", "# why", "(words)", "operation", ", no result", "optional"];
    let more = MORE[random.below(MORE.len())];
    if more == "optional" && line.last()?.kind == Kind::Type {
        return None;
    }
    let (operation, last) = (line[0].text == "operation", line.last()?.kind);
    line.push(Piece::new(Kind::Word, more));
    let mut reasons = vec![END.to_string()];
    if operation && last != Kind::Idempotent && more.starts_with(',') {
        reasons.push(expected("idempotent"));
    }
    Some(reasons)
}

/// The line ends too soon.
fn cut(line: &mut Vec<Piece>, random: &mut Random) -> Option<Vec<String>> {
    let at = random.between(1, line.len() - 1);
    let rest = line.split_off(at);
    if rest[0].text == "2" && rest[0].kind == Kind::Start {
        return None;
    }
    if rest[0].kind == Kind::Start {
        return Some(without_pair(&line[0].text, &[":"]));
    }
    needed(&rest)
}

/// What a line that ends before these pieces is told, unless it may end there.
fn needed(rest: &[Piece]) -> Option<Vec<String>> {
    let may_miss = |kind| matches!(kind, Kind::Index | Kind::Words | Kind::Optional | Kind::No);
    let at = rest.iter().position(|piece| !may_miss(piece.kind))?;
    Some(match rest[at].kind {
        Kind::Number => vec![NUMBER.to_string()],
        Kind::Name => vec![NAME.to_string()],
        Kind::Class => vec![CLASS.to_string()],
        Kind::Type => vec![TYPE.to_string()],
        Kind::Mark if rest.get(at + 1).is_some_and(|next| next.kind == Kind::Idempotent) => return None,
        _ => told(&rest[at..]),
    })
}

/// A pair gets a code or a name that is in no line; a child's is that of an operation.
fn nowhere(model: &Model, (part, way): (usize, &str), line: &mut [Piece], random: &mut Random) -> Option<Vec<String>> {
    let is_code = |piece: &Piece| matches!(piece.kind, Kind::Number | Kind::Name);
    let codes: Vec<usize> = (0..line.len()).filter(|&at| is_code(&line[at])).collect();
    let operation = way.starts_with("operation");
    let at = match (part, operation) {
        (2, true) => codes[0],
        (2, false) => codes[1],
        (3, true) => random.pick(&codes)?,
        _ => return None,
    };
    let operations: Vec<Code> = model.operations.iter().map(|row| row.code).collect();
    let errors: Vec<Code> = model.errors.iter().map(|row| row.code).collect();
    let (there, others, list) =
        if operation { (operations, errors, "operation") } else { (errors, operations, "error") };
    let named = way.contains("name");
    let fits = |code: &Code| !there.contains(code) && matches!(code, Code::Name(_)) == named;
    let other = random.pick_where(&others, fits).filter(|_| random.percent(50));
    let code = match other {
        Some(code) => code,
        None if named => Code::Name(names::other(random, model.names.as_ref()?)),
        None => Code::Local(random.number_unless(|code| there.contains(&Code::Local(code)))),
    };
    let fields = code_fields(code);
    let (word, text) = fields.split_once(' ')?;
    (line[at - 1].text, line[at].text) = (word.to_string(), text.to_string());
    Some(vec![format!("{list} {fields} is in no line")])
}

/// The text of a table whose operation or error has a name that is in no line.
fn unnamed(random: &mut Random) -> Option<Wrong> {
    let mut model = Model::varied(random);
    let name = Code::Name(names::other(random, model.names.as_ref()?));
    let entry = random.pick_where(&entries(&model), |entry| entry.0 < 2)?;
    match entry {
        (0, index) => model.operations[index].code = name,
        (_, index) => model.errors[index].code = name,
    }
    let text = Text::new(&model, true, None, random);
    // Whether digits that stand in upper case are told so is open.
    let fields = code_fields(name);
    let upper = fields.replacen(&fields[5..], &fields[5..].to_uppercase(), 1);
    let reasons = [fields, upper].map(|fields| format!("{fields} is in no line")).to_vec();
    Some(Wrong { text: text.octets(), line: text.line_of(entry), reasons })
}

/// The text of a table of edition 2 without the line that says so; wrong is its first line with a name or an
/// idempotent operation.
fn without_edition(random: &mut Random) -> Option<Wrong> {
    let model = Model::varied(random);
    let mut text = Text::new(&model, true, None, random);
    text.remove(EDITION_ENTRY)?;
    let needs = |entry: &(usize, usize)| {
        pieces(&model, *entry).iter().any(|piece| matches!(piece.kind, Kind::Name | Kind::Idempotent))
    };
    let line = entries(&model)[1..].iter().filter(|entry| needs(entry)).map(|entry| text.line_of(*entry)).min()?;
    Some(Wrong { text: text.octets(), line, reasons: vec![SECOND.to_string()] })
}

/// The text of a table that breaks a rule.
fn not_valid(rule: usize, random: &mut Random) -> Option<Wrong> {
    let model = broken::rows(rule, random)?;
    let fault = first_fault(&model.octets())?;
    let (entry, reasons) = match fault.place {
        Place::Entry(part, index) => ((part, index), vec![fault.says]),
        _ => {
            let part = PARTS.iter().position(|part| fault.rule == format!("{part} count"))?;
            let most = Model::MOST[part];
            let first = format!("{} count is {}, expected at most {most}", PARTS[part], most + 1);
            // Whether 'header: ' is left out, and entries behind the first too many are counted, is open.
            let headed = [&fault.says, &first].map(|says| format!("header: {says}"));
            ((part, most), [fault.says, first].into_iter().chain(headed).collect())
        }
    };
    let text = Text::new(&model, true, None, random);
    Some(Wrong { text: text.octets(), line: text.line_of(entry), reasons })
}

/// A right text, but for lines that are passed over behind it.
fn too_long(random: &mut Random) -> Wrong {
    let mut text = Text::new(&Model::varied(random), true, None, random);
    text.fill(LONGEST + [1, 1, 2, 40, 70_000][random.below(5)], random);
    Wrong { text: text.octets(), line: 0, reasons: Vec::new() }
}

fn place(line: &[Piece], wanted: impl Fn(Kind) -> bool, random: &mut Random) -> Option<usize> {
    let places: Vec<usize> = (0..line.len()).filter(|&at| wanted(line[at].kind)).collect();
    random.pick(&places)
}

fn expected(word: &str) -> String {
    format!("expected '{word}'")
}
