//! Holds `tabcheck` and `tabmake` to this program's own answers for tables and texts drawn from a seed.
//! Follows docs/TABLES.md.

use std::thread;

use crate::asked::{hex, Case, Expected, Question, IN, NEW, OLD, TABLE};
use crate::broken;
use crate::extension::{self, ANSWERS};
use crate::first_fault::{first_fault, RULES};
use crate::listing::listing;
use crate::model::Model;
use crate::programs::Programs;
use crate::random::Random;
use crate::spoiled;
use crate::texts::{Text, LONGEST};

/// The least COUNT: every rule, reason and answer is then met.
pub const LEAST: usize = 100;

/// How many tables one run of `tabcheck` is given, about.
const AT_ONCE: usize = 30;

/// How many times each of some names was met.
struct Tally(Vec<(&'static str, usize)>);

impl Tally {
    fn new(names: &[&'static str]) -> Self {
        Tally(names.iter().map(|name| (*name, 0)).collect())
    }

    fn add(&mut self, name: &str) {
        self.0.iter_mut().filter(|(other, _)| *other == name).for_each(|(_, count)| *count += 1);
    }

    fn total(&self) -> usize {
        self.0.iter().map(|(_, count)| count).sum()
    }

    /// As `each of 31 rules at least 12 times`.
    fn least(&self, what: &str) -> String {
        let least = self.0.iter().map(|(_, count)| *count).min().unwrap_or(0);
        format!("each of {} {what} at least {least} times", self.0.len())
    }
}

/// Draws what is asked, and counts it.
pub struct Draw {
    random: Random,
    tables: usize,
    rules: Tally,
    reasons: Tally,
    answers: Tally,
}

/// Asks about so many tables; false, and what was asked, expected and got, at the first difference.
pub fn run(tabcheck: &str, tabmake: &str, seed: u64, count: usize) -> Result<(String, bool), String> {
    let workers = thread::available_parallelism().map_or(1, usize::from).min(8);
    let workers: Vec<Programs> = (0..workers).map(|_| Programs::new(tabcheck, tabmake)).collect::<Result<_, _>>()?;
    let mut draw = Draw::new(seed);
    while draw.tables < count {
        let batches: Vec<Vec<(usize, Case)>> =
            workers.iter().map(|_| draw.cases(AT_ONCE.min(count - draw.tables))).collect();
        let found: Vec<Result<Option<String>, String>> = thread::scope(|scope| {
            let asked = workers.iter().zip(&batches);
            let asked: Vec<_> = asked.map(|(worker, batch)| scope.spawn(|| difference(worker, batch))).collect();
            asked.into_iter().map(|worker| worker.join().expect("a worker ends")).collect()
        });
        for found in found {
            if let Some(difference) = found? {
                return Ok((format!("seed {seed}, {difference}"), false));
            }
        }
    }
    Ok(draw.report())
}

/// The first difference between a program's answers and this one's.
fn difference(programs: &Programs, batch: &[(usize, Case)]) -> Result<Option<String>, String> {
    let is_check = |case: &Case| matches!(case.question, Question::Check(_));
    let checks: Vec<&Case> = batch.iter().map(|(_, case)| case).filter(|case| is_check(case)).collect();
    let all_right = programs.checks_all(&checks)?;
    for (table, case) in batch.iter().filter(|(_, case)| !all_right || !is_check(case)) {
        let got = programs.ask(&case.question)?;
        if !case.agrees(&got) {
            return Ok(Some(format!("table {table} differs\n\n{}", case.show(&got))));
        }
    }
    let told = "each is answered rightly alone, but not all in one run of tabcheck";
    Ok((!all_right).then(|| format!("{} tables from table {} on differ: {told}\n", checks.len(), batch[0].0)))
}

impl Draw {
    pub fn new(seed: u64) -> Self {
        let [rules, reasons, answers] = [&RULES[..], &spoiled::ways(), &ANSWERS].map(Tally::new);
        Draw { random: Random::new(seed), tables: 0, rules, reasons, answers }
    }

    /// What is asked about so many more tables, each with its number.
    pub fn cases(&mut self, count: usize) -> Vec<(usize, Case)> {
        let mut cases = Vec::new();
        for table in self.tables..self.tables + count {
            let mut about = self.valid(table).to_vec();
            about.extend(self.broken(table));
            about.push(self.wrong(table));
            about.extend((table % 3 > 0).then(|| self.extension(table / 3 * 2 + table % 3)));
            cases.extend(about.into_iter().map(|case| (table, case)));
        }
        self.tables += count;
        cases
    }

    /// A valid table, its text and its text by hand; the first ones are empty or full.
    fn valid(&mut self, table: usize) -> [Case; 3] {
        let random = &mut self.random;
        let model = match table {
            0 => Model::default(),
            1 => Model::full(random),
            2 => Model::full_of_names(random),
            3 => Model { names: Some(Vec::new()), ..Model::default() },
            _ => Model::varied(random),
        };
        let octets = model.octets();
        let text = listing(TABLE, &octets).expect("the table is valid").into_bytes();
        let texts = [(text, before(random)), (by_hand(&model, random), before(random))];
        let [as_written, by_hand] = texts.map(|(text, before)| Case {
            question: Question::Make(text, before),
            expected: Expected::Makes(octets.clone()),
        });
        [check(octets), as_written, by_hand]
    }

    /// A table with one fault, and one with more.
    fn broken(&mut self, table: usize) -> Vec<Case> {
        let random = &mut self.random;
        let more = if random.percent(60) { broken::two(random) } else { broken::disturbed(random) };
        let mut cases = Vec::new();
        for octets in [broken::one(table % RULES.len(), random), more] {
            if let Some(fault) = first_fault(&octets) {
                self.rules.add(&fault.rule);
                cases.push(check(octets));
            }
        }
        cases
    }

    fn wrong(&mut self, table: usize) -> Case {
        let way = self.reasons.0[table % self.reasons.0.len()].0;
        let wrong = spoiled::wrong(way, &mut self.random);
        self.reasons.add(way);
        let line = |reason: &String| format!("tabmake: {IN}, line {}: {reason}\n", wrong.line);
        let expected = Expected::Refuses(wrong.reasons.iter().map(line).collect());
        Case { question: Question::Make(wrong.text, before(&mut self.random)), expected }
    }

    fn extension(&mut self, number: usize) -> Case {
        let (old, new) = extension::asked(number % ANSWERS.len(), &mut self.random);
        let (answer, lines) = extension::answer((OLD, &old), (NEW, &new));
        self.answers.add(answer);
        Case { question: Question::Extends(old, new), expected: Expected::Says(lines) }
    }

    /// One line of numbers; false if something was never met.
    fn report(&self) -> (String, bool) {
        let (tables, rules, reasons, answers) = (self.tables, &self.rules, &self.reasons, &self.answers);
        let all = [rules, reasons, answers].into_iter().flat_map(|tally| &tally.0);
        let never: Vec<&str> = all.filter(|(_, count)| *count == 0).map(|(name, _)| *name).collect();
        if !never.is_empty() {
            return (format!("tables: never met: {}\n", never.join(", ")), false);
        }
        let line = format!(
            "tables: {tables} valid, {tables} by hand, {} broken ({}), {} wrong texts ({}), {} extensions ({})\n",
            rules.total(),
            rules.least("rules"),
            reasons.total(),
            reasons.least("reasons"),
            answers.total(),
            answers.least("answers"),
        );
        (line, true)
    }
}

/// What `tabcheck` writes of a file with these octets: its listing where the table is valid, else its first fault.
pub fn verdict(name: &str, octets: &[u8]) -> String {
    match (listing(name, octets), first_fault(octets)) {
        (Some(lines), None) => lines,
        (None, Some(fault)) => fault.line(name),
        _ => panic!("{}: a table has a first fault just where it is not valid", hex(octets)),
    }
}

/// `tabcheck` of a table, valid or not.
fn check(octets: Vec<u8>) -> Case {
    let lines = verdict(TABLE, &octets);
    Case { question: Question::Check(octets), expected: Expected::Says(lines) }
}

/// A text that is not too long, now and then as long as it may be, or without the last line's end.
fn by_hand(model: &Model, random: &mut Random) -> Vec<u8> {
    loop {
        let mut text = Text::new(model, true, None, random);
        if random.percent(4) {
            text.fill(LONGEST, random);
        }
        let mut octets = text.octets();
        if octets.len() <= LONGEST {
            octets.truncate(octets.len().saturating_sub(usize::from(random.percent(10))));
            return octets;
        }
    }
}

/// What stands in OUT before, mostly nothing.
fn before(random: &mut Random) -> Option<Vec<u8>> {
    random.percent(30).then(|| vec![7; 40])
}
