//! This program's own answers about tables: listings, first faults, texts and extensions.

use std::collections::BTreeSet;

use crate::common::{hex, model, T};
use second::asked::{Case, Expected, Got, Question};
use second::code::Code;
use second::extension::{self, answer, ANSWERS};
use second::first_fault::{first_fault, RULES};
use second::listing::listing;
use second::model::{extends, Model};
use second::random::Random;
use second::table::Table;
use second::tables::{self, verdict, Draw, LEAST};
use second::texts::{entries, pieces, Hand};
use second::{broken, faults, spoiled};

/// The first fault's rule, if there is one, where it agrees with validity.
fn rule(octets: &[u8]) -> Option<String> {
    let fault = first_fault(octets);
    assert_eq!(fault.is_none(), Table::new(octets).is_some(), "{fault:?} in {octets:02x?}");
    assert!(fault.iter().all(|fault| RULES.contains(&&fault.rule[..])), "{fault:?}");
    fault.map(|fault| fault.rule)
}

#[test]
fn a_table_has_a_first_fault_just_where_it_is_not_valid() {
    let mut random = Random::new(1);
    for _ in 0..300 {
        assert_eq!(rule(&Model::varied(&mut random).octets()), None);
        for fault in 0..faults::table_names().len() {
            let (name, octets, model) = faults::table(fault, &mut random);
            assert!(rule(&octets).is_some() && rule(&model.octets()).is_none(), "{name}");
        }
        for (at, name) in RULES.into_iter().enumerate() {
            assert_eq!(rule(&broken::one(at, &mut random)).as_deref(), Some(name));
        }
        rule(&broken::two(&mut random));
        rule(&broken::disturbed(&mut random));
        let length = random.below(40);
        rule(&(0..length).map(|_| random.octet() & 1).collect::<Vec<u8>>());
    }
    assert_eq!(rule(&Model::full(&mut random).octets()), None);
    assert_eq!(rule(&Model::full_of_names(&mut random).octets()), None);
    assert_eq!(rule(&Model::default().octets()), None);
}

#[test]
fn faults_are_worded_and_ordered() {
    let operations = [(1, 6, 0, 0, 4), (1, 3, 0x1F, 0x02, 1), (0, 2, 0, 0x02, 1)];
    let mut table = model(&operations, &[(5, 0, 2)], &[(3, 1)], &[(0, 9)]);
    let mut lines = Vec::new();
    let mut fault = |table: &Model| lines.push(verdict("t", &table.octets()));
    fault(&table);
    table.operations[0].class = 4;
    fault(&table);
    table.operations[0].flags = 0;
    fault(&table);
    table.operations[1].argument = 0x5E;
    fault(&table);
    table.operations[1].result = 0;
    fault(&table);
    table.operations[1].code = Code::Local(2);
    fault(&table);
    table.operations[2].flags = 2;
    fault(&table);
    table.operations[2].code = Code::Local(3);
    fault(&table);
    table.errors[0] = second::model::ErrorRow { code: Code::Local(5), parameter: 0xFF, optional: 1 };
    fault(&table);
    table.errors[0].parameter = 4;
    fault(&table);
    table.error_pairs = vec![(0, 1), (0, 0)];
    fault(&table);
    table.error_pairs = vec![(1, 0), (0, 0)];
    fault(&table);
    table.error_pairs = vec![(2, 0), (1, 0)];
    fault(&table);
    table.error_pairs.clear();
    fault(&table);
    let expected = "t: operation 0: class is 6, expected 1 to 5
t: operation 0: flags are 04, expected 00 to 03
t: operation 1: argument type is 1f, whose low five bits are all ones
t: operation 1: result type is 02, expected 00 for class 3
t: operation 1: codes do not rise
t: operation 2: argument is optional but has type 00
t: operation 2: codes do not rise
t: error 0: flags are 02, expected 00 or 01
t: error 0: parameter type is ff, whose low five bits are all ones
t: error pair 0: first index is 3, expected below 3
t: error pair 0: second index is 1, expected below 1
t: error pair 1: operation 0 is of class 4, which has no error pair
t: error pair 1: pairs do not rise
t: child pair 0: second index is 9, expected below 3
";
    assert_eq!(lines.concat(), expected);
}

#[test]
fn faults_of_probe_and_acknowledge_are_worded_and_ordered() {
    let operations = [(-2, 4, 0x02, 0x02, 3), (-3, 5, 0x30, 0, 1), (-3, 3, 0, 0, 0)];
    let mut table = model(&operations, &[], &[], &[]);
    let mut lines = Vec::new();
    let mut fault = |table: &Model| lines.push(verdict("t", &table.octets()));
    for (at, argument) in [(0, 0x30), (1, 0x02)] {
        fault(&table);
        table.operations[at].class = 1;
        fault(&table);
        table.operations[at].argument = argument;
        fault(&table);
        table.operations[at].flags &= 2;
        fault(&table);
        table.operations[at].result = 0x0A;
        table.operations[at].flags |= 2;
        fault(&table);
        table.operations[at].flags = 0;
    }
    fault(&table);
    table.operations.swap(0, 1);
    fault(&table);
    table.operations[2] = table.operations[0];
    fault(&table);
    table.operations.swap(0, 1);
    table.operations.truncate(1);
    fault(&table);
    table.operations[0].code = Code::Local(-3);
    fault(&table);
    let expected = "t: operation 0: class is 4, expected 1 or 2 for code -2 (probe)
t: operation 0: argument type is 02, expected 30 for code -2 (probe)
t: operation 0: argument is optional, expected not optional for code -2 (probe)
t: operation 0: result type is 02, expected 0a for code -2 (probe)
t: operation 0: result is optional, expected not optional for code -2 (probe)
t: operation 1: class is 5, expected 1 or 2 for code -3 (acknowledge)
t: operation 1: argument type is 30, expected 02 for code -3 (acknowledge)
t: operation 1: argument is optional, expected not optional for code -3 (acknowledge)
t: operation 1: result type is 00, expected 0a for code -3 (acknowledge)
t: operation 1: result is optional, expected not optional for code -3 (acknowledge)
t: operation 1: codes do not rise
t: operation 2: class is 3, expected 1 or 2 for code -3 (acknowledge)
t: operation 2: codes do not rise
t: operation 0: code -2 (probe) needs an operation with code -3 (acknowledge)
t: operation 0: argument type is 30, expected 02 for code -3 (acknowledge)
";
    assert_eq!(lines.concat(), expected);
}

#[test]
fn texts_say_what_listings_say() {
    let kiosk = "my.table: valid, 34 octets
  operation 0: code 7, class 2 (asynchronous, result or error), argument 02, result 02
  error 0: code 1, no parameter
  error pair 0: operation code 7, error code 1
";
    assert_eq!(listing("my.table", &hex(T)).as_deref(), Some(kiosk));
    let mut random = Random::new(2);
    for _ in 0..200 {
        let model = Model::varied(&mut random);
        let line = |entry| format!("  {}\n", Hand::default().line(&pieces(&model, entry), &mut Random::new(0)));
        let text: String = entries(&model).into_iter().map(line).collect();
        let octets = model.octets();
        let listing = listing("t", &octets).unwrap();
        assert_eq!(listing, format!("t: valid, {} octets\n{text}", octets.len()));
    }
}

#[test]
fn extensions_are_worded_and_agree_with_the_rule() {
    let old = model(&[(2, 2, 0x02, 0, 0), (4, 2, 0, 0, 0)], &[(5, 0, 0)], &[(1, 0)], &[(0, 1)]);
    let said = |old: &Model, new: &Model| answer(("o", &old.octets()), ("n", &new.octets())).1;
    assert_eq!(said(&old, &old), "n: extends o\n");
    assert_eq!(said(&Model::default(), &old), "n: extends o\n");
    assert_eq!(said(&old, &Model::default()), "n: does not extend o: operation code 2 is missing\n");
    let mut new = old.clone();
    new.child_pairs.clear();
    assert_eq!(said(&old, &new), "n: does not extend o: child pair operation code 2, child code 4 is missing\n");
    new.error_pairs.clear();
    assert_eq!(said(&old, &new), "n: does not extend o: error pair operation code 4, error code 5 is missing\n");
    new.errors[0].parameter = 0xA0;
    let differs = "error code 5 differs\n  old: code 5, no parameter\n  new: code 5, parameter a0\n";
    assert_eq!(said(&old, &new), format!("n: does not extend o: {differs}"));
    new.operations[1].class = 5;
    let differs = "operation code 4 differs
  old: code 4, class 2 (asynchronous, result or error), no argument, no result
  new: code 4, class 5 (no answer), no argument, no result\n";
    assert_eq!(said(&old, &new), format!("n: does not extend o: {differs}"));
    new.operations[0].class = 0;
    assert_eq!(said(&old, &new), "n: operation 0: class is 0, expected 1 to 5\n");
    assert_eq!(said(&new, &new), "o: operation 0: class is 0, expected 1 to 5\n");
    let mut random = Random::new(3);
    for at in 0..900 {
        let (old, new) = extension::asked(at % ANSWERS.len(), &mut random);
        let answer = answer(("o", &old), ("n", &new)).0;
        match (Table::new(&old), Table::new(&new)) {
            (Some(old), Some(new)) => assert_eq!(answer == "extends", extends(&new, &old)),
            (old, _) => assert_eq!(answer, if old.is_none() { "old not valid" } else { "new not valid" }),
        }
    }
}

#[test]
fn wrong_texts_name_a_line_of_theirs() {
    let mut random = Random::new(4);
    let mut reasons = BTreeSet::new();
    for way in spoiled::ways() {
        for _ in 0..60 {
            let wrong = spoiled::wrong(way, &mut random);
            let lines = wrong.text.split(|&octet| octet == b'\n').count();
            let too_long = wrong.text.len() > 65_536;
            assert!(wrong.line < lines && (wrong.line == 0) == too_long, "{way}");
            assert_eq!(wrong.reasons.is_empty(), too_long, "{way}");
            reasons.extend(wrong.reasons);
        }
    }
    for reason in ["':'", "','", "'code'", "'class'", "'argument'", "'result'", "'parameter'", "'operation'"] {
        assert!(reasons.contains(&format!("expected {reason}")), "{reason}");
    }
    for reason in ["'error'", "'child'", "a class from 1 to 5", "the end of the line"] {
        assert!(reasons.contains(&format!("expected {reason}")), "{reason}");
    }
}

/// The answer of a right program.
fn right(case: &Case) -> Got {
    let before = match &case.question {
        Question::Make(_, before) => before.clone(),
        _ => None,
    };
    match &case.expected {
        Expected::Says(lines) => Got { said: lines.clone().into_bytes(), ..Got::default() },
        Expected::Makes(octets) => Got { out: Some(octets.clone()), ..Got::default() },
        Expected::Refuses(lines) => {
            let line = lines.last().cloned().unwrap_or("too long".to_string());
            Got { complained: line.into_bytes(), out: before, ..Got::default() }
        }
    }
}

#[test]
fn differences_are_found() {
    for (_, case) in Draw::new(5).cases(LEAST) {
        let right = right(&case);
        assert!(case.agrees(&right), "{}", case.show(&right));
        let (mut said, mut complained, mut made, mut none) =
            (right.clone(), right.clone(), right.clone(), right.clone());
        said.said.pop();
        complained.complained.push(b'x');
        made.out.get_or_insert_default().push(0);
        none.out = None;
        let too_long = matches!(&case.expected, Expected::Refuses(lines) if lines.is_empty());
        let finds = [&said, &complained, &made, &none].map(|got| !case.agrees(got));
        let expected = match case.expected {
            Expected::Says(_) => [true, true, false, false],
            Expected::Makes(_) => [false, true, true, true],
            Expected::Refuses(_) => [false, !too_long, true, right.out.is_some()],
        };
        assert_eq!(finds, expected, "{}", case.show(&right));
        assert!(!case.agrees(&Got { status: Some("signal: 11".to_string()), ..right }));
    }
    for (tabcheck, told) in [("true", "got      no line"), ("echo", "got      this.table"), ("false", "exit status: 1")]
    {
        let (report, right) = tables::run(tabcheck, "true", 1, LEAST).unwrap();
        assert!(!right && report.starts_with("seed 1, table 0 differs") && report.contains(told), "{report}");
    }
    assert!(tables::run("no such program", "true", 1, LEAST).is_err_and(|error| error.contains("does not start")));
}

#[test]
fn valid_tables_are_of_every_sort() {
    let mut random = Random::new(6);
    let sort = |list: &str, code: Code| match code {
        Code::Local(code) => format!("{list} code negative {}", code < 0),
        Code::Name(_) => format!("{list} name"),
    };
    let (mut sorts, mut types, mut sizes) = (BTreeSet::new(), BTreeSet::new(), BTreeSet::new());
    for _ in 0..600 {
        let model = Model::varied(&mut random);
        for row in &model.operations {
            sorts.extend([format!("class {}", row.class), format!("flags {}", row.flags)]);
            sorts.insert(sort("operation", row.code));
            types.extend([row.argument, row.result]);
        }
        for row in &model.errors {
            sorts.extend([format!("optional {}", row.optional), sort("error", row.code)]);
            types.insert(row.parameter);
        }
        sizes.insert([model.error_pairs.len(), model.child_pairs.len()].map(|size| size.min(2)));
    }
    assert_eq!((sorts.len(), types.len(), sizes.len()), (5 + 8 + 3 + 2 + 3, 248, 9), "{sorts:?} {sizes:?}");
}
