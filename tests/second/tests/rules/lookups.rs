//! Codes looked up at every place of lists of every length, in this program's tables and in its scripts.

use std::collections::BTreeSet;

use crate::common::{model, play, state};
use second::code::Code;
use second::codes::{self, Position, LENGTHS};
use second::coverage::{CALLS, SEEDS};
use second::generate;
use second::looked_up::{lookup, List};
use second::model::Model;
use second::names;
use second::random::Random;
use second::table::Table;

/// The octets of a table whose operations and errors have these codes; no error is paired, and a probe or acknowledge
/// has the rows it must have.
fn table(codes: &[i32]) -> Vec<u8> {
    let row = |code: i32| match code {
        -3 => (code, 2, 0x02, 0x0A, 0),
        -2 => (code, 2, 0x30, 0x0A, 0),
        _ => (code, 2, 0, 0, 0),
    };
    let operations: Vec<_> = codes.iter().map(|&code| row(code)).collect();
    let errors: Vec<_> = codes.iter().map(|&code| (code, 0, 0)).collect();
    model(&operations, &errors, &[], &[]).octets()
}

#[test]
fn every_entry_is_found_and_nothing_else() {
    let mut random = Random::new(1);
    for length in (0..=64).cycle().take(65 * 20) {
        let mut codes = codes::spread(&mut random, length);
        // No probe stands without acknowledge.
        if !codes.contains(&-3) {
            codes.iter_mut().filter(|code| **code == -2).for_each(|code| *code = -3);
        }
        let octets = table(&codes);
        let table = Table::new(&octets).unwrap();
        let beside = codes.iter().flat_map(|code| [code.wrapping_sub(1), *code, code.wrapping_add(1)]);
        for wanted in beside.chain([i32::MIN, -1, 0, 1, i32::MAX]) {
            let place = codes.iter().position(|code| *code == wanted);
            let code = Code::Local(wanted);
            assert_eq!(table.operation(&code).map(|entry| entry.index), place, "{wanted} in {codes:?}");
            assert_eq!(table.error(&code).map(|entry| entry.index), place, "{wanted} in {codes:?}");
        }
    }
}

#[test]
fn drawn_codes_stand_where_they_are_to_stand() {
    let mut random = Random::new(2);
    for (low, high) in LENGTHS.into_iter().cycle().take(2000) {
        let length = random.between(low, high);
        let codes = codes::spread(&mut random, length);
        assert!(codes.windows(2).all(|pair| pair[0] < pair[1]), "{codes:?}");
        let (names, named) = (names::different(&mut random, 20), random.below(length.min(20) + 1));
        let indexes = (0..named as i64).map(|index| codes::FIRST_NAME + index);
        let places: Vec<i64> = codes[named..].iter().map(|&code| i64::from(code)).chain(indexes).collect();
        for position in Position::ALL {
            let place = position.place(&places, names.len(), &mut random);
            assert!(
                place.is_none_or(|place| Position::of(place, &places) == Some(position)),
                "{place:?} in {places:?}"
            );
            assert!(place.is_none() || position.is_in(places.len()), "{place:?} in {places:?}");
            assert!(place.is_none_or(|at| codes::place(&codes::code(at, &names), &names) == Some(at)), "{place:?}");
        }
        let list: Vec<Code> = places.iter().map(|&place| codes::code(place, &names)).collect();
        assert!(!list.contains(&codes::absent(&list, &names, &mut random)), "{list:?}");
    }
}

#[test]
fn a_call_finds_the_ends_of_a_full_list() {
    let codes: Vec<i32> = (0..64).map(|at| 2 * at - 63).collect();
    let octets = table(&codes);
    for (code, answer) in [(-64, "refused 4"), (-63, "sent"), (-62, "refused 4"), (62, "refused 4"), (63, "sent")] {
        let line = play(&octets, &state(&[], &[]), &format!("invoke 5 {code}"));
        assert!(line.starts_with(answer), "{code}: {line}");
    }
    for (code, problem) in [("C0", "02"), ("C1", "03"), ("C2", "02"), ("3E", "02"), ("3F", "03"), ("40", "02")] {
        let line = play(&octets, &state(&[(5, 1)], &[]), &format!("receive A3060201050201{code}"));
        assert!(line.starts_with(&format!("refused 18 83 {problem}")), "{code}: {line}");
    }
}

#[test]
fn scripts_ask_for_every_entry_and_every_gap_of_full_lists() {
    let mut places = BTreeSet::new();
    for seed in 1..=SEEDS {
        generate::watch(seed, CALLS, &mut |seen| {
            let Some(found) = lookup(seen).filter(|found| found.places.len() == 64) else { return };
            let below = found.places.iter().filter(|place| **place < found.wanted).count();
            places.insert((found.list == List::Errors, below, found.places.contains(&found.wanted)));
        });
    }
    assert_eq!(places.len(), 2 * (64 + 65), "{places:?}");
}

#[test]
fn names_are_found_behind_local_codes() {
    let mut random = Random::new(3);
    for _ in 0..300 {
        let model = Model::searched(&mut random);
        let octets = model.octets();
        let table = Table::new(&octets).unwrap();
        let other = names::other(&mut random, model.names());
        let wanted = model.names().iter().chain([&other]).map(|name| Code::Name(*name));
        for code in
            wanted.chain(model.operations.iter().map(|row| row.code)).chain(model.errors.iter().map(|row| row.code))
        {
            let place = model.operations.iter().position(|row| row.code == code);
            assert_eq!(
                table.operation(&code).map(|entry| (entry.index, entry.code)),
                place.map(|at| (at, code)),
                "{code}"
            );
            assert_eq!(table.has_operation(&code), place.is_some(), "{code}");
            let place = model.errors.iter().position(|row| row.code == code);
            assert_eq!(table.error(&code).map(|entry| (entry.index, entry.code)), place.map(|at| (at, code)), "{code}");
        }
    }
}
