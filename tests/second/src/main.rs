//! The command line.

use std::ffi::OsString;
use std::fs;
use std::io::{self, BufReader, Write};
use std::ops::RangeInclusive;
use std::process::ExitCode;

use second::coverage::{self, Coverage};
use second::drive::{self, Drive};
use second::reached::{self, Reached};
use second::{captures, compare, ends, examples, generate, replay, replays, samples, tables};

const USAGE: &str = "second play [places]         play a script from standard input; the word play may be left out
second repeat COUNT          play it, but make each call COUNT times from the state as it was, to measure it
second generate SEED COUNT   write a script of COUNT calls
second coverage              show what the generated scripts and captures reach; fails if a row is too rare
second examples PROGRAM [places]
                             play the marked examples P1 to P12 on PROGRAM; fails if an answer differs
second compare PROGRAM SEEDS COUNT [places]
                             play scripts of COUNT calls here and on PROGRAM; SEEDS is how many seeds, or FROM..TO;
                             fails at the first difference
second ends [PROGRAM] SEED COUNT
                             run a kiosk and a controller, both by PROGRAM if there is one, for COUNT calls;
                             fails if at one of them something is shown that was not given
second tables TABCHECK TABMAKE SEED COUNT
                             ask the two programs about COUNT tables, their texts, faults and extensions;
                             fails at the first answer that differs
second replay TABLE CAPTURE  replay a day's capture on a fresh end; a file that cannot be read counts as empty
second capture SEED TABLE CAPTURE
                             write a table and a capture
second replays PROGRAM SEED COUNT
                             replay COUNT captures here and on PROGRAM, whose words may be a program and arguments;
                             fails at the first line that differs or if a row was never met
second samples FOLDER        write samples of captures, their tables and their lines

Each line ends with the place of the first fault in the given octets, the ids that rest and the answers that are kept;
with places that of the indicated value in the received octets follows. PROGRAM is then started with the argument places, else without arguments.
";

fn main() -> ExitCode {
    let arguments: Vec<OsString> = std::env::args_os().skip(1).collect();
    match command(&arguments) {
        Ok(true) => ExitCode::SUCCESS,
        Ok(false) => ExitCode::FAILURE,
        Err(message) => {
            eprint!("second: {message}\n\nUse one of:\n{USAGE}");
            ExitCode::from(2)
        }
    }
}

/// Runs a command; the names of a replay's files are taken as they are.
fn command(arguments: &[OsString]) -> Result<bool, String> {
    if let Some((_, names @ ([] | [_] | [_, _]))) = arguments.split_first().filter(|(word, _)| *word == "replay") {
        let name = |at: usize| names.get(at).map(OsString::as_os_str);
        return write(replay::of_files(name(0), name(1)).as_bytes());
    }
    let arguments: Vec<_> = arguments.iter().map(|argument| argument.to_string_lossy()).collect();
    let arguments: Vec<&str> = arguments.iter().map(|argument| &argument[..]).collect();
    run(&arguments)
}

/// Runs a command; false if what it checks does not hold.
fn run(arguments: &[&str]) -> Result<bool, String> {
    let (words, places) = match arguments.split_last() {
        Some((&"places", words)) => (words, true),
        _ => (arguments, false),
    };
    match (words, places) {
        ([] | ["play"], _) => play(Drive::default().showing_places(places)),
        (["repeat", count], false) => play(Drive::default().repeating(number(count, "COUNT", 1)?)),
        (["generate", seed, count], false) => {
            write(&generate::script(number(seed, "SEED", 0)?, number(count, "COUNT", 0)? as usize))
        }
        (["coverage"], false) => {
            let scripts = show(Coverage::of(coverage::SEEDS, coverage::CALLS).report())?;
            let captures = show(Reached::of(reached::CAPTURES).report(reached::LEAST))?;
            Ok(scripts && captures)
        }
        (["examples", program], _) => show(examples::run(program, places)?),
        (["compare", program, seeds, count], _) => {
            compare::compare(program, range(seeds)?, number(count, "COUNT", 1)? as usize, places)
        }
        (["ends", seed, count], false) => two_ends(None, seed, count),
        (["ends", program, seed, count], false) => two_ends(Some(program), seed, count),
        (["tables", tabcheck, tabmake, seed, count], false) => {
            let (seed, count) = (number(seed, "SEED", 0)?, number(count, "COUNT", tables::LEAST as u64)?);
            show(tables::run(tabcheck, tabmake, seed, count as usize)?)
        }
        _ => about_captures(arguments),
    }
}

/// Runs a command about captures, whose last argument may be any word.
fn about_captures(arguments: &[&str]) -> Result<bool, String> {
    match arguments {
        ["capture", seed, table, capture] => {
            let drawn = captures::draw(number(seed, "SEED", 0)?);
            store(table, &drawn.table)?;
            store(capture, &drawn.capture)
        }
        ["replays", program, seed, count] => {
            let (seed, count) = (number(seed, "SEED", 0)?, number(count, "COUNT", replays::LEAST as u64)?);
            show(replays::run(program, seed, count as usize)?)
        }
        ["samples", folder] => {
            for (name, octets) in samples::files() {
                store(&format!("{folder}/{name}"), &octets)?;
            }
            Ok(true)
        }
        _ => Err(format!("'{}' with {} more arguments is no command", arguments[0], arguments.len() - 1)),
    }
}

fn play(drive: Drive) -> Result<bool, String> {
    let script = BufReader::with_capacity(1 << 16, io::stdin().lock());
    let played = drive::play(script, io::stdout().lock(), drive);
    played.map(|()| true).map_err(|error| format!("playing stopped: {error}"))
}

fn two_ends(program: Option<&str>, seed: &str, count: &str) -> Result<bool, String> {
    show(ends::run(program, number(seed, "SEED", 0)?, number(count, "COUNT", 1)?)?)
}

/// Writes a report and hands on whether it is right.
fn show((report, right): (String, bool)) -> Result<bool, String> {
    write(report.as_bytes()).map(|_| right)
}

/// Writes a file.
fn store(name: &str, octets: &[u8]) -> Result<bool, String> {
    fs::write(name, octets).map(|()| true).map_err(|error| format!("{name}: {error}"))
}

fn write(octets: &[u8]) -> Result<bool, String> {
    let written = io::stdout().lock().write_all(octets);
    written.map(|()| true).map_err(|error| format!("standard output: {error}"))
}

fn number(text: &str, name: &str, least: u64) -> Result<u64, String> {
    let number = text.parse().ok().filter(|number| *number >= least);
    number.ok_or_else(|| format!("{name} is '{text}', but must be a number from {least} up"))
}

/// `N` is 1 to N, `FROM..TO` is that range, both ends included.
fn range(text: &str) -> Result<RangeInclusive<u64>, String> {
    match text.split_once("..") {
        Some((from, to)) => {
            let from = number(from, "FROM", 0)?;
            Ok(from..=number(to, "TO", from)?)
        }
        None => Ok(1..=number(text, "SEEDS", 1)?),
    }
}
