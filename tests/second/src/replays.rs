//! Holds a program that replays captures to this program's own lines, for captures drawn from a seed.

use std::path::{Path, PathBuf};
use std::thread;

use crate::captures::{self, Drawn};
use crate::programs::{path, Folder};
use crate::reached::Reached;
use crate::replay;
use crate::show;

/// The least COUNT: every row is then met.
pub const LEAST: usize = 400;

/// How many captures a worker is given at once.
const AT_ONCE: usize = 25;

const TABLE: &str = "day.table";
const CAPTURE: &str = "day.capture";
const FOLDER: &str = "folder";
const MISSING: &str = "missing";

/// How the two files are named to the program: what is said of it, and the names.
const NAMED: [(&str, &[&str]); 7] = [
    ("both files", &[TABLE, CAPTURE]),
    ("a table that is not there", &[MISSING, CAPTURE]),
    ("a capture that is not there", &[TABLE, MISSING]),
    ("a folder for a table", &[FOLDER, CAPTURE]),
    ("a folder for a capture", &[TABLE, FOLDER]),
    ("a table alone", &[TABLE]),
    ("no file", &[]),
];

/// A capture that is asked about, how its files are named, and the line that is right then.
struct Asked {
    seed: u64,
    drawn: Drawn,
    named: usize,
    line: String,
}

/// The program with its first arguments, and a folder for its files.
struct Worker {
    program: PathBuf,
    arguments: Vec<String>,
    folder: Folder,
}

/// Replays so many captures; false, and what was expected and got, at the first difference.
pub fn run(program: &str, seed: u64, count: usize) -> Result<(String, bool), String> {
    let workers = thread::available_parallelism().map_or(1, usize::from).min(8);
    let workers: Vec<Worker> = (0..workers).map(|_| Worker::new(program)).collect::<Result<_, _>>()?;
    let mut reached = Reached::default();
    NAMED.iter().for_each(|(said, _)| reached.rows.add(format!("named: {said}")));
    let mut drawn = 0;
    while drawn < count {
        let mut batches: Vec<Vec<Asked>> = Vec::new();
        for _ in &workers {
            let more = AT_ONCE.min(count - drawn);
            batches.push((drawn..drawn + more).flat_map(|number| asked(seed, number, &mut reached)).collect());
            drawn += more;
        }
        let found: Vec<Result<Option<String>, String>> = thread::scope(|scope| {
            let asked = workers.iter().zip(&batches);
            let asked: Vec<_> = asked.map(|(worker, batch)| scope.spawn(|| worker.difference(batch))).collect();
            asked.into_iter().map(|worker| worker.join().expect("a worker ends")).collect()
        });
        for found in found {
            if let Some(difference) = found? {
                return Ok((difference, false));
            }
        }
    }
    Ok(reached.report(1))
}

/// What is asked about the capture of a number: itself, and now and then with its files named otherwise.
fn asked(seed: u64, number: usize, reached: &mut Reached) -> Vec<Asked> {
    let seed = seed.wrapping_add(number as u64);
    let drawn = captures::draw(seed);
    let line = reached.note(&drawn);
    let mut asked = vec![Asked { seed, drawn, named: 0, line }];
    if number % 8 == 7 {
        let (drawn, named) = (captures::draw(seed), 1 + number / 8 % (NAMED.len() - 1));
        let names = NAMED[named].1;
        let octets = |name: &str, octets: &Vec<u8>| if names.contains(&name) { octets.clone() } else { Vec::new() };
        let line = replay::verdict(&octets(TABLE, &drawn.table), &octets(CAPTURE, &drawn.capture)).line();
        asked.push(Asked { seed, drawn, named, line });
    }
    asked.iter().for_each(|asked| reached.rows.count(&format!("named: {}", NAMED[asked.named].0)));
    asked
}

impl Worker {
    /// A word that names no file may hold the program's first arguments too.
    fn new(program: &str) -> Result<Self, String> {
        let folder = Folder::new("replays")?;
        folder.make(FOLDER)?;
        let words: Vec<&str> = if Path::new(program).exists() { vec![program] } else { program.split(' ').collect() };
        let (first, arguments) = words.split_first().map_or((program, &[][..]), |(first, more)| (*first, more));
        let arguments = arguments.iter().map(|argument| argument.to_string()).collect();
        Ok(Worker { program: path(first)?, arguments, folder })
    }

    /// The first difference between the program's answers and this one's.
    fn difference(&self, batch: &[Asked]) -> Result<Option<String>, String> {
        for asked in batch {
            self.folder.write(TABLE, &asked.drawn.table)?;
            self.folder.write(CAPTURE, &asked.drawn.capture)?;
            let arguments = self.arguments.iter().map(String::as_str).chain(NAMED[asked.named].1.iter().copied());
            let output = self.folder.run(&self.program, &arguments.collect::<Vec<&str>>())?;
            if !output.status.success() || output.stdout != asked.line.as_bytes() {
                let got = String::from_utf8_lossy(&output.stdout[..output.stdout.len().min(400)]).into_owned();
                return Ok(Some(asked.show(&got, &output.status.to_string())));
            }
        }
        Ok(None)
    }
}

impl Asked {
    /// What was asked, expected and got, and the entries around the place.
    fn show(&self, got: &str, status: &str) -> String {
        let Drawn { name, table, capture, .. } = &self.drawn;
        let (seed, (said, names), line) = (self.seed, NAMED[self.named], &self.line);
        let mut text = format!("seed {seed} differs: {name}, {said} named ({})\n", names.join(" "));
        text += &format!("second capture {seed} {TABLE} {CAPTURE} writes the files\n\n");
        text += &format!("expected {line:?}\ngot      {got:?}, {status}\n\n");
        let place = |line: &str| line.strip_prefix("entry ")?.split(' ').next()?.parse().ok();
        let place = [&line[..], got].into_iter().filter_map(place).min().unwrap_or(0);
        text + &show::table(table) + &show::capture(table, capture, place)
    }
}
