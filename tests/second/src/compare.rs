//! Plays generated scripts on another program and here, and shows the first difference.

use std::ops::RangeInclusive;
use std::time::Instant;

use crate::drive::{self, Drive, Step};
use crate::frame::Frame;
use crate::generate;
use crate::process;
use crate::show;

/// Where two programs first differ: the call of a script, counted from 1, and both lines.
pub struct Difference {
    pub call: usize,
    pub here: String,
    pub there: String,
}

/// Plays scripts of so many calls for each seed, with or without places; true if there is no difference.
pub fn compare(program: &str, seeds: RangeInclusive<u64>, calls: usize, places: bool) -> Result<bool, String> {
    let (start, mut played, mut lines) = (Instant::now(), 0, Vec::new());
    for seed in seeds {
        let script = generate::script(seed, calls);
        lines.clear();
        drive::play(&script[..], &mut lines, Drive::default().showing_places(places))
            .map_err(|error| format!("playing seed {seed}: {error}"))?;
        let (theirs, status) = process::play(program, places, &script)?;
        if let Some(difference) = first_difference(&lines, &theirs) {
            print!("{}", describe(seed, &script, &difference));
            return Ok(false);
        }
        if !status.success() {
            println!("seed {seed}: no line differs, but {program} ended with {status}");
            return Ok(false);
        }
        played += calls;
    }
    let seconds = start.elapsed().as_secs_f64();
    println!("no difference in {played} calls, {seconds:.1} s, {:.0} calls a second", played as f64 / seconds);
    Ok(true)
}

/// The first line in which the answers differ.
pub fn first_difference(here: &[u8], there: &[u8]) -> Option<Difference> {
    if here == there {
        return None;
    }
    let text = |line: Option<&[u8]>| match line {
        Some(line) => String::from_utf8_lossy(line).trim_end().to_string(),
        None => "no line".to_string(),
    };
    let (mut ours, mut theirs) = (here.split_inclusive(|&o| o == b'\n'), there.split_inclusive(|&o| o == b'\n'));
    (1..).find_map(|call| {
        let (our, their) = (ours.next(), theirs.next());
        (our != their).then(|| Difference { call, here: text(our), there: text(their) })
    })
}

/// Seed and call, the table, state and frame of the call, and both lines.
fn describe(seed: u64, script: &[u8], difference: &Difference) -> String {
    let mut text = format!("seed {seed} call {} differs\n\n", difference.call);
    let mut drive = Drive::default();
    let (mut rest, mut calls) = (script, 0);
    while let Some((frame, more)) = Frame::split(rest) {
        calls += usize::from(frame.is_call());
        if calls == difference.call {
            text += &(show::table(&drive.table) + &show::state(&drive.state) + &show::frame(&frame));
            break;
        }
        if matches!(drive.step(&frame), Step::End) {
            text += "behind the end of the script\n";
            break;
        }
        rest = more;
    }
    text + &format!("\nhere:  {}\nthere: {}\n", difference.here, difference.there)
}
