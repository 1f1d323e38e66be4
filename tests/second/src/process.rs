//! Another program of the drive protocol, fed with a whole script or frame by frame.

use std::io::{self, BufRead, BufReader, Read, Write};
use std::process::{Child, ChildStdin, ChildStdout, Command, ExitStatus, Stdio};
use std::sync::mpsc::{sync_channel, Receiver, RecvTimeoutError, SyncSender};
use std::thread;
use std::time::Duration;

use crate::frame::Frame;
use crate::player::Player;

/// How long a program may take to answer a call, and how many octets its line may have.
const LONGEST: Duration = Duration::from_secs(10);
const LONGEST_LINE: u64 = 1 << 20;

/// Starts a program, with the argument `places` if it is to show them.
fn start(program: &str, places: bool) -> Result<(Child, ChildStdin, ChildStdout), String> {
    let mut command = Command::new(program);
    command.args(places.then_some("places")).stdin(Stdio::piped()).stdout(Stdio::piped()).stderr(Stdio::null());
    let mut child = command.spawn().map_err(|error| {
        format!("{program} does not start ({error}): give the path of a program of the drive protocol")
    })?;
    let (input, output) = (child.stdin.take(), child.stdout.take());
    Ok((child, input.expect("standard input is piped"), output.expect("standard output is piped")))
}

/// What a program writes for a whole script, and how it ended.
pub fn play(program: &str, places: bool, script: &[u8]) -> Result<(Vec<u8>, ExitStatus), String> {
    let (mut child, mut input, mut output) = start(program, places)?;
    let mut lines = Vec::new();
    let read = thread::scope(|scope| {
        // A program that ends early closes its input; its lines then show the difference.
        scope.spawn(move || input.write_all(script));
        output.read_to_end(&mut lines)
    });
    read.map_err(|error| format!("reading from {program}: {error}"))?;
    let status = child.wait().map_err(|error| format!("waiting for {program}: {error}"))?;
    Ok((lines, status))
}

/// A program that answers each call with a line at once.
pub struct Process {
    name: String,
    child: Child,
    input: ChildStdin,
    lines: Receiver<io::Result<Vec<u8>>>,
}

impl Process {
    pub fn start(program: &str) -> Result<Self, String> {
        let (child, input, output) = start(program, false)?;
        let (sender, lines) = sync_channel(1);
        thread::spawn(move || send_lines(output, sender));
        Ok(Process { name: program.to_string(), child, input, lines })
    }
}

/// Hands over each line with its end, until there is none or nobody takes it.
fn send_lines(output: ChildStdout, sender: SyncSender<io::Result<Vec<u8>>>) {
    let mut output = BufReader::new(output);
    loop {
        let mut line = Vec::new();
        let read = output.by_ref().take(LONGEST_LINE).read_until(b'\n', &mut line);
        if matches!(read, Ok(0)) || sender.send(read.map(|_| line)).is_err() {
            return;
        }
    }
}

impl Player for Process {
    fn play(&mut self, frame: &Frame<'_>, line: &mut Vec<u8>) -> Result<(), String> {
        let mut octets = Vec::new();
        frame.append(&mut octets);
        // A program that has ended takes no frame; it then gives no line either.
        let _ = self.input.write_all(&octets);
        if !frame.is_call() {
            return Ok(());
        }
        let name = &self.name;
        match self.lines.recv_timeout(LONGEST) {
            Ok(Ok(answer)) => line.extend(answer),
            Ok(Err(error)) => return Err(format!("reading from {name}: {error}")),
            Err(RecvTimeoutError::Disconnected) => return Err(format!("{name} ended before it answered")),
            Err(RecvTimeoutError::Timeout) => {
                return Err(format!("{name} wrote no line within {} s", LONGEST.as_secs()));
            }
        }
        Ok(())
    }
}

impl Drop for Process {
    /// The association is over, whether the program ends by itself or not.
    fn drop(&mut self) {
        let _ = self.child.kill();
        let _ = self.child.wait();
    }
}
