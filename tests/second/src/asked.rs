//! What is asked of `tabcheck` and `tabmake`, and whether their answer is this program's.

use std::fmt::Write;

use crate::compare::{first_difference, Difference};

/// The names of the files that a question is about.
pub const TABLE: &str = "this.table";
pub const OLD: &str = "old.table";
pub const NEW: &str = "new.table";
pub const IN: &str = "in.txt";
pub const OUT: &str = "out.table";

/// What is asked of a program, with the octets of the files named.
#[derive(Clone, Debug)]
pub enum Question {
    Check(Vec<u8>),
    Extends(Vec<u8>, Vec<u8>),
    /// A text, and what stands in OUT before, if that is there.
    Make(Vec<u8>, Option<Vec<u8>>),
}

/// What a right program answers.
#[derive(Clone, Debug)]
pub enum Expected {
    /// This on standard output, and nothing on standard error.
    Says(String),
    /// These octets in OUT, and nothing on standard error.
    Makes(Vec<u8>),
    /// One of these on standard error, or anything if there are none, and OUT as it was.
    Refuses(Vec<String>),
}

/// What a program answered; OUT is none where there is no such file, and the status where it is 0.
#[derive(Clone, Debug, Default, PartialEq, Eq)]
pub struct Got {
    pub said: Vec<u8>,
    pub complained: Vec<u8>,
    pub out: Option<Vec<u8>>,
    pub status: Option<String>,
}

#[derive(Clone, Debug)]
pub struct Case {
    pub question: Question,
    pub expected: Expected,
}

impl Case {
    pub fn agrees(&self, got: &Got) -> bool {
        let before = match &self.question {
            Question::Make(_, before) => before,
            _ => &None,
        };
        if got.status.is_some() {
            return false;
        }
        match &self.expected {
            Expected::Says(lines) => got.complained.is_empty() && got.said == lines.as_bytes(),
            Expected::Makes(octets) => got.complained.is_empty() && got.out.as_ref() == Some(octets),
            Expected::Refuses(lines) => {
                let told = match &lines[..] {
                    [] => !got.complained.is_empty(),
                    lines => lines.iter().any(|line| got.complained == line.as_bytes()),
                };
                told && got.out == *before
            }
        }
    }

    /// What was asked, expected and got, in words.
    pub fn show(&self, got: &Got) -> String {
        let mut text = "asked:\n".to_string();
        match &self.question {
            Question::Check(table) => text += &format!("  tabcheck {TABLE}\n  {TABLE}: {}\n", hex(table)),
            Question::Extends(old, new) => {
                text += &format!("  tabcheck --extends {OLD} {NEW}\n  {OLD}: {}\n  {NEW}: {}\n", hex(old), hex(new));
            }
            Question::Make(input, before) => {
                text += &format!("  tabmake {IN} {OUT}\n  {OUT} before: {}\n{IN}:\n{}", out(before), numbered(input));
            }
        }
        text += "\nexpected:\n";
        match &self.expected {
            Expected::Says(lines) => text += &format!("{lines}and nothing on standard error\n"),
            Expected::Makes(octets) => text += &format!("  {OUT}: {}\n  nothing on standard error\n", hex(octets)),
            Expected::Refuses(lines) if lines.is_empty() => text += &format!("  a refusal, {OUT} as before\n"),
            Expected::Refuses(lines) => text += &format!("{}  {OUT} as before\n", lines.join("or\n")),
        }
        let [said, complained] = [&got.said, &got.complained].map(|octets| String::from_utf8_lossy(octets));
        text += &format!("\ngot:\n{said}standard error:\n{complained}");
        if let Some(status) = &got.status {
            text += &format!("and the program ended with {status}\n");
        }
        match &self.expected {
            Expected::Says(lines) => {
                if let Some(Difference { call, here, there }) = first_difference(lines.as_bytes(), &got.said) {
                    text += &format!("\nfirst in line {call}:\n  expected {here}\n  got      {there}\n");
                }
            }
            _ => text += &format!("{OUT}: {}\n", out(&got.out)),
        }
        text
    }
}

fn out(octets: &Option<Vec<u8>>) -> String {
    octets.as_ref().map_or("not there".to_string(), |octets| hex(octets))
}

pub fn hex(octets: &[u8]) -> String {
    octets.iter().fold(String::new(), |mut text, octet| {
        let _ = write!(text, "{octet:02x}");
        text
    })
}

/// A text with the numbers of its lines, long ones cut.
fn numbered(text: &[u8]) -> String {
    let text = String::from_utf8_lossy(text);
    let lines = text.split('\n').enumerate();
    lines.map(|(at, line)| format!("{:5} {}\n", at + 1, line.chars().take(200).collect::<String>())).collect()
}
