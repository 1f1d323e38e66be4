//! Other programs, started in a folder of their own: `tabcheck` and `tabmake`, and any that is given two files.

use std::fs;
use std::io::{self, ErrorKind};
use std::path::{Path, PathBuf};
use std::process::{self, Command, Output, Stdio};
use std::sync::atomic::{AtomicUsize, Ordering};

use crate::asked::{Case, Expected, Got, Question, IN, NEW, OLD, OUT, TABLE};

/// A fresh folder of the temporary folder, removed at the end.
pub struct Folder {
    path: PathBuf,
}

/// The two programs, and a folder for their files.
pub struct Programs {
    tabcheck: PathBuf,
    tabmake: PathBuf,
    folder: Folder,
}

impl Folder {
    pub fn new(name: &str) -> Result<Self, String> {
        static FOLDERS: AtomicUsize = AtomicUsize::new(0);
        let number = FOLDERS.fetch_add(1, Ordering::Relaxed);
        let path = std::env::temp_dir().join(format!("second-{name}-{}-{number}", process::id()));
        fs::create_dir(&path).map_err(|error| told(&path, error))?;
        Ok(Folder { path })
    }

    /// Runs a program in the folder; gives its output and how it ended.
    pub fn run(&self, program: &Path, arguments: &[&str]) -> Result<Output, String> {
        let mut command = Command::new(program);
        command.args(arguments).current_dir(&self.path).stdin(Stdio::null());
        command.output().map_err(|error| format!("{} does not start ({error})", program.display()))
    }

    pub fn write(&self, name: &str, octets: &[u8]) -> Result<(), String> {
        let path = self.path.join(name);
        fs::write(&path, octets).map_err(|error| told(&path, error))
    }

    /// Makes a folder inside.
    pub fn make(&self, name: &str) -> Result<(), String> {
        let path = self.path.join(name);
        fs::create_dir(&path).map_err(|error| told(&path, error))
    }

    fn read(&self, name: &str) -> Result<Option<Vec<u8>>, String> {
        let path = self.path.join(name);
        present(fs::read(&path)).map_err(|error| told(&path, error))
    }

    fn remove(&self, name: &str) -> Result<(), String> {
        let path = self.path.join(name);
        present(fs::remove_file(&path)).map(|_| ()).map_err(|error| told(&path, error))
    }
}

impl Drop for Folder {
    fn drop(&mut self) {
        let _ = fs::remove_dir_all(&self.path);
    }
}

impl Programs {
    pub fn new(tabcheck: &str, tabmake: &str) -> Result<Self, String> {
        let (tabcheck, tabmake) = (path(tabcheck)?, path(tabmake)?);
        Ok(Programs { tabcheck, tabmake, folder: Folder::new("tables")? })
    }

    /// The program's answer to a question.
    pub fn ask(&self, question: &Question) -> Result<Got, String> {
        match question {
            Question::Check(table) => {
                self.folder.write(TABLE, table)?;
                self.run(&self.tabcheck, &[TABLE])
            }
            Question::Extends(old, new) => {
                self.folder.write(OLD, old)?;
                self.folder.write(NEW, new)?;
                self.run(&self.tabcheck, &["--extends", OLD, NEW])
            }
            Question::Make(text, before) => {
                self.folder.write(IN, text)?;
                match before {
                    Some(octets) => self.folder.write(OUT, octets)?,
                    None => self.folder.remove(OUT)?,
                }
                let got = self.run(&self.tabmake, &[IN, OUT])?;
                Ok(Got { out: self.folder.read(OUT)?, ..got })
            }
        }
    }

    /// Whether `tabcheck` answers these tables rightly when it is given all of them at once.
    pub fn checks_all(&self, cases: &[&Case]) -> Result<bool, String> {
        let (mut names, mut lines) = (Vec::new(), String::new());
        for (at, case) in cases.iter().enumerate() {
            let (Question::Check(table), Expected::Says(said)) = (&case.question, &case.expected) else { continue };
            let name = format!("{at}.table");
            self.folder.write(&name, table)?;
            lines += &said.replacen(TABLE, &name, 1);
            names.push(name);
        }
        let names: Vec<&str> = names.iter().map(String::as_str).collect();
        let got = if names.is_empty() { Got::default() } else { self.run(&self.tabcheck, &names)? };
        Ok(got.status.is_none() && got.complained.is_empty() && got.said == lines.as_bytes())
    }

    fn run(&self, program: &Path, arguments: &[&str]) -> Result<Got, String> {
        let output = self.folder.run(program, arguments)?;
        let status = (!output.status.success()).then(|| output.status.to_string());
        Ok(Got { said: output.stdout, complained: output.stderr, out: None, status })
    }
}

/// A program's path from the root, since it is started in another folder; a bare name is looked up as usual.
pub fn path(program: &str) -> Result<PathBuf, String> {
    if !program.contains('/') {
        return Ok(PathBuf::from(program));
    }
    fs::canonicalize(program).map_err(|error| format!("{program} does not start ({error})"))
}

fn present<T>(result: io::Result<T>) -> io::Result<Option<T>> {
    match result {
        Err(error) if error.kind() == ErrorKind::NotFound => Ok(None),
        result => result.map(Some),
    }
}

fn told(path: &Path, error: io::Error) -> String {
    format!("{}: {error}", path.display())
}
