//! What every program has: its arguments, its ends, and the repository around it.

use std::path::PathBuf;
use std::process::exit;
use std::str::FromStr;

/// The arguments of a program, and its help.
pub struct Args {
    help: &'static str,
    rest: Vec<String>,
}

impl Args {
    /// Reads the arguments; `--help` prints the help and ends the program.
    pub fn new(help: &'static str) -> Args {
        let rest: Vec<String> = std::env::args().skip(1).collect();
        if rest.iter().any(|word| word == "--help" || word == "-h") {
            print!("{help}");
            exit(0);
        }
        Args { help, rest }
    }

    /// Takes `--name VALUE` out of the arguments.
    pub fn value<T: FromStr>(&mut self, name: &str) -> Option<T> {
        let at = self.rest.iter().position(|word| word == name)?;
        if at + 1 >= self.rest.len() {
            self.fail(&format!("{name} has no value"));
        }
        self.rest.remove(at);
        let value = self.rest.remove(at);
        match value.parse() {
            Ok(parsed) => Some(parsed),
            Err(_) => self.fail(&format!("{name} cannot be {value}")),
        }
    }

    /// Takes `--name` out of the arguments.
    pub fn flag(&mut self, name: &str) -> bool {
        let at = self.rest.iter().position(|word| word == name);
        at.map(|at| self.rest.remove(at)).is_some()
    }

    /// Takes the next plain word.
    pub fn word(&mut self) -> Option<String> {
        let at = self.rest.iter().position(|word| !word.starts_with('-'))?;
        Some(self.rest.remove(at))
    }

    /// Fails where something is left.
    pub fn end(self) {
        if let Some(word) = self.rest.first() {
            self.fail(&format!("{word} is not understood"));
        }
    }

    /// Prints what is wrong and how to call the program, and ends it.
    pub fn fail(&self, why: &str) -> ! {
        eprintln!("{why}\n\n{}", self.help);
        exit(2)
    }
}

/// Prints a failure and ends the program.
pub fn fail(why: &str) -> ! {
    eprintln!("{why}");
    exit(1)
}

/// The top of the repository: the folder with crates.txt, here or above.
pub fn top() -> PathBuf {
    let mut at = std::env::current_dir().unwrap_or_else(|why| fail(&format!("this folder: {why}")));
    while !at.join("crates.txt").is_file() {
        if !at.pop() {
            fail("no crates.txt in this folder or above it");
        }
    }
    at
}
