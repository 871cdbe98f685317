//! clingo, as it is run for both measures.

use std::io::{self, Write};
use std::process::{Command, Output, Stdio};

use crate::jobs::Job;

/// What clingo is asked for: to solve, and to print no model.
const QUIETLY: [&str; 3] = ["--verbose=0", "--quiet=2", "--warn=none"];

/// A clingo that runs.
pub struct Clingo {
    /// The command's words before clingo's own.
    words: Vec<String>,
    /// What it says of itself.
    pub version: String,
}

impl Clingo {
    /// The clingo of a command; where it does not run, why.
    pub fn of(words: Vec<String>) -> Result<Clingo, String> {
        let output = match command(&words).arg("--version").output() {
            Ok(output) => output,
            Err(error) if error.kind() == io::ErrorKind::NotFound => {
                return Err(format!("there is no {}; Debian's package gringo has clingo", words[0]));
            }
            Err(error) => return Err(format!("{}: {error}", words[0])),
        };
        let text = String::from_utf8_lossy(&output.stdout);
        match text.lines().next().and_then(|line| line.strip_prefix("clingo version ")) {
            Some(version) => Ok(Clingo { version: version.to_string(), words }),
            None => Err(match String::from_utf8_lossy(&output.stderr).lines().next() {
                Some(line) if !line.starts_with("instructions ") => line.to_string(),
                _ => format!("{} is no clingo", words[words.len() - 1]),
            }),
        }
    }

    /// Solves a program from its standard input; an error unless it comes to an end.
    pub fn solve(&self, program: &[u8]) -> io::Result<Output> {
        let mut command = command(&self.words);
        command.args(QUIETLY).stdin(Stdio::piped()).stdout(Stdio::piped()).stderr(Stdio::piped());
        let mut child = command.spawn()?;
        if let Some(mut to) = child.stdin.take() {
            to.write_all(program)?;
        }
        let output = child.wait_with_output()?;
        match output.status.code() {
            Some(10 | 20 | 30) => Ok(output),
            _ => Err(io::Error::other(format!("clingo: {}", String::from_utf8_lossy(&output.stderr).trim_end()))),
        }
    }

    /// Solves a job's program with the candidate as constraints.
    pub fn hold(&self, job: &Job) -> io::Result<Output> {
        self.solve(&[job.program.as_slice(), b"\n", &job.constraints].concat())
    }
}

fn command(words: &[String]) -> Command {
    let mut command = Command::new(&words[0]);
    command.args(&words[1..]);
    command
}
