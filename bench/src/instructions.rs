//! Instructions: of one run of `lookback` and one of clingo, from start to end, as the script `count` counts them.

use std::io;
use std::path::Path;
use std::process::{Command, Output};

use crate::clingo::Clingo;
use crate::cost::{said, Ours};
use crate::jobs::Job;

/// Counts our check of a job's files.
pub fn ours(counter: &Path, job: &Job) -> io::Result<Ours> {
    let [program, output, _] = job.files();
    let words = ["lookback", "check", &program, &output, "10"];
    let output = Command::new(counter).args(words).current_dir(&job.folder).output()?;
    Ok(Ours { cost: executed(&output)?, said: said(job, &output.stdout)? })
}

/// Counts clingo on a job's program and constraints.
pub fn clingo(clingo: &Clingo, job: &Job) -> io::Result<f64> {
    executed(&clingo.hold(job)?)
}

/// The number of the last line on standard error; where there is none, that line says what is missing.
fn executed(output: &Output) -> io::Result<f64> {
    let text = String::from_utf8_lossy(&output.stderr);
    let last = text.lines().last().unwrap_or("count: nothing was counted");
    let number = last.strip_prefix("instructions ").and_then(|number| number.parse().ok());
    number.ok_or_else(|| io::Error::other(last.to_string()))
}
