//! What a job costs, ours and clingo's, by one of two measures.

use std::io;
use std::path::PathBuf;

use crate::clingo::Clingo;
use crate::jobs::Job;
use crate::measure::Measure;
use crate::{clock, instructions};

/// What our check says of a candidate, and what that costs.
pub struct Ours {
    /// The rounds of an accepted candidate, or else the verdict.
    pub said: Result<usize, String>,
    pub cost: f64,
}

/// The costs of one job.
pub struct Costs {
    pub ours: Ours,
    pub clingo: Option<f64>,
}

/// What is measured, and how.
pub struct Programs {
    pub measure: Measure,
    /// The script that runs `trials`.
    pub trials: PathBuf,
    /// The script that counts a program's instructions.
    pub counter: PathBuf,
    pub clingo: Option<Clingo>,
}

impl Programs {
    /// The costs of a job.
    pub fn costs(&self, job: &Job) -> io::Result<Costs> {
        let clingo = self.clingo.as_ref();
        match self.measure {
            Measure::Seconds => Ok(Costs {
                ours: clock::ours(&self.trials, job)?,
                clingo: clingo.map(|clingo| clock::clingo(clingo, job)).transpose()?,
            }),
            Measure::Instructions => Ok(Costs {
                ours: instructions::ours(&self.counter, job)?,
                clingo: clingo.map(|clingo| instructions::clingo(clingo, job)).transpose()?,
            }),
        }
    }
}

/// The verdict and the rounds from the first words of an answer; a refusal is an error.
pub fn said(job: &Job, answer: &[u8]) -> io::Result<Result<usize, String>> {
    let text = String::from_utf8_lossy(answer);
    let words: Vec<&str> = text.split_whitespace().take(10).collect();
    match words[..] {
        ["ACCEPTED", _, _, _, _, _, "atoms", _, "rounds", rounds]
        | ["VERDICT", "ACCEPTED", "ATOMS", _, "ROUNDS", rounds, ..] => rounds.parse().map(Ok).map_err(io::Error::other),
        [verdict @ ("UNSATISFIED" | "SMALLER"), ..] | ["VERDICT", verdict, ..] => Ok(Err(verdict.to_string())),
        _ => Err(io::Error::other(format!("{}: {}", job.name, text.trim_end()))),
    }
}
