//! Times: of a job in a batch of `trials`, and of a run of clingo, each without the time to start.

use std::io;
use std::path::Path;
use std::time::Instant;

use differential::{run_on, Case};

use crate::clingo::Clingo;
use crate::cost::{said, Ours};
use crate::jobs::Job;

/// A batch is made longer until it takes this many seconds.
const LONG_ENOUGH: f64 = 0.4;
/// Bytes of a batch at most.
const MOST_BYTES: usize = 64_000_000;
/// Runs of a batch, of which the middle one counts.
const BATCHES: usize = 5;
/// Runs of clingo, of which the middle one counts: each is short.
const RUNS: usize = 21;

/// Times a job: many copies in one run, less a run with none.
pub fn ours(trials: &Path, job: &Job) -> io::Result<Ours> {
    let command = [trials.to_string_lossy().into_owned()];
    let case = Case::Check { code: 10, places: 1024, program: job.program.clone(), output: job.output.clone() };
    let frame = case.frame();
    let said = said(job, &run_on(&command, frame.clone())?)?;
    let start = middle(BATCHES, || run_on(&command, Vec::new()))?;
    let most = MOST_BYTES / frame.len();
    let mut copies = 1;
    while copies < most && timed(|| run_on(&command, frame.repeat(copies)))? - start < LONG_ENOUGH {
        copies = (copies * 4).min(most);
    }
    let batch = middle(BATCHES, || run_on(&command, frame.repeat(copies)))?;
    Ok(Ours { said, cost: (batch - start).max(0.0) / copies as f64 })
}

/// Times clingo on a job's program and constraints, less a run on an empty program.
pub fn clingo(clingo: &Clingo, job: &Job) -> io::Result<f64> {
    let start = middle(RUNS, || clingo.solve(&[]))?;
    let whole = middle(RUNS, || clingo.hold(job))?;
    Ok((whole - start).max(0.0))
}

/// The seconds that some work takes.
fn timed<T>(work: impl Fn() -> io::Result<T>) -> io::Result<f64> {
    let began = Instant::now();
    work()?;
    Ok(began.elapsed().as_secs_f64())
}

/// The middle of some runs' times.
fn middle<T>(runs: usize, work: impl Fn() -> io::Result<T>) -> io::Result<f64> {
    let mut times = (0..runs).map(|_| timed(&work)).collect::<io::Result<Vec<f64>>>()?;
    times.sort_by(f64::total_cmp);
    Ok(times[runs / 2])
}
