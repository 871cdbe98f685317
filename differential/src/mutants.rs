//! That the comparison can fail: each wrong build of the checker is run over the generated cases.

use std::io::{self, Write};

use crate::compare::{generated, honest};
use crate::frames::{self, Case};
use crate::meaning::matchings;
use crate::wrong::{self, Wrong, BUILDS};

/// A wrong build's answer; it settles what a candidate means by matchings alone.
pub fn wrong_answer(build: Wrong, case: &Case) -> Vec<u8> {
    wrong::run_as(Some(build), || frames::answer(case, matchings::outcome))
}

/// Prints a table of wrong builds, and how many cases show each; whether each is shown by one.
pub fn table(only: Option<Wrong>, seed: u64, count: u64) -> io::Result<bool> {
    let cases = generated(seed, count);
    let wanted: Vec<Vec<u8>> = cases.iter().map(honest).collect();
    let mut out = io::stdout();
    writeln!(out, "{:<24} {:>7} {:>7}  what is wrong", "build", "differ", "first")?;
    let (mut tried, mut caught) = (0, 0);
    for (build, name, words) in BUILDS.iter().filter(|b| only.is_none_or(|one| one == b.0)) {
        let differs = |number: &usize| wrong_answer(*build, &cases[*number]) != wanted[*number];
        let differing: Vec<usize> = (0..cases.len()).filter(differs).collect();
        let first = differing.first().map_or("-".to_string(), usize::to_string);
        writeln!(out, "{name:<24} {:>7} {first:>7}  {words}", differing.len())?;
        tried += 1;
        caught += usize::from(!differing.is_empty());
    }
    writeln!(out, "{caught} of {tried} wrong builds are caught by {count} cases of seed {seed}")?;
    Ok(caught == tried)
}
