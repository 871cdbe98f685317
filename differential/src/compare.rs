//! The comparison: random or given cases through the command and through the independent checker, answer by answer.

use std::collections::BTreeMap;
use std::io::{self, Write};
use std::thread;

use crate::batch;
use crate::frames::{self, Case};
use crate::generate;
use crate::meaning;
use crate::shrink;

/// Differing cases that are made smaller and shown.
const MOST_SHOWN: usize = 3;
/// Bytes of a frame that is printed.
const MOST_PRINTED: usize = 2_000;

/// The honest answer to a case.
pub fn honest(case: &Case) -> Vec<u8> {
    frames::answer(case, meaning::outcome)
}

/// The cases of a seed.
pub fn generated(seed: u64, count: u64) -> Vec<Case> {
    (0..count).map(|number| generate::case(seed, number)).collect()
}

/// Runs generated cases through the command; whether every answer is the same.
pub fn run_generated(command: &[String], seed: u64, count: u64) -> io::Result<bool> {
    let cases = generated(seed, count);
    let mut wanted: Vec<Vec<u8>> = cases.iter().map(honest).collect();
    print_kinds(&wanted)?;
    print_lines(&wanted)?;
    wanted.push(batch::BAD_FRAME.to_vec());
    let written = all_written(command, &cases, batch::bad_frame(seed))?;
    report(command, &cases, &wanted, &batch::answers(&written))
}

/// What the command writes for cases and for a last frame: a share of them in each run, as many runs at a time as there are processors.
fn all_written(command: &[String], cases: &[Case], last: &[u8]) -> io::Result<Vec<u8>> {
    let runs = thread::available_parallelism().map_or(1, usize::from);
    let share = cases.len().div_ceil(runs).max(1);
    let mut inputs: Vec<Vec<u8>> = cases.chunks(share).map(batch::input).collect();
    match inputs.last_mut() {
        Some(input) => input.extend_from_slice(last),
        None => inputs.push(last.to_vec()),
    }
    thread::scope(|scope| {
        let runs: Vec<_> = inputs.into_iter().map(|input| scope.spawn(|| batch::run(command, input))).collect();
        let mut written = Vec::new();
        for run in runs {
            written.extend(run.join().unwrap_or_else(|_| Err(io::Error::other("a run failed")))?);
        }
        Ok(written)
    })
}

/// Runs the cases of a file through the command and shows both answers to each.
pub fn run_given(command: &[String], cases: &[Case]) -> io::Result<bool> {
    let wanted: Vec<Vec<u8>> = cases.iter().map(honest).collect();
    if command.is_empty() {
        io::stdout().write_all(&wanted.concat())?;
        return Ok(true);
    }
    let written = batch::run(command, batch::input(cases))?;
    report(command, cases, &wanted, &batch::answers(&written))
}

/// How many of the wanted answers are of each kind.
fn print_kinds(wanted: &[Vec<u8>]) -> io::Result<()> {
    let mut kinds: BTreeMap<String, usize> = BTreeMap::new();
    for answer in wanted {
        let line = String::from_utf8_lossy(answer);
        let words: Vec<&str> = line.split_whitespace().take(2).collect();
        let kind = match words[..] {
            ["REFUSED", number] => format!("REFUSED {number}"),
            _ => words.first().unwrap_or(&"").to_string(),
        };
        *kinds.entry(kind).or_default() += 1;
    }
    let kinds: Vec<String> = kinds.iter().map(|(kind, count)| format!("{kind}: {count}")).collect();
    writeln!(io::stdout(), "{}", kinds.join(", "))
}

/// How many of the wanted refusals are at a line above 1, in each text.
fn print_lines(wanted: &[Vec<u8>]) -> io::Result<()> {
    let refused: Vec<(&str, usize)> = wanted.iter().filter_map(|answer| refused_line(answer)).collect();
    let told = ["program", "output"].map(|text| {
        let lines = refused.iter().filter(|one| one.0 == text).map(|one| one.1);
        format!("{} of {} of the {text}", lines.clone().filter(|line| *line > 1).count(), lines.count())
    });
    writeln!(io::stdout(), "refusals at a line above 1: {}", told.join(", "))
}

/// The text and the line of a refusal.
fn refused_line(answer: &[u8]) -> Option<(&str, usize)> {
    let words: Vec<&str> = std::str::from_utf8(answer).ok()?.split_whitespace().collect();
    match words[..] {
        ["REFUSED", _, text, _, _, line, _, _] => Some((text, line.parse().ok()?)),
        _ => None,
    }
}

/// Prints how many answers differ, and the first of them made small.
fn report(command: &[String], cases: &[Case], wanted: &[Vec<u8>], got: &[&[u8]]) -> io::Result<bool> {
    let answer = |number: usize| got.get(number).copied().unwrap_or(b"");
    let differing: Vec<usize> = (0..wanted.len()).filter(|number| wanted[*number] != answer(*number)).collect();
    let mut out = io::stdout();
    for number in differing.iter().take(MOST_SHOWN) {
        match cases.get(*number) {
            Some(case) => show(command, *number, case)?,
            None => writeln!(out, "the bad frame at the end: got {}", String::from_utf8_lossy(answer(*number)))?,
        }
    }
    let more = got.len().saturating_sub(wanted.len());
    if more > 0 {
        writeln!(out, "{more} answers more than cases")?;
    }
    writeln!(out, "{} cases, {} answers differ", cases.len(), differing.len() + more)?;
    Ok(differing.is_empty() && more == 0)
}

/// Shows a differing case, as small as it still differs, and keeps it as a frame to replay.
fn show(command: &[String], number: usize, case: &Case) -> io::Result<()> {
    let small = shrink::smallest(case.clone(), &mut |tries| first_differing(command, tries))?;
    let frame = small.frame();
    let file = std::env::temp_dir().join(format!("differential-{number}.frame"));
    std::fs::write(&file, &frame)?;
    let written = batch::run(command, frame.clone())?;
    let mut out = io::stdout();
    writeln!(out, "case {number} differs; made small, its frame has {} bytes: {}", frame.len(), file.display())?;
    if frame.len() <= MOST_PRINTED {
        out.write_all(&frame)?;
    }
    out.write_all(b"wanted ")?;
    out.write_all(&honest(&small))?;
    out.write_all(b"got    ")?;
    out.write_all(&written)?;
    writeln!(out)
}

/// The first of some cases that differs: the command answers each batch in one run.
fn first_differing(command: &[String], tries: &[Case]) -> io::Result<Option<usize>> {
    let written = batch::run(command, batch::input(tries))?;
    let got = batch::answers(&written);
    let differs =
        |(number, case): (usize, &Case)| (got.get(number).copied().unwrap_or(b"") != honest(case)).then_some(number);
    Ok(tries.iter().enumerate().find_map(differs))
}
