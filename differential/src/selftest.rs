//! The independent checker held to the paper's examples, to stored answers, and to itself.

use std::io::{self, Write};

use crate::batch;
use crate::check::{few_for_subsets, read_program, Settle};
use crate::compare::{generated, honest};
use crate::examples;
use crate::frames::{self, Case};
use crate::meaning::{definition, matchings, Outcome};
use crate::output::{self, Report};
use crate::plain::plain_form;
use crate::rules::{Fact, Rule};

/// Runs every part of the self-test; whether all of it held.
pub fn run(files: &[String], seed: u64, count: u64) -> io::Result<bool> {
    let mut held = examples_hold()?;
    for pair in files.chunks(2) {
        held &= match pair {
            [frames, answers] => stored_answers_hold(frames, answers)?,
            _ => return Err(io::Error::new(io::ErrorKind::InvalidInput, "a file of frames without its answers")),
        };
    }
    let cases = generated(seed, count);
    held &= frames_read_back(&cases)?;
    held &= two_ways_agree(&cases)?;
    held &= plain_forms_hold(&cases)?;
    Ok(held)
}

/// Prints how many of some tries held, and which is the first that did not.
fn tell(what: &str, tried: usize, failed: &[String]) -> io::Result<bool> {
    let mut out = io::stdout();
    writeln!(out, "{what}: {} of {tried}", tried - failed.len())?;
    if let Some(first) = failed.first() {
        writeln!(out, "  first that does not: {first}")?;
    }
    Ok(failed.is_empty())
}

fn examples_hold() -> io::Result<bool> {
    let ways: [Settle; 2] = [crate::meaning::outcome, matchings::outcome];
    let examples = examples::all();
    let mut failed = Vec::new();
    for (case, wanted) in &examples {
        for settle in ways {
            let got = frames::answer(case, settle);
            if got != *wanted {
                let frame = case.frame();
                failed.push(format!("{}{}", String::from_utf8_lossy(&frame), String::from_utf8_lossy(&got)));
            }
        }
    }
    tell("the paper's examples and fine points, in both ways", 2 * examples.len(), &failed)
}

fn stored_answers_hold(frames: &str, answers: &str) -> io::Result<bool> {
    let mut written = Vec::new();
    batch::serve(&std::fs::read(frames)?, &mut written, crate::meaning::outcome)?;
    let wanted = std::fs::read(answers)?;
    let (got, wanted) = (batch::answers(&written), batch::answers(&wanted));
    let differs = |number: &usize| got.get(*number) != wanted.get(*number);
    let failed: Vec<String> = (0..got.len().max(wanted.len()))
        .filter(differs)
        .map(|number| format!("answer {number} of {answers}"))
        .collect();
    tell(frames, got.len().max(wanted.len()), &failed)
}

fn frames_read_back(cases: &[Case]) -> io::Result<bool> {
    let same = batch::cases(&batch::input(cases)).as_deref() == Some(cases);
    let failed: Vec<String> = (!same).then(|| "the batch".to_string()).into_iter().collect();
    tell("batches of frames that read back", 1, &failed)
}

/// The rules and facts of a case that are read, consistent and few enough.
fn meaningful(case: &Case) -> Option<(Vec<Rule>, Vec<Fact>)> {
    let Case::Check { program, output, .. } = case else {
        return None;
    };
    let rules = read_program(program).ok()?;
    let Ok(Report::Answer(facts)) = output::report(output) else {
        return None;
    };
    output::distinct(output, &facts).ok()?;
    let facts: Vec<Fact> = facts.into_iter().map(|placed| placed.fact).collect();
    few_for_subsets(&rules, &facts).ok()?;
    Some((rules, facts))
}

/// The plain definition and the matchings come to the same, wherever the case is small enough for both.
fn two_ways_agree(cases: &[Case]) -> io::Result<bool> {
    let mut failed = Vec::new();
    let (mut meanings, mut small) = (0, 0);
    for (number, case) in cases.iter().enumerate() {
        let Some((rules, facts)) = meaningful(case) else {
            continue;
        };
        meanings += 1;
        let Some(plain) = definition::outcome(&rules, &facts) else {
            continue;
        };
        small += 1;
        let quick: Outcome = matchings::outcome(&rules, &facts);
        if plain != quick {
            failed.push(format!("case {number}: {plain:?} by the definition, {quick:?} by matchings"));
        }
    }
    tell(&format!("meanings where both ways agree, of {meanings} in all"), small, &failed)
}

/// A plain form is no longer than its text, reads as itself, and is the writer's answer.
fn plain_forms_hold(cases: &[Case]) -> io::Result<bool> {
    let mut failed = Vec::new();
    let mut tried = 0;
    for (number, case) in cases.iter().enumerate() {
        let Ok(rules) = read_program(case.program()) else {
            continue;
        };
        tried += 1;
        let form = plain_form(&rules);
        let again = read_program(&form).map(|rules| plain_form(&rules));
        let written = Case::Plain { room: form.len(), program: case.program().to_vec() };
        let line = format!("WRITTEN program 0 0 1 1 length {} kept\n", form.len());
        let wanted = [line.as_bytes(), &form, b"\n"].concat();
        if form.len() > case.program().len() || again.as_ref() != Ok(&form) || honest(&written) != wanted {
            failed.push(format!("case {number}"));
        }
    }
    tell("plain forms that read as themselves", tried, &failed)
}
