//! The order of refusals and verdicts: the whole check, and the writer.

use crate::answer::{Answer, Part, Refusal, Text, NO_ROOM, OUT_OF_RANGE, TOO_MANY_FOR_SUBSETS};
use crate::grammar::{self, PlacedFact};
use crate::meaning::matchings::{self, Candidate};
use crate::meaning::{subsets, Outcome};
use crate::output::{self, Report};
use crate::plain;
use crate::rules::{Fact, Rule};
use crate::safety;
use crate::wrong::{self, Wrong};

/// Facts that a candidate may have beside a rule with several heads.
const MOST_TESTED_FACTS: usize = 20;

/// A way to settle what a candidate means.
pub type Settle = fn(&[Rule], &[Fact]) -> Outcome;

/// What is lent to a check but its buffer: the two texts and the solver's code.
#[derive(Clone, Copy)]
pub struct Lent<'a> {
    pub program: &'a [u8],
    pub output: &'a [u8],
    pub code: u64,
}

/// The rules of a program text: refusals 1, then 2, 3 and 4, then 5.
pub fn read_program(text: &[u8]) -> Result<Vec<Rule>, Refusal> {
    output::within_size(text, Text::Program)?;
    let mut rules = grammar::rules(text)?;
    safety::bind(&mut rules)?;
    Ok(rules)
}

/// The whole check. Only ACCEPTED writes: each atom's round, in the first places.
pub fn check(lent: Lent, places: &mut [u16], settle: Settle) -> Answer {
    checked(lent, places, settle).unwrap_or_else(Answer::Refused)
}

fn checked(lent: Lent, places: &mut [u16], settle: Settle) -> Result<Answer, Refusal> {
    let (rules, report) = both_read(lent)?;
    consistent(lent, &report)?;
    match report {
        Report::Answer(facts) => {
            let enough = enough_places(&facts, places);
            let facts: Vec<Fact> = facts.into_iter().map(|placed| placed.fact).collect();
            let few = few_for_subsets(&rules, &facts);
            match wrong::is(Wrong::SubsetsBeforeRoom) {
                true => few.and(enough)?,
                false => enough.and(few)?,
            }
            verdict(&rules, settle(&rules, &facts), places)
        }
        Report::Inconsistent => Ok(Answer::ClaimedNone),
        Report::Unknown => Ok(Answer::ClaimedUnknown),
    }
}

/// The program's refusals come before the output's.
fn both_read(lent: Lent) -> Result<(Vec<Rule>, Report), Refusal> {
    let rules = read_program(lent.program);
    let report = output::report(lent.output);
    if wrong::is(Wrong::OutputFirst) {
        return report.and_then(|report| rules.map(|rules| (rules, report)));
    }
    rules.and_then(|rules| report.map(|report| (rules, report)))
}

/// The rules of a program and the facts of an output's candidate, where both are read and there is one.
pub fn rules_and_facts(program: &[u8], output: &[u8]) -> Option<(Vec<Rule>, Vec<Fact>)> {
    let rules = read_program(program).ok()?;
    let Ok(Report::Answer(placed)) = output::report(output) else { return None };
    Some((rules, placed.into_iter().map(|placed| placed.fact).collect()))
}

/// How many matchings a program's rules have over the candidate of an output, where there is one.
pub fn matchings(program: &[u8], output: &[u8]) -> Option<usize> {
    let (rules, facts) = rules_and_facts(program, output)?;
    let candidate = Candidate::new(&facts);
    Some(rules.iter().map(|rule| candidate.matchings(rule)).sum())
}

/// 10 comes before 6 and 7.
fn consistent(lent: Lent, report: &Report) -> Result<(), Refusal> {
    let code = output::code_agrees(report, lent.code);
    let distinct = match report {
        Report::Answer(facts) => output::distinct(lent.output, facts),
        _ => Ok(()),
    };
    if wrong::is(Wrong::CodeLast) {
        return distinct.and(code);
    }
    code.and(distinct)
}

fn enough_places(facts: &[PlacedFact], places: &[u16]) -> Result<(), Refusal> {
    let asked = facts.len() + usize::from(wrong::is(Wrong::RoomExclusive));
    if places.len() < asked {
        return Err(no_room(Text::Output));
    }
    Ok(())
}

/// Refuses a candidate that has too many subsets for the test of each: whatever the verdict would be, and before 8.
pub fn few_for_subsets(rules: &[Rule], facts: &[Fact]) -> Result<(), Refusal> {
    let most = match () {
        () if wrong::is(Wrong::SubsetsOf21) => MOST_TESTED_FACTS + 1,
        () if wrong::is(Wrong::SubsetsOf19) => MOST_TESTED_FACTS - 1,
        () => MOST_TESTED_FACTS,
    };
    if facts.len() <= most {
        return Ok(());
    }
    let candidate = Candidate::new(facts);
    if !subsets::several_heads(rules, &candidate) {
        return Ok(());
    }
    let settled = match () {
        () if wrong::is(Wrong::SubsetsAfterRange) => matchings::first_out_of_range(rules, &candidate),
        () if wrong::is(Wrong::SubsetsAfterBroken) => matchings::first_broken(rules, &candidate),
        () => None,
    };
    if settled.is_some() {
        return Ok(());
    }
    let text = if wrong::is(Wrong::SubsetsInProgram) { Text::Program } else { Text::Output };
    Err(Refusal { number: TOO_MANY_FOR_SUBSETS, part: Part::empty(text, 0) })
}

fn no_room(text: Text) -> Refusal {
    Refusal { number: NO_ROOM, part: Part::empty(text, 0) }
}

/// The answer for what a candidate means, its rounds written where it is accepted.
fn verdict(rules: &[Rule], outcome: Outcome, places: &mut [u16]) -> Result<Answer, Refusal> {
    match outcome {
        Outcome::OutOfRange { rule } => Err(out_of_range(&rules[rule])),
        Outcome::Broken { rule, body } => Ok(Answer::Unsatisfied { rule: rule + 1, body: from_one(&body) }),
        Outcome::Smaller { kept } => {
            if wrong::is(Wrong::WritesSmaller) {
                write_rounds(&kept, places);
            }
            Ok(Answer::Smaller { kept: from_one(&kept) })
        }
        Outcome::Accepted { rounds, each } => {
            write_rounds(&each, places);
            Ok(Answer::Accepted { atoms: each.len(), rounds })
        }
        Outcome::Minimal { atoms } => {
            if wrong::is(Wrong::WritesForHeads) {
                write_rounds(&vec![1; atoms], places);
            }
            Ok(Answer::Accepted { atoms, rounds: 0 })
        }
    }
}

fn from_one(positions: &[usize]) -> Vec<usize> {
    positions.iter().map(|position| position + 1).collect()
}

fn write_rounds(each: &[usize], places: &mut [u16]) {
    for (place, round) in places.iter_mut().zip(each) {
        *place = *round as u16;
    }
}

fn out_of_range(rule: &Rule) -> Refusal {
    let part = Part { text: Text::Program, start: rule.start, length: rule.length };
    Refusal { number: OUT_OF_RANGE, part }
}

/// The writer: the plain form at the buffer's start, later bytes untouched.
pub fn write_plain(program: &[u8], buffer: &mut [u8]) -> Answer {
    let rules = match read_program(program) {
        Ok(rules) => rules,
        Err(refusal) => return Answer::Refused(refusal),
    };
    let form = plain::plain_form(&rules);
    let length = form.len();
    let asked = length + usize::from(wrong::is(Wrong::WriterRoomExclusive));
    if buffer.len() < asked {
        if wrong::is(Wrong::WritesRefused) {
            buffer.fill(b' ');
        }
        return Answer::Refused(no_room(Text::Program));
    }
    buffer[..length].copy_from_slice(&form);
    Answer::Written { length }
}
