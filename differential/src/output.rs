//! The solver's output: its lines, the report among them, the facts, and what the code says of it.
//! Refusals 1, 2, 3 and 4 of the output, then 10, then 6 and 7.

use std::collections::HashMap;

use crate::answer::{Part, Refusal, Text, CODE_DISAGREES, NOT_GRAMMAR, OPPOSITE, OVER_SIZE, REPEATED};
use crate::grammar::{self, PlacedFact};
use crate::rules::Fact;
use crate::wrong::{self, Wrong};

/// Bytes that a program text or a solver's output may have.
pub const MOST_BYTES: usize = 65_536;

/// What the solver reports.
#[derive(Clone, Debug)]
pub enum Report {
    Answer(Vec<PlacedFact>),
    Inconsistent,
    Unknown,
}

/// A line: where it starts, and where it ends before its newline.
#[derive(Clone, Copy)]
struct Line {
    start: usize,
    end: usize,
}

/// Refuses a text that is over its size.
pub fn within_size(bytes: &[u8], text: Text) -> Result<(), Refusal> {
    let most = MOST_BYTES + usize::from(wrong::is(Wrong::TextOf65537));
    if bytes.len() <= most {
        return Ok(());
    }
    Err(Refusal { number: OVER_SIZE, part: Part::empty(text, 0) })
}

/// The report of an output.
pub fn report(output: &[u8]) -> Result<Report, Refusal> {
    within_size(output, Text::Output)?;
    let Some(first) = first_other_line(output, 0) else {
        return Err(ends_early(output));
    };
    let (report, last) = report_at(output, first)?;
    match first_other_line(output, last.end + 1) {
        Some(line) if !wrong::is(Wrong::BehindReport) => Err(out_of_place(line)),
        _ => Ok(report),
    }
}

/// The report whose first line this is, and its last line.
fn report_at(output: &[u8], first: Line) -> Result<(Report, Line), Refusal> {
    if has_word(output, first, b"INCONSISTENT") {
        return Ok((Report::Inconsistent, first));
    }
    if has_word(output, first, b"UNKNOWN") {
        return Ok((Report::Unknown, first));
    }
    if !has_word(output, first, b"ANSWER") {
        return Err(out_of_place(first));
    }
    match line_from(output, first.end + 1) {
        Some(line) => {
            let facts = grammar::facts(&output[line.start..line.end], line.start)?;
            Ok((Report::Answer(facts), line))
        }
        None if wrong::is(Wrong::AnswerAlone) => Ok((Report::Answer(Vec::new()), first)),
        None => Err(ends_early(output)),
    }
}

/// Where the facts line of an output starts, if it has one.
pub fn facts_start(output: &[u8]) -> Option<usize> {
    let first = first_other_line(output, 0).filter(|line| has_word(output, *line, b"ANSWER"))?;
    line_from(output, first.end + 1).map(|line| line.start)
}

/// Whether a line starts with the report's word.
fn has_word(output: &[u8], line: Line, word: &[u8]) -> bool {
    let bytes = &output[line.start..line.end];
    if wrong::is(Wrong::ReportWholeLine) {
        return bytes == word;
    }
    bytes.starts_with(word)
}

/// The line that starts at a place: none at the end of the text.
fn line_from(output: &[u8], start: usize) -> Option<Line> {
    let rest = output.get(start..).filter(|rest| !rest.is_empty())?;
    let length = rest.iter().position(|b| *b == b'\n').unwrap_or(rest.len());
    Some(Line { start, end: start + length })
}

/// The first line from a place on that is not empty and does not start with `%`.
fn first_other_line(output: &[u8], from: usize) -> Option<Line> {
    let mut at = from;
    while let Some(line) = line_from(output, at) {
        if !may_surround(&output[line.start..line.end]) {
            return Some(line);
        }
        at = line.end + 1;
    }
    None
}

/// Whether a line may stand before and behind the report.
fn may_surround(line: &[u8]) -> bool {
    let blank = line.iter().all(|b| matches!(b, b' ' | b'\t' | b'\r'));
    line.is_empty() || line[0] == b'%' || (blank && wrong::is(Wrong::BlankLineEmpty))
}

fn out_of_place(line: Line) -> Refusal {
    let end = line.end + usize::from(wrong::is(Wrong::LineWithNewline));
    let part = Part { text: Text::Output, start: line.start, length: end - line.start };
    Refusal { number: NOT_GRAMMAR, part }
}

fn ends_early(output: &[u8]) -> Refusal {
    Refusal { number: NOT_GRAMMAR, part: Part::empty(Text::Output, output.len()) }
}

/// Refuses a code that is not the report's.
pub fn code_agrees(report: &Report, code: u64) -> Result<(), Refusal> {
    let expected = match report {
        Report::Answer(_) => 10,
        Report::Inconsistent => 20,
        Report::Unknown => 1,
    };
    let low = if wrong::is(Wrong::CodeLowBits) { 16 } else { 64 };
    if code & (u64::MAX >> (64 - low)) == expected {
        return Ok(());
    }
    Err(Refusal { number: CODE_DISAGREES, part: Part::empty(Text::Output, 0) })
}

/// Refuses the leftmost fact that repeats an earlier one or is its opposite.
pub fn distinct(output: &[u8], facts: &[PlacedFact]) -> Result<(), Refusal> {
    let mut earlier: HashMap<&Fact, &[u8]> = HashMap::new();
    for placed in facts {
        let text = &output[placed.start..placed.start + placed.length];
        let by_text = wrong::is(Wrong::RepeatByText);
        if earlier.get(&placed.fact).is_some_and(|old| !by_text || *old == text) {
            return Err(fact_refusal(REPEATED, placed));
        }
        let opposite = earlier.contains_key(&placed.fact.opposite());
        if opposite && !wrong::is(Wrong::OppositeAllowed) {
            return Err(fact_refusal(OPPOSITE, placed));
        }
        earlier.insert(&placed.fact, text);
    }
    Ok(())
}

fn fact_refusal(number: u8, placed: &PlacedFact) -> Refusal {
    let part = Part { text: Text::Output, start: placed.start, length: placed.length };
    Refusal { number, part }
}
