//! Cases as frames of the `trials` program, and the answers to them.

use crate::answer::{Answer, Part, Text};
use crate::check::{self, Lent, Settle};
use crate::lines::{self, Texts};

/// Most places that a frame may ask for.
pub const MOST_PLACES: usize = 2_048;
/// Most bytes of a text or of a writer's room in a frame.
pub const MOST_LENGTH: usize = 65_600;

/// One case.
#[derive(Clone, Debug, PartialEq, Eq)]
pub enum Case {
    Check { code: u64, places: usize, program: Vec<u8>, output: Vec<u8> },
    Plain { room: usize, program: Vec<u8> },
}

/// What stands next in the input.
#[derive(Debug, PartialEq, Eq)]
pub enum Frame {
    Case(Case),
    Bad,
    End,
}

impl Case {
    /// The case's program text.
    pub fn program(&self) -> &[u8] {
        match self {
            Case::Check { program, .. } | Case::Plain { program, .. } => program,
        }
    }

    /// The case as a frame.
    pub fn frame(&self) -> Vec<u8> {
        let mut frame;
        match self {
            Case::Check { code, places, program, output } => {
                frame = format!("check {code} {places} {} {}\n", program.len(), output.len()).into_bytes();
                frame.extend_from_slice(program);
                frame.extend_from_slice(output);
            }
            Case::Plain { room, program } => {
                frame = format!("plain {room} {}\n", program.len()).into_bytes();
                frame.extend_from_slice(program);
            }
        }
        frame.push(b'\n');
        frame
    }
}

/// Frames one after the other from an input.
pub struct Frames<'a> {
    rest: &'a [u8],
}

impl<'a> Frames<'a> {
    pub fn new(input: &'a [u8]) -> Frames<'a> {
        Frames { rest: input }
    }

    /// The next frame. Behind a bad one nothing is read.
    pub fn next_frame(&mut self) -> Frame {
        if self.rest.is_empty() {
            return Frame::End;
        }
        match self.case() {
            Some(case) => Frame::Case(case),
            None => {
                self.rest = &[];
                Frame::Bad
            }
        }
    }

    fn case(&mut self) -> Option<Case> {
        let end = self.rest.iter().position(|b| *b == b'\n')?;
        let line = std::str::from_utf8(&self.rest[..end]).ok()?;
        self.rest = &self.rest[end + 1..];
        let words: Vec<&str> = line.split(' ').collect();
        let case = match words[..] {
            ["check", code, places, program, output] => Case::Check {
                code: number(code, u64::MAX)?,
                places: number(places, MOST_PLACES as u64)? as usize,
                program: self.bytes(program)?,
                output: self.bytes(output)?,
            },
            ["plain", room, program] => {
                Case::Plain { room: number(room, MOST_LENGTH as u64)? as usize, program: self.bytes(program)? }
            }
            _ => return None,
        };
        let (newline, rest) = self.rest.split_first()?;
        self.rest = rest;
        (*newline == b'\n').then_some(case)
    }

    /// As many bytes as a word of the frame's line says.
    fn bytes(&mut self, length: &str) -> Option<Vec<u8>> {
        let length = number(length, MOST_LENGTH as u64)? as usize;
        if self.rest.len() < length {
            return None;
        }
        let (bytes, rest) = self.rest.split_at(length);
        self.rest = rest;
        Some(bytes.to_vec())
    }
}

/// A word that is a number no greater than `most`.
fn number(word: &str, most: u64) -> Option<u64> {
    if word.is_empty() || !word.bytes().all(|b| b.is_ascii_digit()) {
        return None;
    }
    word.parse().ok().filter(|number| *number <= most)
}

/// The answer to a case: its line, and for a written plain form the bytes on the next one.
pub fn answer(case: &Case, settle: Settle) -> Vec<u8> {
    match case {
        Case::Check { code, places, program, output } => {
            let mut lent: Vec<u16> = (0..*places).map(pattern).collect();
            let texts = Lent { program, output, code: *code };
            let answer = check::check(texts, &mut lent, settle);
            check_line(Texts { program, output }, &answer, &lent)
        }
        Case::Plain { room, program } => {
            let mut lent: Vec<u8> = (0..*room).map(|place| pattern(place) as u8).collect();
            let answer = check::write_plain(program, &mut lent);
            write_lines(program, &answer, &lent)
        }
    }
}

/// What a lent buffer holds at a place before the call: no round is as large.
fn pattern(place: usize) -> u16 {
    40_000 + (place * 7 % 20_000) as u16
}

fn check_line(texts: Texts, answer: &Answer, lent: &[u16]) -> Vec<u8> {
    let written = match answer {
        Answer::Accepted { rounds: 0, .. } => 0,
        Answer::Accepted { atoms, .. } => *atoms,
        _ => 0,
    };
    let (each, later) = lent.split_at(written);
    let kept = later.iter().zip(written..).all(|(now, place)| *now == pattern(place));
    let each: Vec<usize> = each.iter().map(|round| usize::from(*round)).collect();
    format!("{} {}\n", words(texts, answer, &each), last_word(kept)).into_bytes()
}

fn write_lines(program: &[u8], answer: &Answer, lent: &[u8]) -> Vec<u8> {
    let written = match answer {
        Answer::Written { length } => *length,
        _ => 0,
    };
    let (form, later) = lent.split_at(written);
    let kept = later.iter().zip(written..).all(|(now, place)| *now == pattern(place) as u8);
    let texts = Texts { program, output: &[] };
    let mut lines = format!("{} {}\n", words(texts, answer, &[]), last_word(kept)).into_bytes();
    if matches!(answer, Answer::Written { .. }) {
        lines.extend_from_slice(form);
        lines.push(b'\n');
    }
    lines
}

fn last_word(kept: bool) -> &'static str {
    if kept {
        "kept"
    } else {
        "touched"
    }
}

/// An answer line but its last word.
fn words(texts: Texts, answer: &Answer, each: &[usize]) -> String {
    let start = place(texts, Part::empty(Text::Program, 0));
    match answer {
        Answer::Accepted { atoms, rounds } => {
            format!("ACCEPTED {start} atoms {atoms} rounds {rounds} each{}", list(each))
        }
        Answer::Unsatisfied { rule, body } => {
            format!("UNSATISFIED {start} rule {rule} body{}", list(body))
        }
        Answer::Smaller { kept } => format!("SMALLER {start} atoms{}", list(kept)),
        Answer::ClaimedNone => format!("CLAIMED-NONE {start}"),
        Answer::ClaimedUnknown => format!("CLAIMED-UNKNOWN {start}"),
        Answer::Written { length } => format!("WRITTEN {start} length {length}"),
        Answer::Refused(refusal) => format!("REFUSED {} {}", refusal.number, place(texts, refusal.part)),
    }
}

/// A part's place: its text, its first byte, its length, and the line and column of that byte.
fn place(texts: Texts, part: Part) -> String {
    let spot = lines::spot(texts, part);
    format!("{} {} {} {} {}", part.text.name(), part.start, part.length, spot.line, spot.column)
}

/// Numbers, each behind a blank.
fn list(numbers: &[usize]) -> String {
    numbers.iter().map(|number| format!(" {number}")).collect()
}
