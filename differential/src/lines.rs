//! Lines and columns: where a part of a text starts. Both count from 1, and every byte is one column.

use crate::answer::{Part, Text};
use crate::lexer::{self, Language};
use crate::output;
use crate::wrong::{self, Wrong};

/// The two texts of a case; that of a writer has no output.
#[derive(Clone, Copy)]
pub struct Texts<'a> {
    pub program: &'a [u8],
    pub output: &'a [u8],
}

impl<'a> Texts<'a> {
    fn of(self, text: Text) -> &'a [u8] {
        match text {
            Text::Program => self.program,
            Text::Output => self.output,
        }
    }
}

/// A line and a column of a text.
#[derive(Clone, Copy, Debug, PartialEq, Eq)]
pub struct Spot {
    pub line: usize,
    pub column: usize,
}

/// Where a part starts: one line more than newlines stand before it, one column more than bytes since the last of them.
pub fn spot(texts: Texts, part: Part) -> Spot {
    if part == Part::empty(part.text, 0) && wrong::is(Wrong::StartWithoutLine) {
        return Spot { line: 0, column: 0 };
    }
    let bytes = texts.of(part.text);
    let first = first_counted(texts, part);
    let start = start_counted(bytes, part);
    let newlines: Vec<usize> = (first..start).filter(|at| ends_line(bytes, *at, part.text)).collect();
    let line_start = newlines.last().map_or(first, |newline| newline + 1);
    let columns: usize = bytes[line_start..start].iter().map(|byte| width(*byte)).sum();
    let column = columns + usize::from(!wrong::is(Wrong::ColumnFromZero));
    kept(Spot { line: newlines.len() + 1, column })
}

/// The byte from which lines are counted: the first of the text.
fn first_counted(texts: Texts, part: Part) -> usize {
    if part.text == Text::Program || !wrong::is(Wrong::LinesFromFacts) {
        return 0;
    }
    let on_line = |facts: &usize| *facts <= part.start && !texts.output[*facts..part.start].contains(&b'\n');
    output::facts_start(texts.output).filter(on_line).unwrap_or(0)
}

/// The byte up to which lines and columns are counted: the first of the part, over how many lines it may run.
fn start_counted(bytes: &[u8], part: Part) -> usize {
    let end = part.start + part.length;
    if wrong::is(Wrong::LastLine) && bytes[part.start..end].contains(&b'\n') {
        return end;
    }
    part.start
}

/// Whether a line ends with the byte at a place: each newline ends one, and no other byte does.
fn ends_line(bytes: &[u8], at: usize, text: Text) -> bool {
    match bytes[at] {
        b'\n' if wrong::is(Wrong::CommentNewline) => text == Text::Output || !ends_comment(bytes, at),
        b'\n' if wrong::is(Wrong::EndOnLastLine) => at + 1 < bytes.len(),
        b'\n' => true,
        b'\r' => wrong::is(Wrong::ReturnEndsLine),
        _ => false,
    }
}

/// Whether the newline at a place of a program ends a comment: where reading has come past it, a `%` behind the last
/// token of its line starts one.
fn ends_comment(program: &[u8], at: usize) -> bool {
    let start = program[..at].iter().rposition(|byte| *byte == b'\n').map_or(0, |newline| newline + 1);
    let line = &program[start..at];
    let behind = lexer::tokens(line, Language::Program).last().map_or(0, |token| token.end);
    line[behind..].contains(&b'%')
}

/// How many columns a byte has: one, whatever it is.
fn width(byte: u8) -> usize {
    match byte {
        b'\t' if wrong::is(Wrong::TabOfEight) => 8,
        0x80..=0xbf if wrong::is(Wrong::CharactersCounted) => 0,
        _ => 1,
    }
}

/// Lines and columns reach 65,537, which 16 bits don't hold.
fn kept(spot: Spot) -> Spot {
    if wrong::is(Wrong::PlaceOf16Bits) {
        return Spot { line: spot.line & 0xffff, column: spot.column & 0xffff };
    }
    spot
}
