//! Bytes to tokens: longest match, with blanks and comments passed over.

use crate::rules::Relation;
use crate::wrong::{self, Wrong};

/// What a token is.
#[derive(Clone, Copy, Debug, PartialEq, Eq)]
pub enum Kind {
    Name,
    Not,
    Number,
    Variable,
    Anonymous,
    /// A string with its quotes.
    String,
    Open,
    Close,
    Comma,
    Dot,
    If,
    /// The `|` between two head atoms.
    Or,
    Plus,
    Minus,
    Times,
    Relation(Relation),
    /// A byte where no token starts.
    Stray,
    /// The end of the text.
    End,
}

/// A token and its place: its first byte, and the one behind its last.
#[derive(Clone, Copy, Debug, PartialEq, Eq)]
pub struct Token {
    pub kind: Kind,
    pub start: usize,
    pub end: usize,
}

/// The two languages that are read: they share their tokens, but a facts line has no comments.
#[derive(Clone, Copy, Debug, PartialEq, Eq)]
pub enum Language {
    Program,
    Facts,
}

/// Marks by their spelling, of two bytes before those of one, so that the first that fits is the longest.
const MARKS: &[(&[u8], Kind)] = &[
    (b":-", Kind::If),
    (b"!=", Kind::Relation(Relation::Unequal)),
    (b"<>", Kind::Relation(Relation::Unequal)),
    (b"<=", Kind::Relation(Relation::LessOrEqual)),
    (b">=", Kind::Relation(Relation::GreaterOrEqual)),
    (b"<", Kind::Relation(Relation::Less)),
    (b">", Kind::Relation(Relation::Greater)),
    (b"=", Kind::Relation(Relation::Equal)),
    (b"(", Kind::Open),
    (b")", Kind::Close),
    (b",", Kind::Comma),
    (b".", Kind::Dot),
    (b"|", Kind::Or),
    (b"+", Kind::Plus),
    (b"-", Kind::Minus),
    (b"*", Kind::Times),
];

/// The first token at or behind a place.
pub fn token_from(text: &[u8], at: usize, language: Language) -> Token {
    let start = skip(text, at, language);
    match text.get(start) {
        None => token(Kind::End, start, 0),
        Some(first) => token_starting(text, start, *first),
    }
}

/// All tokens of a text but its end.
pub fn tokens(text: &[u8], language: Language) -> Vec<Token> {
    let mut found = Vec::new();
    let mut next = token_from(text, 0, language);
    while next.kind != Kind::End {
        found.push(next);
        next = token_from(text, next.end, language);
    }
    found
}

fn token(kind: Kind, start: usize, length: usize) -> Token {
    Token { kind, start, end: start + length }
}

/// The place behind all blanks and comments from here.
fn skip(text: &[u8], from: usize, language: Language) -> usize {
    let mut at = from;
    while let Some(byte) = text.get(at) {
        if is_blank(*byte) {
            at += 1;
        } else if *byte == b'%' && starts_comment(text, at, language) {
            at = comment_end(text, at);
        } else {
            break;
        }
    }
    at.min(text.len())
}

fn is_blank(byte: u8) -> bool {
    matches!(byte, b' ' | b'\t' | b'\n') || (byte == b'\r' && wrong::is(Wrong::CarriageReturn))
}

/// Whether the `%` at a place starts a comment.
fn starts_comment(text: &[u8], at: usize, language: Language) -> bool {
    match language {
        Language::Facts => wrong::is(Wrong::CommentOnFacts),
        Language::Program => text.get(at + 1) != Some(&b'*') || wrong::is(Wrong::BlockComment),
    }
}

/// The place behind a comment's newline, or the text's end.
fn comment_end(text: &[u8], at: usize) -> usize {
    match text[at..].iter().position(|b| *b == b'\n') {
        None => text.len(),
        Some(length) if wrong::is(Wrong::CommentEatsToken) => at + length + 2,
        Some(length) => at + length + 1,
    }
}

/// The token that starts with this byte at this place.
fn token_starting(text: &[u8], start: usize, first: u8) -> Token {
    match first {
        b'a'..=b'z' => word(text, start),
        b'A'..=b'Z' => token(Kind::Variable, start, run(text, start, is_word_byte)),
        b'_' if wrong::is(Wrong::UnderscoreWord) => token(Kind::Anonymous, start, run(text, start, is_word_byte)),
        b'_' => token(Kind::Anonymous, start, 1),
        b'0' if !wrong::is(Wrong::LeadingZeros) => token(Kind::Number, start, 1),
        b'0'..=b'9' => token(Kind::Number, start, run(text, start, |b| b.is_ascii_digit())),
        b'"' => string(text, start),
        _ => mark(text, start),
    }
}

fn is_word_byte(byte: u8) -> bool {
    matches!(byte, b'a'..=b'z' | b'A'..=b'Z' | b'0'..=b'9' | b'_')
}

/// How many bytes from a place on are of a class.
fn run(text: &[u8], start: usize, class: fn(u8) -> bool) -> usize {
    text[start..].iter().take_while(|b| class(**b)).count()
}

/// A name, or the keyword.
fn word(text: &[u8], start: usize) -> Token {
    let length = run(text, start, is_word_byte);
    let spelling = &text[start..start + length];
    if spelling == b"not" {
        return token(Kind::Not, start, 3);
    }
    if wrong::is(Wrong::NotIsPrefix) && spelling.starts_with(b"not") {
        return token(Kind::Not, start, 3);
    }
    token(Kind::Name, start, length)
}

/// A string from its quote to the one that closes it; a quote that opens no string is a byte where no token starts.
fn string(text: &[u8], start: usize) -> Token {
    match closing_quote(text, start + 1) {
        Ok(close) => token(Kind::String, start, close + 1 - start),
        Err(fault) if wrong::is(Wrong::UnclosedWhole) => token(Kind::Stray, start, fault - start),
        Err(fault) if wrong::is(Wrong::UnclosedLong) && fault - start > 66 => token(Kind::String, start, fault - start),
        Err(_) => token(Kind::Stray, start, 1),
    }
}

/// The first quote from a place on that is not part of `\"`, or else the place of what may not stand before it: a
/// newline, a backslash with no quote behind it, the end.
fn closing_quote(text: &[u8], from: usize) -> Result<usize, usize> {
    let mut at = from;
    while let Some(byte) = text.get(at) {
        match byte {
            b'"' => return Ok(at),
            b'\\' if text.get(at + 1) == Some(&b'"') => at += 2,
            _ if stands_in_string(*byte) => at += 1,
            _ => return Err(at),
        }
    }
    Err(text.len())
}

/// Whether a byte that is no quote and stands before none may be one of a string.
fn stands_in_string(byte: u8) -> bool {
    match byte {
        b'\n' => wrong::is(Wrong::StringOverLines),
        b'\\' => wrong::is(Wrong::LoneBackslash),
        b'%' => !wrong::is(Wrong::CommentInString),
        b' '..=b'~' => true,
        _ => !wrong::is(Wrong::StringOfPrintable),
    }
}

/// A mark, or a byte where no token starts.
fn mark(text: &[u8], start: usize) -> Token {
    let rest = &text[start..];
    let Some((spelling, kind)) = MARKS.iter().find(|m| rest.starts_with(m.0)) else {
        return token(Kind::Stray, start, 1);
    };
    let wrongly = wrong::is(Wrong::UnequalReadsLess) && *spelling == b"<>";
    let kind = if wrongly { Kind::Relation(Relation::Less) } else { *kind };
    token(kind, start, spelling.len())
}
