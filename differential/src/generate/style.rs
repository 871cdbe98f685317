//! Texts of rules and facts, and the same tokens written otherwise: over several lines, with blanks and comments, `<>`
//! for `!=`, `-0` for `0`.

use crate::lexer::{tokens, Kind, Language};
use crate::random::Random;
use crate::rules::Relation;

/// The operations' marks.
pub const OPERATIONS: &[&str] = &["+", "-", "*"];
/// The comparisons' marks.
pub const RELATIONS: &[&str] = &["=", "!=", "<>", "<", "<=", ">", ">="];

const BLANKS: &[&str] = &[" ", "  ", "\t", "\n", " \n", "\n\n", "\n\t", "\t \n\n "];
const COMMENTS: &[&str] =
    &["%\n", "% a.\n", "%%*\n", "% *%\n", "%b:-\u{e9}\r\n", "\t%:-not(\n ", "%\u{2192}\r\r\t\n", "%\n%\n\n"];
/// What stands behind a text's last token: a last newline or none, a comment with or without its own.
pub const ENDS: &[&str] = &["", "", "\n", "\n\n", "\t\n ", " % end", "%", "\n%\n", "% \u{e9}\r\n", "\n\t% \u{2192}"];
/// Between two rules that stand on lines of their own.
const RULE_ENDS: &[&str] = &["\n", "\n", "\n", "\n\n", " % a:-b.\n", "\n% \u{e9}\n", "\t%\r\n\n\n"];
/// Behind `:-`, a bar and a comma, where a rule goes over several lines.
const INDENTS: &[&str] = &["\n\t", "\n    ", " % c\n\t", " "];

/// A rule from its head and body, either perhaps empty.
pub fn rule_text(head: &str, body: &[String]) -> String {
    if body.is_empty() {
        return format!("{head}.");
    }
    format!("{head}:-{}.", body.join(","))
}

/// A program text in some style: as it is, its tokens far apart, or its rules on lines of their own.
pub fn styled(random: &mut Random, text: &[u8]) -> Vec<u8> {
    match random.below(100) {
        0..=34 => text.to_vec(),
        35..=64 => restyled(random, text),
        _ => laid_out(random, text),
    }
}

/// A program text with each rule on lines of its own, as people write it.
fn laid_out(random: &mut Random, text: &[u8]) -> Vec<u8> {
    let broken = if random.chance(50) { random.between(5, 80) } else { 0 };
    let mut written = random.pick(&["", "", "% \u{e9}\n", "\n\n"]).as_bytes().to_vec();
    let mut from = 0;
    for token in tokens(text, Language::Program) {
        let behind = match token.kind {
            Kind::Dot => random.pick(RULE_ENDS),
            Kind::If | Kind::Or | Kind::Comma if random.chance(broken) => random.pick(INDENTS),
            _ => continue,
        };
        written.extend_from_slice(&text[from..token.end]);
        written.extend_from_slice(behind.as_bytes());
        from = token.end;
    }
    written.extend_from_slice(&text[from..]);
    written.extend_from_slice(random.pick(ENDS).as_bytes());
    written
}

/// A program text with blanks and comments between its tokens, and some of them spelled another way.
pub fn restyled(random: &mut Random, text: &[u8]) -> Vec<u8> {
    let comments = random.chance(30);
    let density = random.between(5, 60);
    let mut written = Vec::new();
    for token in tokens(text, Language::Program) {
        let spelling = &text[token.start..token.end];
        let last: Option<&u8> = written.last();
        let merges = last.is_some_and(|b| b.is_ascii_alphanumeric() || *b == b'_')
            && matches!(token.kind, Kind::Name | Kind::Not | Kind::Number);
        if random.chance(density) || merges {
            written.extend_from_slice(random.pick(BLANKS).as_bytes());
        }
        if comments && random.chance(15) {
            written.extend_from_slice(random.pick(COMMENTS).as_bytes());
        }
        written.extend_from_slice(respelled(random, token.kind, spelling));
    }
    written.extend_from_slice(random.pick(ENDS).as_bytes());
    written
}

fn respelled<'a>(random: &mut Random, kind: Kind, spelling: &'a [u8]) -> &'a [u8] {
    match kind {
        Kind::Relation(Relation::Unequal) => random.pick(&["!=", "<>"]).as_bytes(),
        Kind::Number if spelling == b"0" && random.chance(30) => b"-0",
        _ => spelling,
    }
}

/// A facts line: each fact with its dot, blanks between them and sometimes within.
pub fn facts_line(random: &mut Random, facts: &[Vec<u8>]) -> Vec<u8> {
    let loose = random.chance(10);
    let between = random.pick(&[" ", " ", "", "\t", "  "]);
    let mut line = Vec::new();
    for (place, fact) in facts.iter().enumerate() {
        if place > 0 {
            line.extend_from_slice(between.as_bytes());
        }
        match loose {
            true => line.extend(loosened(random, fact)),
            false => line.extend_from_slice(fact),
        }
    }
    if random.chance(10) {
        line.extend_from_slice(random.pick(&[" ", "\t ", "  "]).as_bytes());
    }
    line
}

fn loosened(random: &mut Random, fact: &[u8]) -> Vec<u8> {
    let mut written = Vec::new();
    for token in tokens(fact, Language::Facts) {
        if random.chance(30) {
            written.extend_from_slice(random.pick(&[" ", "\t", "  "]).as_bytes());
        }
        written.extend_from_slice(&fact[token.start..token.end]);
    }
    written
}
