//! Strings, short and long ones, and quotes that open none; values of each kind. In these texts a character up to
//! U+00FF stands for the byte of its number.

use crate::random::Random;

/// Bytes between quotes at the fine points of the order: prefixes, escapes, bytes about the quote and the ends of the
/// range, and the spellings of other tokens.
const BETWEEN: &[&str] = &[
    "", "", "a", "a", "b", "ab", "a b", "a!", "a#", "aAb", "a\\\"b", "\\\"", "\\\"\\\"", "A", "_", "~", "north", "nor",
    "not", "St. Mary's", "1", "2", "-1", "007", "X", "p(a).", ":-", "%", "%*", "a% b", "a %", "\0", "a\0", "a\0b",
    "\t", "\r", "a\r", "\x7f", "\u{80}", "\u{ff}", "a\u{80}", "a\u{c3}\u{a9}",
];
/// Strings that differ behind a common beginning only.
const NEAR: &[&str] = &[
    "a", "a b", "a!", "a#", "ab", "aAb", "a\\\"b", "a\\\"", "a]", "a\0", "a\0b", "a\r", "a\u{80}", "a\u{ff}", "", "aa",
];
/// What longer strings are put together from.
const PIECES: &[&str] = &["a", "a", "Z", " ", "9", "%", "\\\"", "\u{e9}", "\t", "\0", "."];
/// Quotes that open no string.
const UNOPENED: &[&str] = &[
    "\"", "\"a", "\"a\nb\"", "\"\n\"", "\"\\\"", "\"a\\b\"", "\"\\\\\"", "\"a\\\\\"b\"", "\"a\\\nb\"", "\"\\n\"",
    "\"% a",
];
const NUMBERS: &[&str] = &["0", "1", "2", "-1", "7", "1000000000"];
const NAMES: &[&str] = &["a", "b", "ab", "aAb", "north", "nor", "z"];

/// A text's bytes.
pub fn bytes_of(text: &str) -> Vec<u8> {
    text.chars().map(|character| character as u8).collect()
}

/// A string, mostly a short one.
pub fn string(random: &mut Random) -> String {
    match random.below(100) {
        0..=89 => quoted(random.pick(BETWEEN)),
        90..=96 => {
            let length = random.below(7);
            string_of(random, length)
        }
        _ => sized_string(random),
    }
}

/// A string that has others near it in the order.
pub fn near(random: &mut Random) -> String {
    quoted(random.pick(NEAR))
}

fn quoted(between: &str) -> String {
    format!("\"{between}\"")
}

/// A string of 62 to 67 bytes between its quotes, mostly 64 or 65.
pub fn sized_string(random: &mut Random) -> String {
    let length = [62, 63, 64, 64, 64, 65, 65, 65, 66, 67][random.below(10)];
    string_of(random, length)
}

/// A string of so many bytes between its quotes.
pub fn string_of(random: &mut Random, length: usize) -> String {
    let mut between = String::new();
    let mut left = length;
    let escapes = random.chance(50);
    while left > 0 {
        let piece = random.pick(PIECES);
        let bytes = piece.chars().count();
        if bytes <= left && (bytes == 1 || escapes) {
            between.push_str(piece);
            left -= bytes;
        }
    }
    quoted(&between)
}

/// A quote that opens no string, with what stands behind it; now and then many bytes.
pub fn unopened(random: &mut Random) -> String {
    if random.chance(75) {
        return random.pick(UNOPENED).to_string();
    }
    let length = random.between(60, 70);
    let long = string_of(random, length);
    let open = &long[..long.len() - 1];
    format!("{open}{}", random.pick(&["", "\n\"", "\\\\\"", "\\"]))
}

/// A value of any kind.
pub fn value(random: &mut Random) -> String {
    match random.below(9) {
        0..=2 => random.pick(NUMBERS).to_string(),
        3..=5 => random.pick(NAMES).to_string(),
        _ => string(random),
    }
}
