//! Damaged texts: bytes and tokens dropped, repeated, exchanged or put in.

use super::style::ENDS;
use crate::lexer::{tokens, Language};
use crate::random::Random;

/// Bytes that are put in: marks, edges of the classes, and bytes where no token starts.
const BYTES: &[u8] = b".,()-+*=!<>:_%~|;@\"\"\\' \t\n\r\x00\x0b\x0c\x7f\x80\xc3\xa9\xff/0192azAZ[`{^";

/// Tokens and near tokens that are put in.
const WORDS: &[&str] = &[
    "not", ":-", "-", "--", ".", ",", "(", ")", "()", "=", "<>", "!=", "<=", ">=", "<", ">", "==", "=<", "+", "*", "/",
    "_", "__", "_a", "X", "Y", "a", "p(", "007", "00", "0x10", "1a", "1000000000", "1000000001", "-1000000001",
    "99999999999999999999", "%", "%*", "% b\n", ":", "!", ":~", "not not", "X=X", "X=1", "not a", "a=b", "-a=b", "1=1",
    "-1", "- 1", "p()", "p(-a)", "Xs_1", "\u{e9}", "#", "|", "||", "a|b", "|-a", "p(X)|", " ", "\n", "\r\n", "\"a\"",
    "\"\"", "\"% a\"", "\"\\\"\"", "\"", "\\\"", "\"a\n\"", "\"\\\\\"", "-\"a\"", "not \"a\"", "\"a\"=\"b\"",
    "\"a\"()", "\"a\"\"b\"",
];

/// A program with one to three places damaged, and often another end, so that its end too stands on many a line.
pub fn damaged_program(random: &mut Random, text: &[u8]) -> Vec<u8> {
    let mut bytes = damaged(random, text, Language::Program);
    if random.chance(25) {
        bytes.extend_from_slice(random.pick(ENDS).as_bytes());
    }
    bytes
}

/// A text with one to three places damaged.
pub fn damaged(random: &mut Random, text: &[u8], language: Language) -> Vec<u8> {
    let mut bytes = text.to_vec();
    for _ in 0..random.between(1, 3) {
        if random.chance(50) {
            damage_bytes(random, &mut bytes);
        } else {
            damage_tokens(random, &mut bytes, language);
        }
        if random.chance(60) {
            break;
        }
    }
    bytes
}

fn damage_bytes(random: &mut Random, bytes: &mut Vec<u8>) {
    let place = random.below(bytes.len());
    let byte = BYTES[random.below(BYTES.len())];
    match random.below(6) {
        0 if !bytes.is_empty() => {
            bytes.remove(place);
        }
        1 | 2 => bytes.insert(place, byte),
        3 if !bytes.is_empty() => bytes[place] = byte,
        4 => bytes.truncate(place),
        _ => bytes.insert(place, random.next() as u8),
    }
}

/// Drops, repeats, exchanges or puts in a token.
fn damage_tokens(random: &mut Random, bytes: &mut Vec<u8>, language: Language) {
    let found = tokens(bytes, language);
    let word = random.pick(WORDS).as_bytes();
    if found.is_empty() {
        bytes.extend_from_slice(word);
        return;
    }
    let token = found[random.below(found.len())];
    let own = bytes[token.start..token.end].to_vec();
    let other = found[random.below(found.len())];
    let others = bytes[other.start..other.end].to_vec();
    let instead = match random.below(6) {
        0 => Vec::new(),
        1 => [own.as_slice(), b" ", &own].concat(),
        2 => others,
        3 => word.to_vec(),
        4 => [&own, word].concat(),
        _ => [word, &own].concat(),
    };
    bytes.splice(token.start..token.end, instead);
}
