//! Solver's outputs and codes around a facts line.

use crate::random::Random;

const AROUND: &[&str] = &["", "", "%", "% Answer: 1", "%*", "%\u{e9}\r", "% a.", "%\t\u{2192}", "% \"a"];
const STRANGE: &[&str] =
    &[" ", "\t", "\r", "a.", "ANSWER", " ANSWER", "answer", "UNKNOWN", "OPTIMUM", "ANSWE", "-", "x%", "\"a\"", "\"%"];
/// How many of the lines around an unusual report may not stand there.
const STRANGE_PERCENT: usize = 8;
const BEHIND_WORD: &[&str] = &["", "", "", "S", " 1", "\t", ".", "\r", "%", " a.", "\u{e9}", "\""];
const CODES: &[u64] = &[10, 20, 1, 30, 0, 11, 266, 65_546, 4_294_967_306, 65_556, 65_537, u64::MAX];

/// The code that goes with a report's word.
fn code_of(word: &str) -> u64 {
    match word {
        "ANSWER" => 10,
        "INCONSISTENT" => 20,
        _ => 1,
    }
}

/// The usual output: the report and the facts, often with lines that may stand around them, and the code that agrees.
pub fn usual(random: &mut Random, facts_line: &[u8]) -> (Vec<u8>, u64) {
    let around = random.chance(40);
    let mut output = Vec::new();
    if around {
        surround(random, &mut output, 0);
    }
    output.extend_from_slice(b"ANSWER\n");
    output.extend_from_slice(facts_line);
    output.push(b'\n');
    if around {
        surround(random, &mut output, 0);
    }
    (output, 10)
}

/// An output of a length: filled up before or behind its report, or with no report or no facts line at all.
pub fn filled(random: &mut Random, facts_line: &[u8], length: usize) -> (Vec<u8>, u64) {
    let filling = random.pick(&["%", "\n"]).as_bytes()[0];
    let report = [b"ANSWER\n", facts_line].concat();
    let mut output = match random.below(6) {
        0 => Vec::new(),
        1 => b"ANSWER".to_vec(),
        2 => {
            let before = vec![filling; length.saturating_sub(report.len() + 1)];
            [before.as_slice(), b"\n", &report].concat()
        }
        _ => [report.as_slice(), b"\n"].concat(),
    };
    output.resize(length, filling);
    (output, 10)
}

/// An output with lines around its report, sometimes out of place, and a code that may disagree.
pub fn unusual(random: &mut Random, facts_line: &[u8]) -> (Vec<u8>, u64) {
    let word = random.pick(&["ANSWER", "ANSWER", "ANSWER", "INCONSISTENT", "UNKNOWN"]);
    let mut output = Vec::new();
    surround(random, &mut output, STRANGE_PERCENT);
    if random.chance(4) {
        return (output, code_of(word));
    }
    output.extend_from_slice(word.as_bytes());
    output.extend_from_slice(random.pick(BEHIND_WORD).as_bytes());
    if word == "ANSWER" {
        if random.chance(92) {
            output.push(b'\n');
            output.extend_from_slice(facts_line);
        }
    } else if random.chance(10) {
        output.push(b'\n');
        output.extend_from_slice(facts_line);
    }
    if random.chance(85) {
        output.push(b'\n');
        surround(random, &mut output, STRANGE_PERCENT);
        if random.chance(20) {
            output.pop();
        }
    }
    let agrees = random.chance(75);
    let code = if agrees { code_of(word) } else { CODES[random.below(CODES.len())] };
    (output, code)
}

/// Lines that may stand around a report, and so many of a hundred that may not.
fn surround(random: &mut Random, output: &mut Vec<u8>, strange: usize) {
    for _ in 0..random.below(5) {
        let lines = if random.chance(strange) { STRANGE } else { AROUND };
        let line = random.pick(lines);
        output.extend_from_slice(line.as_bytes());
        output.push(b'\n');
    }
}
