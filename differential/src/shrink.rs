//! Makes a differing case smaller as long as it differs: rules, facts and bytes are dropped.

use std::io;

use crate::frames::Case;

/// Parts of a text that are tried at one step.
const MOST_PARTS: usize = 400;

/// Says which of some cases is the first that still differs.
pub type StillDiffers<'a> = &'a mut dyn FnMut(&[Case]) -> io::Result<Option<usize>>;

/// The smallest case that is reached.
pub fn smallest(case: Case, still_differs: StillDiffers) -> io::Result<Case> {
    let mut now = case;
    loop {
        let mut tries = smaller(&now);
        match still_differs(&tries)? {
            Some(number) => now = tries.swap_remove(number),
            None => return Ok(now),
        }
    }
}

/// Cases that are one step smaller, the greatest steps first.
fn smaller(case: &Case) -> Vec<Case> {
    match case {
        Case::Plain { room, program } => {
            let tries = shorter_texts(program).into_iter();
            tries.map(|program| Case::Plain { room: *room, program }).collect()
        }
        Case::Check { code, places, program, output } => {
            let check =
                |program: Vec<u8>, output: Vec<u8>| Case::Check { code: *code, places: *places, program, output };
            let programs = shorter_texts(program).into_iter();
            let outputs = shorter_texts(output).into_iter();
            programs
                .map(|shorter| check(shorter, output.clone()))
                .chain(outputs.map(|shorter| check(program.clone(), shorter)))
                .collect()
        }
    }
}

/// A text without one of its statements, and without one of its runs of bytes, the longest first.
fn shorter_texts(text: &[u8]) -> Vec<Vec<u8>> {
    let mut parts = statements(text);
    let mut length = text.len();
    while length > 0 {
        if text.len() / length <= MOST_PARTS {
            parts.extend((0..text.len()).step_by(length).map(|start| (start, (start + length).min(text.len()))));
        }
        length /= 2;
    }
    parts.into_iter().map(|(start, end)| [&text[..start], &text[end..]].concat()).collect()
}

/// The parts of a text that end with a dot.
fn statements(text: &[u8]) -> Vec<(usize, usize)> {
    let mut parts = Vec::new();
    let mut start = 0;
    for (place, byte) in text.iter().enumerate() {
        if *byte == b'.' {
            parts.push((start, place + 1));
            start = place + 1;
        }
    }
    parts
}
