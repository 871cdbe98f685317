//! Many cases through one run of a command that speaks the frames of `trials`.

use std::io::{self, Read, Write};
use std::process::{Command, Stdio};
use std::thread;

use crate::check::Settle;
use crate::frames::{self, Case, Frame, Frames};

/// Frames that are of no form that `trials` knows, each for the end of a batch.
const BAD_FRAMES: &[&[u8]] = &[
    b"chess 1 2\n",
    b"check 10 2 2\na.\n",
    b"check 10 2049 0 0\n\n",
    b"check 10 1 65601 0\n\n",
    b"check 18446744073709551616 1 0 0\n\n",
    b"plain 65601 0\n\n",
    b"plain 5 2\na.b\n",
    b"plain 5 9\na.\n",
    b"plain x 0\n\n",
    b"\n",
];

/// The answer to a bad frame, which ends the run.
pub const BAD_FRAME: &[u8] = b"BAD FRAME\n";

/// A frame that ends a batch.
pub fn bad_frame(seed: u64) -> &'static [u8] {
    BAD_FRAMES[(seed % BAD_FRAMES.len() as u64) as usize]
}

/// The frames of cases, one behind the other.
pub fn input(cases: &[Case]) -> Vec<u8> {
    cases.iter().flat_map(Case::frame).collect()
}

/// What a command writes for an input.
pub fn run(command: &[String], input: Vec<u8>) -> io::Result<Vec<u8>> {
    let Some((program, arguments)) = command.split_first() else {
        return Err(io::Error::new(io::ErrorKind::InvalidInput, "no command"));
    };
    let child = Command::new(program).args(arguments).stdin(Stdio::piped()).stdout(Stdio::piped()).spawn();
    let mut child = child.map_err(|error| io::Error::new(error.kind(), format!("{program}: {error}")))?;
    let to = child.stdin.take();
    // A command that ends early closes its input; what it left out shows as missing answers.
    let writer = thread::spawn(move || to.map(|mut to| to.write_all(&input)));
    let mut written = Vec::new();
    if let Some(mut from) = child.stdout.take() {
        from.read_to_end(&mut written)?;
    }
    child.wait()?;
    let _ = writer.join();
    Ok(written)
}

/// The answers in what a command wrote: a line each, and the next one too where a plain form was written.
pub fn answers(written: &[u8]) -> Vec<&[u8]> {
    let mut found = Vec::new();
    let mut rest = written;
    while !rest.is_empty() {
        let length = answer_length(rest).min(rest.len());
        let (answer, behind) = rest.split_at(length);
        found.push(answer);
        rest = behind;
    }
    found
}

fn answer_length(rest: &[u8]) -> usize {
    let line = rest.iter().position(|b| *b == b'\n').map_or(rest.len(), |end| end + 1);
    match written_length(&rest[..line]) {
        Some(length) => line.saturating_add(length).saturating_add(1),
        None => line,
    }
}

/// The length that a line `WRITTEN program 0 0 1 1 length N kept` says.
fn written_length(line: &[u8]) -> Option<usize> {
    let words: Vec<&str> = std::str::from_utf8(line).ok()?.split(' ').collect();
    match words[..] {
        ["WRITTEN", _, _, _, _, _, "length", length, _] => length.parse().ok(),
        _ => None,
    }
}

/// Answers the frames of an input, as `trials` does.
pub fn serve(input: &[u8], to: &mut dyn Write, settle: Settle) -> io::Result<()> {
    let mut frames = Frames::new(input);
    loop {
        match frames.next_frame() {
            Frame::Case(case) => to.write_all(&frames::answer(&case, settle))?,
            Frame::Bad => return to.write_all(BAD_FRAME),
            Frame::End => return Ok(()),
        }
    }
}

/// The cases of a file of frames, or nothing where it has a bad one.
pub fn cases(input: &[u8]) -> Option<Vec<Case>> {
    let mut frames = Frames::new(input);
    let mut cases = Vec::new();
    loop {
        match frames.next_frame() {
            Frame::Case(case) => cases.push(case),
            Frame::Bad => return None,
            Frame::End => return Some(cases),
        }
    }
}
