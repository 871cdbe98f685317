//! The command line.

use crate::wrong::{self, Wrong};

/// What the command line asks for.
pub struct Options {
    pub seed: u64,
    cases: Option<u64>,
    pub mode: Mode,
    pub mutant: Option<Wrong>,
    pub trials: Vec<String>,
}

impl Options {
    /// How many cases are asked for, or else so many.
    pub fn cases(&self, otherwise: u64) -> u64 {
        self.cases.unwrap_or(otherwise)
    }
}

/// What is to be done.
#[derive(PartialEq, Eq)]
pub enum Mode {
    Help,
    Compare,
    Replay(String),
    Serve,
    SelfTest(Vec<String>),
    Mutants,
    Clingo(String),
}

pub const USAGE: &str = "\
usage: differential [--seed N] [--cases N] --trials COMMAND..   random cases through COMMAND and the independent checker
       differential --replay FILE [--trials COMMAND..]           the frames of FILE instead
       differential --self-test [FRAMES ANSWERS]..               the independent checker against itself and stored answers
       differential --mutants | --mutant NAME                    how many cases show each wrong build of it
       differential --clingo PATH [--trials COMMAND..]           answer sets against those that clingo at PATH finds
       differential --serve [--mutant NAME]                      answers frames from standard input
The seed is 1 and the cases are 20000 (programs for clingo: 500) where they are not given. The status is 0 where all
agrees, 1 where something differs, 3 for bad usage or a command that cannot be run.";

/// Reads the arguments behind the program's name.
pub fn read(arguments: &[String]) -> Result<Options, String> {
    let mut options = Options { seed: 1, cases: None, mode: Mode::Compare, mutant: None, trials: Vec::new() };
    let mut rest = arguments;
    while let Some((option, behind)) = rest.split_first() {
        rest = read_option(&mut options, option, behind)?;
    }
    finished(options)
}

/// Reads one option; hands back the arguments behind it.
fn read_option<'a>(options: &mut Options, option: &str, behind: &'a [String]) -> Result<&'a [String], String> {
    match option {
        "--help" => options.mode = Mode::Help,
        "--serve" => options.mode = Mode::Serve,
        "--mutants" => options.mode = Mode::Mutants,
        "--self-test" => {
            let files = behind.iter().take_while(|word| !word.starts_with("--")).count();
            options.mode = Mode::SelfTest(behind[..files].to_vec());
            return Ok(&behind[files..]);
        }
        "--trials" => {
            options.trials = behind.to_vec();
            return Ok(&[]);
        }
        _ => {
            let (word, behind) =
                behind.split_first().ok_or_else(|| format!("{option}: unknown, or nothing behind it"))?;
            read_with_word(options, option, word)?;
            return Ok(behind);
        }
    }
    Ok(behind)
}

fn read_with_word(options: &mut Options, option: &str, word: &str) -> Result<(), String> {
    match option {
        "--seed" => options.seed = number(option, word)?,
        "--cases" => options.cases = Some(number(option, word)?),
        "--replay" => options.mode = Mode::Replay(word.to_string()),
        "--clingo" => options.mode = Mode::Clingo(word.to_string()),
        "--mutant" => {
            let build = wrong::named(word).ok_or_else(|| format!("{word}: no wrong build has that name"))?;
            options.mutant = Some(build);
        }
        _ => return Err(format!("{option}: no such option")),
    }
    Ok(())
}

fn number(option: &str, word: &str) -> Result<u64, String> {
    word.parse().map_err(|_| format!("{option} {word}: not a number"))
}

fn finished(mut options: Options) -> Result<Options, String> {
    if options.mode == Mode::Compare && options.trials.is_empty() {
        match options.mutant {
            Some(_) => options.mode = Mode::Mutants,
            None => return Err("no command behind --trials".to_string()),
        }
    }
    Ok(options)
}
