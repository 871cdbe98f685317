//! The differential test: an independent checker of answer sets, written from the paper alone, and the comparison of
//! the proved program with it over random cases.

#![forbid(unsafe_code)]

mod answer;
mod batch;
mod check;
mod clingo;
mod compare;
mod examples;
mod frames;
mod generate;
mod grammar;
mod lexer;
mod lines;
mod meaning;
mod mutants;
mod options;
mod output;
mod plain;
mod random;
mod rules;
mod safety;
mod selftest;
mod shrink;
mod wrong;

use std::io::{self, Read, Write};
use std::process::ExitCode;

use options::{Mode, Options};

pub use batch::run as run_on;
pub use check::matchings;
pub use frames::Case;

/// The whole program: does what the command line asks for.
pub fn main() -> ExitCode {
    let arguments: Vec<String> = std::env::args().skip(1).collect();
    let options = match options::read(&arguments) {
        Ok(options) => options,
        Err(words) => {
            eprintln!("differential: {words}\n{}", options::USAGE);
            return ExitCode::from(3);
        }
    };
    match run(&options) {
        Ok(true) => ExitCode::SUCCESS,
        Ok(false) => ExitCode::from(1),
        Err(error) => {
            eprintln!("differential: {error}");
            ExitCode::from(3)
        }
    }
}

/// Does what is asked for; whether all agreed.
fn run(options: &Options) -> io::Result<bool> {
    match &options.mode {
        Mode::Help => writeln!(io::stdout(), "{}", options::USAGE).map(|()| true),
        Mode::Compare => compare::run_generated(&options.trials, options.seed, options.cases(20_000)),
        Mode::Replay(file) => replay(options, file),
        Mode::Serve => serve(options).map(|()| true),
        Mode::SelfTest(files) => selftest::run(files, options.seed, options.cases(20_000)),
        Mode::Clingo(path) => clingo::run(path, &options.trials, options.seed, options.cases(500)),
        Mode::Mutants => mutants::table(options.mutant, options.seed, options.cases(20_000)),
    }
}

fn replay(options: &Options, file: &str) -> io::Result<bool> {
    let input = std::fs::read(file)?;
    match batch::cases(&input) {
        Some(cases) => compare::run_given(&options.trials, &cases),
        None => Err(io::Error::new(io::ErrorKind::InvalidData, format!("{file}: a bad frame"))),
    }
}

fn serve(options: &Options) -> io::Result<()> {
    let mut input = Vec::new();
    io::stdin().read_to_end(&mut input)?;
    let mut out = io::BufWriter::new(io::stdout());
    let settle = match options.mutant {
        Some(_) => meaning::matchings::outcome,
        None => meaning::outcome,
    };
    wrong::run_as(options.mutant, || batch::serve(&input, &mut out, settle))
}
