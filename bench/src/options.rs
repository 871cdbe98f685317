//! The command line.

use std::path::PathBuf;

use crate::measure::Measure;

pub const USAGE: &str = "\
usage: bench/run [--time | --count] [--clingo PATH] [--svg FILE] [--docs]
--time         milliseconds of one check in a batch, and of one run of clingo, without the time to start
--count        x86-64 instructions of one run of each program, its start included; the same at each run
--clingo PATH  another clingo than the one on the path
--svg FILE     draws how the costs grow
--docs         fills the tables of docs/SPEED.md in, and draws docs/growth.svg where instructions are counted
It times on an x86-64 processor and counts on any other, unless told which.";

/// What the command line asks for.
pub struct Options {
    /// The repository.
    pub root: PathBuf,
    pub measure: Measure,
    pub clingo: Option<String>,
    pub svg: Option<PathBuf>,
    pub docs: bool,
    pub help: bool,
}

/// Reads the arguments behind the program's name: the repository, and the options.
pub fn read(arguments: &[String]) -> Result<Options, String> {
    let (root, mut rest) = arguments.split_first().ok_or("the repository is not given")?;
    let mut options = Options {
        root: PathBuf::from(root),
        measure: usual_measure(),
        clingo: None,
        svg: None,
        docs: false,
        help: false,
    };
    while let Some((option, behind)) = rest.split_first() {
        rest = read_option(&mut options, option, behind)?;
    }
    Ok(options)
}

/// Elsewhere than on an x86-64 processor every program is emulated, and its time says little.
fn usual_measure() -> Measure {
    match std::env::consts::ARCH {
        "x86_64" => Measure::Seconds,
        _ => Measure::Instructions,
    }
}

/// Reads one option; hands back the arguments behind it.
fn read_option<'a>(options: &mut Options, option: &str, behind: &'a [String]) -> Result<&'a [String], String> {
    match option {
        "--help" | "-h" => options.help = true,
        "--time" => options.measure = Measure::Seconds,
        "--count" => options.measure = Measure::Instructions,
        "--docs" => options.docs = true,
        "--clingo" | "--svg" => {
            let (word, behind) = behind.split_first().ok_or_else(|| format!("{option}: nothing behind it"))?;
            match option {
                "--svg" => options.svg = Some(PathBuf::from(word)),
                _ => options.clingo = Some(word.clone()),
            }
            return Ok(behind);
        }
        _ => return Err(format!("{option}: no such option")),
    }
    Ok(behind)
}
