//! The benchmark: our checker and clingo side by side on the same jobs, and how their costs grow.

#![forbid(unsafe_code)]

mod chart;
mod clingo;
mod clock;
mod cost;
mod instructions;
mod jobs;
mod measure;
mod options;
mod page;
mod rows;
mod table;

use std::fs::{self, File};
use std::io;
use std::path::Path;
use std::process::{Command, ExitCode, Stdio};

use chart::{Curve, Panel};
use clingo::Clingo;
use cost::Programs;
use jobs::Job;
use measure::Measure;
use options::Options;
use rows::{Per, Row};
use table::Report;

/// How often the unit of a chain is moved: facts double from each to the next.
const MOVES: &[usize] = &[15, 31, 63, 127, 255, 511];
/// At how many sites the units stand: from each to the next a site has twice as many.
const SITES: &[usize] = &[512, 256, 128, 64, 32, 16, 8, 4, 2, 1];

fn main() -> ExitCode {
    let arguments: Vec<String> = std::env::args().skip(1).collect();
    let said = match options::read(&arguments) {
        Ok(options) if options.help => {
            println!("{}", options::USAGE);
            return ExitCode::SUCCESS;
        }
        Ok(options) => run(&options).map_err(|error| error.to_string()),
        Err(words) => Err(format!("{words}\n{}", options::USAGE)),
    };
    match said {
        Ok(()) => ExitCode::SUCCESS,
        Err(words) => {
            eprintln!("bench: {words}");
            ExitCode::from(3)
        }
    }
}

fn run(options: &Options) -> io::Result<()> {
    if let Some(file) = &options.svg {
        can_be_written(file)?;
    }
    let room = options.root.join("bench/target/series");
    let least = jobs::least(&room)?;
    let programs = programs(options, &least)?;
    let mut report = Report::default();
    report.line(&heading(&programs))?;
    let mut some = vec![least];
    some.extend(jobs::stored(&options.root.join("bench/jobs"))?);
    rows::measured(&mut report, &programs, &some, None)?;
    report.line("\nA chain of transfers, twice as long each time:\n")?;
    let chains = series(MOVES, |moves| jobs::chain(&room, moves))?;
    let chains = grown(&mut report, &programs, &chains, Per::Fact)?;
    report.line("\nUnits that share sites, the same number of facts each time and about twice the matchings:\n")?;
    let shared = series(SITES, |sites| jobs::shared(&room, sites))?;
    let shared = grown(&mut report, &programs, &shared, Per::Matching)?;
    let panels = [
        panel("A chain of transfers", "facts", &chains, Per::Fact),
        panel("Units that share sites", "matchings", &shared, Per::Matching),
    ];
    kept(options, &report, &chart::chart(&panels, programs.measure))
}

/// Measures a series, and prints what one more costs.
fn grown(report: &mut Report, programs: &Programs, jobs: &[Job], per: Per) -> io::Result<Vec<Row>> {
    let rows = rows::measured(report, programs, jobs, Some(per))?;
    if let Some(line) = rows::one_more(&rows, programs.measure, per) {
        report.line(&format!("\n{line}"))?;
    }
    Ok(rows)
}

fn series(sizes: &[usize], job: impl Fn(usize) -> io::Result<Job>) -> io::Result<Vec<Job>> {
    sizes.iter().map(|size| job(*size)).collect()
}

/// What is measured: the proved program is built first where it is not, and clingo is looked for.
fn programs(options: &Options, least: &Job) -> io::Result<Programs> {
    let bench = options.root.join("bench");
    let (trials, counter) = (options.root.join("differential/trials"), bench.join("count"));
    if options.measure == Measure::Instructions {
        build(&options.root.join("lookback"), least)?;
        instructions::ours(&counter, least)?;
    }
    let path = options.clingo.as_deref().unwrap_or("clingo").to_string();
    let words = match options.measure {
        Measure::Seconds => vec![path],
        Measure::Instructions => vec![counter.to_string_lossy().into_owned(), path],
    };
    let clingo = match Clingo::of(words) {
        Ok(clingo) => Some(clingo),
        Err(missing) if options.clingo.is_some() => return Err(io::Error::other(missing)),
        Err(missing) => {
            eprintln!("bench: {missing}; its columns stay empty");
            None
        }
    };
    Ok(Programs { measure: options.measure, trials, counter, clingo })
}

/// Lets the script `lookback` prove and build its program.
fn build(lookback: &Path, least: &Job) -> io::Result<()> {
    let [program, ..] = least.files();
    let mut command = Command::new(lookback);
    let status = command.args(["plain", &program]).current_dir(&least.folder).stdout(Stdio::null()).status()?;
    match status.success() {
        true => Ok(()),
        false => Err(io::Error::other("lookback does not run")),
    }
}

/// What was run, in the first line of the report.
fn heading(programs: &Programs) -> String {
    let clingo = match &programs.clingo {
        Some(clingo) => format!("clingo {}", clingo.version),
        None => "no clingo".to_string(),
    };
    match programs.measure {
        Measure::Seconds => format!("`bench/run --time`, {clingo}: one check or run, without the time to start.\n"),
        Measure::Instructions => format!("`bench/run --count`, {clingo}: one run of each program, with its start.\n"),
    }
}

fn panel(title: &'static str, count: &'static str, rows: &[Row], per: Per) -> Panel {
    let ours = rows.iter().map(|row| (row.count(per), row.costs.ours.cost)).collect();
    let clingo: Vec<_> = rows.iter().filter_map(|row| Some((row.count(per), row.costs.clingo?))).collect();
    let mut curves = vec![Curve { name: "this checker", colour: "#0b6e4f", points: ours }];
    if !clingo.is_empty() {
        curves.push(Curve { name: "clingo", colour: "#b3541e", points: clingo });
    }
    Panel { title, count, curves }
}

/// Says before anything is measured that a file can't be written.
fn can_be_written(file: &Path) -> io::Result<()> {
    match File::options().append(true).create(true).open(file) {
        Ok(_) => Ok(()),
        Err(error) => Err(io::Error::new(error.kind(), format!("{}: {error}", file.display()))),
    }
}

/// Writes the files that are asked for.
fn kept(options: &Options, report: &Report, chart: &str) -> io::Result<()> {
    if let Some(file) = &options.svg {
        fs::write(file, chart)?;
    }
    if !options.docs {
        return Ok(());
    }
    let docs = options.root.join("docs");
    match options.measure {
        Measure::Seconds => page::fill(&docs.join("SPEED.md"), "times", &report.text),
        Measure::Instructions => {
            fs::write(docs.join("growth.svg"), chart)?;
            page::fill(&docs.join("SPEED.md"), "counts", &report.text)
        }
    }
}
