//! The jobs: a program, the solver's output for it, and the same candidate as constraints for clingo, each a file.

use std::collections::BTreeSet;
use std::fs;
use std::io;
use std::path::{Path, PathBuf};

/// One job, and the folder with its files.
pub struct Job {
    pub name: String,
    pub folder: PathBuf,
    pub program: Vec<u8>,
    pub output: Vec<u8>,
    pub constraints: Vec<u8>,
}

impl Job {
    /// How many facts the candidate has: each ends with the only dot in it.
    pub fn facts(&self) -> usize {
        self.output.iter().filter(|byte| **byte == b'.').count()
    }

    /// How many matchings its rules have over them, as the independent checker counts them.
    pub fn matchings(&self) -> io::Result<usize> {
        let found = differential::matchings(&self.program, &self.output);
        found.ok_or_else(|| io::Error::other(format!("{}: no program and candidate", self.name)))
    }

    /// The names of its files within their folder: the program, the output, the constraints.
    pub fn files(&self) -> [String; 3] {
        ["lp", "out", "con.lp"].map(|kind| format!("{}.{kind}", self.name))
    }
}

/// The jobs of a folder, by name.
pub fn stored(folder: &Path) -> io::Result<Vec<Job>> {
    let mut names = Vec::new();
    for entry in fs::read_dir(folder)? {
        let file = entry?.file_name().to_string_lossy().into_owned();
        names.extend(file.strip_suffix(".out").map(str::to_string));
    }
    names.sort();
    names.into_iter().map(|name| read(folder, name)).collect()
}

fn read(folder: &Path, name: String) -> io::Result<Job> {
    let mut job = Job { name, folder: folder.into(), program: vec![], output: vec![], constraints: vec![] };
    let [program, output, constraints] = job.files();
    job.program = fs::read(folder.join(program))?;
    job.output = fs::read(folder.join(output))?;
    job.constraints = fs::read(folder.join(constraints))?;
    Ok(job)
}

/// Writes a job's files, and reads them.
fn written(folder: &Path, name: String, program: &str, facts: &[String]) -> io::Result<Job> {
    fs::create_dir_all(folder)?;
    fs::write(folder.join(format!("{name}.lp")), program)?;
    fs::write(folder.join(format!("{name}.out")), format!("ANSWER\n{}.\n", facts.join(". ")))?;
    fs::write(folder.join(format!("{name}.con.lp")), constraints(facts))?;
    read(folder, name)
}

/// That an answer set has all these facts, and that it has no other of their predicates.
fn constraints(facts: &[String]) -> String {
    let all = facts.iter().map(|fact| format!(":-not {fact}.\n"));
    let copies = facts.iter().map(|fact| format!("c_{fact}.\n"));
    let predicates: BTreeSet<String> = facts.iter().map(|fact| general(fact)).collect();
    let only = predicates.iter().map(|atom| format!(":-{atom},not c_{atom}.\n"));
    all.chain(copies).chain(only).collect()
}

/// The atom of a fact's predicate with variables in its places.
fn general(fact: &str) -> String {
    let Some((name, arguments)) = fact.split_once('(') else { return fact.to_string() };
    let variables: Vec<String> = (0..arguments.split(',').count()).map(|place| format!("X{place}")).collect();
    format!("{name}({})", variables.join(","))
}

/// One fact: what is left of a cost where there is nothing to check.
pub fn least(folder: &Path) -> io::Result<Job> {
    written(folder, "least".to_string(), "a.", &["a".to_string()])
}

/// A unit that is moved so many times, from each site to the next: facts and matchings grow together.
pub fn chain(folder: &Path, moves: usize) -> io::Result<Job> {
    let program = format!(
        "at(u1,0).moved(u1,0,1).moved(U,S,T):-moved(U,R,S),T=S+1,T<={moves}.\
         held(U,S):-at(U,S).held(U,T):-held(U,S),moved(U,S,T)."
    );
    let mut facts = vec!["at(u1,0)".to_string()];
    facts.extend((0..moves).map(|site| format!("moved(u1,{site},{})", site + 1)));
    facts.extend((0..=moves).map(|site| format!("held(u1,{site})")));
    written(folder, format!("chain{moves}"), &program, &facts)
}

/// How many units there are in `shared`.
const UNITS: usize = 512;

/// Units that stand at so many sites in turn, and a constraint on any two at one site: the fewer the sites, the more
/// matchings over the same facts.
pub fn shared(folder: &Path, sites: usize) -> io::Result<Job> {
    let program = format!(
        "at(1,1).at(V,T):-at(U,S),V=U+1,V<={UNITS},T=S+1,T<={sites}.\
         at(V,1):-at(U,{sites}),V=U+1,V<={UNITS}.:-at(U,S),at(V,S),V>=U+{UNITS}."
    );
    let facts: Vec<String> = (0..UNITS).map(|unit| format!("at({},{})", unit + 1, unit % sites + 1)).collect();
    written(folder, format!("shared{sites}"), &program, &facts)
}
