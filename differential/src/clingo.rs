//! The comparison with clingo: over random programs that mean the same to both, every answer set that clingo finds is
//! accepted, and every other candidate is not.

use std::collections::HashSet;
use std::io::{self, Write};

use crate::batch;
use crate::check::{few_for_subsets, read_program};
use crate::compare::honest;
use crate::frames::Case;
use crate::generate::candidates::spelled;
use crate::generate::solve::{ground, Grounded};
use crate::generate::strings::bytes_of;
use crate::generate::{heads, kinds, numbers, shapes, traces};
use crate::lexer::{tokens, Kind, Language};
use crate::meaning::matchings::Candidate;
use crate::plain::plain_form;
use crate::random::Random;
use crate::rules::{Fact, Operation, Rule, Side, Term, Value};

/// Possible facts all of whose subsets are candidates.
const MOST_FOR_SUBSETS: usize = 7;
/// Possible facts that a program may have here.
const MOST_POSSIBLE: usize = 40;
/// Random candidates of a program with more facts than that.
const SAMPLES: usize = 40;

/// A candidate as a set of facts' texts.
type Set = Vec<Vec<u8>>;

/// A case, and whether clingo has its candidate among the answer sets.
struct Judged {
    case: Case,
    answer_set: bool,
}

/// Compares so many programs; whether all agreed.
pub fn run(path: &str, command: &[String], seed: u64, count: u64) -> io::Result<bool> {
    let mut judged = Vec::new();
    let mut several = 0;
    for number in 0..count {
        let mut random = Random::for_case(seed, number);
        let (program, grounded) = shared_program(&mut random);
        several += usize::from(tokens(&program, Language::Program).iter().any(|token| token.kind == Kind::Or));
        let found = answer_sets(path, &program)?;
        for set in candidates(&mut random, &grounded, &found) {
            let answer_set = found.contains(&sorted(&set));
            judged.push(Judged { case: case(&program, &set), answer_set });
        }
    }
    let accepted = judged.iter().filter(|one| one.answer_set).count();
    writeln!(io::stdout(), "{count} programs, {several} of them with several heads")?;
    writeln!(io::stdout(), "{} candidates, {accepted} of them answer sets", judged.len())?;
    let own: Vec<Vec<u8>> = judged.iter().map(|one| honest(&one.case)).collect();
    let mut agree = report("the independent checker", &judged, &own)?;
    if !command.is_empty() {
        let cases: Vec<Case> = judged.iter().map(|one| one.case.clone()).collect();
        let written = batch::run(command, batch::input(&cases))?;
        let answers: Vec<Vec<u8>> = batch::answers(&written).into_iter().map(<[u8]>::to_vec).collect();
        agree &= report("the command", &judged, &answers)?;
    }
    Ok(agree)
}

/// A program whose meaning is the same to clingo, and what it can derive.
fn shared_program(random: &mut Random) -> (Vec<u8>, Grounded) {
    loop {
        let rules = match random.below(19) {
            0..=3 => traces::transfers(random),
            4 => shapes::negation(random),
            5 => numbers::arithmetic(random),
            6 | 7 => shapes::mixed(random),
            8..=11 => kinds::comparisons(random),
            12..=14 => heads::letters(random),
            15 => heads::branches(random),
            16 | 17 => heads::sites(random),
            _ => heads::values(random),
        };
        let mut text = bytes_of(&rules.concat());
        if random.chance(60) {
            text = kinds::renamed(random, &text);
        }
        let Ok(rules) = read_program(&text) else { continue };
        let grounded = ground(&rules);
        let few = grounded.possible.len() <= MOST_POSSIBLE && few_for_subsets(&rules, &grounded.possible).is_ok();
        let small = grounded.complete && few;
        if small && means_the_same(&rules, &grounded.possible) {
            return (plain_form(&rules), grounded);
        }
    }
}

/// Whether no operation is one that clingo simplifies, none leaves the range, and no string is another one to clingo.
fn means_the_same(rules: &[Rule], possible: &[Fact]) -> bool {
    let candidate = Candidate::new(possible);
    rules.iter().all(|rule| {
        !rule.values().into_iter().any(is_other_string)
            && !rule.built_in().any(|test| is_simplified(&test.right))
            && !candidate.each_matching(rule, &mut |matching| matching.leaves_range(rule))
    })
}

/// Whether a value is a string with an escape, for clingo compares what it stands for, or with a NUL, where clingo's
/// strings end.
fn is_other_string(value: &Value) -> bool {
    matches!(value, Value::String(between) if between.contains(&b'\\') || between.contains(&0))
}

/// Whether an operation has 0 or 1 as an operand that leaves the other one as it is, or leaves nothing of it.
fn is_simplified(side: &Side) -> bool {
    let Side::Computed(left, operation, right) = side else { return false };
    let neutral = |term: &Term| match term {
        Term::Value(Value::Number(number)) => {
            *number == 0 || (*operation == Operation::Times && number.unsigned_abs() == 1)
        }
        _ => false,
    };
    neutral(left) || neutral(right)
}

/// The answer sets that clingo finds, each in the order of its facts' texts.
fn answer_sets(path: &str, program: &[u8]) -> io::Result<HashSet<Set>> {
    let words = [path, "--outf=0", "--verbose=0", "--warn=none", "--out-atomf=%s.", "0", "-"];
    let command: Vec<String> = words.iter().map(|word| word.to_string()).collect();
    let written = batch::run(&command, program.to_vec())?;
    let mut lines: Vec<&[u8]> = written.strip_suffix(b"\n").unwrap_or(&written).split(|byte| *byte == b'\n').collect();
    match lines.pop() {
        Some(b"SATISFIABLE") | Some(b"UNSATISFIABLE") => (),
        _ => {
            let said = format!("clingo said: {}", String::from_utf8_lossy(&written));
            return Err(io::Error::new(io::ErrorKind::InvalidData, said));
        }
    }
    Ok(lines.iter().map(|line| sorted(&facts_on(line))).collect())
}

/// The facts on a line: each from behind the last one's dot to its own, without blanks around it.
fn facts_on(line: &[u8]) -> Set {
    let mut from = 0;
    let mut facts = Vec::new();
    for dot in tokens(line, Language::Facts).iter().filter(|token| token.kind == Kind::Dot) {
        facts.push(line[from..dot.end].trim_ascii_start().to_vec());
        from = dot.end;
    }
    facts
}

fn sorted(set: &[Vec<u8>]) -> Set {
    let mut facts = set.to_vec();
    facts.sort();
    facts
}

/// All subsets of the possible facts where they are few; otherwise the answer sets, their neighbours and some at random.
fn candidates(random: &mut Random, grounded: &Grounded, found: &HashSet<Set>) -> Vec<Set> {
    let possible: Set = grounded.possible.iter().map(spelled).collect();
    if possible.len() <= MOST_FOR_SUBSETS {
        let subset = |bits: usize| possible.iter().enumerate().filter(move |(bit, _)| bits >> bit & 1 == 1);
        return (0..1usize << possible.len())
            .map(|bits| subset(bits).map(|(_, fact)| fact.clone()).collect())
            .collect();
    }
    let mut sets: Vec<Set> = found.iter().map(|set| sorted(set)).collect();
    sets.sort();
    for set in sets.clone() {
        sets.extend(possible.iter().map(|fact| with_one_changed(&set, fact)));
    }
    for _ in 0..SAMPLES {
        sets.push(possible.iter().filter(|_| random.chance(70)).cloned().collect());
    }
    sets
}

/// A set without a fact that it has, or with one that it has not.
fn with_one_changed(set: &[Vec<u8>], fact: &Vec<u8>) -> Set {
    let mut other: Set = set.iter().filter(|old| *old != fact).cloned().collect();
    if other.len() == set.len() {
        other.push(fact.clone());
    }
    other
}

fn case(program: &[u8], set: &[Vec<u8>]) -> Case {
    let output = [b"ANSWER\n", set.join(&b' ').as_slice(), b"\n"].concat();
    Case::Check { code: 10, places: set.len(), program: program.to_vec(), output }
}

/// Prints how many answers are not what clingo's answer sets say, and the first of them.
fn report(who: &str, judged: &[Judged], answers: &[Vec<u8>]) -> io::Result<bool> {
    let accepts = |number: usize| answers.get(number).map(|answer| answer.starts_with(b"ACCEPTED "));
    let differing: Vec<usize> =
        (0..judged.len()).filter(|number| accepts(*number) != Some(judged[*number].answer_set)).collect();
    let mut out = io::stdout();
    writeln!(out, "{who}: {} answers differ from clingo's", differing.len())?;
    if let Some(first) = differing.first() {
        out.write_all(&judged[*first].case.frame())?;
        writeln!(out, "an answer set by clingo: {}", judged[*first].answer_set)?;
        out.write_all(answers.get(*first).map_or(b"no answer\n".as_slice(), Vec::as_slice))?;
    }
    Ok(differing.is_empty())
}
