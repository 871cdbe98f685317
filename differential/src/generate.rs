//! Random cases: each is a function of the seed and its number alone.

pub mod candidates;
mod damage;
pub mod heads;
pub mod kinds;
pub mod numbers;
mod outputs;
pub mod shapes;
mod sizes;
pub mod solve;
pub mod strings;
mod style;
pub mod traces;

use crate::check::{few_for_subsets, read_program, rules_and_facts};
use crate::frames::{Case, MOST_LENGTH, MOST_PLACES};
use crate::lexer::Language;
use crate::meaning::matchings::Candidate;
use crate::meaning::subsets;
use crate::plain::plain_form;
use crate::random::Random;
use crate::rules::{Fact, Rule};

/// Matchings that a case's rules may have together at most.
const MOST_WORK: usize = 100_000;
/// Facts beside several heads from which on half of the cases are kept, for each fact doubles the work.
const MANY_FOR_SUBSETS: usize = 15;

/// The case of a number under a seed.
pub fn case(seed: u64, number: u64) -> Case {
    let mut random = Random::for_case(seed, number);
    loop {
        let case = draw(&mut random);
        if is_small_enough(&case) && (!has_many_subsets(&case) || random.chance(50)) {
            return case;
        }
    }
}

/// What a case has wrong on purpose, besides what its candidate has.
#[derive(Clone, Copy, Default)]
struct Faults {
    program: bool,
    facts: bool,
    around: bool,
    repeated: bool,
}

fn draw(random: &mut Random) -> Case {
    match random.below(100) {
        0..=55 => check_case(random, Faults::default()),
        56..=64 => check_case(random, Faults { program: true, ..Faults::default() }),
        65..=70 => check_case(random, Faults { facts: true, ..Faults::default() }),
        71..=76 => check_case(random, Faults { around: true, ..Faults::default() }),
        77..=81 => {
            let faults = some_faults(random);
            check_case(random, faults)
        }
        82..=88 => sized_case(random),
        _ => plain_case(random),
    }
}

fn some_faults(random: &mut Random) -> Faults {
    Faults {
        program: random.chance(30),
        facts: random.chance(30),
        around: random.chance(60),
        repeated: random.chance(50),
    }
}

/// Whether both the frame's sizes and the work of answering it are bounded.
fn is_small_enough(case: &Case) -> bool {
    let fits = |bytes: &[u8]| bytes.len() <= MOST_LENGTH;
    match case {
        Case::Plain { room, program } => *room <= MOST_LENGTH && fits(program),
        Case::Check { program, output, .. } => fits(program) && fits(output) && work(program, output) <= MOST_WORK,
    }
}

fn work(program: &[u8], output: &[u8]) -> usize {
    let Some((rules, facts)) = rules_and_facts(program, output) else { return 0 };
    let candidate = Candidate::new(&facts);
    rules.iter().fold(0, |sum: usize, rule| sum.saturating_add(candidate.work(rule)))
}

/// Whether every subset of many facts is to be tested.
fn has_many_subsets(case: &Case) -> bool {
    let Case::Check { program, output, .. } = case else { return false };
    let Some((rules, facts)) = rules_and_facts(program, output) else { return false };
    facts.len() >= MANY_FOR_SUBSETS
        && few_for_subsets(&rules, &facts).is_ok()
        && subsets::several_heads(&rules, &Candidate::new(&facts))
}

/// A program's text by a random theme.
fn program(random: &mut Random) -> Vec<u8> {
    let mut rules = match random.below(115) {
        0..=29 => traces::transfers(random),
        30..=42 => shapes::negation(random),
        43..=61 => numbers::arithmetic(random),
        62..=74 => shapes::mixed(random),
        75..=87 => kinds::comparisons(random),
        88..=91 => numbers::equations(random),
        92..=95 => shapes::wide(random),
        96 | 97 => traces::names(random),
        98 | 99 => traces::chains(random),
        100..=104 => heads::letters(random),
        105 | 106 => heads::branches(random),
        107..=110 => heads::sites(random),
        _ => heads::values(random),
    };
    if random.chance(6) {
        rules.extend(shapes::negation(random));
    }
    if random.chance(3) {
        rules.extend(heads::letters(random));
    }
    let mut text = strings::bytes_of(&rules.concat());
    if random.chance(30) {
        text = kinds::renamed(random, &text);
    }
    style::styled(random, &text)
}

/// A program and its rules; one that is not read is seldom kept.
fn read_rules(random: &mut Random) -> (Vec<u8>, Vec<Rule>) {
    loop {
        let text = program(random);
        match read_program(&text) {
            Ok(rules) => return (text, rules),
            Err(_) if random.chance(20) => return (text, Vec::new()),
            Err(_) => (),
        }
    }
}

/// Facts for a program.
fn candidate(random: &mut Random, rules: &[Rule], faults: Faults) -> Vec<Fact> {
    let mut facts = match rules.is_empty() || random.chance(2) {
        true => candidates::unrelated(random),
        false => candidates::for_rules(random, rules),
    };
    if faults.repeated && !facts.is_empty() {
        let fact = facts[random.below(facts.len())].clone();
        facts.push(if random.chance(50) { fact } else { fact.opposite() });
    }
    facts
}

/// Places for so many facts, now and then too few.
fn places(random: &mut Random, facts: usize) -> usize {
    let places = match random.below(40) {
        0 => facts.saturating_sub(1),
        1 => random.below(facts + 1),
        2 | 3 => MOST_PLACES,
        4..=19 => facts + random.below(6),
        _ => facts,
    };
    places.min(MOST_PLACES)
}

fn check_case(random: &mut Random, faults: Faults) -> Case {
    let (mut program, rules) = read_rules(random);
    let facts = candidate(random, &rules, faults);
    let spelled: Vec<Vec<u8>> = facts.iter().map(candidates::spelled).collect();
    let mut line = style::facts_line(random, &spelled);
    if faults.program {
        program = damage::damaged_program(random, &program);
    }
    if faults.facts {
        line = damage::damaged(random, &line, Language::Facts);
    }
    let (mut output, code) = match faults.around {
        true => outputs::unusual(random, &line),
        false => outputs::usual(random, &line),
    };
    if faults.facts && random.chance(10) {
        output = damage::damaged(random, &output, Language::Facts);
    }
    let places = places(random, facts.len());
    Case::Check { code, places, program, output }
}

fn sized_case(random: &mut Random) -> Case {
    let sized = sizes::sized(random);
    let (output, code) = match sized.output_length {
        Some(length) => outputs::filled(random, &sized.facts, length),
        None => outputs::usual(random, &sized.facts),
    };
    let places = if random.chance(90) { MOST_PLACES } else { random.below(3) };
    Case::Check { code, places, program: sized.program, output }
}

fn plain_case(random: &mut Random) -> Case {
    let mut text = match random.chance(12) {
        true => sizes::sized(random).program,
        false => style_of_program(random),
    };
    if random.chance(25) {
        text = damage::damaged_program(random, &text);
    }
    let length = read_program(&text).map_or(text.len(), |rules| plain_form(&rules).len());
    let room = match random.below(10) {
        0 => length.saturating_sub(1),
        1 => random.below(length + 1),
        2 => text.len(),
        3 => length + random.below(40),
        4 => 0,
        _ => length,
    };
    Case::Plain { room: room.min(MOST_LENGTH), program: text }
}

fn style_of_program(random: &mut Random) -> Vec<u8> {
    let text = program(random);
    style::restyled(random, &text)
}
