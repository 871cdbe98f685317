//! Programs by the shape of their rules: much negation, every kind of literal, wide bodies.

use crate::generate::style::{rule_text, OPERATIONS, RELATIONS};
use crate::random::Random;

const LETTERS: &[&str] = &["a", "b", "c", "d", "e"];

/// Rules without arguments, with both signs and much negation: several answer sets, or none.
pub fn negation(random: &mut Random) -> Vec<String> {
    let letters = &LETTERS[..random.between(2, 5)];
    let mut rules = Vec::new();
    for _ in 0..random.between(1, 7) {
        let head = if random.chance(88) { signed(random, letters) } else { String::new() };
        let least = usize::from(head.is_empty() || random.chance(80));
        let count = random.between(least, 3);
        let body: Vec<String> = (0..count).map(|_| negation_literal(random, letters)).collect();
        rules.push(rule_text(&head, &body));
    }
    rules
}

fn negation_literal(random: &mut Random, letters: &[&str]) -> String {
    let atom = signed(random, letters);
    if random.chance(45) {
        return format!("not {atom}");
    }
    atom
}

fn signed(random: &mut Random, letters: &[&str]) -> String {
    let sign = if random.chance(15) { "-" } else { "" };
    let arguments = if random.chance(5) { "()" } else { "" };
    format!("{sign}{}{arguments}", random.pick(letters))
}

const PREDICATES: &[(&str, usize)] =
    &[("p", 0), ("q", 1), ("r", 2), ("q", 2), ("s", 1), ("p", 1), ("t", 3), ("not_q", 1)];
const CONSTANTS: &[&str] = &["a", "b", "ab", "0", "1", "2", "-1", "1"];
const VARIABLES: &[&str] = &["X", "Y", "Z", "X", "Y", "_", "X1"];

/// Rules of every shape over few predicates; most of their variables are bound.
pub fn mixed(random: &mut Random) -> Vec<String> {
    let mut rules = Vec::new();
    for _ in 0..random.between(1, 3) {
        rules.push(rule_text(&atom(random, CONSTANTS), &[]));
    }
    for _ in 0..random.between(1, 4) {
        rules.push(mixed_rule(random));
    }
    if random.chance(40) {
        random.shuffle(&mut rules);
    }
    rules
}

fn mixed_rule(random: &mut Random) -> String {
    let mut body: Vec<String> = Vec::new();
    for _ in 0..random.between(1, 2) {
        body.push(atom(random, VARIABLES));
    }
    let seen: Vec<String> = ["X", "Y", "Z", "X1"]
        .iter()
        .filter(|name| body.iter().any(|atom| has_word(atom, name)))
        .map(|name| name.to_string())
        .collect();
    let mut terms: Vec<&str> = seen.iter().map(String::as_str).collect();
    terms.extend(["a", "1", "b"]);
    if random.chance(8) {
        terms.push(random.pick(VARIABLES));
    }
    for _ in 0..random.below(3) {
        body.push(mixed_literal(random, &terms));
    }
    if random.chance(30) {
        random.shuffle(&mut body);
    }
    let head = if random.chance(90) { atom(random, &terms) } else { String::new() };
    rule_text(&head, &body)
}

fn has_word(atom: &str, name: &str) -> bool {
    atom.split(['(', ',', ')']).any(|word| word == name)
}

fn mixed_literal(random: &mut Random, terms: &[&str]) -> String {
    match random.below(4) {
        0 => format!("not {}", atom(random, terms)),
        1 => atom(random, terms),
        2 => format!("{}{}{}", random.pick(terms), random.pick(RELATIONS), random.pick(terms)),
        _ => format!(
            "{}{}{}{}{}",
            random.pick(terms),
            random.pick(RELATIONS),
            random.pick(terms),
            random.pick(OPERATIONS),
            random.pick(terms)
        ),
    }
}

fn atom(random: &mut Random, terms: &[&str]) -> String {
    let (name, arity) = PREDICATES[random.below(PREDICATES.len())];
    let sign = if random.chance(10) { "-" } else { "" };
    if arity == 0 {
        return format!("{sign}{name}");
    }
    let arguments: Vec<&str> = (0..arity).map(|_| random.pick(terms)).collect();
    format!("{sign}{name}({})", arguments.join(","))
}

/// A rule with a wide body over few facts.
pub fn wide(random: &mut Random) -> Vec<String> {
    let mut rules = Vec::new();
    for _ in 0..random.between(1, 5) {
        rules.push(format!("e({},{}).", random.pick(LETTERS), random.pick(LETTERS)));
    }
    let variables = &["A", "B", "C", "D", "_", "E", "A"];
    let mut body = Vec::new();
    for _ in 0..random.between(3, 9) {
        let sign = if random.chance(4) { "-" } else { "" };
        body.push(format!("{sign}e({},{})", random.pick(variables), random.pick(variables)));
    }
    let bound = body.concat();
    let terms: Vec<&str> = ["A", "B", "C", "D", "E"].into_iter().filter(|name| bound.contains(name)).collect();
    let term = |random: &mut Random| {
        if terms.is_empty() {
            "a"
        } else {
            random.pick(&terms)
        }
    };
    if random.chance(50) {
        body.push(format!("{}{}{}", term(random), random.pick(RELATIONS), term(random)));
    }
    if random.chance(30) {
        body.push(format!("not e({},{})", term(random), term(random)));
    }
    let head = match random.below(5) {
        0 => String::new(),
        1 | 2 => format!("e({},{})", term(random), term(random)),
        _ => format!("f({},{})", term(random), term(random)),
    };
    rules.push(rule_text(&head, &body));
    rules
}
