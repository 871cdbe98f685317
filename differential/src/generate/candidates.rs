//! Candidates: an answer set, or nearly one, or facts at random.

use crate::generate::solve;
use crate::random::Random;
use crate::rules::{Atom, Fact, Name, Rule, Term, Value};

/// A candidate for a program that is read: often an answer set, otherwise one with a little damage.
pub fn for_rules(random: &mut Random, rules: &[Rule]) -> Vec<Fact> {
    let seeds = if random.chance(25) { seeds(random, rules) } else { Vec::new() };
    let seeded = !seeds.is_empty();
    let grounded = solve::ground_from(rules, seeds).with_heads_chosen(random);
    let model = match seeded {
        true => grounded.some_supported_set(random),
        false => grounded.some_answer_set(random),
    };
    let mut facts: Vec<Fact> = Vec::new();
    let mut others: Vec<Fact> = Vec::new();
    for (fact, holds) in grounded.possible.into_iter().zip(model) {
        match holds {
            true => facts.push(fact),
            false => others.push(fact),
        }
    }
    if random.chance(50) {
        random.shuffle(&mut facts);
    }
    if random.chance(55) {
        for _ in 0..random.between(1, 2) {
            damage(random, &mut facts, &others);
        }
    }
    facts
}

/// Instances of bodies' atoms at random: a ring that no record starts may grow from them.
fn seeds(random: &mut Random, rules: &[Rule]) -> Vec<Fact> {
    let atoms: Vec<&Atom> = rules.iter().flat_map(|rule| rule.positive()).collect();
    let values: Vec<&Value> = rules.iter().flat_map(Rule::values).collect();
    if atoms.is_empty() {
        return Vec::new();
    }
    let mut seeds: Vec<Fact> = Vec::new();
    for _ in 0..random.between(1, 2) {
        let atom = random.pick(&atoms);
        let seed = instance(random, atom, &values);
        if !seeds.contains(&seed) {
            seeds.push(seed);
        }
    }
    seeds
}

/// An atom with values of the program for its variables.
fn instance(random: &mut Random, atom: &Atom, values: &[&Value]) -> Fact {
    let value = |term: &Term| match term {
        Term::Value(value) => value.clone(),
        Term::Variable(_) if values.is_empty() => random_value(random),
        Term::Variable(_) => random.pick(values).clone(),
    };
    Fact { negative: atom.negative, name: atom.name.clone(), arguments: atom.arguments.iter().map(value).collect() }
}

/// One fact dropped, added, repeated, turned round or changed.
fn damage(random: &mut Random, facts: &mut Vec<Fact>, others: &[Fact]) {
    let place = random.below(facts.len());
    if facts.is_empty() || random.chance(30) {
        add(random, facts, others);
        return;
    }
    match random.below(20) {
        0..=10 => {
            facts.remove(place);
        }
        11 => {
            let repeated = facts[place].clone();
            facts.insert(random.below(facts.len() + 1), repeated);
        }
        12 | 13 => facts[place] = facts[place].opposite(),
        14 => facts.push(facts[place].opposite()),
        15 => random.shuffle(facts),
        _ => change_argument(random, &mut facts[place]),
    }
}

/// A fact that the program could derive, or one of the candidate's with another argument.
fn add(random: &mut Random, facts: &mut Vec<Fact>, others: &[Fact]) {
    let place = random.below(facts.len() + 1);
    if !others.is_empty() && random.chance(80) {
        facts.insert(place, others[random.below(others.len())].clone());
    } else if facts.is_empty() {
        facts.push(random_fact(random));
    } else {
        let mut other = facts[random.below(facts.len())].clone();
        change_argument(random, &mut other);
        facts.insert(place, other);
    }
}

fn change_argument(random: &mut Random, fact: &mut Fact) {
    if fact.arguments.is_empty() {
        fact.arguments.push(random_value(random));
        return;
    }
    let place = random.below(fact.arguments.len());
    match &mut fact.arguments[place] {
        Value::Number(number) if random.chance(60) => *number = (*number + 1).min(1_000_000_000),
        argument if random.chance(30) => *argument = of_other_kind(argument),
        argument => *argument = random_value(random),
    }
}

/// The value of another kind that is spelled most like it.
fn of_other_kind(value: &Value) -> Value {
    match value {
        Value::Number(number) => Value::String(number.to_string().as_bytes().into()),
        Value::Name(bytes) => Value::String(bytes.clone()),
        Value::String(bytes) if is_name(bytes) => Value::Name(bytes.clone()),
        Value::String(_) => Value::Number(0),
    }
}

fn is_name(bytes: &[u8]) -> bool {
    bytes.first().is_some_and(u8::is_ascii_lowercase) && bytes.iter().all(u8::is_ascii_alphanumeric)
}

fn random_value(random: &mut Random) -> Value {
    if random.chance(30) {
        return Value::Number(random.below(5) as i64 - 1);
    }
    let word = random.pick(&["north", "south", "u1", "u2", "a", "b", "ab"]);
    let bytes = Name::from(word.as_bytes());
    if random.chance(30) {
        return Value::String(bytes);
    }
    Value::Name(bytes)
}

/// A fact of the predicates that programs here often have.
fn random_fact(random: &mut Random) -> Fact {
    let (name, arity) = [("held", 2), ("at", 2), ("p", 1), ("q", 1), ("a", 0), ("b", 0)][random.below(6)];
    Fact {
        negative: random.chance(15),
        name: Name::from(name.as_bytes()),
        arguments: (0..arity).map(|_| random_value(random)).collect(),
    }
}

/// Facts at random, for a program that is not read.
pub fn unrelated(random: &mut Random) -> Vec<Fact> {
    (0..random.below(5)).map(|_| random_fact(random)).collect()
}

/// A fact's text with its dot.
pub fn spelled(fact: &Fact) -> Vec<u8> {
    let mut text = if fact.negative { b"-".to_vec() } else { Vec::new() };
    text.extend_from_slice(&fact.name);
    for (place, argument) in fact.arguments.iter().enumerate() {
        text.push(if place == 0 { b'(' } else { b',' });
        text.extend(value_text(argument));
    }
    if !fact.arguments.is_empty() {
        text.push(b')');
    }
    text.push(b'.');
    text
}

fn value_text(value: &Value) -> Vec<u8> {
    match value {
        Value::Number(number) => number.to_string().into_bytes(),
        Value::Name(name) => name.to_vec(),
        Value::String(between) => [b"\"", &between[..], b"\""].concat(),
    }
}
