//! Programs with several heads: letters with rings and negation among them, units whose issuing site no record tells,
//! rules about values whose heads may become equal, and heads where none may stand.

use crate::generate::style::rule_text;
use crate::random::Random;

const LETTERS: &[&str] = &["a", "b", "c", "d", "e", "f"];

/// Heads with bars between them, from one to four, now and then five; some stand twice.
fn joined(random: &mut Random, one: &mut dyn FnMut(&mut Random) -> String) -> String {
    let count = match random.below(100) {
        0..=24 => 1,
        25..=69 => 2,
        70..=86 => 3,
        87..=97 => 4,
        _ => 5,
    };
    let mut heads: Vec<String> = (0..count).map(|_| one(random)).collect();
    if count > 1 && random.chance(8) {
        heads[count - 1] = heads[0].clone();
    }
    heads.join("|")
}

fn letter(random: &mut Random, letters: &[&str]) -> String {
    let sign = if random.chance(10) { "-" } else { "" };
    format!("{sign}{}", random.pick(letters))
}

fn letter_literal(random: &mut Random, letters: &[&str]) -> String {
    let not = if random.chance(30) { "not " } else { "" };
    format!("{not}{}", letter(random, letters))
}

/// Rules without arguments: several heads, and rings that tie them to one another.
pub fn letters(random: &mut Random) -> Vec<String> {
    let letters = &LETTERS[..random.between(2, 6)];
    let mut rules = Vec::new();
    for _ in 0..random.between(1, 3) {
        let heads = joined(random, &mut |random| letter(random, letters));
        let body: Vec<String> = (0..random.below(3)).map(|_| letter_literal(random, letters)).collect();
        rules.push(rule_text(&heads, &body));
    }
    for _ in 0..random.below(5) {
        let head = if random.chance(92) { letter(random, letters) } else { String::new() };
        let body: Vec<String> = (0..random.between(1, 2)).map(|_| letter_literal(random, letters)).collect();
        rules.push(rule_text(&head, &body));
    }
    if random.chance(40) {
        let (one, other) = (random.pick(letters), random.pick(letters));
        rules.push(format!("{one}:-{other}.{other}:-{one}."));
    }
    if random.chance(50) {
        random.shuffle(&mut rules);
    }
    rules
}

/// One head or another, and what follows from each: of two heads that both hold, the one with more behind it may have
/// the lower number.
pub fn branches(random: &mut Random) -> Vec<String> {
    let heads = &LETTERS[..random.between(2, 4)];
    let mut rules = vec![format!("{}.", heads.join("|"))];
    for head in heads {
        let count = random.below(4);
        rules.extend((0..count).map(|place| format!("{head}{place}:-{head}.")));
    }
    if random.chance(30) {
        let (one, other) = (random.pick(heads), random.pick(heads));
        rules.push(format!("{one}:-{other}0,not {other}1."));
    }
    random.shuffle(&mut rules);
    rules
}

/// Rules about units that one of several sites issued, the first six with several heads. `@` is a unit, `$` a site.
const SITE_RULES: &[&str] = &[
    "issued(U,$)|issued(U,$):-unit(U).",
    "issued(U,$)|issued(U,$)|issued(U,$):-unit(U).",
    "issued(U,S)|issued(U,T):-told(U,S,T).",
    "issued(U,S)|lost(U):-unit(U),site(S),not -issued(U,S).",
    "issued(U,S)|-issued(U,S):-unit(U),site(S).",
    "issued(@,$)|issued(@,$).",
    "told(@,$,$).",
    "site($).",
    "issued(U,S):-issued(V,S),pooled(U,V).",
    "pooled(@,@).",
    "given(@,$,p1).",
    "received(P,U):-given(U,S,P),issued(U,S).",
    "ask(S):-issued(_,S).",
    "ask(S)|ring(S):-issued(_,S),S!=$.",
    "ring(S):-ask(S).",
    "ask(S):-ring(S).",
    "lost(U):-unit(U),not issued(U,$).",
    "lost(U)|kept(U)|kept(U)|lost(V):-unit(U),unit(V),U<V.",
    ":-issued(U,S),issued(U,T),S<T.",
    ":-lost(U),issued(U,$).",
    ":-issued(@,$).",
    "-issued(U,$):-unit(U),not issued(U,$).",
];

/// Units and sites, and some of the rules about them.
pub fn sites(random: &mut Random) -> Vec<String> {
    let sites = if random.chance(20) { &["1", "north", "\"s\""] } else { &["north", "south", "depot"] };
    let units = &["u1", "u2", "u3"][..random.between(1, 3)];
    let mut rules: Vec<String> = units.iter().map(|unit| format!("unit({unit}).")).collect();
    let first = SITE_RULES[random.below(6)];
    rules.push(filled(random, first, units, sites));
    for _ in 0..random.below(5) {
        let rule = random.pick(SITE_RULES);
        rules.push(filled(random, rule, units, sites));
    }
    if random.chance(40) {
        random.shuffle(&mut rules);
    }
    rules
}

fn filled(random: &mut Random, rule: &str, units: &[&str], sites: &[&str]) -> String {
    let fill = |mark: char| match mark {
        '@' => random.pick(units).to_string(),
        '$' => random.pick(sites).to_string(),
        _ => mark.to_string(),
    };
    rule.chars().map(fill).collect()
}

const ATOMS: &[&str] =
    &["p(X)", "p(Y)", "q(X)", "q(Y)", "p(X,Y)", "p(Y,X)", "-q(X)", "p(1)", "q(a)", "p", "p(X)", "q(Z)"];
const BODIES: &[&str] = &[
    "r(X),r(Y)", "r(X),r(Y),X<Y", "r(X),Y=X", "r(X),r(Y),not p(X)", "r(X),Y=X+1", "r(X),Y=X*X,not q(Y)", "r(X)",
    "X=1,Y=a", "r(X),Y=X+999999999", "r(X),r(Y),X>5",
];

/// Rules over a few values whose heads may become equal, and may have variables that nothing binds.
pub fn values(random: &mut Random) -> Vec<String> {
    let mut rules: Vec<String> = (0..random.between(1, 3))
        .map(|_| format!("r({}).", random.pick(&["1", "2", "0", "a", "b", "\"a\""])))
        .collect();
    for _ in 0..random.between(1, 2) {
        let heads = joined(random, &mut |random| random.pick(ATOMS).to_string());
        rules.push(rule_text(&heads, &[random.pick(BODIES).to_string()]));
    }
    for _ in 0..random.below(3) {
        rules
            .push(random.pick(&["p(X):-q(X).", "q(X):-p(X).", "p(Y):-p(X,Y).", ":-p(1).", "p:-not q(a)."]).to_string());
    }
    if random.chance(30) {
        random.shuffle(&mut rules);
    }
    rules
}

/// Bars where one may stand and where none may. `$` is an atom.
const BARS: &[&str] = &[
    "$|.", "|$.", "|.", "|", "$||$.", "$|", "$|$", "$|$|.", "$|:-$.", ":-$|$.", "$:-$|$.", "$:-|$.", "$:-$|.",
    "$|not $.", "$|1.", "$|X.", "$|_.", "$|-1.", "$|--$.", "$|-|$.", "$|\"a\".", "$|($).", "p($|$).", "p(1|2).",
    "$|$=1.", "$=1|$.", "$;$.", "$ v $.", "$,$.", "$|$,$.", "$|$|$|$|.", "$|$|$|$|1.", "$|$|$|$|-1.", "$|$|$|$|:-$.",
    "$|$|$|$|X.", "$:-$.$|$.", "$|$:-.", "not $|$.", "$|%\n$.", "$|%*\n$.", "$.|$.", ":-|$.", "$|$|$|$:-$|$.", "-|$.",
    "$:-X|Y.",
];
/// The same for a facts line.
const FACTS_WITH_BARS: &[&str] = &["$|$.", "|$.", "$. |", "$|.", "$. $|$.", "p(1|2).", "$||", "-|$.", "$.|", "p(|)."];

fn with_atoms(random: &mut Random, text: &str) -> String {
    let fill = |mark: char| match mark {
        '$' => random.pick(&["a", "b", "-a", "p(1)", "p()", "-p(a,b)", "c", "d"]).to_string(),
        _ => mark.to_string(),
    };
    text.chars().map(fill).collect()
}

/// A program with a bar somewhere.
pub fn bars(random: &mut Random) -> String {
    let text = random.pick(BARS);
    with_atoms(random, text)
}

/// A facts line with a bar somewhere.
pub fn bars_on_facts(random: &mut Random) -> String {
    let text = random.pick(FACTS_WITH_BARS);
    with_atoms(random, text)
}
