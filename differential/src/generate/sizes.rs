//! Texts at the sizes' ends: one below, at, and one past each.

use super::heads;
use super::strings::{self, bytes_of};
use super::style;
use crate::random::Random;

/// A program and a facts line at or past some size.
pub struct Sized {
    pub program: Vec<u8>,
    pub facts: Vec<u8>,
    /// The output's whole length, where it is filled up to one.
    pub output_length: Option<usize>,
}

/// A text pair around one of the sizes.
pub fn sized(random: &mut Random) -> Sized {
    match random.below(44) {
        0..=2 => some_program(random, words),
        3 | 4 => facts_only(long_fact(random)),
        5..=7 => some_program(random, arguments),
        8 | 9 => facts_only(format!("{}.", atom_with_arguments(random))),
        10..=12 => some_program(random, literals),
        13..=15 => some_program(random, variables),
        16 => some_program(random, rules),
        17 => many_facts(random),
        18..=20 => number(random),
        21..=23 => padded(random),
        24..=27 => some_program(random, long_strings),
        28 | 29 => facts_only(string_fact(random)),
        30..=33 => misplaced_string(random),
        34 | 35 => some_program(random, several_heads),
        36..=39 => some_program(random, heads::bars),
        40 => facts_only(heads::bars_on_facts(random)),
        _ => many_for_subsets(random),
    }
}

/// A program of some kind, in some style.
fn some_program(random: &mut Random, kind: fn(&mut Random) -> String) -> Sized {
    let text = bytes_of(&kind(random));
    program_only(style::styled(random, &text))
}

fn program_only(program: Vec<u8>) -> Sized {
    Sized { program, facts: b"a.".to_vec(), output_length: None }
}

fn facts_only(text: String) -> Sized {
    Sized { program: Vec::new(), facts: bytes_of(&text), output_length: None }
}

/// A number about a size: mostly the last that is allowed or the first that is not.
fn about(random: &mut Random, most: usize) -> usize {
    most + random.between(0, 3) - random.between(0, 1)
}

fn word(random: &mut Random, first: char) -> String {
    let length = if random.chance(75) { about(random, 64) } else { random.between(1, 3) };
    let rest: String = (1..length).map(|_| random.pick(&["a", "Z", "_", "9"])).collect();
    format!("{first}{rest}")
}

/// Names and variables about 64 bytes, where they may stand and where they may not.
fn words(random: &mut Random) -> String {
    let name = word(random, 'a');
    let variable = word(random, 'V');
    match random.below(9) {
        0 => format!("{name}."),
        1 => format!("-{name}(1)."),
        2 => format!("p({name}):-not {name}."),
        3 => format!("p:-q({variable}),{variable}=1."),
        4 => format!("p:-{name}={name}."),
        5 => format!("p {name}."),
        6 => format!("p:-not {variable}."),
        7 => format!("p({variable}):-{variable}=-{name}."),
        _ => format!("a.{name}({variable},1):-{name}({variable},{name}),not -{name}."),
    }
}

fn long_fact(random: &mut Random) -> String {
    let name = word(random, 'n');
    match random.below(4) {
        0 => format!("{name}."),
        1 => format!("a.-{name}({name})."),
        2 => format!("p({}).", word(random, 'V')),
        _ => format!("p {name}."),
    }
}

/// Strings about 64 bytes, where they may stand and where they may not.
fn long_strings(random: &mut Random) -> String {
    let string = strings::sized_string(random);
    let relation = random.pick(style::RELATIONS);
    match random.below(9) {
        0 => format!("p({string})."),
        1 => format!("a.p(X):-q(X,{string}),X{relation}{string}."),
        2 => format!("p:-{string}{relation}{string}."),
        3 => format!(":-not p(1,{string})."),
        4 => format!("p(X):-X=1+{string}."),
        5 => format!("p {string}."),
        6 => format!("p:-not {string}."),
        7 => format!("p(-{string})."),
        _ => format!("{string}(1)."),
    }
}

fn string_fact(random: &mut Random) -> String {
    let string = strings::sized_string(random);
    match random.below(5) {
        0 | 1 => format!("p({string})."),
        2 => format!("a.-p(1,{string},a)."),
        3 => format!("a.{string}."),
        _ => format!("p({string}{string})."),
    }
}

/// Texts with a string or a quote that opens none. `$` is one of the two.
const WITH_STRINGS: &[&str] = &[
    "p($).", "p(a,$).", "p:-$<1.", "p:-X=$.", "p:-q(X),X!=$,not r($).", "$.", "-$.", "a.$", "a.$.b.", "$:-a.", ":-$.",
    "p:-not $.", "p:-not $=1.", "p:-a,$.", "p($", "p($)", "p(-$).", "p($+1).", "p:-X=1+$.", "p:-X=$-1.", "p:-$+1=X.",
    "p:-$=$=$.", "p$.", "p($)($).", "p():-$()=1.", "$(1).", "p(1,2,3,4,5,6,7,8,$).", "p:-q(1,2,3,4,5,6,7,8,$",
    "p(X$):-q(X).", "% $\np.",
];
/// The same for a facts line.
const FACTS_WITH_STRINGS: &[&str] = &[
    "p($).", "p(a,$). q.", "p($,$). p($).", "$.", "-$.", "a. $", "p($", "p($)", "p(-$).", "p $.", "p($)$.", "$(1).",
    "p(1,2,3,4,5,6,7,8,$).", "p($ $).", "p($)=1.",
];

/// Strings where one may stand and where none may, and quotes that open none.
fn misplaced_string(random: &mut Random) -> Sized {
    if random.chance(35) {
        let text = random.pick(FACTS_WITH_STRINGS);
        return facts_only(with_string(random, text));
    }
    some_program(random, |random| {
        let text = random.pick(WITH_STRINGS);
        with_string(random, text)
    })
}

/// A text with a string for each `$`, now and then a long one, or with a quote that opens none.
fn with_string(random: &mut Random, text: &str) -> String {
    let fill = |mark: char| match (mark, random.below(10)) {
        ('$', 0..=2) => strings::unopened(random),
        ('$', 3 | 4) => strings::sized_string(random),
        ('$', _) => strings::string(random),
        _ => mark.to_string(),
    };
    text.chars().map(fill).collect()
}

fn arguments(random: &mut Random) -> String {
    let atom = atom_with_arguments(random);
    match random.below(3) {
        0 => format!("{atom}."),
        1 => format!(":-{atom}."),
        _ => format!("a:-b,not {atom}."),
    }
}

/// An atom with about 8 arguments, the last of them of any kind.
fn atom_with_arguments(random: &mut Random) -> String {
    let count = about(random, 8);
    let mut arguments = vec!["1".to_string(); count - 1];
    let last =
        random.pick(&["1", "-1", "a", "1000000001", "-1000000001", "X", "_", ")", "not", "-", "-a", "$", "$", "-$"]);
    arguments.push(with_string(random, last));
    format!("p({})", arguments.join(","))
}

fn literals(random: &mut Random) -> String {
    let count = about(random, 16);
    let mut body = Vec::new();
    for _ in 1..count {
        body.push(random.pick(&["a", "not b", "1=1", "-c", "p(1)"]).to_string());
    }
    let last = random.pick(&[
        "a", "not a", "1000000001=1", "-1000000001=1", "-a", "X=1", "_=1", ":-", ".", "not", "a(", "-", "$<1", "$=$",
        "$",
    ]);
    body.push(with_string(random, last));
    format!("a:-{}.", body.join(","))
}

/// A rule with about 16 variables, some of them `_`, head first.
fn variables(random: &mut Random) -> String {
    let count = about(random, 16);
    let mut names: Vec<String> = (0..count).map(|place| format!("V{place}")).collect();
    for name in names.iter_mut().filter(|_| random.chance(20)).collect::<Vec<_>>() {
        *name = "_".to_string();
    }
    if random.chance(30) {
        names.push("V0".to_string());
    }
    let atoms: Vec<String> = names.chunks(8).map(|part| format!("p({})", part.join(","))).collect();
    let head = random.pick(&["a", "q(V0)", "q(V1,V0)", "", "q(W)"]);
    format!("{head}:-{}.", atoms.join(","))
}

fn rules(random: &mut Random) -> String {
    let count = about(random, 256);
    let last = random.pick(&["a.", ":-b.", "-a.", "a:-", ").", "p(X).", ":-", "not.", "1.", "a"]);
    let mut text = "a.".repeat(count - 1);
    text.push_str(last);
    text
}

/// A rule with about 4 head atoms, the last of them of any kind.
fn several_heads(random: &mut Random) -> String {
    let mut heads: Vec<&str> = (1..about(random, 4)).map(|_| random.pick(&["a", "-b", "p(1)", "p()", "a"])).collect();
    heads.push(random.pick(&["a", "-a", "p(X)", "p(1,2)", "1", "-1", "X", "not a", "-", "", "\"a\"", "-p(_)", "|"]));
    let body = random.pick(&["", ":-a", ":-a,not b", ":-p(X)", ":-", ":-a|b"]);
    format!("{}{body}.", heads.join("|"))
}

/// Rules for about 20 facts p(1), p(2), .. with `#` for their number; the last has one head, so that they may be more.
const MANY_SUBSETS: &[&str] = &[
    "a|b:-c.",
    "a|a.",
    "p(1)|p(2).",
    "p(X)|q(X):-p(X).",
    "p(X)|-p(Y):-p(X),p(Y),X>Y+9.",
    "a|b.p(Y):-p(X),Y=X+1,Y<#.",
    "a|b:-p(1),p(2),not p(3).:-p(7).",
    "a|b:-p(1).p(Y)|p(X):-p(X),Y=X+1000000000.",
    "p(Y)|q(Y):-p(X),Y=X+1,Y<#.p(X):-q(X).",
    "p(#)|p(#).:-p(#).",
    "a.",
];

/// About 20 facts beside several heads: some given by the program, the others derived from them or from nothing.
fn many_for_subsets(random: &mut Random) -> Sized {
    let count = about(random, 20);
    let given = if random.chance(60) { count } else { random.below(count) };
    let mut program: String = (1..=given).map(|fact| format!("p({fact}).")).collect();
    let rules = random.pick(MANY_SUBSETS).replace('#', &count.to_string());
    program.insert_str(if random.chance(50) { 0 } else { program.len() }, &rules);
    let mut facts: Vec<String> = (1..=count).map(|fact| format!("p({fact}).")).collect();
    if random.chance(30) {
        facts[count - 1] = random.pick(&["a.", "b.", "-p(1).", "q(1)."]).to_string();
    }
    if random.chance(30) {
        random.shuffle(&mut facts);
    }
    Sized { program: program.into_bytes(), facts: facts.concat().into_bytes(), output_length: None }
}

fn many_facts(random: &mut Random) -> Sized {
    let count = about(random, 1_024);
    let mut facts: String = (1..count).map(|fact| format!("p({fact}).")).collect();
    facts.push_str(random.pick(&["p(a).", "-p(a).", "p(1).", "p", "-", ")", "X.", "p(X).", "-p(2)."]));
    Sized {
        program: random.pick(&["p(1).", "p(X):-p(Y),X=Y+1,X<1024.p(1).p(a).", "p(1).p(X):-p(X)."]).into(),
        facts: facts.into_bytes(),
        output_length: None,
    }
}

/// Numbers about the range's ends, and long ones.
fn number(random: &mut Random) -> Sized {
    let number = random.pick(&[
        "1000000000", "1000000001", "999999999", "4294967297", "18446744073709551617", "10000000000", "2000000000",
    ]);
    let sign = random.pick(&["", "-", "- ", "--"]);
    let number = if random.chance(5) { "9".repeat(random.between(20, 5_000)) } else { number.to_string() };
    let text = match random.below(5) {
        0 => return facts_only(format!("p({sign}{number}).")),
        1 => format!("p({sign}{number})."),
        2 => format!("p:-{sign}{number}=1."),
        3 => format!("p(X):-X=1-{sign}{number}."),
        _ => format!("p {sign}{number}."),
    };
    program_only(style::styled(random, text.as_bytes()))
}

/// Texts about 65,536 bytes, filled up by comments or blanks, with what matters at their ends.
fn padded(random: &mut Random) -> Sized {
    let length = about(random, 65_536);
    let rules = b"at(u1,north).held(U,S):-at(U,S).";
    let filling = random.pick(&["%", " ", "\t", "\n"]).as_bytes()[0];
    let program = match random.below(10) {
        0..=4 => filled_before(filling, rules, length),
        5 => filled_before(filling, b".", length),
        6 => filled_behind(b"a", filling, length),
        _ => rules.to_vec(),
    };
    Sized {
        program,
        facts: random.pick(&["at(u1,north). held(u1,north).", "at(u1,north).", "at(u1,north). held(u1,south)."]).into(),
        output_length: random.chance(60).then(|| about(random, 65_536)),
    }
}

/// A text of a length with these bytes at its end, on a line of their own.
fn filled_before(filling: u8, last: &[u8], length: usize) -> Vec<u8> {
    let mut text = vec![filling; length - last.len() - 1];
    text.push(b'\n');
    text.extend_from_slice(last);
    text
}

/// A text of a length with these bytes at its start.
fn filled_behind(first: &[u8], filling: u8, length: usize) -> Vec<u8> {
    let mut text = first.to_vec();
    text.resize(length, filling);
    text
}
