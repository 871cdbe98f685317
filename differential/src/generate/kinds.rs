//! Programs about values of all kinds: comparisons between them, and a program's values renamed throughout.

use crate::generate::strings::{self, bytes_of};
use crate::generate::style::{OPERATIONS, RELATIONS};
use crate::lexer::{tokens, Kind, Language, Token};
use crate::random::Random;

/// Rules about values. `$` is one of a few of any kind, `~` a comparison, `@` an operation, `#` a small number.
const KIND_RULES: &[&str] = &[
    "p(X,Y):-q(X),q(Y),X~Y.",
    "p(X):-q(X),X~$.",
    "p(X):-q(X),$~X.",
    "p(X):-q(X),not r(X),X~$.",
    "-p(X):-q(X),X~$,X~$.",
    "p:-$~$.",
    ":-$~$.",
    "p:-q($),$~$,not r($).",
    ":-q(X),q(Y),X~Y,$~X.",
    ":-q(X),X~$.",
    "p(X):-X=$,X~$.",
    "p(X):-X=Y,Y=$,q(Z),Z~X.",
    "p(X):-q(X),X~#@#.",
    "p(X):-q(X),q(Y),X~Y@#.",
    "p:-$~#@#.",
    ":-q(X),$~X@#.",
    "p(X):-q(Y),X=Y@$.",
    "p(X):-q(Y),X=$@Y,not q(X).",
    "p:-q(X),Y=X@#,not r(Y).",
    "r($,$):-q($).",
    "r(X):-q(X),not p(X).",
    "q(X):-r(X).",
    "q(Y):-q(X),Y=X+1,Y<$,Y<=3.",
    "least(X):-q(X),not above(X).above(X):-q(X),q(Y),Y<X.",
    "away(S):-q(S),S!=$.",
];

/// Facts over a few values of all kinds, and rules that compare them.
pub fn comparisons(random: &mut Random) -> Vec<String> {
    let draw = if random.chance(40) { strings::near } else { strings::value };
    let values: Vec<String> = (0..random.between(2, 4)).map(|_| draw(random)).collect();
    let mut rules: Vec<String> = values.iter().map(|value| format!("q({value}).")).collect();
    for _ in 0..random.between(1, 3) {
        let rule = random.pick(KIND_RULES);
        rules.push(filled(random, rule, &values));
    }
    if random.chance(30) {
        random.shuffle(&mut rules);
    }
    rules
}

fn filled(random: &mut Random, rule: &str, values: &[String]) -> String {
    let fill = |mark: char| match mark {
        '$' if random.chance(30) => strings::value(random),
        '$' => values[random.below(values.len())].clone(),
        '~' => random.pick(RELATIONS).to_string(),
        '@' => random.pick(OPERATIONS).to_string(),
        '#' => random.pick(&["1", "2", "-1", "0"]).to_string(),
        _ => mark.to_string(),
    };
    rule.chars().map(fill).collect()
}

/// A program with some of its values renamed, each to one of any kind wherever it stands.
pub fn renamed(random: &mut Random, text: &[u8]) -> Vec<u8> {
    let found = tokens(text, Language::Program);
    let mut names: Vec<(&[u8], Vec<u8>)> = Vec::new();
    let mut written = Vec::new();
    let mut from = 0;
    for token in (0..found.len()).filter(|place| is_value(&found, *place)).map(|place| found[place]) {
        let own = &text[token.start..token.end];
        let known = names.iter().position(|name| name.0 == own).unwrap_or_else(|| {
            let other = if random.chance(45) { bytes_of(&strings::value(random)) } else { own.to_vec() };
            names.push((own, other));
            names.len() - 1
        });
        written.extend_from_slice(&text[from..token.start]);
        written.extend_from_slice(&names[known].1);
        from = token.end;
    }
    written.extend_from_slice(&text[from..]);
    written
}

/// Whether the token at a place is a value that has no minus before it: an argument, or beside a comparison.
fn is_value(found: &[Token], place: usize) -> bool {
    let kind = |place: usize| found.get(place).map(|token| token.kind);
    let before = place.checked_sub(1).and_then(kind);
    let compared = |kind: Option<Kind>| matches!(kind, Some(Kind::Relation(_) | Kind::Plus | Kind::Times));
    let ends = |kind: Option<Kind>| matches!(kind, Some(Kind::Comma | Kind::Close));
    let argument = before == Some(Kind::Open) || (before == Some(Kind::Comma) && within(found, place));
    matches!(found[place].kind, Kind::Name | Kind::Number)
        && before != Some(Kind::Minus)
        && (compared(before) || compared(kind(place + 1)) || (argument && ends(kind(place + 1))))
}

/// Whether a place lies between parentheses.
fn within(found: &[Token], place: usize) -> bool {
    let last = found[..place].iter().rev().find(|token| matches!(token.kind, Kind::Open | Kind::Close));
    last.is_some_and(|token| token.kind == Kind::Open)
}
