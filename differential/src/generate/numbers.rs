//! Programs about computed numbers: arithmetic up to the ends of the range, and variables bound by equations.

use crate::generate::style::{rule_text, OPERATIONS, RELATIONS};
use crate::random::Random;

const EDGE_NUMBERS: &[&str] = &[
    "0", "1", "2", "3", "-1", "-2", "7", "1000", "-1000", "31622", "31623", "-31623", "32768", "46341", "65536",
    "1000000", "499999999", "500000000", "500000001", "999999999", "1000000000", "-999999999", "-1000000000",
    "-500000000",
];

/// Rules about computed numbers. `#` is a number, `@` an operation, `~` a comparison, `$` a number or a name.
const NUMBER_RULES: &[&str] = &[
    "p(X):-q(Y),X=Y@#.",
    "p(X):-q(Y),X=#@Y.",
    "p(X):-q(Y),q(Z),X=Y@Z.",
    "p(X):-X=Y@Z,q(Y),q(Z),Y~Z.",
    "p(X):-q(Y),X=Z@#,Z=Y@#.",
    "p(Y):-q(Y),r(Z),Y~Z@#.",
    "p(Y):-q(Y),not q(X),X=Y@#.",
    "r(X):-p(Y),X=Y@#,X~#.",
    "q(X):-q(Y),X=Y+#,X<=#.",
    "q(X):-q(Y),X=Y@1,X~3.",
    "p(X):-X=#@#.",
    "p(X):-X=Y@Y,Y=#.",
    "p(X):-q(Y),X=Y@Y.",
    ":-q(X),X~#.",
    ":-q(X),#~X@#.",
    ":-q(X),r(Y),X=Y@#.",
    "r(X):-q(Y),X=Y,Z=X@#.",
    "r(X,Y):-q(X),Y=X@#,Y=#@#.",
    "r(Z):-q(X),Y=X@$,Z=Y.",
    "p(X):-q(X),r(Y),X~$,Y~$@#.",
    "r($):-q($),not p(#).",
    "p:-a~$.",
    "p:-q(X),X=X@#.",
];

/// Arithmetic up to the ends of the range, with names among the operands.
pub fn arithmetic(random: &mut Random) -> Vec<String> {
    let small = random.chance(40);
    let mut rules = Vec::new();
    for _ in 0..random.between(0, 3) {
        let predicate = random.pick(&["q", "q", "r"]);
        rules.push(format!("{predicate}({}).", operand(random, small)));
    }
    for _ in 0..random.between(1, 3) {
        let rule = random.pick(NUMBER_RULES);
        rules.push(with_numbers(random, rule, small));
    }
    if random.chance(30) {
        random.shuffle(&mut rules);
    }
    rules
}

fn edge_number(random: &mut Random, small: bool) -> &'static str {
    random.pick(if small { &EDGE_NUMBERS[..7] } else { EDGE_NUMBERS })
}

fn operand(random: &mut Random, small: bool) -> &'static str {
    if random.chance(15) {
        return random.pick(&["a", "b", "aa"]);
    }
    edge_number(random, small)
}

fn with_numbers(random: &mut Random, rule: &str, small: bool) -> String {
    let fill = |mark: char| match mark {
        '#' => edge_number(random, small).to_string(),
        '$' => operand(random, small).to_string(),
        '@' => random.pick(OPERATIONS).to_string(),
        '~' => random.pick(RELATIONS).to_string(),
        _ => mark.to_string(),
    };
    rule.chars().map(fill).collect()
}

/// Bodies whose variables are bound by equations in some order, or not at all.
const EQUATIONS: &[&str] = &[
    "X=1", "X=Y", "Y=X+1", "Z=X*Y", "Z=Y", "X=X", "X=X+1", "3=X", "X<=3", "1=Y", "_=5", "X=_", "Y=Z-1", "q(X)", "q(Y)",
    "not q(X)", "not q(Z)", "X=Y+Z", "Z=2", "W=Z", "not r(W)", "X!=1", "Y=a", "a=Z", "Z=Y+a", "X=1+1",
];

/// Rules whose safety is in doubt.
pub fn equations(random: &mut Random) -> Vec<String> {
    let mut rules = vec!["q(1).".to_string()];
    for _ in 0..random.between(1, 2) {
        let count = random.between(1, 5);
        let body: Vec<String> = (0..count).map(|_| random.pick(EQUATIONS).to_string()).collect();
        let head = random.pick(&["p(X)", "p(Y)", "p(X,Z)", "p(W)", "p", "", "p(Z,X,Y)", "q(X)"]);
        rules.push(rule_text(head, &body));
    }
    if random.chance(30) {
        random.shuffle(&mut rules);
    }
    rules
}
