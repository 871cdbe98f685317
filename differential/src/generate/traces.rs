//! Programs about transfers between sites: small ones with rings and rules of every kind, long chains, many names.

use crate::random::Random;

const SITES: &[&str] = &["north", "south", "east", "west", "depot_1", "nor"];
const NUMBERED_SITES: &[&str] = &["1", "2", "3", "0", "-1", "north"];
const UNITS: &[&str] = &["u1", "u2", "u3"];

/// Rules of a trace. `@u`, `@s` and `@n` stand for a unit, a site and a small number.
const TRACE_RULES: &[&str] = &[
    "held(U,T):-moved(U,S,T),held(U,S).",
    "held(U,T):-held(U,S),link(S,T).",
    "held(U,S):-held(V,S),pooled(U,V).",
    "link(S,T):-moved(_,S,T).",
    "link(S,R):-link(S,T),link(T,R).",
    "link(S,T):-link(T,S).",
    "seen(S):-held(_,S).",
    "seen(S):-moved(_,_,S).",
    "lost(U):-at(U,_),not held(U,@s).",
    "lost(U):-at(U,_),not kept(U).",
    "kept(U):-at(U,_),not lost(U).",
    "-held(U,S):-recalled(U),moved(U,S,_),not held(U,S).",
    "-held(U,@s):-at(U,S),S!=@s.",
    "recalled(U):-donor(U,D),positive(D).",
    "donor(@u,d1).",
    "donor(@u,d2).",
    "positive(d1).",
    "pooled(@u,@u).",
    "given(@u,@s,p1).",
    "given(@u,@s,p2).",
    "exposed(P):-held(U,S),given(U,S,P).",
    "call(P):-exposed(P),not -call(P).",
    "-call(P):-given(_,_,P),not exposed(P).",
    "-call(P):-given(_,_,P),not call(P).",
    ":-held(U,@s).",
    ":-held(U,@s),not recalled(U).",
    ":-held(U,S),held(U,T),S!=T.",
    ":-given(U,S,P),not held(U,S).",
    "back(U):-at(U,S),moved(U,_,S).",
    "pair(S,T):-seen(S),seen(T),S<T.",
    "other(S,T):-seen(S),seen(T),S<>T.",
    "late(U,T):-moved(U,S,T),S>=T.",
    "first(S):-seen(S),S<=@s.",
    "moved(U,S,T):-moved(U,_,S),T=S+1,T<=@n.",
    "step(U,1):-at(U,_).",
    "step(U,N):-step(U,M),moved(U,_,_),N=M+1,N<=@n.",
    "at(U,T):-held(U,S),moved(U,S,T).",
    "held(U,T):-held(U,T).",
    "none:-not seen(@s).",
    "some:-not none.",
];

/// A trace: units at sites, transfers between them, rings among these, and rules about where a unit was held.
pub fn transfers(random: &mut Random) -> Vec<String> {
    let sites = if random.chance(25) { NUMBERED_SITES } else { SITES };
    let sites = &sites[..random.between(2, 4)];
    let units = &UNITS[..random.between(1, 3)];
    let mut rules = Vec::new();
    for unit in units.iter().filter(|_| random.chance(80)).collect::<Vec<_>>() {
        rules.push(format!("at({unit},{}).", random.pick(sites)));
    }
    moves(random, units, sites, &mut rules);
    rules.push("held(U,S):-at(U,S).".to_string());
    rules.push("held(U,T):-held(U,S),moved(U,S,T).".to_string());
    for _ in 0..random.below(6) {
        let rule = random.pick(TRACE_RULES);
        rules.push(filled(random, rule, units, sites));
    }
    if random.chance(30) {
        rules.remove(random.below(rules.len()));
    }
    if random.chance(20) {
        random.shuffle(&mut rules);
    }
    rules
}

/// Transfers of each unit: a walk over the sites that often comes back.
fn moves(random: &mut Random, units: &[&str], sites: &[&str], rules: &mut Vec<String>) {
    for unit in units {
        let mut here = random.pick(sites);
        for _ in 0..random.below(4) {
            let there = random.pick(sites);
            rules.push(format!("moved({unit},{here},{there})."));
            here = there;
        }
    }
}

/// A rule with its blanks filled, each on its own.
fn filled(random: &mut Random, rule: &str, units: &[&str], sites: &[&str]) -> String {
    let mut text = String::new();
    let mut parts = rule.split('@');
    text.push_str(parts.next().unwrap_or(""));
    for part in parts {
        let word = match part.as_bytes().first() {
            Some(b'u') => random.pick(units).to_string(),
            Some(b's') => random.pick(sites).to_string(),
            _ => random.between(2, 5).to_string(),
        };
        text.push_str(&word);
        text.push_str(&part[1..]);
    }
    text
}

/// A long trace of one or two units, by transfers that are written down or computed: many facts and many rounds.
pub fn chains(random: &mut Random) -> Vec<String> {
    let steps = random.between(10, 90);
    let mut rules = vec!["at(u1,0).".to_string()];
    if random.chance(50) {
        rules.push("moved(u1,0,1).".to_string());
        rules.push(format!("moved(U,S,T):-moved(U,R,S),T=S+1,T<={steps}."));
    } else {
        rules.extend((0..steps).map(|step| format!("moved(u1,{step},{}).", step + 1)));
        rules.push(format!("moved(u1,{steps},{}).", random.below(steps)));
    }
    rules.push("held(U,S):-at(U,S).".to_string());
    rules.push("held(U,T):-held(U,S),moved(U,S,T).".to_string());
    if random.chance(30) {
        rules.push("at(u2,3).moved(u2,S,T):-moved(u1,S,T),S>=2.".to_string());
    }
    if random.chance(40) {
        rules.push("left(S):-moved(_,S,_),not held(u2,S).".to_string());
    }
    if random.chance(30) {
        random.shuffle(&mut rules);
    }
    rules
}

/// Many names, long ones with a common beginning among them.
pub fn names(random: &mut Random) -> Vec<String> {
    let stem = "unit_2026_".repeat(random.between(0, 5));
    let count = random.between(5, 40);
    let mut rules = Vec::new();
    for fact in 0..count {
        let name = |place: usize| format!("n{stem}{}", fact * 3 + place);
        rules.push(format!("p({},{},{}).", name(0), name(1), name(random.between(2, 4))));
    }
    rules.push("q(X,Z):-p(X,_,Z).".to_string());
    rules.push(
        random.pick(&["q(X,Y):-q(X,Z),p(Z,Y,_).", "r(X):-p(X,Y,Z),X<Y,Z>Y.", "s:-p(X,_,Y),p(Y,_,X)."]).to_string(),
    );
    rules
}
