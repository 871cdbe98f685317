//! Programs with several heads: every proper subset of the candidate, by its number, atom 1 being the lowest bit.

use crate::meaning::matchings::{self, Candidate, Matching};
use crate::meaning::Outcome;
use crate::rules::Rule;
use crate::wrong::{self, Wrong};

/// A set of a candidate's atoms: its number.
type Set = u32;

/// A rule of the reduct: the heads of it that are in the candidate, and its positive body.
#[derive(PartialEq, Eq, PartialOrd, Ord)]
struct Reduced {
    heads: Set,
    body: Set,
    /// The negated atoms that a wrong build reads in each subset; none of them is in the candidate.
    negated: Set,
}

/// Whether some rule has several heads: as they are written, and whether its body ever holds or not.
pub fn several_heads(rules: &[Rule], candidate: &Candidate) -> bool {
    let several = |rule: &&Rule| match wrong::is(Wrong::EqualHeadsOnce) {
        true => rule.heads.iter().any(|head| *head != rule.heads[0]),
        false => rule.heads.len() > 1,
    };
    let counts = |rule: &Rule| {
        !wrong::is(Wrong::HeldHeadsOnly)
            || candidate.each_matching(rule, &mut |matching| matching.body_holds(rule, candidate))
    };
    rules.iter().filter(several).any(counts)
}

/// The outcome where no instance is broken and some rule has several heads.
pub fn outcome(rules: &[Rule], candidate: &Candidate) -> Outcome {
    let atoms = candidate.atoms();
    match shown(&reduct(rules, candidate), atoms) {
        Some(set) => Outcome::Smaller { kept: (0..atoms).filter(|atom| set >> atom & 1 == 1).collect() },
        None if wrong::is(Wrong::RoundsForHeads) => matchings::founded(&matchings::reduct(rules, candidate), atoms),
        None => Outcome::Minimal { atoms },
    }
}

/// The reduct's rules, each once.
fn reduct(rules: &[Rule], candidate: &Candidate) -> Vec<Reduced> {
    let mut reduct = Vec::new();
    for rule in rules.iter().filter(|rule| !rule.heads.is_empty()) {
        candidate.each_matching(rule, &mut |matching| {
            let negated = negated(rule, matching, candidate);
            if matching.body_holds(rule, candidate) || (negated > 0 && matching.tests_hold(rule)) {
                let heads = set_of(&candidate.heads(rule, matching));
                reduct.push(Reduced { heads, body: set_of(&matching.positions), negated });
            }
            false
        });
    }
    reduct.sort();
    reduct.dedup();
    reduct
}

/// The negated atoms of a body that are in the candidate: its instance is then not in the reduct.
fn negated(rule: &Rule, matching: &Matching, candidate: &Candidate) -> Set {
    if !wrong::is(Wrong::NegatedInSubsets) {
        return 0;
    }
    let positions = rule.negated().filter_map(|atom| candidate.position(atom, matching));
    set_of(&positions.collect::<Vec<usize>>())
}

fn set_of(positions: &[usize]) -> Set {
    positions.iter().fold(0, |set, position| set | 1 << position)
}

/// Whether a set has a head of each rule whose body is true in it.
fn satisfies(reduct: &[Reduced], set: Set) -> bool {
    let has_head = |heads: Set| match wrong::is(Wrong::SatisfiedByAll) {
        true => set & heads == heads,
        false => set & heads != 0,
    };
    reduct.iter().all(|rule| set & rule.body != rule.body || set & rule.negated != 0 || has_head(rule.heads))
}

/// The proper subset that satisfies the reduct and has the least number.
fn shown(reduct: &[Reduced], atoms: usize) -> Option<Set> {
    let candidate: Set = (1 << atoms) - 1;
    let first = Set::from(wrong::is(Wrong::EmptyUntried));
    let behind = candidate + Set::from(wrong::is(Wrong::CandidateProper));
    let mut sets = (first..behind).filter(|set| satisfies(reduct, *set));
    match () {
        () if wrong::is(Wrong::LargestNumber) => sets.next_back(),
        () if wrong::is(Wrong::FirstAtomHighest) => sets.min_by_key(|set| set.reverse_bits()),
        () if wrong::is(Wrong::LeastBySize) => sets.min_by_key(|set| (set.count_ones(), *set)),
        () if wrong::is(Wrong::SharedByAll) => sets.reduce(|shared, set| shared & set),
        () if wrong::is(Wrong::OneAtATime) => thinned(reduct, candidate),
        () => sets.next(),
    }
}

/// What is left of a set when atoms are dropped one at a time, as long as the rest satisfies the reduct.
fn thinned(reduct: &[Reduced], set: Set) -> Option<Set> {
    let without_one = (0..Set::BITS).map(|atom| set & !(1 << atom));
    let smaller = without_one.filter(|other| *other != set).find(|other| satisfies(reduct, *other))?;
    thinned(reduct, smaller).or(Some(smaller))
}
