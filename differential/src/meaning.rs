//! What a candidate means, settled in two ways: by the plain definition where a case is small, and by matchings.

pub mod definition;
pub mod matchings;
pub mod subsets;

use crate::rules::{Fact, Rule};

/// What a program and a candidate that are read come to. Rules and positions count from 0.
#[derive(Clone, Debug, PartialEq, Eq)]
pub enum Outcome {
    /// Some matching of this rule leaves the range, and none of an earlier one does.
    OutOfRange { rule: usize },
    /// The first broken instance: its rule, and the positions of its positive literals' atoms.
    Broken { rule: usize, body: Vec<usize> },
    /// The last Lk, where it is not the candidate; with several heads the proper subset that satisfies the reduct and
    /// has the least number.
    Smaller { kept: Vec<usize> },
    /// The rounds, and each atom's.
    Accepted { rounds: usize, each: Vec<usize> },
    /// With several heads: no proper subset of so many atoms satisfies the reduct.
    Minimal { atoms: usize },
}

/// The outcome, by the plain definition where the case is small enough for it.
pub fn outcome(rules: &[Rule], facts: &[Fact]) -> Outcome {
    definition::outcome(rules, facts).unwrap_or_else(|| matchings::outcome(rules, facts))
}
