//! Safety: which literals bind a variable, and refusal 5.

use crate::answer::{Part, Refusal, Text, NOT_BOUND};
use crate::rules::{Atom, BuiltIn, Literal, Relation, Rule, Side, Term};
use crate::wrong::{self, Wrong};

/// Notes in each rule the equations that bind, or refuses the leftmost variable that is not bound.
pub fn bind(rules: &mut [Rule]) -> Result<(), Refusal> {
    for rule in rules {
        let (binding, bound) = scan(rule);
        rule.binding = binding;
        if let Some(variable) = first_unbound(&bound) {
            return Err(refusal(rule, variable));
        }
    }
    Ok(())
}

/// Variables are numbered by their first occurrence, so the first unbound number is the leftmost.
fn first_unbound(bound: &[bool]) -> Option<usize> {
    if wrong::is(Wrong::LastUnbound) {
        return bound.iter().rposition(|b| !b);
    }
    bound.iter().position(|b| !b)
}

fn refusal(rule: &Rule, variable: usize) -> Refusal {
    let variable = &rule.variables[variable];
    let part = Part { text: Text::Program, start: variable.first, length: variable.spelling.len() };
    Refusal { number: NOT_BOUND, part }
}

/// The equations that bind, in the order in which they do, and which variables end bound.
fn scan(rule: &Rule) -> (Vec<usize>, Vec<bool>) {
    let mut bound = vec![false; rule.variables.len()];
    for literal in &rule.body {
        match literal {
            Literal::Positive(atom) => bind_atom(atom, &mut bound),
            Literal::Negated(atom) if wrong::is(Wrong::NegatedBinds) => {
                bind_atom(atom, &mut bound);
            }
            _ => (),
        }
    }
    if wrong::is(Wrong::LaterHeadsFree) {
        rule.heads.iter().skip(1).for_each(|head| bind_atom(head, &mut bound));
    }
    let mut binding = Vec::new();
    let mut from = 0;
    while let Some((place, variable)) = next_gain(rule, from, &bound) {
        bound[variable] = true;
        binding.push(place);
        from = if wrong::is(Wrong::OneScan) { place } else { 0 };
    }
    (binding, bound)
}

fn bind_atom(atom: &Atom, bound: &mut [bool]) {
    for term in &atom.arguments {
        if let Term::Variable(variable) = term {
            bound[*variable] = true;
        }
    }
}

/// The first equation from a place on that binds a variable now, and that variable.
fn next_gain(rule: &Rule, from: usize, bound: &[bool]) -> Option<(usize, usize)> {
    rule.body.iter().enumerate().skip(from).find_map(|(place, literal)| match literal {
        Literal::BuiltIn(equation) => gain(equation, bound).map(|variable| (place, variable)),
        _ => None,
    })
}

/// The unbound variable alone on the left of an equation whose right side is bound.
fn gain(equation: &BuiltIn, bound: &[bool]) -> Option<usize> {
    if equation.relation != Relation::Equal {
        return None;
    }
    match (&equation.left, &equation.right) {
        (Term::Variable(left), right) if !bound[*left] && side_is_bound(right, bound) => Some(*left),
        (Term::Value(_), Side::Plain(Term::Variable(right))) if !bound[*right] && wrong::is(Wrong::RightBinds) => {
            Some(*right)
        }
        _ => None,
    }
}

fn side_is_bound(side: &Side, bound: &[bool]) -> bool {
    let is_bound = |term: &Term| match term {
        Term::Value(_) => true,
        Term::Variable(variable) => bound[*variable],
    };
    match side {
        Side::Plain(term) => is_bound(term),
        Side::Computed(left, _, right) => is_bound(left) && is_bound(right),
    }
}
