//! Values, facts, atoms, literals and rules, as trees.

use std::cmp::Ordering;
use std::hash::{Hash, Hasher};
use std::rc::Rc;

use crate::wrong::{self, Wrong};

/// A name's bytes.
pub type Name = Rc<[u8]>;

/// A string's bytes between its quotes, as written.
pub type Quoted = Rc<[u8]>;

/// A member of the universe: a whole number, a name or a string.
#[derive(Clone, Debug)]
pub enum Value {
    Number(i64),
    Name(Name),
    String(Quoted),
}

/// A plain term; a variable is its number within the rule, each `_` having its own.
#[derive(Clone, Debug, PartialEq, Eq)]
pub enum Term {
    Value(Value),
    Variable(usize),
}

impl Term {
    /// The value of a term that is no variable.
    pub fn value(&self) -> Option<&Value> {
        match self {
            Term::Value(value) => Some(value),
            Term::Variable(_) => None,
        }
    }
}

/// A classical atom of a rule.
#[derive(Clone, Debug, PartialEq, Eq)]
pub struct Atom {
    pub negative: bool,
    pub name: Name,
    pub arguments: Vec<Term>,
}

/// A ground classical atom.
#[derive(Clone, Debug, PartialEq, Eq, Hash)]
pub struct Fact {
    pub negative: bool,
    pub name: Name,
    pub arguments: Vec<Value>,
}

/// The six comparisons.
#[derive(Clone, Copy, Debug, PartialEq, Eq)]
pub enum Relation {
    Equal,
    Unequal,
    Less,
    LessOrEqual,
    Greater,
    GreaterOrEqual,
}

/// The three operations.
#[derive(Clone, Copy, Debug, PartialEq, Eq)]
pub enum Operation {
    Plus,
    Minus,
    Times,
}

/// The right side of a built-in atom.
#[derive(Clone, Debug, PartialEq, Eq)]
pub enum Side {
    Plain(Term),
    Computed(Term, Operation, Term),
}

/// A built-in atom.
#[derive(Clone, Debug)]
pub struct BuiltIn {
    pub left: Term,
    pub relation: Relation,
    pub right: Side,
}

/// A literal of a body.
#[derive(Clone, Debug)]
pub enum Literal {
    Positive(Atom),
    Negated(Atom),
    BuiltIn(BuiltIn),
}

/// A variable of a rule: how it is spelled, and where it stands first.
#[derive(Clone, Debug)]
pub struct Variable {
    pub spelling: Name,
    pub first: usize,
}

/// A rule and the place of its text, from its first token to its dot.
#[derive(Clone, Debug)]
pub struct Rule {
    /// The head atoms as written; a constraint has none.
    pub heads: Vec<Atom>,
    pub body: Vec<Literal>,
    pub variables: Vec<Variable>,
    pub start: usize,
    pub length: usize,
    /// The literals that bind a variable under Safety, in the order in which they do.
    pub binding: Vec<usize>,
}

impl Rule {
    /// The positive classical atoms of the body, in text order.
    pub fn positive(&self) -> impl Iterator<Item = &Atom> {
        self.body.iter().filter_map(|literal| match literal {
            Literal::Positive(atom) => Some(atom),
            _ => None,
        })
    }

    /// The atoms of the body that stand behind `not`, in text order.
    pub fn negated(&self) -> impl Iterator<Item = &Atom> {
        self.body.iter().filter_map(|literal| match literal {
            Literal::Negated(atom) => Some(atom),
            _ => None,
        })
    }

    /// The built-in atoms of the body, in text order.
    pub fn built_in(&self) -> impl Iterator<Item = &BuiltIn> {
        self.body.iter().filter_map(|literal| match literal {
            Literal::BuiltIn(test) => Some(test),
            _ => None,
        })
    }
}

impl Rule {
    /// The values that stand in the rule, each as often as it does.
    pub fn values(&self) -> Vec<&Value> {
        let mut terms: Vec<&Term> = self.heads.iter().flat_map(|atom| &atom.arguments).collect();
        for literal in &self.body {
            match literal {
                Literal::Positive(atom) | Literal::Negated(atom) => terms.extend(&atom.arguments),
                Literal::BuiltIn(test) => terms.extend(test.terms()),
            }
        }
        terms.into_iter().filter_map(Term::value).collect()
    }
}

impl BuiltIn {
    fn terms(&self) -> Vec<&Term> {
        match &self.right {
            Side::Plain(right) => vec![&self.left, right],
            Side::Computed(first, _, second) => vec![&self.left, first, second],
        }
    }
}

impl Fact {
    /// The fact that differs only in sign.
    pub fn opposite(&self) -> Fact {
        Fact { negative: !self.negative, ..self.clone() }
    }
}

/// The most and the least number, results of arithmetic included.
pub const MOST: i64 = 1_000_000_000;

/// Whether a number lies within the range.
pub fn in_range(number: i64) -> bool {
    (-MOST..=MOST).contains(&number)
}

impl Operation {
    /// The operation's mark.
    pub fn mark(self) -> &'static str {
        match self {
            Operation::Plus => "+",
            Operation::Minus => "-",
            Operation::Times => "*",
        }
    }

    /// The result; operands within the range never pass 64 bits.
    pub fn result(self, left: i64, right: i64) -> i64 {
        match self {
            Operation::Plus => left.saturating_add(right),
            Operation::Minus => left.saturating_sub(right),
            Operation::Times if wrong::is(Wrong::ProductWraps) => i64::from(left.wrapping_mul(right) as i32),
            Operation::Times => left.saturating_mul(right),
        }
    }
}

impl Relation {
    /// The relation's mark in the plain form.
    pub fn mark(self) -> &'static str {
        match self {
            Relation::Equal => "=",
            Relation::Unequal => "!=",
            Relation::Less => "<",
            Relation::LessOrEqual => "<=",
            Relation::Greater => ">",
            Relation::GreaterOrEqual => ">=",
        }
    }

    /// Whether two values stand in this relation.
    pub fn holds(self, left: &Value, right: &Value) -> bool {
        let wrongly = wrong::is(Wrong::KindsApart) || (wrong::is(Wrong::KindsEqual) && self == Relation::Unequal);
        if wrongly && left.kind() != right.kind() {
            return false;
        }
        self.allows(left.cmp(right))
    }

    fn allows(self, order: Ordering) -> bool {
        match self {
            Relation::Equal => order == Ordering::Equal,
            Relation::Unequal => order != Ordering::Equal,
            Relation::Less => order == Ordering::Less,
            Relation::LessOrEqual => order != Ordering::Greater,
            Relation::Greater => order == Ordering::Greater,
            Relation::GreaterOrEqual => order != Ordering::Less,
        }
    }
}

impl Ord for Value {
    /// The order over all values, and which are equal: numbers by size, then names and then strings, both by bytes
    /// with a prefix first.
    fn cmp(&self, other: &Value) -> Ordering {
        match (self, other) {
            (Value::Number(a), Value::Number(b)) => a.cmp(b),
            (Value::Name(a), Value::Name(b)) if wrong::is(Wrong::ShorterNameFirst) => {
                a.len().cmp(&b.len()).then(a.cmp(b))
            }
            (Value::Name(a), Value::Name(b)) => a.cmp(b),
            (Value::String(a), Value::String(b)) => compare_strings(a, b),
            (Value::Name(a), Value::String(b)) | (Value::String(a), Value::Name(b))
                if a == b && wrong::is(Wrong::NameIsString) =>
            {
                Ordering::Equal
            }
            _ => self.kind().cmp(&other.kind()),
        }
    }
}

impl PartialOrd for Value {
    fn partial_cmp(&self, other: &Value) -> Option<Ordering> {
        Some(self.cmp(other))
    }
}

impl PartialEq for Value {
    fn eq(&self, other: &Value) -> bool {
        self.cmp(other) == Ordering::Equal
    }
}

impl Eq for Value {}

impl Hash for Value {
    fn hash<H: Hasher>(&self, state: &mut H) {
        match self {
            Value::Number(number) => number.hash(state),
            Value::Name(bytes) | Value::String(bytes) => bytes.hash(state),
        }
    }
}

impl Value {
    /// Where the value's kind stands in the order.
    fn kind(&self) -> usize {
        let (number, name, string) = match () {
            () if wrong::is(Wrong::NumbersAboveNames) => (2, 1, 3),
            () if wrong::is(Wrong::StringsBelowNames) => (1, 3, 2),
            () if wrong::is(Wrong::StringsBelowNumbers) => (2, 3, 1),
            () => (1, 2, 3),
        };
        match self {
            Value::Number(_) => number,
            Value::Name(_) => name,
            Value::String(_) => string,
        }
    }
}

/// Strings by their bytes as written, a prefix first.
fn compare_strings(left: &[u8], right: &[u8]) -> Ordering {
    let prefix = left.starts_with(right) || right.starts_with(left);
    if prefix && wrong::is(Wrong::PrefixBehind) {
        return right.len().cmp(&left.len());
    }
    if wrong::is(Wrong::SignedBytes) {
        return left.iter().map(|byte| *byte as i8).cmp(right.iter().map(|byte| *byte as i8));
    }
    compared(left).cmp(&compared(right))
}

/// The bytes of a string that are compared: those between the quotes, as written.
fn compared(string: &[u8]) -> Vec<u8> {
    let mut bytes = string.to_vec();
    if wrong::is(Wrong::QuoteCompared) {
        bytes.push(b'"');
    }
    if wrong::is(Wrong::EscapesRead) {
        bytes.retain(|byte| *byte != b'\\');
    }
    if wrong::is(Wrong::StringToNul) {
        bytes.truncate(string.iter().position(|byte| *byte == 0).unwrap_or(string.len()));
    }
    bytes
}
