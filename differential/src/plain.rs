//! The plain form of a program.

use crate::lexer::{tokens, Language};
use crate::rules::{Atom, BuiltIn, Literal, Relation, Rule, Side, Term, Value};
use crate::wrong::{self, Wrong};

/// The plain form of a program's rules.
pub fn plain_form(rules: &[Rule]) -> Vec<u8> {
    let mut written = Writer::default();
    for rule in rules {
        written.rule(rule);
    }
    written.bytes
}

/// What is written so far, and where its last token begins.
#[derive(Default)]
struct Writer {
    bytes: Vec<u8>,
    last: usize,
}

impl Writer {
    /// One token more, behind a blank where the two would read as others.
    fn token(&mut self, spelling: &[u8]) {
        let last = &self.bytes[self.last..];
        if !last.is_empty() && !stay_apart(last, spelling) {
            self.bytes.push(b' ');
        }
        self.last = self.bytes.len();
        self.bytes.extend_from_slice(spelling);
    }

    fn rule(&mut self, rule: &Rule) {
        self.heads(rule);
        for (place, literal) in rule.body.iter().enumerate() {
            self.token(if place == 0 { b":-" } else { b"," });
            self.literal(rule, literal);
        }
        self.token(b".");
    }

    fn heads(&mut self, rule: &Rule) {
        for (place, head) in rule.heads.iter().enumerate() {
            if wrong::is(Wrong::WritesHeadOnce) && rule.heads[..place].contains(head) {
                continue;
            }
            if place > 0 {
                if wrong::is(Wrong::BlankBeforeBar) {
                    self.bytes.push(b' ');
                }
                self.token(b"|");
            }
            self.atom(rule, head);
        }
    }

    fn literal(&mut self, rule: &Rule, literal: &Literal) {
        match literal {
            Literal::Positive(atom) => self.atom(rule, atom),
            Literal::Negated(atom) => {
                self.token(b"not");
                if wrong::is(Wrong::BlankBehindNot) && atom.negative {
                    self.bytes.push(b' ');
                }
                self.atom(rule, atom);
            }
            Literal::BuiltIn(test) => self.built_in(rule, test),
        }
    }

    fn atom(&mut self, rule: &Rule, atom: &Atom) {
        if atom.negative {
            self.token(b"-");
        }
        self.token(&atom.name);
        for (place, term) in atom.arguments.iter().enumerate() {
            self.token(if place == 0 { b"(" } else { b"," });
            self.term(rule, term);
        }
        if !atom.arguments.is_empty() {
            self.token(b")");
        }
    }

    fn built_in(&mut self, rule: &Rule, test: &BuiltIn) {
        self.term(rule, &test.left);
        let unequal = test.relation == Relation::Unequal && wrong::is(Wrong::WritesOtherUnequal);
        let mark = if unequal { "<>" } else { test.relation.mark() };
        self.token(mark.as_bytes());
        match &test.right {
            Side::Plain(term) => self.term(rule, term),
            Side::Computed(left, operation, right) => {
                self.term(rule, left);
                self.token(operation.mark().as_bytes());
                self.term(rule, right);
            }
        }
    }

    fn term(&mut self, rule: &Rule, term: &Term) {
        match term {
            Term::Variable(number) => self.token(&rule.variables[*number].spelling),
            Term::Value(Value::Name(name)) => self.token(name),
            Term::Value(Value::String(string)) => self.string(string),
            Term::Value(Value::Number(number)) => self.number(*number),
        }
    }

    fn string(&mut self, string: &[u8]) {
        if wrong::is(Wrong::BlankBeforeString) {
            self.bytes.push(b' ');
        }
        let mut between = string.to_vec();
        if wrong::is(Wrong::WritesNoEscapes) {
            between.retain(|byte| *byte != b'\\');
        }
        self.token(&[b"\"", between.as_slice(), b"\""].concat());
    }

    fn number(&mut self, number: i64) {
        if number < 0 || (number == 0 && wrong::is(Wrong::WritesMinusZero)) {
            self.token(b"-");
        }
        self.token(number.unsigned_abs().to_string().as_bytes());
    }
}

/// Whether two tokens set side by side read as those two.
fn stay_apart(left: &[u8], right: &[u8]) -> bool {
    let joined = [left, right].concat();
    let read = tokens(&joined, Language::Program);
    read.len() == 2 && read[0].end == left.len() && read[1].end == joined.len()
}
