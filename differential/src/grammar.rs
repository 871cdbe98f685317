//! Tokens to rules and facts, a function for each production: refusals 2, 3 and 4, at the first token that has one.

use crate::answer::{Part, Refusal, Text, NOT_GRAMMAR, NUMBER_TOO_BIG, TOO_MANY};
use crate::lexer::{token_from, Kind, Language, Token};
use crate::rules::{Atom, BuiltIn, Fact, Literal, Name, Operation, Quoted, Rule, Side, Term, Value, Variable, MOST};
use crate::wrong::{self, Wrong};

const MOST_RULES: usize = 256;
const MOST_HEADS: usize = 4;
const MOST_LITERALS: usize = 16;
const MOST_ARGUMENTS: usize = 8;
const MOST_WORD_BYTES: usize = 64;
const MOST_STRING_BYTES: usize = 64;
const MOST_VARIABLES: usize = 16;
const MOST_FACTS: usize = 1024;

type Read<T> = Result<T, Refusal>;

/// A candidate fact and the place of its text, from its first token to its dot.
#[derive(Clone, Debug)]
pub struct PlacedFact {
    pub fact: Fact,
    pub start: usize,
    pub length: usize,
}

/// The rules of a program text, before safety is looked at.
pub fn rules(text: &[u8]) -> Read<Vec<Rule>> {
    Reader::new(text, 0, Language::Program).rules()
}

/// The facts of the line that begins at `base` in the output.
pub fn facts(line: &[u8], base: usize) -> Read<Vec<PlacedFact>> {
    Reader::new(line, base, Language::Facts).facts()
}

/// What is read, where it begins in its text, the token that stands next, and the variables of the rule so far.
struct Reader<'a> {
    text: &'a [u8],
    base: usize,
    language: Language,
    token: Token,
    behind: usize,
    variables: Vec<Variable>,
}

impl<'a> Reader<'a> {
    fn new(text: &'a [u8], base: usize, language: Language) -> Reader<'a> {
        Reader { text, base, language, token: token_from(text, 0, language), behind: 0, variables: Vec::new() }
    }

    /// Passes the token that stands next; `behind` is then its end.
    fn advance(&mut self) {
        self.behind = self.token.end;
        self.token = token_from(self.text, self.token.end, self.language);
    }

    fn sees(&self, kind: Kind) -> bool {
        self.token.kind == kind
    }

    fn spelling(&self) -> &'a [u8] {
        &self.text[self.token.start..self.token.end]
    }

    /// A refusal that hands back the token that stands next.
    fn refuse(&self, number: u8) -> Refusal {
        let start = match self.token.kind {
            Kind::End if wrong::is(Wrong::EndAtLastToken) => self.behind,
            _ => self.token.start,
        };
        let text = match self.language {
            Language::Program => Text::Program,
            Language::Facts => Text::Output,
        };
        let part = Part { text, start: self.base + start, length: self.token.end - self.token.start };
        Refusal { number, part }
    }

    /// The refusal of a token that the grammar can't have here.
    fn unexpected(&self) -> Refusal {
        let wrongly = match self.token.kind {
            Kind::Name | Kind::Variable => wrong::is(Wrong::SizeBeforeGrammar) && self.word_size().is_err(),
            Kind::String => wrong::is(Wrong::StringSizeFirst) && self.string_size().is_err(),
            _ => false,
        };
        self.refuse(if wrongly { TOO_MANY } else { NOT_GRAMMAR })
    }

    fn take(&mut self, kind: Kind) -> Read<()> {
        if !self.sees(kind) {
            return Err(self.unexpected());
        }
        self.advance();
        Ok(())
    }

    /// Refuses what begins at the next token where there are as many already as there may be. The token is one that
    /// such a thing can begin with; a number over its size has the lower number of refusal.
    fn limit(&self, count: usize, most: usize) -> Read<()> {
        if count < most {
            return Ok(());
        }
        if self.sees(Kind::Number) {
            self.number_size()?;
        }
        Err(self.refuse(TOO_MANY))
    }

    /// All that a text is made of, to its end: with what one begins, how many there may be, and how one is read.
    fn all<T>(mut self, begin: &[Kind], most: usize, one: fn(&mut Self) -> Read<T>) -> Read<Vec<T>> {
        let mut found = Vec::new();
        while !self.sees(Kind::End) {
            if !begin.contains(&self.token.kind) && !self.sees_string_as_name() {
                return Err(self.unexpected());
            }
            self.limit(found.len(), most)?;
            found.push(one(&mut self)?);
        }
        Ok(found)
    }

    fn rules(self) -> Read<Vec<Rule>> {
        let most = MOST_RULES + usize::from(wrong::is(Wrong::RulesOf257));
        self.all(&[Kind::If, Kind::Minus, Kind::Name], most, Reader::rule)
    }

    fn rule(&mut self) -> Read<Rule> {
        let start = match wrong::is(Wrong::RuleFromLastDot) {
            true => self.behind,
            false => self.token.start,
        };
        self.variables = Vec::new();
        let heads = if self.sees(Kind::If) { Vec::new() } else { self.heads()? };
        let body = if !heads.is_empty() && self.sees(Kind::Dot) {
            Vec::new()
        } else {
            self.take(Kind::If)?;
            self.body()?
        };
        self.take(Kind::Dot)?;
        Ok(Rule {
            heads,
            body,
            variables: std::mem::take(&mut self.variables),
            start,
            length: self.behind - start,
            binding: Vec::new(),
        })
    }

    fn heads(&mut self) -> Read<Vec<Atom>> {
        let mut heads = vec![self.atom()?];
        while self.sees(Kind::Or) {
            if heads.len() == MOST_HEADS && wrong::is(Wrong::BarBlamed) {
                return Err(self.refuse(TOO_MANY));
            }
            self.advance();
            heads.push(self.next_head(heads.len())?);
        }
        Ok(heads)
    }

    /// One more head atom, behind its bar.
    fn next_head(&mut self, count: usize) -> Read<Atom> {
        if !matches!(self.token.kind, Kind::Minus | Kind::Name) && !self.sees_string_as_name() {
            return Err(self.unexpected());
        }
        let most = match () {
            () if wrong::is(Wrong::HeadsOf5) => MOST_HEADS + 1,
            () if wrong::is(Wrong::HeadsOf3) => MOST_HEADS - 1,
            () => MOST_HEADS,
        };
        if count >= most && self.sees(Kind::Minus) && wrong::is(Wrong::HeadWithoutMinus) {
            self.advance();
        }
        self.limit(count, most)?;
        self.atom()
    }

    fn body(&mut self) -> Read<Vec<Literal>> {
        let mut body = vec![self.literal()?];
        while self.sees(Kind::Comma) {
            self.advance();
            if !starts_literal(self.token.kind) {
                return Err(self.unexpected());
            }
            let most = MOST_LITERALS - usize::from(wrong::is(Wrong::LiteralsOf15));
            self.limit(body.len(), most)?;
            body.push(self.literal()?);
        }
        Ok(body)
    }

    fn literal(&mut self) -> Read<Literal> {
        match self.token.kind {
            Kind::Not => {
                self.advance();
                Ok(Literal::Negated(self.atom()?))
            }
            Kind::Minus => self.literal_behind_minus(),
            Kind::Name => self.literal_from_name(),
            Kind::String if wrong::is(Wrong::StringOnRightOnly) => Err(self.unexpected()),
            Kind::Number | Kind::Variable | Kind::Anonymous | Kind::String => {
                let left = self.term()?;
                self.built_in(left)
            }
            _ => Err(self.unexpected()),
        }
    }

    /// A minus begins a negative number or a classical atom.
    fn literal_behind_minus(&mut self) -> Read<Literal> {
        self.advance();
        match self.token.kind {
            Kind::Number => {
                let left = Term::Value(Value::Number(-self.number(true)?));
                self.built_in(left)
            }
            _ => Ok(Literal::Positive(self.unsigned_atom(true)?)),
        }
    }

    /// A name begins a classical atom, or is the left side of a built-in one.
    fn literal_from_name(&mut self) -> Read<Literal> {
        let name = self.name()?;
        if matches!(self.token.kind, Kind::Relation(_)) {
            return self.built_in(Term::Value(Value::Name(name)));
        }
        let arguments = self.arguments()?;
        Ok(Literal::Positive(Atom { negative: false, name, arguments }))
    }

    fn built_in(&mut self, left: Term) -> Read<Literal> {
        let Kind::Relation(relation) = self.token.kind else {
            return Err(self.unexpected());
        };
        self.advance();
        let first = self.term()?;
        let right = match operation(self.token.kind) {
            None => Side::Plain(first),
            Some(operation) => {
                self.advance();
                Side::Computed(first, operation, self.term()?)
            }
        };
        Ok(Literal::BuiltIn(BuiltIn { left, relation, right }))
    }

    /// A classical atom with its sign.
    fn atom(&mut self) -> Read<Atom> {
        let negative = self.sees(Kind::Minus);
        if negative {
            self.advance();
        }
        self.unsigned_atom(negative)
    }

    fn unsigned_atom(&mut self, negative: bool) -> Read<Atom> {
        let name = self.name()?;
        let arguments = self.arguments()?;
        Ok(Atom { negative, name, arguments })
    }

    /// The arguments behind a name: none where no parenthesis opens.
    fn arguments(&mut self) -> Read<Vec<Term>> {
        let mut arguments = Vec::new();
        if !self.sees(Kind::Open) {
            return Ok(arguments);
        }
        self.advance();
        if self.sees(Kind::Close) && !wrong::is(Wrong::NoEmptyArguments) {
            self.advance();
            return Ok(arguments);
        }
        arguments.push(self.term()?);
        while self.sees(Kind::Comma) {
            if arguments.len() == MOST_ARGUMENTS && wrong::is(Wrong::CommaBlamed) {
                return Err(self.refuse(TOO_MANY));
            }
            self.advance();
            arguments.push(self.next_argument(arguments.len())?);
        }
        self.take(Kind::Close)?;
        Ok(arguments)
    }

    /// One more argument, behind its comma.
    fn next_argument(&mut self, count: usize) -> Read<Term> {
        if !self.starts_term() {
            return Err(self.unexpected());
        }
        let most = MOST_ARGUMENTS + usize::from(wrong::is(Wrong::ArgumentsOf9));
        self.limit(count, most)?;
        self.term()
    }

    fn starts_term(&self) -> bool {
        match self.token.kind {
            Kind::Minus | Kind::Number | Kind::Name => true,
            Kind::String => self.language == Language::Program || !wrong::is(Wrong::StringInRulesOnly),
            Kind::Variable | Kind::Anonymous => self.language == Language::Program,
            _ => false,
        }
    }

    fn term(&mut self) -> Read<Term> {
        if !self.starts_term() {
            return Err(self.unexpected());
        }
        match self.token.kind {
            Kind::Minus => {
                self.advance();
                if !self.sees(Kind::Number) {
                    return Err(self.unexpected());
                }
                Ok(Term::Value(Value::Number(-self.number(true)?)))
            }
            Kind::Number => Ok(Term::Value(Value::Number(self.number(false)?))),
            Kind::Name => Ok(Term::Value(Value::Name(self.name()?))),
            Kind::String => Ok(Term::Value(Value::String(self.string()?))),
            _ => self.variable(),
        }
    }

    fn name(&mut self) -> Read<Name> {
        if !self.sees(Kind::Name) && !self.sees_string_as_name() {
            return Err(self.unexpected());
        }
        self.word_size()?;
        let name = Name::from(self.spelling());
        self.advance();
        Ok(name)
    }

    fn word_size(&self) -> Read<()> {
        let most = MOST_WORD_BYTES + usize::from(wrong::is(Wrong::NameOf65));
        if self.spelling().len() > most {
            return Err(self.refuse(TOO_MANY));
        }
        Ok(())
    }

    fn sees_string_as_name(&self) -> bool {
        self.sees(Kind::String) && wrong::is(Wrong::StringAsPredicate)
    }

    /// A string's bytes between its quotes, as written.
    fn string(&mut self) -> Read<Quoted> {
        let size = self.string_size();
        if wrong::is(Wrong::LongWithoutQuotes) && size.is_err() {
            self.token = Token { start: self.token.start + 1, end: self.token.end - 1, ..self.token };
            return Err(self.refuse(TOO_MANY));
        }
        size?;
        let string = Quoted::from(self.between_quotes());
        self.advance();
        Ok(string)
    }

    fn between_quotes(&self) -> &'a [u8] {
        &self.text[self.token.start + 1..self.token.end - 1]
    }

    fn string_size(&self) -> Read<()> {
        let most = match () {
            () if wrong::is(Wrong::StringOf65) => MOST_STRING_BYTES + 1,
            () if wrong::is(Wrong::StringOf63) => MOST_STRING_BYTES - 1,
            () if wrong::is(Wrong::QuotesCounted) => MOST_STRING_BYTES - 2,
            () => MOST_STRING_BYTES,
        };
        let uncounted = |byte: &&u8| **byte == b'\\' && wrong::is(Wrong::EscapeOneByte);
        let bytes = self.between_quotes();
        if bytes.len() - bytes.iter().filter(uncounted).count() > most {
            return Err(self.refuse(TOO_MANY));
        }
        Ok(())
    }

    /// A number token's value, and that it is within its size.
    fn number_size(&self) -> Read<i64> {
        let most = MOST + i64::from(wrong::is(Wrong::NumberOneMore));
        let value = std::str::from_utf8(self.spelling())
            .ok()
            .and_then(|digits| digits.parse::<i64>().ok())
            .filter(|value| *value <= most);
        value.ok_or_else(|| self.refuse(NUMBER_TOO_BIG))
    }

    fn number(&mut self, behind_minus: bool) -> Read<i64> {
        let value = self.number_size();
        if behind_minus && wrong::is(Wrong::NumberWithMinus) && value.is_err() {
            self.token.start = self.behind - 1;
            return Err(self.refuse(NUMBER_TOO_BIG));
        }
        self.advance();
        value
    }

    /// A variable by its number: the place of its first occurrence among the rule's variables.
    fn variable(&mut self) -> Read<Term> {
        self.word_size()?;
        let spelling = self.spelling();
        let shared = self.sees(Kind::Variable) || wrong::is(Wrong::SharedUnderscore);
        let known = self.variables.iter().position(|v| *v.spelling == *spelling);
        let number = match known {
            Some(number) if shared => number,
            _ => self.new_variable(spelling)?,
        };
        self.advance();
        Ok(Term::Variable(number))
    }

    fn new_variable(&mut self, spelling: &[u8]) -> Read<usize> {
        let most = MOST_VARIABLES + usize::from(wrong::is(Wrong::VariablesOf17));
        let counted = self.variables.iter().filter(|v| is_counted(&v.spelling));
        if counted.count() >= most {
            return Err(self.refuse(TOO_MANY));
        }
        self.variables.push(Variable { spelling: Name::from(spelling), first: self.token.start });
        Ok(self.variables.len() - 1)
    }

    fn facts(self) -> Read<Vec<PlacedFact>> {
        let most = MOST_FACTS + usize::from(wrong::is(Wrong::FactsOf1025));
        self.all(&[Kind::Minus, Kind::Name], most, Reader::fact)
    }

    fn fact(&mut self) -> Read<PlacedFact> {
        let start = self.token.start;
        let atom = self.atom()?;
        self.take(Kind::Dot)?;
        Ok(PlacedFact { fact: ground(atom), start: self.base + start, length: self.behind - start })
    }
}

fn is_counted(spelling: &[u8]) -> bool {
    spelling != b"_" || !wrong::is(Wrong::UnderscoreUncounted)
}

/// An atom of a facts line as a fact: no variable was read there.
fn ground(atom: Atom) -> Fact {
    let values = atom.arguments.into_iter().filter_map(|term| match term {
        Term::Value(value) => Some(value),
        Term::Variable(_) => None,
    });
    Fact { negative: atom.negative, name: atom.name, arguments: values.collect() }
}

fn starts_literal(kind: Kind) -> bool {
    use Kind::{Anonymous, Minus, Name, Not, Number, String, Variable};
    matches!(kind, Not | Minus | Name | Number | Variable | Anonymous | String)
}

fn operation(kind: Kind) -> Option<Operation> {
    match kind {
        Kind::Plus => Some(Operation::Plus),
        Kind::Minus => Some(Operation::Minus),
        Kind::Times => Some(Operation::Times),
        _ => None,
    }
}
