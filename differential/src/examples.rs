//! The paper's own examples, and texts at its fine points, each with its answer.

use crate::frames::Case;

/// A program, an output and a code; the answer line.
type Checked = (&'static str, &'static str, u64, &'static str);
/// A program and the room for its plain form; the answer.
type Written = (&'static str, usize, &'static str);

const TRACE: &str = "at(u1,north).moved(u1,north,south).held(U,S):-at(U,S).held(U,T):-held(U,S),moved(U,S,T).";
const EITHER: &str = "a:-not b.b:-not a.";
const NEXT: &str = "p(X):-q(Y),X=Y+1.";

/// T1 to T12 of the paper: a program, its facts and the answer's words.
const TABLE: &[(&str, &str, &str, &str)] = &[
    (
        TRACE,
        "",
        "at(u1,north). moved(u1,north,south). held(u1,north). held(u1,south).",
        "ACCEPTED program 0 0 1 1 atoms 4 rounds 3 each 1 1 2 3 kept",
    ),
    (
        TRACE,
        "",
        "at(u1,north). moved(u1,north,south). held(u1,north).",
        "UNSATISFIED program 0 0 1 1 rule 4 body 3 2 kept",
    ),
    ("", "", "", "ACCEPTED program 0 0 1 1 atoms 0 rounds 0 each kept"),
    ("a:-b.b:-a.", "", "a. b.", "SMALLER program 0 0 1 1 atoms kept"),
    (EITHER, "", "a.", "ACCEPTED program 0 0 1 1 atoms 1 rounds 1 each 1 kept"),
    (EITHER, "", "a. b.", "SMALLER program 0 0 1 1 atoms kept"),
    (EITHER, "", "", "UNSATISFIED program 0 0 1 1 rule 1 body kept"),
    ("a:-not a.", "", "a.", "SMALLER program 0 0 1 1 atoms kept"),
    ("a.:-a.", "", "a.", "UNSATISFIED program 0 0 1 1 rule 2 body 1 kept"),
    (NEXT, "q(a).", "q(a).", "ACCEPTED program 0 0 1 1 atoms 1 rounds 1 each 1 kept"),
    (NEXT, "q(999999999).", "q(999999999). p(1000000000).", "ACCEPTED program 0 0 1 1 atoms 2 rounds 2 each 1 2 kept"),
    (NEXT, "q(1000000000).", "q(1000000000).", "REFUSED 8 program 0 17 1 1 kept"),
];

const POINTS: &[Checked] = &[
    ("", "ANSWER", 10, "REFUSED 2 output 6 0 1 7 kept"),
    ("", "ANSWER\n", 10, "REFUSED 2 output 7 0 2 1 kept"),
    ("", "ANSWER\n\n", 10, "ACCEPTED program 0 0 1 1 atoms 0 rounds 0 each kept"),
    ("", "ANSWERS\n \t", 10, "ACCEPTED program 0 0 1 1 atoms 0 rounds 0 each kept"),
    ("", "%*\n\nUNKNOWN", 1, "CLAIMED-UNKNOWN program 0 0 1 1 kept"),
    ("", "INCONSISTENT\na.\n", 20, "REFUSED 2 output 13 2 2 1 kept"),
    ("", " \nUNKNOWN", 1, "REFUSED 2 output 0 1 1 1 kept"),
    ("", "ANSWER\r\na.\r\n", 10, "REFUSED 2 output 10 1 2 3 kept"),
    ("", "ANSWER\na. % b", 10, "REFUSED 2 output 10 1 2 4 kept"),
    ("", "ANSWER\np(X).", 10, "REFUSED 2 output 9 1 2 3 kept"),
    ("", "ANSWER\na", 30, "REFUSED 2 output 8 0 2 2 kept"),
    ("", "ANSWER\na.", 30, "REFUSED 10 output 0 0 1 1 kept"),
    ("", "ANSWER\na.", 266, "REFUSED 10 output 0 0 1 1 kept"),
    ("", "ANSWER\np(-0). p( 0 ) .", 10, "REFUSED 6 output 14 8 2 8 kept"),
    ("", "ANSWER\np. - p().", 10, "REFUSED 7 output 10 6 2 4 kept"),
    ("a. % b", "UNKNOWN", 1, "CLAIMED-UNKNOWN program 0 0 1 1 kept"),
    ("a:- % b", "UNKNOWN", 1, "REFUSED 2 program 7 0 1 8 kept"),
    ("a:", "UNKNOWN", 1, "REFUSED 2 program 1 1 1 2 kept"),
    ("a.%*b", "UNKNOWN", 1, "REFUSED 2 program 2 1 1 3 kept"),
    ("p(007).", "UNKNOWN", 1, "REFUSED 2 program 3 1 1 4 kept"),
    ("p(_a).", "UNKNOWN", 1, "REFUSED 2 program 3 1 1 4 kept"),
    ("a:-not X=1.", "UNKNOWN", 1, "REFUSED 2 program 7 1 1 8 kept"),
    ("a:--a=b.", "UNKNOWN", 1, "REFUSED 2 program 5 1 1 6 kept"),
    ("a:-not -1=1.", "UNKNOWN", 1, "REFUSED 2 program 8 1 1 9 kept"),
    ("p(1000000001).", "UNKNOWN", 1, "REFUSED 3 program 2 10 1 3 kept"),
    ("p(- 1000000001).", "UNKNOWN", 1, "REFUSED 3 program 4 10 1 5 kept"),
    ("p(1,2,3,4,5,6,7,8,1000000001).", "UNKNOWN", 1, "REFUSED 3 program 18 10 1 19 kept"),
    ("p(1,2,3,4,5,6,7,8,-1000000001).", "UNKNOWN", 1, "REFUSED 4 program 18 1 1 19 kept"),
    ("p(X).", "UNKNOWN", 1, "REFUSED 5 program 2 1 1 3 kept"),
    ("p(Y):-q(X),Y=Z,3=Z.", "UNKNOWN", 1, "REFUSED 5 program 2 1 1 3 kept"),
    ("p:-_=5,X=_.", "UNKNOWN", 1, "REFUSED 5 program 7 1 1 8 kept"),
    ("p(Z):-Z=Y+1,Y=X,X=1.", "ANSWER\np(2).", 10, "ACCEPTED program 0 0 1 1 atoms 1 rounds 1 each 1 kept"),
    ("a.b:-a,a.", "ANSWER\na.", 10, "UNSATISFIED program 0 0 1 1 rule 2 body 1 1 kept"),
    ("q(a).:-q(X),X!=1.", "ANSWER\nq(a).", 10, "UNSATISFIED program 0 0 1 1 rule 2 body 1 kept"),
    ("q(a).:-q(X),X=1.", "ANSWER\nq(a).", 10, "ACCEPTED program 0 0 1 1 atoms 1 rounds 1 each 1 kept"),
    ("q(1).p:-q(Y),not q(X),X=Y+1.", "ANSWER\nq(1).", 10, "UNSATISFIED program 0 0 1 1 rule 2 body 1 kept"),
    ("q(a).p:-q(Y),not q(X),X=Y+1.", "ANSWER\nq(a).", 10, "ACCEPTED program 0 0 1 1 atoms 1 rounds 1 each 1 kept"),
    ("p:-1=2,3=1000000000*2. %", "ANSWER\n\n", 10, "REFUSED 8 program 0 22 1 1 kept"),
];

/// Places behind newlines, tabs, comments and bytes of other characters, and at the ends of texts.
const PLACES: &[Checked] = &[
    ("a.\n\n\tb c.", "UNKNOWN", 1, "REFUSED 2 program 7 1 3 4 kept"),
    ("% \u{e9}\r\r\na.\nb", "UNKNOWN", 1, "REFUSED 2 program 11 0 3 2 kept"),
    ("a:-b\n", "UNKNOWN", 1, "REFUSED 2 program 5 0 2 1 kept"),
    ("a:-\n b\n % \u{2192}", "UNKNOWN", 1, "REFUSED 2 program 13 0 3 7 kept"),
    ("a.\r\nb.\r\n", "UNKNOWN", 1, "REFUSED 2 program 2 1 1 3 kept"),
    ("a.\n%\n\n\u{e9}.", "UNKNOWN", 1, "REFUSED 2 program 6 1 4 1 kept"),
    ("a.\n%c\n %*", "UNKNOWN", 1, "REFUSED 2 program 7 1 3 2 kept"),
    ("p(\n-\n1000000001).", "UNKNOWN", 1, "REFUSED 3 program 5 10 3 1 kept"),
    ("p(1,2,3,4,\n5,6,7,8,\n\t-9).", "UNKNOWN", 1, "REFUSED 4 program 21 1 3 2 kept"),
    ("a.\np(X)\n:-q(Y,\n X).r(\n\tZ).", "UNKNOWN", 1, "REFUSED 5 program 23 1 5 2 kept"),
    ("% a.\n p(X)\n:- X=1000000000\n+1.\n", "ANSWER\n\n", 10, "REFUSED 8 program 6 24 2 2 kept"),
    ("", "", 10, "REFUSED 2 output 0 0 1 1 kept"),
    ("a.\nb.", "\n%\n\n", 10, "REFUSED 2 output 4 0 4 1 kept"),
    ("", "%\n\nANSWER", 10, "REFUSED 2 output 9 0 3 7 kept"),
    ("", "%\u{e9}\n\nANSWER\u{e9}\n", 10, "REFUSED 2 output 14 0 4 1 kept"),
    ("", "%\n\n a.\n", 10, "REFUSED 2 output 3 3 3 1 kept"),
    ("", "\n%\r\nANSWER\r\na.\tb\t\n", 10, "REFUSED 2 output 17 0 4 6 kept"),
    ("", "\nANSWER\n\ta.\t a.\n", 10, "REFUSED 6 output 13 2 3 6 kept"),
    ("", "\n%\nANSWER\na. -a.", 10, "REFUSED 7 output 13 3 4 4 kept"),
    ("", "%\nANSWER\na.\n\n%\n\na.\n", 10, "REFUSED 2 output 16 2 7 1 kept"),
    ("\na.\n", "\n%\nANSWER\na.", 30, "REFUSED 10 output 0 0 1 1 kept"),
];

/// Strings, and the order over values of all kinds.
const STRINGS: &[Checked] = &[
    ("p(7).a:-p(S),S!=north.", "ANSWER\np(7). a.", 10, "ACCEPTED program 0 0 1 1 atoms 2 rounds 2 each 1 2 kept"),
    ("p(7).a:-p(S),S!=north.", "ANSWER\np(7).", 10, "UNSATISFIED program 0 0 1 1 rule 2 body 1 kept"),
    ("a:-7<north,north<\"\",7<\"7\".", "ANSWER\na.", 10, "ACCEPTED program 0 0 1 1 atoms 1 rounds 1 each 1 kept"),
    ("q(1).a:-q(X),north!=X+1.", "ANSWER\nq(1).", 10, "UNSATISFIED program 0 0 1 1 rule 2 body 1 kept"),
    ("q(\"1\").:-q(X),X!=X+1.", "ANSWER\nq(\"1\").", 10, "ACCEPTED program 0 0 1 1 atoms 1 rounds 1 each 1 kept"),
    (":-\"a\"<\"a b\".", "ANSWER\n\n", 10, "UNSATISFIED program 0 0 1 1 rule 1 body kept"),
    (":-\"aAb\">=\"a\\\"b\".", "ANSWER\n\n", 10, "ACCEPTED program 0 0 1 1 atoms 0 rounds 0 each kept"),
    ("p(a).", "ANSWER\np(\"a\"). p(a).", 10, "SMALLER program 0 0 1 1 atoms 2 kept"),
    ("", "ANSWER\np(\"% a\\\"\"). p( \"% a\\\"\" ).", 10, "REFUSED 6 output 19 13 2 13 kept"),
    ("p(\"%*\n\").", "UNKNOWN", 1, "REFUSED 2 program 2 1 1 3 kept"),
    ("p(\"a\\n\").", "UNKNOWN", 1, "REFUSED 2 program 2 1 1 3 kept"),
    ("a.\np(\"a", "UNKNOWN", 1, "REFUSED 2 program 5 1 2 3 kept"),
    ("", "ANSWER\np(\"\n\").", 10, "REFUSED 2 output 9 1 2 3 kept"),
    ("\"a\".", "UNKNOWN", 1, "REFUSED 2 program 0 3 1 1 kept"),
    ("a:-not \"a\".", "UNKNOWN", 1, "REFUSED 2 program 7 3 1 8 kept"),
    ("p(-\"a\").", "UNKNOWN", 1, "REFUSED 2 program 3 3 1 4 kept"),
    ("p(1,2,3,4,5,6,7,8,\"a\").", "UNKNOWN", 1, "REFUSED 4 program 18 3 1 19 kept"),
];

/// Several heads: how they are read, and every proper subset.
const HEADS: &[Checked] = &[
    ("a|b.a:-b.b:-a.", "ANSWER\na. b.", 10, "ACCEPTED program 0 0 1 1 atoms 2 rounds 0 each kept"),
    ("a|b.", "ANSWER\nb.", 10, "ACCEPTED program 0 0 1 1 atoms 1 rounds 0 each kept"),
    ("a|b.", "ANSWER\na. b.", 10, "SMALLER program 0 0 1 1 atoms 1 kept"),
    ("a|b.", "ANSWER\nb. a.", 10, "SMALLER program 0 0 1 1 atoms 1 kept"),
    ("a|b.c:-a.d:-a.", "ANSWER\na. c. d. b.", 10, "SMALLER program 0 0 1 1 atoms 1 2 3 kept"),
    ("a|b.", "ANSWER\nc.", 10, "UNSATISFIED program 0 0 1 1 rule 1 body kept"),
    ("a|a.", "ANSWER\na.", 10, "ACCEPTED program 0 0 1 1 atoms 1 rounds 0 each kept"),
    ("b|c:-d.a.", "ANSWER\na.", 10, "ACCEPTED program 0 0 1 1 atoms 1 rounds 0 each kept"),
    ("b|c:-d.", "ANSWER\n\n", 10, "ACCEPTED program 0 0 1 1 atoms 0 rounds 0 each kept"),
    ("p(X)|p(Y):-q(X),q(Y).q(1).", "ANSWER\nq(1). p(1).", 10, "ACCEPTED program 0 0 1 1 atoms 2 rounds 0 each kept"),
    ("a:-not b.b:-not a.c|d.", "ANSWER\na. b. c.", 10, "SMALLER program 0 0 1 1 atoms 3 kept"),
    ("-a|a.", "ANSWER\n-a. a.", 10, "REFUSED 7 output 11 2 2 5 kept"),
    ("p(X)|q(Y):-r(X).", "UNKNOWN", 1, "REFUSED 5 program 7 1 1 8 kept"),
    ("a|b|c|d|-e.", "UNKNOWN", 1, "REFUSED 4 program 8 1 1 9 kept"),
    ("a|b|c|d|.", "UNKNOWN", 1, "REFUSED 2 program 8 1 1 9 kept"),
    ("a||b.", "UNKNOWN", 1, "REFUSED 2 program 2 1 1 3 kept"),
    ("|a.", "UNKNOWN", 1, "REFUSED 2 program 0 1 1 1 kept"),
    ("a:-b|c.", "UNKNOWN", 1, "REFUSED 2 program 4 1 1 5 kept"),
    ("a v b.", "UNKNOWN", 1, "REFUSED 2 program 2 1 1 3 kept"),
    ("", "ANSWER\na|b.", 10, "REFUSED 2 output 8 1 2 2 kept"),
];

const FORMS: &[Written] = &[
    (" a | -b()\n|%\n p( X ) :- q(X) . ", 17, "WRITTEN program 0 0 1 1 length 16 kept\na|-b|p(X):-q(X).\n"),
    ("p( \" %\" ):-\"\\\"\"  <>  \"\" .", 19, "WRITTEN program 0 0 1 1 length 18 kept\np(\" %\"):-\"\\\"\"!=\"\".\n"),
    ("", 0, "WRITTEN program 0 0 1 1 length 0 kept\n\n"),
    ("a :- not\n b, X <> - 0, q( X ) . % c", 20, "WRITTEN program 0 0 1 1 length 19 kept\na:-not b,X!=0,q(X).\n"),
    ("p():- not - q , X=1--0,X=-0-0.", 23, "WRITTEN program 0 0 1 1 length 21 kept\np:-not-q,X=1-0,X=0-0.\n"),
    ("a.", 1, "REFUSED 9 program 0 0 1 1 kept\n"),
    ("p(X).", 0, "REFUSED 5 program 2 1 1 3 kept\n"),
    ("\n\na\n.\n", 2, "WRITTEN program 0 0 1 1 length 2 kept\na.\n"),
    ("\n\na\n.\n", 1, "REFUSED 9 program 0 0 1 1 kept\n"),
    ("\na:-\n\tX<Y.", 9, "REFUSED 5 program 6 1 3 2 kept\n"),
];

/// Every example with its answer.
pub fn all() -> Vec<(Case, Vec<u8>)> {
    let table = TABLE.iter().map(|(rules, more, facts, line)| {
        let output = format!("ANSWER\n{facts}\n");
        (check(&format!("{rules}{more}"), &output, 10), format!("{line}\n").into_bytes())
    });
    let points = POINTS
        .iter()
        .chain(PLACES)
        .chain(STRINGS)
        .chain(HEADS)
        .map(|(program, output, code, line)| (check(program, output, *code), format!("{line}\n").into_bytes()));
    let forms = FORMS.iter().map(|(program, room, answer)| {
        let program = program.as_bytes().to_vec();
        (Case::Plain { room: *room, program }, answer.as_bytes().to_vec())
    });
    table.chain(points).chain(forms).collect()
}

fn check(program: &str, output: &str, code: u64) -> Case {
    Case::Check { code, places: 8, program: program.as_bytes().to_vec(), output: output.as_bytes().to_vec() }
}
