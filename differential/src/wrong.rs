//! Wrong builds of the checker. Each is a flag that one place of the code consults; they show that the comparison
//! can fail. The honest checker runs with none of them.

use std::cell::Cell;

macro_rules! builds {
    ($($build:ident $name:literal $words:literal)*) => {
        /// One wrong build.
        #[derive(Clone, Copy, Debug, PartialEq, Eq)]
        pub enum Wrong { $($build),* }

        /// Each wrong build, its name for the command line, and what it does wrong.
        pub const BUILDS: &[(Wrong, &str, &str)] = &[$((Wrong::$build, $name, $words)),*];
    };
}

builds! {
    CommentEatsToken "comment-eats-token" "a comment takes the byte behind its newline with it"
    BlockComment "block-comment" "%* starts a comment"
    CarriageReturn "carriage-return" "a carriage return is a blank"
    LeadingZeros "leading-zeros" "007 is one number"
    UnderscoreWord "underscore-word" "_a is one variable"
    UnequalReadsLess "unequal-reads-less" "<> is read as <"
    NotIsPrefix "not-is-prefix" "a name that begins with not is the keyword and a name"
    CommentOnFacts "comment-on-facts" "a comment may stand on the facts line"
    CommentInString "comment-in-string" "a % in a string starts a comment"
    StringOverLines "string-over-lines" "a newline may stand in a string"
    LoneBackslash "lone-backslash" "a backslash may stand anywhere in a string"
    StringOfPrintable "string-of-printable" "only printable bytes may stand in a string"
    UnclosedWhole "unclosed-whole" "a quote that opens no string is handed back with what stands behind it"
    UnclosedLong "unclosed-long" "a quote that opens no string and has too many bytes behind it is a string too long"
    SharedUnderscore "shared-underscore" "every _ of a rule is one variable"
    NameOf65 "name-of-65" "a name may have 65 bytes"
    RulesOf257 "rules-of-257" "a program may have 257 rules"
    HeadsOf5 "heads-of-5" "a rule may have 5 head atoms"
    HeadsOf3 "heads-of-3" "a rule may have 3 head atoms only"
    BarBlamed "bar-blamed" "the bar before a fifth head atom is handed back"
    HeadWithoutMinus "head-without-minus" "a fifth head atom is handed back without its minus"
    LiteralsOf15 "literals-of-15" "a body may have 15 literals only"
    ArgumentsOf9 "arguments-of-9" "an atom may have 9 arguments"
    VariablesOf17 "variables-of-17" "a rule may have 17 variables"
    UnderscoreUncounted "underscore-uncounted" "_ does not count towards the 16 variables"
    FactsOf1025 "facts-of-1025" "a candidate may have 1,025 facts"
    CommaBlamed "comma-blamed" "the comma before a ninth argument is handed back"
    NumberWithMinus "number-with-minus" "refusal 3 hands back the minus too"
    NumberOneMore "number-one-more" "1,000,000,001 is a number"
    SizeBeforeGrammar "size-before-grammar" "a long name is refused with 4 where no name may stand"
    StringOf65 "string-of-65" "a string may have 65 bytes"
    StringOf63 "string-of-63" "a string may have 63 bytes only"
    QuotesCounted "quotes-counted" "a string's 64 bytes include its quotes"
    EscapeOneByte "escape-one-byte" "an escaped quote counts as one byte of its string"
    LongWithoutQuotes "long-without-quotes" "a string that is too long is handed back without its quotes"
    StringSizeFirst "string-size-first" "a long string is refused with 4 where no string may stand"
    StringAsPredicate "string-as-predicate" "a string may be a predicate"
    StringOnRightOnly "string-on-right-only" "no string may begin a literal"
    StringInRulesOnly "string-in-rules-only" "no string may stand on the facts line"
    NoEmptyArguments "no-empty-arguments" "p() is refused"
    EndAtLastToken "end-at-last-token" "a text's end is its last token's"
    RuleFromLastDot "rule-from-last-dot" "a rule's text begins behind the dot before it"
    TextOf65537 "text-of-65537" "a text may have 65,537 bytes"
    OneScan "one-scan" "the equations are scanned once"
    RightBinds "right-binds" "3=X binds X"
    NegatedBinds "negated-binds" "a negated atom binds its variables"
    LastUnbound "last-unbound" "refusal 5 hands back the last unbound variable of its rule"
    LaterHeadsFree "later-heads-free" "a variable of a later head needs no binding"
    OutputFirst "output-first" "the output's refusals come before the program's"
    BlankLineEmpty "blank-line-empty" "a line of blanks counts as empty"
    ReportWholeLine "report-whole-line" "nothing may follow the report's word"
    AnswerAlone "answer-alone" "ANSWER with no second line has no facts"
    BehindReport "behind-report" "lines behind the facts are not looked at"
    LineWithNewline "line-with-newline" "a line out of place is handed back with its newline"
    TabOfEight "tab-of-eight" "a tab counts as eight columns"
    CharactersCounted "characters-counted" "a column is a character and not a byte"
    ColumnFromZero "column-from-zero" "columns count from 0"
    ReturnEndsLine "return-ends-line" "a carriage return ends a line"
    CommentNewline "comment-newline" "the newline that ends a comment starts no line"
    EndOnLastLine "end-on-last-line" "a text's end behind a last newline is on the line before"
    LinesFromFacts "lines-from-facts" "the facts line is line 1 of what stands on it"
    LastLine "last-line" "a part over several lines has the place of its end"
    StartWithoutLine "start-without-line" "what is empty at a text's start has line and column 0"
    PlaceOf16Bits "place-of-16-bits" "lines and columns are kept in 16 bits"
    CodeLowBits "code-low-bits" "16 bits of the code are compared"
    CodeLast "code-last" "refusal 10 comes behind 6 and 7"
    RepeatByText "repeat-by-text" "facts are equal where their bytes are"
    OppositeAllowed "opposite-allowed" "a and -a may both be facts"
    RoomExclusive "room-exclusive" "as many places as facts are too few"
    WritesSmaller "writes-smaller" "SMALLER writes the rounds too"
    SubsetsOf21 "subsets-of-21" "21 facts may stand beside several heads"
    SubsetsOf19 "subsets-of-19" "20 facts may not stand beside several heads"
    SubsetsBeforeRoom "subsets-before-room" "refusal 12 comes before 9"
    SubsetsAfterRange "subsets-after-range" "refusal 12 comes behind 8"
    SubsetsAfterBroken "subsets-after-broken" "refusal 12 comes behind UNSATISFIED"
    SubsetsInProgram "subsets-in-program" "refusal 12 hands back the program's start"
    EqualHeadsOnce "equal-heads-once" "heads that are written alike count as one"
    HeldHeadsOnly "held-heads-only" "several heads count only where their body holds"
    SignIgnored "sign-ignored" "a and -a are one predicate"
    ArityIgnored "arity-ignored" "a predicate is a sign and a name"
    ProgramValuesOnly "program-values-only" "only instances over the program's own values are tried"
    RangeAfterVerdict "range-after-verdict" "refusal 8 comes behind UNSATISFIED"
    RangeLastRule "range-last-rule" "refusal 8 hands back the last such rule"
    RangeTrueBodies "range-true-bodies" "refusal 8 looks only at matchings whose comparisons hold"
    RangeBindingOnly "range-binding-only" "refusal 8 looks only at the equations that bind"
    RangeExclusive "range-exclusive" "a result of 1,000,000,000 is out of range"
    ProductWraps "product-wraps" "products are kept in 32 bits"
    NameAsZero "name-as-zero" "a name counts as 0 in arithmetic"
    NamePassedOver "name-passed-over" "an operation on a name is passed over"
    StringAsZero "string-as-zero" "a string counts as 0 in arithmetic"
    DigitsAsNumber "digits-as-number" "a string of digits counts as their number in arithmetic"
    KindsApart "kinds-apart" "no comparison holds between two kinds"
    KindsEqual "kinds-equal" "!= does not hold between two kinds"
    ComputedApart "computed-apart" "no comparison of a name or a string with a computed number holds"
    NumbersAboveNames "numbers-above-names" "numbers are above names"
    StringsBelowNames "strings-below-names" "strings are below names"
    StringsBelowNumbers "strings-below-numbers" "strings are below numbers"
    ShorterNameFirst "shorter-name-first" "names compare by length first"
    PrefixBehind "prefix-behind" "a string comes behind those that it begins"
    QuoteCompared "quote-compared" "the closing quote is compared as a byte of its string"
    EscapesRead "escapes-read" "strings compare by what their escapes stand for"
    SignedBytes "signed-bytes" "bytes of a string from 128 are below all others"
    StringToNul "string-to-nul" "a string is compared as far as its first NUL"
    NameIsString "name-is-string" "a name equals the string of its bytes"
    NegationIgnored "negation-ignored" "not a holds whatever the candidate has"
    ConstraintsIgnored "constraints-ignored" "a rule with no head breaks nothing"
    LastHeadIgnored "last-head-ignored" "the last of several heads is ignored"
    FourthHeadIgnored "fourth-head-ignored" "a fourth head is ignored"
    BrokenUnlessAll "broken-unless-all" "an instance is broken where one of its heads does not hold"
    LastBroken "last-broken" "the last broken instance of the first broken rule is shown"
    LastBrokenRule "last-broken-rule" "the last rule that has a broken instance is shown"
    OrderFromRight "order-from-right" "positions are ordered from the last literal"
    BodyOnce "body-once" "an atom that stands twice in a body is shown once"
    Supported "supported" "an atom is founded where some rule with it as head has a true body"
    RoundsOneOff "rounds-one-off" "ROUNDS is one more"
    RoundsInOrder "rounds-in-order" "atoms of a round are used in the same round"
    RoundOneCopied "round-one-copied" "round 1 is derived, and the rest copied from the candidate"
    KeptNotLeast "kept-not-least" "SMALLER shows every atom that has a true body"
    AcceptsAll "accepts-all" "whatever is not broken is accepted in one round"
    SmallerAll "smaller-all" "whatever is not broken is smaller"
    SatisfiedByAll "satisfied-by-all" "a subset satisfies an instance only where it has all its heads"
    NegatedInSubsets "negated-in-subsets" "a negated literal is read in each subset"
    EmptyUntried "empty-untried" "the empty set is not tried"
    CandidateProper "candidate-proper" "the candidate counts as a proper subset"
    LargestNumber "largest-number" "the subset with the largest number is shown"
    FirstAtomHighest "first-atom-highest" "atom 1 is the highest bit of a subset's number"
    LeastBySize "least-by-size" "a subset with the fewest atoms is shown"
    SharedByAll "shared-by-all" "what all the subsets share is shown"
    OneAtATime "one-at-a-time" "atoms are dropped one at a time, as long as the rest satisfies the reduct"
    RoundsForHeads "rounds-for-heads" "rounds are given and written for several heads"
    WritesForHeads "writes-for-heads" "places are written for several heads, with ROUNDS 0"
    WritesOtherUnequal "writes-other-unequal" "the plain form has <>"
    WritesMinusZero "writes-minus-zero" "the plain form has -0 for 0"
    BlankBehindNot "blank-behind-not" "the plain form has a blank between not and a minus"
    BlankBeforeString "blank-before-string" "the plain form has a blank before a string"
    WritesNoEscapes "writes-no-escapes" "the plain form has a quote for an escaped one"
    BlankBeforeBar "blank-before-bar" "the plain form has a blank before |"
    WritesHeadOnce "writes-head-once" "the plain form has a repeated head once"
    WriterRoomExclusive "writer-room-exclusive" "room of just the plain form's length is too short"
    WritesRefused "writes-refused" "the writer fills the buffer before it refuses with 9"
}

thread_local! {
    static BUILD: Cell<Option<Wrong>> = const { Cell::new(None) };
}

/// Whether the checker runs as this wrong build.
pub fn is(build: Wrong) -> bool {
    BUILD.with(Cell::get) == Some(build)
}

/// Runs `work` as a wrong build, or as the honest one.
pub fn run_as<T>(build: Option<Wrong>, work: impl FnOnce() -> T) -> T {
    BUILD.with(|now| now.set(build));
    let done = work();
    BUILD.with(|now| now.set(None));
    done
}

/// The wrong build of a name.
pub fn named(name: &str) -> Option<Wrong> {
    BUILDS.iter().find(|b| b.1 == name).map(|b| b.0)
}
