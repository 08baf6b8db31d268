//! Refusals of paths.

use jsonpath::ParseErrorKind::*;
use jsonpath::{JsonPath, Numbers, ParseErrorKind};
use std::error::Error;

/// A path, and the kind, the position and the message of its refusal.
const REFUSALS: &[(&str, ParseErrorKind, usize, &str)] = &[
    ("", ExpectedRoot, 1, "expected '$'"),
    ("x", ExpectedRoot, 1, "expected '$'"),
    (
        "$.",
        BadMemberName,
        3,
        "in dot member name, must start with a letter, '_' or a non-ASCII character",
    ),
    (
        "$..",
        BadMemberName,
        4,
        "must start with a letter, '_' or a non-ASCII character",
    ),
    (
        "$[?@.]",
        BadMemberName,
        6,
        "in long-hand segment, must start with a letter, '_' or a non-ASCII character",
    ),
    (
        "$['a'",
        ExpectedClosingBracket,
        6,
        "in long-hand segment, expected closing ']'",
    ),
    (
        "$['a",
        ExpectedEndingQuote,
        5,
        "in long-hand segment, expected an ending quote",
    ),
    (
        "$['\\ud83d']",
        BadEscape,
        4,
        "in long-hand segment, bad escape",
    ),
    (
        "$['a\t']",
        ControlCharacter,
        5,
        "in long-hand segment, control character in a string",
    ),
    (
        "$[",
        ExpectedSelector,
        3,
        "in long-hand segment, expected a selector",
    ),
    (
        "$[9007199254740992]",
        IntegerOutOfRange,
        3,
        "in long-hand segment, integer out of range",
    ),
    (
        "$[?@ == 1.5e]",
        ExponentOrEmptyFraction,
        9,
        "in long-hand segment, exponent or empty fraction not supported",
    ),
    (
        "$[?@ == 1e400]",
        NumberOutOfRange,
        9,
        "in long-hand segment, number out of range",
    ),
    (
        "$[?@.a == ]",
        ExpectedExpression,
        11,
        "in long-hand segment, expected an expression",
    ),
    (
        "$[?(@.a]",
        ExpectedClosingParenthesis,
        8,
        "in long-hand segment, expected closing ')'",
    ),
    (
        "$[?true]",
        ExpectedComparisonOperator,
        8,
        "in long-hand segment, expected a comparison operator",
    ),
    (
        "$[?@.* == 1]",
        NonSingularQuery,
        4,
        "in long-hand segment, non-singular query in a comparison",
    ),
    (
        "$[?first(@.*) == 4]",
        UndefinedFunction,
        4,
        "in long-hand segment, undefined function",
    ),
    (
        "$[?count() == 1]",
        WrongNumberOfArguments,
        4,
        "in long-hand segment, wrong number of arguments",
    ),
    (
        "$[?count(1) == 1]",
        WrongArgumentType,
        10,
        "in long-hand segment, argument of the wrong type",
    ),
    (
        "$[?length(@.author)]",
        WrongReturnType,
        4,
        "in long-hand segment, function with incorrect return type used",
    ),
    ("$.a ", TextAfterPath, 4, "text after the path"),
    ("$.a['b']tail", TextAfterPath, 9, "text after the path"),
];

/// A number literal, how whole numbers refuse it, and what was probably meant; all numbers read it.
const LITERALS: &[(&str, ParseErrorKind, &str)] = &[
    (
        "1.5e3",
        ExponentOrEmptyFraction,
        "`1000` for 1e3, `1` for 1.",
    ),
    (
        "0.0000000001",
        FractionTooLong,
        "fewer digits, or a path that takes all numbers",
    ),
    (
        "18446744073709551616",
        NumberOutOfRange,
        "a number from -2^63 to 2^64 - 1",
    ),
];

/// A path that is refused, and what was probably meant.
const HINTS: &[(&str, Option<&str>)] = &[
    ("", Some("`$` for the whole document")),
    ("#.a", None),
    ("$.a ", Some("no blank at the end")),
    (
        "$.a b",
        Some("`$['a b']`: such a name is quoted in brackets"),
    ),
    (
        "$.é-b",
        Some("`$['a-b']`: such a name is quoted in brackets"),
    ),
    ("$[?@.a = 1]", Some("equality is written ==")),
];

/// Holds the refusal of a path to its row.
fn refuses(path: &str, kind: ParseErrorKind, position: usize, message: &str) {
    let error = JsonPath::parse(path).unwrap_err();
    assert_eq!(error.kind(), kind, "{path}");
    assert_eq!(error.position(), position, "{path}");
    assert_eq!(error.message(), message, "{path}");
    assert_eq!(
        error.to_string(),
        format!("at position {position}, {message}")
    );
    assert_eq!(error, error.clone());
}

/// Each row, and a path that is nested too deep.
pub fn all() {
    for (path, hint) in HINTS {
        assert_eq!(JsonPath::parse(path).unwrap_err().hint(), *hint, "{path}");
    }
    for (path, kind, position, message) in REFUSALS {
        refuses(path, *kind, *position, message);
    }
    for (literal, kind, hint) in LITERALS {
        let path = format!("$[?@ == {literal}]");
        let error = JsonPath::parse_with(&path, Numbers::Whole).unwrap_err();
        assert_eq!((error.kind(), error.hint()), (*kind, Some(*hint)), "{path}");
        let read = JsonPath::parse(&path).unwrap();
        assert_eq!(JsonPath::parse(&read.to_string()).unwrap(), read, "{path}");
    }
    let deep = format!("$[?{}@{}]", "(".repeat(128), ")".repeat(128));
    let message = "in long-hand segment, nested more than 128 deep";
    refuses(&deep, NestedTooDeep, 131, message);
}

#[test]
fn refusals() {
    all();
}

#[test]
fn errors_are_errors() {
    let error: Box<dyn Error + Send + Sync> = Box::new("x".parse::<JsonPath>().unwrap_err());
    assert_eq!(error.to_string(), "at position 1, expected '$'");
}
