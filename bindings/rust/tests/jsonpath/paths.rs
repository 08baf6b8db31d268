//! Paths as values: their texts, what is equal, and how they take numbers.

use jsonpath::{Document, JsonPath, Numbers};
use std::collections::HashSet;

/// A path, as it is written and as it is printed.
const PRINTED: &[(&str, &str)] = &[
    ("$", "$"),
    ("$[ 'a' ]", "$['a']"),
    ("$ .a ..b", "$.a..b"),
    ("$[\"it's\"]", "$['it\\'s']"),
    ("$.a[ 0,1 ]", "$.a[0, 1]"),
    ("$[?@.a==1&&@.b]", "$[?@.a == 1 && @.b]"),
];

/// Two paths of one tree, and one of another.
const TREES: &[(&str, &str, &str)] = &[
    ("$['a']", "$[\"a\"]", "$.a"),
    ("$[0]", "$ [ 0 ]", "$[1]"),
    ("$[?@.a==1]", "$[ ?@.a == 1 ]", "$[?@.a != 1]"),
    ("$..*", "$ ..*", "$..[*]"),
];

/// A path, a document, how many nodes it selects of whole numbers, and how many of all.
const NUMBERS: &[(&str, &str, usize, usize)] = &[
    ("$[?@ == 4]", "[4, 4.0, 0.4e1]", 1, 3),
    ("$[?@ < 9]", "[8, 8.95, 1e1]", 1, 2),
    ("$[?@ >= 8.95]", "[8, 8.95, 9]", 1, 2),
    ("$[?@ != 1]", "[1, 1.0]", 1, 0),
    ("$[?@ == 'a']", "[\"a\", 1.5]", 1, 1),
    (
        "$[?@ > 9007199254740992]",
        "[9007199254740993, 9007199254740992.0]",
        1,
        1,
    ),
];

fn path(text: &str) -> JsonPath {
    JsonPath::parse(text).unwrap()
}

#[test]
fn a_path_keeps_its_text() {
    let path: JsonPath = "$[ 'a' ]".parse().unwrap();
    assert_eq!(path.as_str(), "$[ 'a' ]");
    assert_eq!(path.clone().as_str(), "$[ 'a' ]");
    assert_eq!(path, path.clone());
    assert!(format!("{path:?}").contains("$[ 'a' ]"));
}

#[test]
fn paths_are_printed_in_one_form() {
    for (text, printed) in PRINTED {
        assert_eq!(path(text).to_string(), *printed, "{text}");
        assert_eq!(path(printed).to_string(), *printed, "{text}");
    }
}

#[test]
#[allow(clippy::eq_op)] // The same variable on both sides is a case of its own.
#[allow(clippy::mutable_key_type)] // What is hashed of a path does not change.
fn paths_of_one_tree_are_equal() {
    for (text, same, other) in TREES {
        let (path, same, other) = (path(text), path(same), path(other));
        assert!(path == path, "{text}");
        assert_eq!(path, same, "{text}");
        assert_eq!(same, path, "{text}");
        assert_ne!(path, other, "{text}");
        let set = HashSet::from([path, same, other]);
        assert_eq!(set.len(), 2, "{text}");
    }
}

#[test]
fn numbers_go_by_the_rule_of_the_path() {
    for (text, document, whole, all) in NUMBERS {
        let document = Document::parse(document.as_bytes()).unwrap();
        let path = path(text);
        let path_of_whole = JsonPath::parse_with(text, Numbers::Whole).unwrap();
        assert_eq!(path.count(&document), Ok(*all), "{text}");
        assert_eq!(path_of_whole.count(&document), Ok(*whole), "{text}");
        assert_eq!(path_of_whole.clone().count(&document), Ok(*whole), "{text}");
        assert_eq!(path, path_of_whole, "{text}");
        let rules = [path.numbers(), path_of_whole.numbers()];
        assert_eq!(rules, [Numbers::All, Numbers::Whole]);
    }
}

#[test]
fn one_shot_calls_take_numbers_as_the_path_does() {
    let path = JsonPath::parse_with("$[?@ < 9]", Numbers::Whole).unwrap();
    assert_eq!(path.query_bytes(b"[8.95, 8]").unwrap().as_str(), "8\n");
    let path = JsonPath::parse("$[?@ < 9]").unwrap();
    assert_eq!(
        path.query_bytes(b"[8.95, 8]").unwrap().as_str(),
        "8.95\n8\n"
    );
}
