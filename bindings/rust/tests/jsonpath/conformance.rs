//! The published cases and the worked rows of `jsonpath`, each held to its answer; two threads, with handles of their own.

use crate::rows::{pairs_of, selects_from_document};
use jsonpath::{Document, JsonPath, Limits, LineForm, Numbers};
use std::collections::HashSet;
use std::thread;

/// A JSON object in each line, as `conformance/README.md` says.
const CASES: &str = include_str!("../../../../conformance/cases.jsonl");
/// The same of the worked rows; one that names no rule for numbers takes whole numbers.
const ROWS: &str = include_str!("../../../rows.jsonl");

/// A case's texts, its numbers, and something where its comparisons take all numbers.
const TEXTS: &str = "$['path', 'document', 'stdout', 'stderr']";
const NUMBERS: &str = "$['id', 'status']";
const IS_ALL: &str = "$[?$.numbers == 'all']";

/// A case: its number, its rule for numbers, its path and its document, and the answer.
struct Case {
    id: i64,
    numbers: Numbers,
    texts: (String, String),
    answer: (i64, String, String),
}

/// The cases of a file's text.
fn cases_of(lines: &str) -> Vec<Case> {
    let [texts, fields, is_all] =
        [TEXTS, NUMBERS, IS_ALL].map(|path| JsonPath::parse(path).unwrap());
    let case_of = |line: &str| {
        let case = Document::parse(line.as_bytes()).unwrap();
        let texts = texts.query(&case).unwrap();
        let text = |index| texts.get(index).unwrap().as_str().unwrap().to_string();
        let fields = fields.query(&case).unwrap();
        let field = |index| fields.get(index).unwrap().as_i64().unwrap();
        let is_all = is_all.exists(&case).unwrap();
        Case {
            id: field(0),
            numbers: if is_all { Numbers::All } else { Numbers::Whole },
            texts: (text(0), text(1)),
            answer: (field(1), text(2), text(3)),
        }
    };
    lines.lines().map(case_of).collect()
}

/// By which rule each case is asked.
#[derive(Clone, Copy)]
enum Rule {
    /// Its own.
    Own,
    /// All numbers, where these answer so: a case of whole numbers unless there is one of all with its path and document.
    All,
}

/// The lines of what a path selects, as each call gives them.
fn report(path: &JsonPath, document: &Document) -> String {
    let lines = path.lines(document, LineForm::LocationAndValue, Limits::NONE);
    let lines = lines.unwrap().into_string();
    selects_from_document(path, document, &pairs_of(&lines));
    lines
}

/// What a path and a document give, as `jsonpath` ends and prints: its status and its two texts.
fn answer(path: &str, numbers: Numbers, document: &str) -> (i64, String, String) {
    let path = match JsonPath::parse_with(path, numbers) {
        Ok(path) => path,
        Err(error) => return (1, String::new(), format!("jsonpath: path: {error}\n")),
    };
    match Document::parse(document.as_bytes()) {
        Ok(document) => (0, report(&path, &document), String::new()),
        Err(_) => (
            2,
            String::new(),
            "jsonpath: document: not JSON\n".to_string(),
        ),
    }
}

/// How many cases are asked, and which differ.
fn differing(lines: &str, rule: Rule) -> (usize, Vec<i64>) {
    let cases = cases_of(lines);
    let of_all = |case: &&Case| case.numbers == Numbers::All;
    let otherwise: HashSet<_> = cases
        .iter()
        .filter(of_all)
        .map(|case| &case.texts)
        .collect();
    let asked: Vec<_> = cases
        .iter()
        .filter_map(|case| match rule {
            Rule::Own => Some((case, case.numbers)),
            Rule::All if of_all(&case) || !otherwise.contains(&case.texts) => {
                Some((case, Numbers::All))
            }
            Rule::All => None,
        })
        .collect();
    let differ = asked
        .iter()
        .filter(|(case, numbers)| answer(&case.texts.0, *numbers, &case.texts.1) != case.answer)
        .map(|(case, _)| case.id)
        .collect();
    (asked.len(), differ)
}

/// Two threads at once, each by its rule.
fn in_two_threads(lines: &'static str, rules: [Rule; 2]) -> [(usize, Vec<i64>); 2] {
    rules
        .map(|rule| thread::spawn(move || differing(lines, rule)))
        .map(|thread| thread.join().unwrap())
}

#[test]
fn published_cases() {
    let answers = in_two_threads(CASES, [Rule::Own, Rule::All]);
    assert_eq!(answers, [(4499, vec![]), (4246, vec![])]);
}

#[test]
fn rows_of_the_program() {
    let answers = in_two_threads(ROWS, [Rule::Own; 2]);
    assert_eq!(answers, [(42, vec![]), (42, vec![])]);
}
