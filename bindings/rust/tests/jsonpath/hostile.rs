//! Paths and documents from strangers.

use jsonpath::{Document, DocumentError, JsonPath, ParseErrorKind, QueryError};

/// Bytes that are no JSON text, and the byte where that shows.
const NO_JSON: &[(&[u8], usize)] = &[
    (b"", 1),
    (b" ", 2),
    (b"\xef\xbb\xbf1", 1),
    (b"\xff", 1),
    (b"\"\xc3\"", 2),
    (b"\"\xed\xa0\x80\"", 2),
    (b"NaN", 1),
    (b"1e400", 1),
    (b"[1,1e400]", 4),
    (b"[1,]", 3),
    (b"nul", 4),
    (b"{", 2),
    (b"1 2", 3),
    (b"{}{}", 3),
    (b"[]\0", 3),
    (b"\0", 1),
    (b"\"\\ud800\"", 2),
    (b"\"\n\"", 2),
    (b"\"\\x\"", 2),
    (b"01", 1),
    (b"nil", 2),
    (b"null\0", 5),
    (b"[1 2]", 4),
    (b"{\"a\" 1}", 6),
    (b"[1e400,0]", 2),
    (b"[1},3]", 3),
    (b"]0", 1),
    (b"{1:2}", 2),
    (b"\x0c", 1),
    (b"[1,]\xff", 3),
];

fn path(text: &str) -> JsonPath {
    JsonPath::parse(text).unwrap()
}

fn documents_that_are_no_json() {
    for &(bytes, position) in NO_JSON {
        let error = Document::parse(bytes).unwrap_err();
        assert_eq!(error, DocumentError::NotJson { position }, "{bytes:?}");
        assert_eq!(error.position(), Some(position), "{bytes:?}");
        let refused = QueryError::Document(error);
        assert_eq!(
            path("$").query_bytes(bytes).unwrap_err(),
            refused,
            "{bytes:?}"
        );
        assert_eq!(path("$").count_bytes(bytes), Err(refused), "{bytes:?}");
        assert_eq!(path("$").exists_bytes(bytes), Err(refused), "{bytes:?}");
        assert_eq!(
            path("$").report_bytes(bytes).unwrap_err().to_string(),
            format!("at position {position}, not JSON")
        );
    }
}

fn documents_that_nest() {
    let nested = |depth: usize| "[".repeat(depth) + &"]".repeat(depth);
    let most = nested(127);
    assert_eq!(
        path("$").report_bytes(most.as_bytes()).unwrap(),
        format!("$\t{most}\n")
    );
    let document = Document::parse(most.as_bytes()).unwrap();
    assert_eq!(path("$..*").query(&document).unwrap().len(), 126);
    assert_eq!(
        path("$..*").query_bytes(most.as_bytes()).unwrap().len(),
        126
    );
    let too_deep = DocumentError::TooDeep { position: 128 };
    let deeper = nested(128);
    assert_eq!(Document::parse(deeper.as_bytes()).unwrap_err(), too_deep);
    assert_eq!(
        too_deep.to_string(),
        "at position 128, nested more than 127 deep"
    );
    let error = path("$")
        .query_located_bytes(deeper.as_bytes())
        .unwrap_err();
    assert_eq!(error, QueryError::Document(too_deep));
}

fn paths_that_nest() {
    let nested = |depth: usize| format!("${}{}", "[?@".repeat(depth), "]".repeat(depth));
    let arrays = "[".repeat(127) + &"]".repeat(127);
    assert!(path(&nested(128))
        .query_bytes(arrays.as_bytes())
        .unwrap()
        .is_empty());
    assert_eq!(
        path(&nested(126))
            .query_bytes(arrays.as_bytes())
            .unwrap()
            .len(),
        1
    );
    let error = JsonPath::parse(&nested(129)).unwrap_err();
    assert_eq!(error.kind(), ParseErrorKind::NestedTooDeep);
    assert_eq!(error.position(), 3 * 128 + 3);
}

/// The path and the document that need the most of the stack.
pub fn deepest() {
    let pattern = "(".repeat(248) + "a" + &")".repeat(248);
    let filters = ("[?@".repeat(126), "]".repeat(126));
    let deep = format!("${}[?search(@, '{pattern}')]{}", filters.0, filters.1);
    let document = "[".repeat(127) + "\"a\"" + &"]".repeat(127);
    assert_eq!(
        path(&deep).query_bytes(document.as_bytes()).unwrap().len(),
        1
    );
}

fn paths_with_nul() {
    let error = JsonPath::parse("\0").unwrap_err();
    assert_eq!(
        (error.kind(), error.position()),
        (ParseErrorKind::ExpectedRoot, 1)
    );
    let error = JsonPath::parse("$.a\0").unwrap_err();
    assert_eq!(
        (error.kind(), error.position()),
        (ParseErrorKind::TextAfterPath, 4)
    );
    let error = JsonPath::parse("$['\0']").unwrap_err();
    assert_eq!(
        (error.kind(), error.position()),
        (ParseErrorKind::ControlCharacter, 4)
    );
}

fn large_documents() {
    let text = format!("\"{}\"", "x".repeat(1_000_000));
    assert_eq!(
        path("$")
            .query_bytes(text.as_bytes())
            .unwrap()
            .iter()
            .next(),
        Some(&text[..])
    );
    let array = format!("[{}0]", "0,".repeat(499_999));
    assert_eq!(
        path("$[?@ == 0]")
            .query_bytes(array.as_bytes())
            .unwrap()
            .len(),
        500_000
    );
    let located = path("$[-1]").query_located_bytes(array.as_bytes()).unwrap();
    assert_eq!(located.iter().next().unwrap().location, "$[499999]");
    let error = path("$")
        .query_bytes(&array.as_bytes()[..array.len() - 1])
        .unwrap_err();
    let position = array.len();
    assert_eq!(error, DocumentError::NotJson { position }.into());
}

/// Answers about as long as the room of the first call.
fn answers_of_the_first_room() {
    for length in 4080..4110 {
        let text = format!("\"{}\"", "x".repeat(length));
        let document = format!("[{text}]");
        let nodes = path("$[0,0]").query_bytes(document.as_bytes()).unwrap();
        assert_eq!(nodes.iter().collect::<Vec<_>>(), [&text, &text]);
        let report = path("$[0,0]").report_bytes(document.as_bytes()).unwrap();
        assert_eq!(report, format!("$[0]\t{text}\n").repeat(2));
    }
}

fn patterns() {
    let large = path(r#"$[?match(@, "\\w{1000}{10}")]"#);
    let document = Document::parse(br#"["a"]"#).unwrap();
    assert_eq!(large.query(&document).unwrap_err(), QueryError::Pattern);
    assert_eq!(
        large.query_first(&document, 0).unwrap_err(),
        QueryError::Pattern
    );
    assert_eq!(
        large.query_unique(&document).unwrap_err(),
        QueryError::Pattern
    );
    assert_eq!(large.count(&document), Err(QueryError::Pattern));
    assert_eq!(large.exists(&document), Err(QueryError::Pattern));
    assert_eq!(
        large.report_bytes(br#"["a"]"#).unwrap_err().to_string(),
        "pattern refused"
    );
    assert_eq!(large.count_bytes(br#"["a"]"#), Err(QueryError::Pattern));
    assert_eq!(large.exists_bytes(br#"["a"]"#), Err(QueryError::Pattern));
    assert!(large.query_bytes(b"[1]").unwrap().is_empty());
    let broken = path("$[?!match(@, '(')]");
    assert_eq!(broken.query_bytes(br#"["a",5]"#).unwrap().len(), 2);
}

/// Each of these.
pub fn all() {
    documents_that_are_no_json();
    documents_that_nest();
    paths_that_nest();
    paths_with_nul();
    large_documents();
    answers_of_the_first_room();
    patterns();
}

#[test]
fn hostile() {
    all();
}
