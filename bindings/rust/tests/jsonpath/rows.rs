//! Lines of paths and documents.

use jsonpath::{Document, JsonPath};

/// The bookstore of RFC 9535, section 1.5.
pub const BOOKSTORE: &str = include_str!("../../../../examples/bookstore.json");

/// Readings with messages, and a threshold.
const READINGS: &str = r#"{"threshold":40,"readings":[{"val":35,"msg":"foo"},{"val":40,"msg":"bar"},
    {"val":42,"msg":"biz"},{"val":48,"msg":"bop"}]}"#;

/// A path, a document, and the lines that the path selects from it.
const ROWS: &[(&str, &str, &str)] = &[
    ("$", "null", "$\tnull\n"),
    ("$", " [ ] ", "$\t[]\n"),
    ("$", r#"{"b":1,"a":[true]}"#, "$\t{\"a\":[true],\"b\":1}\n"),
    ("$", r#"{"a":1,"a":2}"#, "$\t{\"a\":2}\n"),
    ("$[0]", "[1.5]", "$[0]\t1.5\n"),
    (
        "$[*]",
        "[false,-7,18446744073709551615,-9223372036854775808]",
        "$[0]\tfalse\n$[1]\t-7\n$[2]\t18446744073709551615\n$[3]\t-9223372036854775808\n",
    ),
    ("$[9007199254740991]", "[1]", ""),
    ("$[-6]", "[1,2,3,4,5]", ""),
    ("$[-1]", "[1,2,3,4,5]", "$[4]\t5\n"),
    (
        "$[5:1:-2]",
        r#"["a","b","c","d","e","f","g"]"#,
        "$[5]\t\"f\"\n$[3]\t\"d\"\n",
    ),
    ("$[::0]", "[1,2]", ""),
    ("$['a','a']", r#"{"a":[1]}"#, "$['a']\t[1]\n$['a']\t[1]\n"),
    ("$.é", r#"{"é":1}"#, "$['é']\t1\n"),
    ("$['\\ud83d\\uDE00']", r#"{"😀":1}"#, "$['😀']\t1\n"),
    (
        "$.*",
        r#"{"a'b\\\u000b\t\n\r":"\t\n\r"}"#,
        "$['a\\'b\\\\\\u000b\\t\\n\\r']\t\"\\t\\n\\r\"\n",
    ),
    (
        "$.*",
        r#"{"\u0000":"\u0000"}"#,
        "$['\\u0000']\t\"\\u0000\"\n",
    ),
    ("$.*", r#"{"":1}"#, "$['']\t1\n"),
    (
        "$..baz",
        r#"{"foo":{"bar":{"baz":1},"baz":2},"baz":3}"#,
        "$['baz']\t3\n$['foo']['baz']\t2\n$['foo']['bar']['baz']\t1\n",
    ),
    (
        "$..[0,-1]",
        "[[1]]",
        "$[0]\t[1]\n$[0]\t[1]\n$[0][0]\t1\n$[0][0]\t1\n",
    ),
    (
        "$[?@.a == @.b]",
        r#"[{},{"a":1},{"a":1,"b":1}]"#,
        "$[0]\t{}\n$[2]\t{\"a\":1,\"b\":1}\n",
    ),
    ("$[?@ == @]", "[1, 1.5]", "$[0]\t1\n$[1]\t1.5\n"),
    ("$[?@ != 1]", "[1, 1.5]", "$[1]\t1.5\n"),
    ("$[?@ < 1.5]", "[1, 1.5]", "$[0]\t1\n"),
    (
        "$[?@ == 18446744073709551615]",
        "[18446744073709551615]",
        "$[0]\t18446744073709551615\n",
    ),
    (
        "$[?@.a[?@ > $.min]]",
        r#"{"min":3,"x":{"a":[1,5]},"y":{"a":[2]}}"#,
        "$['x']\t{\"a\":[1,5]}\n",
    ),
    (
        "$.readings[? @.val > $.threshold ].msg",
        READINGS,
        "$['readings'][2]['msg']\t\"biz\"\n$['readings'][3]['msg']\t\"bop\"\n",
    ),
    (
        "$[?match(@,'a)|(b')]",
        r#"["ax","xb","xbx"]"#,
        "$[0]\t\"ax\"\n$[1]\t\"xb\"\n",
    ),
    ("$[?match(@,'(')]", r#"["("]"#, ""),
    (
        "$[?length(@) == 1]",
        r#"["😀","ab",[0],{"k":1},7]"#,
        "$[0]\t\"😀\"\n$[2]\t[0]\n$[3]\t{\"k\":1}\n",
    ),
    (
        "$[?value(@..a) == 1]",
        r#"[{"a":1},{"a":{"a":1}}]"#,
        "$[0]\t{\"a\":1}\n",
    ),
    (
        "$.store[?@.price < 399.5]",
        BOOKSTORE,
        "$['store']['bicycle']\t{\"color\":\"red\",\"price\":399}\n",
    ),
    (
        "$..[?@.price<10].title",
        BOOKSTORE,
        "$['store']['book'][0]['title']\t\"Sayings of the Century\"\n$['store']['book'][2]['title']\t\"Moby Dick\"\n",
    ),
    (
        "$..book[?@.category == 'fiction' && match(@.author, '.*Mel.*')].title",
        BOOKSTORE,
        "$['store']['book'][2]['title']\t\"Moby Dick\"\n",
    ),
];

/// Holds the one-shot forms of an answer to its lines.
fn selects_from_bytes(path: &JsonPath, document: &[u8], lines: &str, wanted: &[(&str, &str)]) {
    assert_eq!(path.report_bytes(document).unwrap(), lines, "{path}");
    let located = path.query_located_bytes(document).unwrap();
    let pairs: Vec<(&str, &str)> = located
        .iter()
        .map(|value| (value.location, value.json))
        .collect();
    assert_eq!(pairs, wanted, "{path}");
    let values = path.query_bytes(document).unwrap();
    let locations = path.locations_bytes(document).unwrap();
    let pairs: Vec<(&str, &str)> = locations.iter().zip(&values).collect();
    assert_eq!(pairs, wanted, "{path}");
    let lengths = [values.len(), located.len(), locations.len()];
    assert_eq!(lengths, [wanted.len(); 3], "{path}");
    let empty = [values.is_empty(), located.is_empty(), locations.is_empty()];
    assert_eq!(empty, [wanted.is_empty(); 3], "{path}");
    assert_eq!(path.count_bytes(document), Ok(wanted.len()), "{path}");
    assert_eq!(
        path.exists_bytes(document),
        Ok(!wanted.is_empty()),
        "{path}"
    );
}

/// Holds what a path selects from a document that was read to the same lines.
pub fn selects_from_document(path: &JsonPath, document: &Document, wanted: &[(&str, &str)]) {
    let nodes = path.query(document).unwrap();
    let pairs: Vec<(String, String)> = nodes
        .iter()
        .map(|node| (node.location().unwrap(), node.json().unwrap()))
        .collect();
    let borrowed: Vec<(&str, &str)> = pairs
        .iter()
        .map(|(location, json)| (location.as_str(), json.as_str()))
        .collect();
    assert_eq!(borrowed, wanted, "{path}");
    assert_eq!(nodes.len(), wanted.len(), "{path}");
    assert_eq!(nodes.is_empty(), wanted.is_empty(), "{path}");
    assert!(!nodes.is_cut_short(), "{path}");
    assert_eq!(path.count(document), Ok(wanted.len()), "{path}");
    assert_eq!(path.exists(document), Ok(!wanted.is_empty()), "{path}");
}

/// The location and the value of each line.
pub fn pairs_of(lines: &str) -> Vec<(&str, &str)> {
    lines
        .lines()
        .map(|line| line.split_once('\t').unwrap())
        .collect()
}

/// Holds the forms of an answer to its lines.
fn selects(path: &str, document: &str, lines: &str) {
    let parsed = JsonPath::parse(path).unwrap();
    let wanted = pairs_of(lines);
    selects_from_bytes(&parsed, document.as_bytes(), lines, &wanted);
    // Long documents are read for the path, and shorter ones whole.
    let long = format!("{document}{:1024}", "");
    selects_from_bytes(&parsed, long.as_bytes(), lines, &wanted);
    let document = Document::parse(document.as_bytes()).unwrap();
    selects_from_document(&parsed, &document, &wanted);
    let printed = JsonPath::parse(&parsed.to_string()).unwrap();
    assert_eq!(printed, parsed, "{path}");
    selects_from_document(&printed, &document, &wanted);
}

/// Each row.
pub fn all() {
    for (path, document, lines) in ROWS {
        selects(path, document, lines);
    }
}

#[test]
fn rows() {
    all();
}

#[test]
fn iterators_know_their_length() {
    let path = JsonPath::parse("$[*]").unwrap();
    let values = path.query_bytes(b"[1,2,3]").unwrap();
    let mut iter = values.iter();
    iter.next();
    assert_eq!(iter.len(), 2);
    assert_eq!((&values).into_iter().count(), 3);
    let located = path.query_located_bytes(b"[1,2,3]").unwrap();
    assert_eq!(located.iter().len(), 3);
    assert_eq!((&located).into_iter().last().unwrap().location, "$[2]");
    let locations = path.locations_bytes(b"[1,2,3]").unwrap();
    assert_eq!(locations.iter().len(), 3);
    assert_eq!((&locations).into_iter().last(), Some("$[2]"));
}

#[test]
fn the_library_has_the_version_of_the_crate() {
    let (major, minor, patch) = jsonpath::library_version();
    assert_eq!(
        format!("{major}.{minor}.{patch}"),
        env!("CARGO_PKG_VERSION")
    );
}
