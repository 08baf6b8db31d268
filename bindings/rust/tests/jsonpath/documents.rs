//! Documents that are read once, and the nodes that are selected from them.

use jsonpath::{Document, JsonPath, Limits, LineForm, Node, NodeKind, Nodes};
use std::thread;

fn path(text: &str) -> JsonPath {
    JsonPath::parse(text).unwrap()
}

fn document(text: &str) -> Document {
    Document::parse(text.as_bytes()).unwrap()
}

/// What is wanted of a node.
#[derive(Debug, PartialEq)]
struct Told {
    kind: NodeKind,
    text: Option<String>,
    numbers: (Option<i64>, Option<u64>, Option<f64>),
    is_true: Option<bool>,
    length: Option<usize>,
}

impl Told {
    /// A node of a kind that has nothing else.
    fn of(kind: NodeKind) -> Told {
        Told {
            kind,
            text: None,
            numbers: (None, None, None),
            is_true: None,
            length: None,
        }
    }

    fn of_number(kind: NodeKind, numbers: (Option<i64>, Option<u64>, Option<f64>)) -> Told {
        Told {
            numbers,
            ..Told::of(kind)
        }
    }

    fn of_bool(kind: NodeKind, is_true: bool) -> Told {
        Told {
            is_true: Some(is_true),
            ..Told::of(kind)
        }
    }

    fn of_text(text: &str) -> Told {
        Told {
            text: Some(text.to_string()),
            ..Told::of(NodeKind::String)
        }
    }

    fn of_length(kind: NodeKind, length: usize) -> Told {
        Told {
            length: Some(length),
            ..Told::of(kind)
        }
    }

    /// What a node tells.
    fn by(node: Node<'_>) -> Told {
        Told {
            kind: node.kind(),
            text: node.as_str().map(str::to_string),
            numbers: (node.as_i64(), node.as_u64(), node.as_f64()),
            is_true: node.as_bool(),
            length: node.len(),
        }
    }
}

#[test]
fn nodes_of_each_kind() {
    let rows = [
        ("null", Told::of(NodeKind::Null)),
        ("false", Told::of_bool(NodeKind::False, false)),
        ("true", Told::of_bool(NodeKind::True, true)),
        (
            "7",
            Told::of_number(NodeKind::Integer, (Some(7), Some(7), Some(7.0))),
        ),
        (
            "-9223372036854775808",
            Told::of_number(
                NodeKind::Integer,
                (Some(i64::MIN), None, Some(-9223372036854775808.0)),
            ),
        ),
        (
            "18446744073709551615",
            Told::of_number(
                NodeKind::Unsigned,
                (None, Some(u64::MAX), Some(18446744073709551616.0)),
            ),
        ),
        (
            "8.95",
            Told::of_number(NodeKind::Double, (None, None, Some(8.95))),
        ),
        (
            "-1e2",
            Told::of_number(NodeKind::Double, (None, None, Some(-100.0))),
        ),
        ("\"\"", Told::of_text("")),
        (r#""a\u0000\u00e9\ud83d\ude00""#, Told::of_text("a\0é😀")),
        ("[]", Told::of_length(NodeKind::Array, 0)),
        ("[1,[2,3]]", Told::of_length(NodeKind::Array, 2)),
        ("{}", Told::of_length(NodeKind::Object, 0)),
        (
            r#"{"a":1,"a":2,"b":3}"#,
            Told::of_length(NodeKind::Object, 2),
        ),
    ];
    for (text, wanted) in rows {
        let document = document(text);
        let nodes = path("$").query(&document).unwrap();
        assert_eq!(Told::by(nodes.get(0).unwrap()), wanted, "{text}");
    }
}

#[test]
fn nodes_know_where_they_are() {
    let document = document(r#"{"a/b": [{"~": 1}], "": {"it's": 2}}"#);
    let nodes = path("$..*").query(&document).unwrap();
    let places: Vec<(String, String)> = nodes
        .iter()
        .map(|node| (node.location().unwrap(), node.pointer().unwrap()))
        .collect();
    let wanted = [
        ("$['']", "/"),
        ("$['a/b']", "/a~1b"),
        ("$['']['it\\'s']", "//it's"),
        ("$['a/b'][0]", "/a~1b/0"),
        ("$['a/b'][0]['~']", "/a~1b/0/~0"),
    ]
    .map(|(location, pointer)| (location.to_string(), pointer.to_string()));
    assert_eq!(places, wanted);
    let root = path("$").query(&document).unwrap();
    assert_eq!(root.get(0).unwrap().location().unwrap(), "$");
    assert_eq!(root.get(0).unwrap().pointer().unwrap(), "");
}

/// The integers of a list.
fn integers(nodes: &Nodes<'_>) -> Vec<i64> {
    nodes.iter().filter_map(|node| node.as_i64()).collect()
}

#[test]
fn lists_have_as_many_nodes_as_are_asked_for() {
    let document = document("[1, 2, 3]");
    let path = path("$[0, 0, 1, 2]");
    for (most, wanted) in [(0, &[][..]), (1, &[1]), (3, &[1, 1, 2]), (4, &[1, 1, 2, 3])] {
        let nodes = path.query_first(&document, most).unwrap();
        assert_eq!(integers(&nodes), wanted, "{most}");
        assert_eq!(nodes.is_cut_short(), wanted.len() < 4, "{most}");
    }
    let unique = path.query_unique(&document).unwrap();
    assert_eq!(integers(&unique), [1, 2, 3]);
    assert!(!unique.is_cut_short());
    let none = JsonPath::parse("$.a").unwrap();
    assert!(!none.query_first(&document, 0).unwrap().is_cut_short());
}

#[test]
fn lists_keep_to_limits() {
    let document = document(r#"{"a": 1, "bé": [2, {"c": 3}]}"#);
    let path = path("$..*");
    let all = [
        "$['a']",
        "$['bé']",
        "$['bé'][0]",
        "$['bé'][1]",
        "$['bé'][1]['c']",
    ];
    let rows = [
        (usize::MAX, usize::MAX, 5),
        (5, 14, 5),
        (usize::MAX, 13, 4),
        (usize::MAX, 6, 2),
        (3, 13, 3),
        (usize::MAX, 0, 0),
    ];
    for (nodes, bytes, wanted) in rows {
        let limits = Limits { nodes, bytes };
        for nodes in [
            path.query_within(&document, limits).unwrap(),
            path.query_unique_within(&document, limits).unwrap(),
        ] {
            let locations: Vec<_> = nodes.iter().map(|node| node.location().unwrap()).collect();
            assert_eq!(locations, all[..wanted], "{limits:?}");
            assert_eq!(nodes.is_cut_short(), wanted < 5, "{limits:?}");
        }
    }
}

/// A path gives one node a million times, of which a list of each once holds a few at a time.
#[test]
fn lists_of_locations_that_come_often() {
    let document = document(&format!("{}1{}", "[".repeat(20), "]".repeat(20)));
    let path = path(&format!("${}", "[0,0]".repeat(20)));
    assert_eq!(path.count(&document), Ok(1 << 20));
    for (most, wanted, is_cut_short) in [(usize::MAX, 1, false), (1, 1, false), (0, 0, true)] {
        let limits = Limits {
            nodes: most,
            ..Limits::NONE
        };
        let nodes = path.query_unique_within(&document, limits).unwrap();
        assert_eq!(nodes.len(), wanted, "{most}");
        assert_eq!(nodes.is_cut_short(), is_cut_short, "{most}");
    }
}

#[test]
fn lists_are_gone_over_from_both_ends() {
    let document = document("[1, 2, 3, 4]");
    let nodes = path("$[*]").query(&document).unwrap();
    let mut iter = nodes.iter();
    assert_eq!(iter.len(), 4);
    assert_eq!(iter.next().unwrap().as_i64(), Some(1));
    assert_eq!(iter.next_back().unwrap().as_i64(), Some(4));
    assert_eq!(iter.clone().len(), 2);
    assert_eq!(iter.nth(1).unwrap().as_i64(), Some(3));
    assert!(iter.next().is_none());
    assert!(iter.next_back().is_none());
    assert_eq!((&nodes).into_iter().rev().count(), 4);
    assert!(nodes.get(4).is_none());
    assert!(nodes.get(usize::MAX).is_none());
}

#[test]
fn lists_borrow_their_document() {
    let document = document(r#"{"a": "text"}"#);
    let nodes = {
        let path = path("$.a");
        path.query(&document).unwrap()
    };
    let node = nodes.get(0).unwrap();
    let clone = node.clone();
    assert_eq!(node.as_str(), Some("text"));
    assert_eq!(clone.as_str(), node.as_str());
    assert_eq!(path("$").count(nodes.document()), Ok(1));
    assert!(format!("{nodes:?}").contains("$['a']"));
}

#[test]
fn lines_keep_to_limits() {
    let document = document("[10, 200, 3]");
    let path = path("$[*]");
    let rows = [
        (usize::MAX, usize::MAX, "10\n200\n3\n", false),
        (3, 9, "10\n200\n3\n", false),
        (2, usize::MAX, "10\n200\n", true),
        (0, usize::MAX, "", true),
        (usize::MAX, 8, "10\n200\n", true),
        (usize::MAX, 6, "10\n", true),
        (usize::MAX, 2, "", true),
        (usize::MAX, 0, "", true),
    ];
    for (nodes, bytes, wanted, is_cut_short) in rows {
        let limits = Limits { nodes, bytes };
        let lines = path.lines(&document, LineForm::Value, limits).unwrap();
        assert_eq!(lines.as_str(), wanted, "{limits:?}");
        assert_eq!(lines.len(), wanted.lines().count(), "{limits:?}");
        assert_eq!(lines.is_cut_short(), is_cut_short, "{limits:?}");
    }
    let none = JsonPath::parse("$.a").unwrap();
    let limits = Limits { nodes: 0, bytes: 0 };
    let lines = none.lines(&document, LineForm::Value, limits).unwrap();
    assert!(lines.is_empty() && !lines.is_cut_short());
}

#[test]
fn long_texts() {
    let text = "é".repeat(100_000);
    let document = document(&format!("{{\"{text}\": \"{text}\"}}"));
    let nodes = path("$.*").query(&document).unwrap();
    let node = nodes.get(0).unwrap();
    assert_eq!(node.as_str(), Some(&text[..]));
    assert_eq!(node.json().unwrap(), format!("\"{text}\""));
    assert_eq!(node.location().unwrap(), format!("$['{text}']"));
    assert_eq!(node.pointer().unwrap(), format!("/{text}"));
    let lines = path("$[?@ == @, ?@ == @]");
    let twice = lines.lines(&document, LineForm::Value, Limits::NONE);
    assert_eq!(
        twice.unwrap().into_string(),
        format!("\"{text}\"\n").repeat(2)
    );
}

#[test]
fn documents_and_paths_go_to_other_threads() {
    let (path, document) = (path("$[?match(@, 'a+')]"), document(r#"["aa", "b"]"#));
    assert_eq!(path.count(&document), Ok(1));
    let moved = thread::spawn(move || {
        let text = path.query(&document).unwrap().get(0).unwrap().json();
        (path, document, text)
    });
    let (path, document, text) = moved.join().unwrap();
    assert_eq!(text.unwrap(), "\"aa\"");
    assert_eq!(path.exists(&document), Ok(true));
}

/// Asks a path of a document in each way, and holds the answers to what `$[?match(@, 'a+')]` selects from `["aa", "b", "aaa"]`.
fn asks(path: &JsonPath, document: &Document, nodes: &Nodes<'_>) {
    let texts = |nodes: &Nodes<'_>| -> Vec<String> {
        nodes
            .iter()
            .filter_map(|node| node.as_str().map(str::to_string))
            .collect()
    };
    for _ in 0..50 {
        assert_eq!(path.count(document), Ok(2));
        assert_eq!(path.exists(document), Ok(true));
        assert_eq!(texts(&path.query(document).unwrap()), ["aa", "aaa"]);
        assert_eq!(texts(nodes), ["aa", "aaa"]);
        assert_eq!(path, &path.clone());
    }
}

#[test]
fn threads_share_a_path_a_document_and_nodes() {
    fn needs_send_and_sync<T: Send + Sync>() {}
    needs_send_and_sync::<Document>();
    needs_send_and_sync::<JsonPath>();
    needs_send_and_sync::<Nodes<'_>>();
    let (path, document) = (path("$[?match(@, 'a+')]"), document(r#"["aa", "b", "aaa"]"#));
    let nodes = path.query(&document).unwrap();
    thread::scope(|scope| {
        for _ in 0..4 {
            scope.spawn(|| asks(&path, &document, &nodes));
        }
    });
}

#[test]
fn owners_go_to_threads_that_outlive_the_first() {
    let (path, document) = (path("$[?match(@, 'a+')]"), document(r#"["aa", "b", "aaa"]"#));
    let threads: Vec<_> = (0..4)
        .map(|_| (path.clone(), document.clone()))
        .map(|(path, document)| {
            thread::spawn(move || asks(&path, &document, &path.query(&document).unwrap()))
        })
        .collect();
    drop((path, document));
    for thread in threads {
        thread.join().unwrap();
    }
}

#[test]
fn a_thousand_paths_of_one_document() {
    let paths: Vec<JsonPath> = (0..1000)
        .map(|least| path(&format!("$.items[?@.price > {least}]")))
        .collect();
    for price in [0, 17, 1000] {
        let document = document(&format!(r#"{{"items": [{{"price": {price}}}]}}"#));
        let selecting = paths.iter().filter(|path| path.exists(&document).unwrap());
        assert_eq!(selecting.count(), price);
    }
}
