//! One node of a list.

use crate::error::QueryError;
use crate::ffi::{Known, Status};
use crate::nodes::Nodes;
use crate::text::written;
use std::cell::OnceCell;
use std::fmt;

/// What a node is. A number is of the first of its three kinds that holds it.
///
/// ```
/// use jsonpath::{Document, JsonPath, NodeKind};
///
/// let document = Document::parse(b"[-1, 18446744073709551615, 1.0]")?;
/// let nodes = JsonPath::parse("$[*]")?.query(&document)?;
/// let kinds: Vec<NodeKind> = nodes.iter().map(|node| node.kind()).collect();
/// assert_eq!(kinds, [NodeKind::Integer, NodeKind::Unsigned, NodeKind::Double]);
/// # Ok::<(), Box<dyn std::error::Error>>(())
/// ```
#[derive(Clone, Copy, Debug, PartialEq, Eq, Hash)]
pub enum NodeKind {
    /// `null`.
    Null,
    /// `false`.
    False,
    /// `true`.
    True,
    /// An integer that an `i64` holds.
    Integer,
    /// An integer that a `u64` holds and an `i64` does not.
    Unsigned,
    /// Any other number.
    Double,
    /// A string.
    String,
    /// An array.
    Array,
    /// An object.
    Object,
}

impl NodeKind {
    /// The kind that a number of the header stands for.
    fn of(number: u32) -> NodeKind {
        match number {
            0 => NodeKind::Null,
            1 => NodeKind::False,
            2 => NodeKind::True,
            3 => NodeKind::Integer,
            4 => NodeKind::Unsigned,
            5 => NodeKind::Double,
            6 => NodeKind::String,
            7 => NodeKind::Array,
            8 => NodeKind::Object,
            _ => unreachable!("the header has no other kinds"),
        }
    }
}

/// A node that a path selects.
///
/// Kind, number and length are known of it; its string, its JSON and its location are asked for when they are wanted.
///
/// ```
/// use jsonpath::{Document, JsonPath};
///
/// let document = Document::parse(br#"{"users": [{"name": "Ada"}, {"name": "Bob"}]}"#)?;
/// let nodes = JsonPath::parse("$.users[*].name")?.query(&document)?;
/// let bob = nodes.get(1).unwrap();
/// assert_eq!(bob.as_str(), Some("Bob"));
/// assert_eq!(bob.location()?, "$['users'][1]['name']");
/// # Ok::<(), Box<dyn std::error::Error>>(())
/// ```
#[derive(Clone)]
pub struct Node<'n> {
    nodes: &'n Nodes<'n>,
    index: usize,
    known: Known,
    /// The string, once it was asked for.
    text: OnceCell<String>,
}

impl<'n> Node<'n> {
    /// The node of a list at an index, if there is one.
    pub(crate) fn of(nodes: &'n Nodes<'n>, index: usize) -> Option<Node<'n>> {
        let known = nodes.handle().node(index).ok()?;
        Some(Node {
            nodes,
            index,
            known,
            text: OnceCell::new(),
        })
    }

    /// What the node is.
    ///
    /// ```
    /// # use jsonpath::{Document, JsonPath, NodeKind};
    /// let document = Document::parse(b"[true]")?;
    /// let nodes = JsonPath::parse("$[0]")?.query(&document)?;
    /// assert_eq!(nodes.get(0).unwrap().kind(), NodeKind::True);
    /// # Ok::<(), Box<dyn std::error::Error>>(())
    /// ```
    pub fn kind(&self) -> NodeKind {
        NodeKind::of(self.known.kind)
    }

    /// The string, or `None` of a node of another kind.
    ///
    /// The first call copies it from the document, and the node keeps it.
    ///
    /// ```
    /// # use jsonpath::{Document, JsonPath};
    /// let document = Document::parse(br#"["\u00e9\n", 1]"#)?;
    /// let nodes = JsonPath::parse("$[*]")?.query(&document)?;
    /// assert_eq!(nodes.get(0).unwrap().as_str(), Some("é\n"));
    /// assert_eq!(nodes.get(1).unwrap().as_str(), None);
    /// # Ok::<(), Box<dyn std::error::Error>>(())
    /// ```
    pub fn as_str(&self) -> Option<&str> {
        match self.kind() {
            NodeKind::String => Some(self.text.get_or_init(|| self.read_text())),
            _ => None,
        }
    }

    /// The string of a node that is one.
    fn read_text(&self) -> String {
        let mut bytes = Vec::with_capacity(self.known.length);
        let document = self.nodes.document().handle();
        let (status, _) = self.nodes.handle().text(document, self.index, &mut bytes);
        assert_eq!(status, Status::Done, "a document does not change");
        String::from_utf8(bytes).expect("a string of a document is UTF-8")
    }

    /// The number, if an `i64` holds it as an integer: 1.0 and 1e2 are none.
    ///
    /// ```
    /// # use jsonpath::{Document, JsonPath};
    /// let document = Document::parse(b"[-7, 7.0]")?;
    /// let nodes = JsonPath::parse("$[*]")?.query(&document)?;
    /// assert_eq!(nodes.get(0).unwrap().as_i64(), Some(-7));
    /// assert_eq!(nodes.get(1).unwrap().as_i64(), None);
    /// # Ok::<(), Box<dyn std::error::Error>>(())
    /// ```
    pub fn as_i64(&self) -> Option<i64> {
        match self.kind() {
            NodeKind::Integer => Some(self.known.integer),
            _ => None,
        }
    }

    /// The number, if a `u64` holds it as an integer.
    ///
    /// ```
    /// # use jsonpath::{Document, JsonPath};
    /// let document = Document::parse(b"[18446744073709551615, -1]")?;
    /// let nodes = JsonPath::parse("$[*]")?.query(&document)?;
    /// assert_eq!(nodes.get(0).unwrap().as_u64(), Some(u64::MAX));
    /// assert_eq!(nodes.get(1).unwrap().as_u64(), None);
    /// # Ok::<(), Box<dyn std::error::Error>>(())
    /// ```
    pub fn as_u64(&self) -> Option<u64> {
        match self.kind() {
            NodeKind::Integer => u64::try_from(self.known.integer).ok(),
            NodeKind::Unsigned => Some(self.known.unsigned),
            _ => None,
        }
    }

    /// The number, or the double next to it where it is an integer beyond 2⁵³; `None` of a node of another kind.
    ///
    /// ```
    /// # use jsonpath::{Document, JsonPath};
    /// let document = Document::parse(b"[8.95, 7, null]")?;
    /// let nodes = JsonPath::parse("$[*]")?.query(&document)?;
    /// assert_eq!(nodes.get(0).unwrap().as_f64(), Some(8.95));
    /// assert_eq!(nodes.get(1).unwrap().as_f64(), Some(7.0));
    /// assert_eq!(nodes.get(2).unwrap().as_f64(), None);
    /// # Ok::<(), Box<dyn std::error::Error>>(())
    /// ```
    pub fn as_f64(&self) -> Option<f64> {
        match self.kind() {
            NodeKind::Integer => Some(self.known.integer as f64),
            NodeKind::Unsigned => Some(self.known.unsigned as f64),
            NodeKind::Double => Some(self.known.number),
            _ => None,
        }
    }

    /// Whether the node is `true`, or `None` where it is neither `true` nor `false`.
    ///
    /// ```
    /// # use jsonpath::{Document, JsonPath};
    /// let document = Document::parse(b"[true, false, null]")?;
    /// let nodes = JsonPath::parse("$[*]")?.query(&document)?;
    /// let bools: Vec<_> = nodes.iter().map(|node| node.as_bool()).collect();
    /// assert_eq!(bools, [Some(true), Some(false), None]);
    /// # Ok::<(), Box<dyn std::error::Error>>(())
    /// ```
    pub fn as_bool(&self) -> Option<bool> {
        match self.kind() {
            NodeKind::True => Some(true),
            NodeKind::False => Some(false),
            _ => None,
        }
    }

    /// How many items an array has, or members an object; `None` of a node of another kind.
    ///
    /// ```
    /// # use jsonpath::{Document, JsonPath};
    /// let document = Document::parse(br#"[[1, 2], {"a": 1}, "text"]"#)?;
    /// let nodes = JsonPath::parse("$[*]")?.query(&document)?;
    /// let lengths: Vec<_> = nodes.iter().map(|node| node.len()).collect();
    /// assert_eq!(lengths, [Some(2), Some(1), None]);
    /// # Ok::<(), Box<dyn std::error::Error>>(())
    /// ```
    #[allow(clippy::len_without_is_empty)] // Of a node that has no length neither answer would be right.
    pub fn len(&self) -> Option<usize> {
        match self.kind() {
            NodeKind::Array | NodeKind::Object => Some(self.known.length),
            _ => None,
        }
    }

    /// The node as compact JSON. An error comes only where memory is refused.
    ///
    /// ```
    /// # use jsonpath::{Document, JsonPath};
    /// let document = Document::parse(br#"{"b": 1, "a": [ "\u00e9" ]}"#)?;
    /// let nodes = JsonPath::parse("$")?.query(&document)?;
    /// assert_eq!(nodes.get(0).unwrap().json()?, r#"{"a":["é"],"b":1}"#);
    /// # Ok::<(), Box<dyn std::error::Error>>(())
    /// ```
    pub fn json(&self) -> Result<String, QueryError> {
        let document = self.nodes.document().handle();
        self.written(|out| self.nodes.handle().json(document, self.index, out))
    }

    /// The normalised path of the node, which selects it alone. An error comes only where memory is refused.
    ///
    /// ```
    /// # use jsonpath::{Document, JsonPath};
    /// let document = Document::parse(br#"{"a": [{"b/c": 1}]}"#)?;
    /// let nodes = JsonPath::parse("$.a[-1]['b/c']")?.query(&document)?;
    /// assert_eq!(nodes.get(0).unwrap().location()?, "$['a'][0]['b/c']");
    /// # Ok::<(), Box<dyn std::error::Error>>(())
    /// ```
    pub fn location(&self) -> Result<String, QueryError> {
        self.written(|out| self.nodes.handle().location(self.index, out))
    }

    /// The JSON pointer (RFC 6901) of the node. An error comes only where memory is refused.
    ///
    /// ```
    /// # use jsonpath::{Document, JsonPath};
    /// let document = Document::parse(br#"{"a": [{"b/c": 1}]}"#)?;
    /// let nodes = JsonPath::parse("$.a[-1]['b/c']")?.query(&document)?;
    /// assert_eq!(nodes.get(0).unwrap().pointer()?, "/a/0/b~1c");
    /// # Ok::<(), Box<dyn std::error::Error>>(())
    /// ```
    pub fn pointer(&self) -> Result<String, QueryError> {
        self.written(|out| self.nodes.handle().pointer(self.index, out))
    }

    /// The text that a call writes of the node.
    fn written(
        &self,
        call: impl Fn(&mut Vec<u8>) -> (Status, usize),
    ) -> Result<String, QueryError> {
        let (text, _) = written(256, call).map_err(QueryError::of)?;
        Ok(text)
    }
}

impl fmt::Debug for Node<'_> {
    fn fmt(&self, f: &mut fmt::Formatter<'_>) -> fmt::Result {
        f.debug_struct("Node")
            .field("location", &self.location())
            .field("json", &self.json())
            .finish()
    }
}
