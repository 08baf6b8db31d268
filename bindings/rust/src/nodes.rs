//! The nodes that a path selects from a document.

use crate::document::Document;
use crate::ffi::NodesHandle;
use crate::node::Node;
use std::fmt;
use std::iter::FusedIterator;
use std::ops::Range;

/// The nodes that a path selects from a document, in the order of the RFC. The list borrows the document, where their texts
/// are.
///
/// It is `Send` and `Sync`, as its document is.
///
/// ```
/// use jsonpath::{Document, JsonPath};
///
/// let document = Document::parse(br#"{"a": [1, "b"]}"#)?;
/// let nodes = JsonPath::parse("$.a[*]")?.query(&document)?;
/// assert_eq!(nodes.len(), 2);
/// for node in &nodes {
///     println!("{} is {}", node.location()?, node.json()?);
/// }
/// # Ok::<(), Box<dyn std::error::Error>>(())
/// ```
///
/// ```
/// fn needs_send_and_sync<T: Send + Sync>() {}
/// needs_send_and_sync::<jsonpath::Nodes>();
/// ```
pub struct Nodes<'d> {
    handle: NodesHandle,
    document: &'d Document,
    length: usize,
    is_cut_short: bool,
}

impl<'d> Nodes<'d> {
    /// The nodes of a list that was selected from a document.
    pub(crate) fn of(
        (handle, is_cut_short): (NodesHandle, bool),
        document: &'d Document,
    ) -> Nodes<'d> {
        let length = handle.length();
        Nodes {
            handle,
            document,
            length,
            is_cut_short,
        }
    }

    /// The list's handle.
    pub(crate) fn handle(&self) -> &NodesHandle {
        &self.handle
    }

    /// The document that the nodes are of.
    ///
    /// ```
    /// # use jsonpath::{Document, JsonPath};
    /// let document = Document::parse(b"[1]")?;
    /// let nodes = JsonPath::parse("$[0]")?.query(&document)?;
    /// assert_eq!(JsonPath::parse("$..*")?.count(nodes.document())?, 1);
    /// # Ok::<(), Box<dyn std::error::Error>>(())
    /// ```
    pub fn document(&self) -> &'d Document {
        self.document
    }

    /// How many nodes there are.
    ///
    /// ```
    /// # use jsonpath::{Document, JsonPath};
    /// let document = Document::parse(b"[1, 2]")?;
    /// assert_eq!(JsonPath::parse("$[0,0]")?.query(&document)?.len(), 2);
    /// # Ok::<(), Box<dyn std::error::Error>>(())
    /// ```
    pub fn len(&self) -> usize {
        self.length
    }

    /// Whether there is none.
    ///
    /// ```
    /// # use jsonpath::{Document, JsonPath};
    /// let document = Document::parse(b"[1, 2]")?;
    /// assert!(JsonPath::parse("$.a")?.query(&document)?.is_empty());
    /// # Ok::<(), Box<dyn std::error::Error>>(())
    /// ```
    pub fn is_empty(&self) -> bool {
        self.length == 0
    }

    /// Whether the path selects more nodes than were asked for, or than the limits allow.
    ///
    /// ```
    /// # use jsonpath::{Document, JsonPath};
    /// let document = Document::parse(b"[1, 2]")?;
    /// let path = JsonPath::parse("$[*]")?;
    /// assert!(path.query_first(&document, 1)?.is_cut_short());
    /// assert!(!path.query_first(&document, 2)?.is_cut_short());
    /// # Ok::<(), Box<dyn std::error::Error>>(())
    /// ```
    pub fn is_cut_short(&self) -> bool {
        self.is_cut_short
    }

    /// The node at an index, from 0, or `None` past the last.
    ///
    /// ```
    /// # use jsonpath::{Document, JsonPath};
    /// let document = Document::parse(b"[1, 2]")?;
    /// let nodes = JsonPath::parse("$[*]")?.query(&document)?;
    /// assert_eq!(nodes.get(1).and_then(|node| node.as_i64()), Some(2));
    /// assert!(nodes.get(2).is_none());
    /// # Ok::<(), Box<dyn std::error::Error>>(())
    /// ```
    pub fn get(&self, index: usize) -> Option<Node<'_>> {
        Node::of(self, index)
    }

    /// Goes over the nodes, in order.
    ///
    /// ```
    /// # use jsonpath::{Document, JsonPath};
    /// let document = Document::parse(b"[1, 2]")?;
    /// let nodes = JsonPath::parse("$[*]")?.query(&document)?;
    /// assert_eq!(nodes.iter().filter_map(|node| node.as_i64()).sum::<i64>(), 3);
    /// # Ok::<(), Box<dyn std::error::Error>>(())
    /// ```
    pub fn iter(&self) -> NodesIter<'_> {
        NodesIter {
            nodes: self,
            left: 0..self.length,
        }
    }
}

impl fmt::Debug for Nodes<'_> {
    fn fmt(&self, f: &mut fmt::Formatter<'_>) -> fmt::Result {
        f.debug_list().entries(self).finish()
    }
}

impl<'n> IntoIterator for &'n Nodes<'_> {
    type Item = Node<'n>;
    type IntoIter = NodesIter<'n>;

    fn into_iter(self) -> NodesIter<'n> {
        self.iter()
    }
}

/// Goes over [`Nodes`].
#[derive(Clone, Debug)]
pub struct NodesIter<'n> {
    nodes: &'n Nodes<'n>,
    left: Range<usize>,
}

impl<'n> Iterator for NodesIter<'n> {
    type Item = Node<'n>;

    fn next(&mut self) -> Option<Node<'n>> {
        self.nodes.get(self.left.next()?)
    }

    fn nth(&mut self, skipped: usize) -> Option<Node<'n>> {
        self.nodes.get(self.left.nth(skipped)?)
    }

    fn size_hint(&self) -> (usize, Option<usize>) {
        self.left.size_hint()
    }
}

impl<'n> DoubleEndedIterator for NodesIter<'n> {
    fn next_back(&mut self) -> Option<Node<'n>> {
        self.nodes.get(self.left.next_back()?)
    }
}

impl ExactSizeIterator for NodesIter<'_> {}

impl FusedIterator for NodesIter<'_> {}
