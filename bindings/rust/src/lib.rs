//! JSONPath (RFC 9535) over JSON texts, by the proved engine `serde_json_path`.
//!
//! A path is compiled once, a document is read once, and a query gives the nodes in the order of the RFC.
//!
//! ```
//! use jsonpath::{Document, JsonPath};
//!
//! let path = JsonPath::parse("$.items[?@.price < 10].name")?;
//! let document = Document::parse(br#"{"items":[{"name":"pen","price":2},{"name":"desk","price":90}]}"#)?;
//! for node in &path.query(&document)? {
//!     assert_eq!(node.as_str(), Some("pen"));
//!     assert_eq!(node.location()?, "$['items'][0]['name']");
//! }
//! # Ok::<(), Box<dyn std::error::Error>>(())
//! ```
//!
//! A document that is asked once may be bytes: [`query_bytes`](JsonPath::query_bytes) gives its nodes as JSON texts.
//!
//! ```
//! use jsonpath::JsonPath;
//!
//! let values = JsonPath::parse("$..name")?.query_bytes(br#"[{"name":"pen"},{"name":"desk"}]"#)?;
//! assert_eq!(values.iter().collect::<Vec<_>>(), [r#""pen""#, r#""desk""#]);
//! # Ok::<(), Box<dyn std::error::Error>>(())
//! ```
//!
//! Comparisons take all numbers, by their exact value, unless a path is compiled for [whole ones alone](Numbers::Whole).
//!
//! # Threads
//!
//! Paths, documents and lists of nodes are `Send` and `Sync`: any number of threads may ask them at once, by references or by
//! clones, which are further owners of the same. What a query needs for itself, as the patterns that it has built, it has alone.
//!
//! A call uses as much of the stack as the path and the document nest, so its thread needs 1 MB of it left; a thread of the
//! standard library has 2 MB unless it asks for less. No call may be made from a signal handler, nor in the child of a fork
//! of a process with threads.
#![warn(missing_docs)]

mod document;
mod error;
mod ffi;
mod lines;
mod node;
mod nodes;
mod path;
mod text;

pub use document::Document;
pub use error::{DocumentError, ParseError, ParseErrorKind, QueryError};
pub use ffi::Limits;
pub use lines::{LineForm, Lines, LinesIter, LocatedValue, LocatedValues, LocatedValuesIter};
pub use node::{Node, NodeKind};
pub use nodes::{Nodes, NodesIter};
pub use path::{JsonPath, Numbers};

/// The version of the library that is linked: major, minor and patch.
///
/// ```
/// let (major, minor, patch) = jsonpath::library_version();
/// println!("{major}.{minor}.{patch}");
/// ```
pub fn library_version() -> (u32, u32, u32) {
    let version = ffi::version();
    (version / 10_000, version / 100 % 100, version % 100)
}
