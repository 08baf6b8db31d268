//! Paths, and what they select.

use crate::document::Document;
use crate::error::{ParseError, QueryError};
use crate::ffi::{Limits, PathHandle, Status};
use crate::lines::{LineForm, Lines, LocatedValues};
use crate::nodes::Nodes;
use crate::text::written;
use std::cell::Cell;
use std::fmt;
use std::hash::{Hash, Hasher};
use std::str::FromStr;
use std::sync::Arc;

/// How the comparisons of a path take the numbers of documents.
///
/// ```
/// use jsonpath::{Document, JsonPath, Numbers};
///
/// let document = Document::parse(b"[8, 8.95, 1e1]")?;
/// let whole = JsonPath::parse_with("$[?@ < 9]", Numbers::Whole)?;
/// let all = JsonPath::parse("$[?@ < 9]")?;
/// assert_eq!((whole.count(&document)?, all.count(&document)?), (1, 2));
/// # Ok::<(), Box<dyn std::error::Error>>(())
/// ```
#[derive(Clone, Copy, Debug, Default, PartialEq, Eq, Hash)]
pub enum Numbers {
    /// Those that are held as 64-bit integers; any other (8.95, 4.0) equals nothing, and is neither less nor greater.
    Whole = 0,
    /// All, by their exact value, as the RFC compares them.
    #[default]
    All = 1,
}

/// A path under the built-in functions, compiled once and asked of any number of documents.
///
/// Two are equal if they have the same tree, whatever they do with numbers. A clone is another owner of the same path, and
/// panics where memory is refused for a few bytes.
///
/// It is `Send` and `Sync`: any number of threads may ask one path at once.
///
/// ```
/// use jsonpath::JsonPath;
///
/// let path: JsonPath = "$..name".parse()?;
/// assert_eq!(path, JsonPath::parse("$ ..name")?);
/// std::thread::scope(|scope| {
///     for _ in 0..2 {
///         scope.spawn(|| assert!(path.query_bytes(b"{}").unwrap().is_empty()));
///     }
/// });
/// let clone = path.clone();
/// std::thread::spawn(move || assert!(clone.query_bytes(b"{}").unwrap().is_empty()));
/// # Ok::<(), jsonpath::ParseError>(())
/// ```
pub struct JsonPath {
    handle: PathHandle,
    /// The text that was parsed.
    text: Arc<str>,
    /// The text that the tree prints.
    printed: Arc<str>,
    numbers: Numbers,
}

impl JsonPath {
    /// Compiles a path, or says why a text is none. Its comparisons take all numbers.
    ///
    /// ```
    /// use jsonpath::JsonPath;
    ///
    /// assert!(JsonPath::parse("$[0]").is_ok());
    /// let error = JsonPath::parse("$[0").unwrap_err();
    /// assert_eq!(error.to_string(), "at position 4, in long-hand segment, expected closing ']'");
    /// ```
    pub fn parse(text: &str) -> Result<JsonPath, ParseError> {
        JsonPath::parse_with(text, Numbers::All)
    }

    /// Compiles a path whose comparisons take numbers so.
    ///
    /// ```
    /// use jsonpath::{JsonPath, Numbers};
    ///
    /// let cheap = JsonPath::parse_with("$[?@.price < 10]", Numbers::Whole)?;
    /// assert_eq!(cheap.query_bytes(br#"[{"price": 8.95}, {"price": 8}]"#)?.len(), 1);
    /// # Ok::<(), Box<dyn std::error::Error>>(())
    /// ```
    pub fn parse_with(text: &str, numbers: Numbers) -> Result<JsonPath, ParseError> {
        let handle =
            PathHandle::compile(text, numbers as u8).map_err(|(status, refusal)| match status {
                Status::PathRefused => ParseError::of(text, numbers as u8, refusal),
                _ => ParseError::no_memory(),
            })?;
        let (printed, _) =
            written(2 * text.len(), |out| handle.text(out)).map_err(|_| ParseError::no_memory())?;
        Ok(JsonPath {
            handle,
            text: text.into(),
            printed: printed.into(),
            numbers,
        })
    }

    /// The text that was parsed. [`Display`](fmt::Display) prints the path in one form for each tree.
    ///
    /// ```
    /// # use jsonpath::JsonPath;
    /// let path = JsonPath::parse("$[ 'a' ]")?;
    /// assert_eq!(path.as_str(), "$[ 'a' ]");
    /// assert_eq!(path.to_string(), "$['a']");
    /// # Ok::<(), jsonpath::ParseError>(())
    /// ```
    pub fn as_str(&self) -> &str {
        &self.text
    }

    /// How the comparisons take numbers.
    ///
    /// ```
    /// # use jsonpath::{JsonPath, Numbers};
    /// assert_eq!(JsonPath::parse("$")?.numbers(), Numbers::All);
    /// # Ok::<(), jsonpath::ParseError>(())
    /// ```
    pub fn numbers(&self) -> Numbers {
        self.numbers
    }

    /// The nodes that the path selects from a document, in order; a node that is selected twice is there twice.
    ///
    /// ```
    /// # use jsonpath::{Document, JsonPath};
    /// let document = Document::parse(b"[1, [2, 3], null]")?;
    /// let nodes = JsonPath::parse("$[1:]")?.query(&document)?;
    /// assert_eq!(nodes.get(0).unwrap().len(), Some(2));
    /// assert_eq!(nodes.get(1).unwrap().location()?, "$[2]");
    /// # Ok::<(), Box<dyn std::error::Error>>(())
    /// ```
    pub fn query<'d>(&self, document: &'d Document) -> Result<Nodes<'d>, QueryError> {
        self.query_within(document, Limits::NONE)
    }

    /// The first nodes that the path selects, at most so many. The query goes one node further, to see whether
    /// [there are more](Nodes::is_cut_short).
    ///
    /// ```
    /// # use jsonpath::{Document, JsonPath};
    /// let document = Document::parse(b"[[1], [2], [3]]")?;
    /// let nodes = JsonPath::parse("$..*")?.query_first(&document, 2)?;
    /// assert_eq!(nodes.len(), 2);
    /// assert!(nodes.is_cut_short());
    /// # Ok::<(), Box<dyn std::error::Error>>(())
    /// ```
    pub fn query_first<'d>(
        &self,
        document: &'d Document,
        most: usize,
    ) -> Result<Nodes<'d>, QueryError> {
        let limits = Limits {
            nodes: most,
            ..Limits::NONE
        };
        self.query_within(document, limits)
    }

    /// The first nodes that the path selects, as many as the limits allow. The query stops at the first node that would go
    /// beyond them.
    ///
    /// ```
    /// # use jsonpath::{Document, JsonPath, Limits};
    /// let document = Document::parse(br#"{"a": 1, "long name": 2}"#)?;
    /// let limits = Limits { bytes: 8, ..Limits::NONE };
    /// let nodes = JsonPath::parse("$.*")?.query_within(&document, limits)?;
    /// assert_eq!(nodes.len(), 1);
    /// assert!(nodes.is_cut_short());
    /// # Ok::<(), Box<dyn std::error::Error>>(())
    /// ```
    pub fn query_within<'d>(
        &self,
        document: &'d Document,
        limits: Limits,
    ) -> Result<Nodes<'d>, QueryError> {
        self.select(document, false, limits)
    }

    /// As [`query`](JsonPath::query), with each location once, where it comes first.
    ///
    /// ```
    /// # use jsonpath::{Document, JsonPath};
    /// let document = Document::parse(b"[1, 2]")?;
    /// let nodes = JsonPath::parse("$[1, 0, -1]")?.query_unique(&document)?;
    /// assert_eq!(nodes.iter().filter_map(|node| node.as_i64()).collect::<Vec<_>>(), [2, 1]);
    /// # Ok::<(), Box<dyn std::error::Error>>(())
    /// ```
    pub fn query_unique<'d>(&self, document: &'d Document) -> Result<Nodes<'d>, QueryError> {
        self.query_unique_within(document, Limits::NONE)
    }

    /// As [`query_within`](JsonPath::query_within), with each location once, where it comes first. The query stops soon after
    /// more nodes differ than the limits allow; the limit of bytes does not stop it.
    ///
    /// ```
    /// # use jsonpath::{Document, JsonPath, Limits};
    /// let document = Document::parse(b"[1, 2]")?;
    /// let limits = Limits { nodes: 1, ..Limits::NONE };
    /// let path = JsonPath::parse("$[1, 1]")?;
    /// assert!(path.query_within(&document, limits)?.is_cut_short());
    /// assert!(!path.query_unique_within(&document, limits)?.is_cut_short());
    /// # Ok::<(), Box<dyn std::error::Error>>(())
    /// ```
    pub fn query_unique_within<'d>(
        &self,
        document: &'d Document,
        limits: Limits,
    ) -> Result<Nodes<'d>, QueryError> {
        self.select(document, true, limits)
    }

    /// The list of what the path selects.
    fn select<'d>(
        &self,
        document: &'d Document,
        unique: bool,
        limits: Limits,
    ) -> Result<Nodes<'d>, QueryError> {
        let list = self.handle.select(document.handle(), unique, &limits);
        Ok(Nodes::of(list.map_err(QueryError::of)?, document))
    }

    /// How many nodes the path selects from a document. No list of them is made.
    ///
    /// ```
    /// # use jsonpath::{Document, JsonPath};
    /// let document = Document::parse(b"[1, [2, 3]]")?;
    /// assert_eq!(JsonPath::parse("$..*")?.count(&document)?, 4);
    /// # Ok::<(), Box<dyn std::error::Error>>(())
    /// ```
    pub fn count(&self, document: &Document) -> Result<usize, QueryError> {
        self.handle.count(document.handle()).map_err(QueryError::of)
    }

    /// Whether the path selects a node from a document. The query stops at the first.
    ///
    /// ```
    /// # use jsonpath::{Document, JsonPath};
    /// let document = Document::parse(br#"{"a": null}"#)?;
    /// assert!(JsonPath::parse("$.a")?.exists(&document)?);
    /// assert!(!JsonPath::parse("$.b")?.exists(&document)?);
    /// # Ok::<(), Box<dyn std::error::Error>>(())
    /// ```
    pub fn exists(&self, document: &Document) -> Result<bool, QueryError> {
        self.handle
            .exists(document.handle())
            .map_err(QueryError::of)
    }

    /// A line for each node that the path selects from a document, in order, as many as the limits allow. The query stops
    /// at the first line that would go beyond them.
    ///
    /// ```
    /// # use jsonpath::{Document, JsonPath, Limits, LineForm};
    /// let document = Document::parse(b"[10, 200, 3]")?;
    /// let limits = Limits { bytes: 7, ..Limits::NONE };
    /// let lines = JsonPath::parse("$[*]")?.lines(&document, LineForm::Value, limits)?;
    /// assert_eq!(lines.as_str(), "10\n200\n");
    /// assert!(lines.is_cut_short());
    /// # Ok::<(), Box<dyn std::error::Error>>(())
    /// ```
    pub fn lines(
        &self,
        document: &Document,
        form: LineForm,
        limits: Limits,
    ) -> Result<Lines, QueryError> {
        // Most answers have room in some more than the document; else the query runs twice.
        let room = limits.bytes.min(document.length().saturating_add(4096));
        let (text, is_cut_short) = written(room, |out| {
            self.handle
                .lines(document.handle(), form as u8, &limits, out)
        })
        .map_err(QueryError::of)?;
        Ok(Lines::of(text, is_cut_short))
    }

    /// The lines of a document that is read for them, as far as the path can reach.
    fn lines_bytes(&self, form: LineForm, document: &[u8]) -> Result<Lines, QueryError> {
        let (room, position) = (document.len().saturating_add(4096), Cell::new(0));
        let (text, is_cut_short) = written(room, |out| {
            self.handle
                .lines_in(document, form as u8, &Limits::NONE, out, &position)
        })
        .map_err(|status| QueryError::of_bytes((status, position.get())))?;
        Ok(Lines::of(text, is_cut_short))
    }

    /// As [`count`](JsonPath::count), of a document that is read for this call.
    ///
    /// ```
    /// # use jsonpath::JsonPath;
    /// assert_eq!(JsonPath::parse("$..*")?.count_bytes(b"[1, [2, 3]]")?, 4);
    /// # Ok::<(), Box<dyn std::error::Error>>(())
    /// ```
    pub fn count_bytes(&self, document: &[u8]) -> Result<usize, QueryError> {
        self.handle.count_in(document).map_err(QueryError::of_bytes)
    }

    /// As [`exists`](JsonPath::exists), of a document that is read for this call.
    ///
    /// ```
    /// # use jsonpath::JsonPath;
    /// assert!(JsonPath::parse("$.a")?.exists_bytes(br#"{"a": null}"#)?);
    /// # Ok::<(), Box<dyn std::error::Error>>(())
    /// ```
    pub fn exists_bytes(&self, document: &[u8]) -> Result<bool, QueryError> {
        self.handle
            .exists_in(document)
            .map_err(QueryError::of_bytes)
    }

    /// The nodes that the path selects from a document that is read for this call, each as a line of compact JSON.
    ///
    /// ```
    /// # use jsonpath::JsonPath;
    /// let values = JsonPath::parse("$[1:]")?.query_bytes(b"[1, [2, 3], null]")?;
    /// assert_eq!(values.iter().collect::<Vec<_>>(), ["[2,3]", "null"]);
    /// # Ok::<(), Box<dyn std::error::Error>>(())
    /// ```
    pub fn query_bytes(&self, document: &[u8]) -> Result<Lines, QueryError> {
        self.lines_bytes(LineForm::Value, document)
    }

    /// As [`query_bytes`](JsonPath::query_bytes), each node with its location.
    ///
    /// ```
    /// # use jsonpath::JsonPath;
    /// let values = JsonPath::parse("$..b")?.query_located_bytes(br#"{"a":{"b":true}}"#)?;
    /// let value = values.iter().next().unwrap();
    /// assert_eq!((value.location, value.json), ("$['a']['b']", "true"));
    /// # Ok::<(), Box<dyn std::error::Error>>(())
    /// ```
    pub fn query_located_bytes(&self, document: &[u8]) -> Result<LocatedValues, QueryError> {
        let lines = self.lines_bytes(LineForm::LocationAndValue, document)?;
        Ok(LocatedValues::of(lines))
    }

    /// As [`query_bytes`](JsonPath::query_bytes), with the location of each node in the place of its JSON.
    ///
    /// ```
    /// # use jsonpath::JsonPath;
    /// let locations = JsonPath::parse("$[?@ > 1]")?.locations_bytes(b"[3, 1, 2]")?;
    /// assert_eq!(locations.iter().collect::<Vec<_>>(), ["$[0]", "$[2]"]);
    /// # Ok::<(), Box<dyn std::error::Error>>(())
    /// ```
    pub fn locations_bytes(&self, document: &[u8]) -> Result<Lines, QueryError> {
        self.lines_bytes(LineForm::Location, document)
    }

    /// A line for each node, as the program `jsonpath` prints them: its location, a tab, the node, and a line feed.
    ///
    /// ```
    /// # use jsonpath::JsonPath;
    /// let report = JsonPath::parse("$.*")?.report_bytes(br#"{"a": 1, "b": []}"#)?;
    /// assert_eq!(report, "$['a']\t1\n$['b']\t[]\n");
    /// # Ok::<(), Box<dyn std::error::Error>>(())
    /// ```
    pub fn report_bytes(&self, document: &[u8]) -> Result<String, QueryError> {
        let lines = self.lines_bytes(LineForm::LocationAndValue, document)?;
        Ok(lines.into_string())
    }
}

impl Clone for JsonPath {
    fn clone(&self) -> JsonPath {
        JsonPath {
            handle: self.handle.share().expect("memory for an owner"),
            text: self.text.clone(),
            printed: self.printed.clone(),
            numbers: self.numbers,
        }
    }
}

impl PartialEq for JsonPath {
    fn eq(&self, other: &JsonPath) -> bool {
        self.handle.equals(&other.handle)
    }
}

impl Eq for JsonPath {}

impl Hash for JsonPath {
    fn hash<H: Hasher>(&self, state: &mut H) {
        // Of the same tree the same text is printed.
        self.printed.hash(state);
    }
}

impl fmt::Debug for JsonPath {
    fn fmt(&self, f: &mut fmt::Formatter<'_>) -> fmt::Result {
        f.debug_struct("JsonPath")
            .field("text", &self.text)
            .field("numbers", &self.numbers)
            .finish_non_exhaustive()
    }
}

impl fmt::Display for JsonPath {
    fn fmt(&self, f: &mut fmt::Formatter<'_>) -> fmt::Result {
        f.write_str(&self.printed)
    }
}

impl FromStr for JsonPath {
    type Err = ParseError;

    fn from_str(text: &str) -> Result<JsonPath, ParseError> {
        JsonPath::parse(text)
    }
}
