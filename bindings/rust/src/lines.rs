//! Lines of the nodes that a path selects.

use std::iter::FusedIterator;
use std::str::SplitTerminator;

/// What a line has of a node.
///
/// ```
/// use jsonpath::{Document, JsonPath, Limits, LineForm};
///
/// let path = JsonPath::parse("$.a")?;
/// let document = Document::parse(br#"{"a": [1, 2]}"#)?;
/// let line = |form| Ok::<_, jsonpath::QueryError>(path.lines(&document, form, Limits::NONE)?.into_string());
/// assert_eq!(line(LineForm::LocationAndValue)?, "$['a']\t[1,2]\n");
/// assert_eq!(line(LineForm::Value)?, "[1,2]\n");
/// assert_eq!(line(LineForm::Location)?, "$['a']\n");
/// # Ok::<(), Box<dyn std::error::Error>>(())
/// ```
#[derive(Clone, Copy, Debug, PartialEq, Eq, Hash)]
pub enum LineForm {
    /// Its normalised path, a tab, and its compact JSON.
    LocationAndValue = 0,
    /// Its compact JSON.
    Value = 1,
    /// Its normalised path.
    Location = 2,
}

/// A line for each node, and whether there are more nodes than the limits allow.
///
/// ```
/// use jsonpath::JsonPath;
///
/// let values = JsonPath::parse("$[*]")?.query_bytes(b"[1, {}]")?;
/// assert_eq!(values.len(), 2);
/// for json in &values {
///     println!("{json}");
/// }
/// # Ok::<(), Box<dyn std::error::Error>>(())
/// ```
#[derive(Clone, Debug, PartialEq, Eq)]
pub struct Lines {
    text: String,
    count: usize,
    is_cut_short: bool,
}

impl Lines {
    /// The lines of a text, each ended by a line feed.
    pub(crate) fn of(text: String, is_cut_short: bool) -> Lines {
        let count = text.bytes().filter(|&byte| byte == b'\n').count();
        Lines {
            text,
            count,
            is_cut_short,
        }
    }

    /// How many lines there are.
    ///
    /// ```
    /// # use jsonpath::JsonPath;
    /// assert_eq!(JsonPath::parse("$..*")?.query_bytes(b"[[1]]")?.len(), 2);
    /// # Ok::<(), Box<dyn std::error::Error>>(())
    /// ```
    pub fn len(&self) -> usize {
        self.count
    }

    /// Whether there is none.
    ///
    /// ```
    /// # use jsonpath::JsonPath;
    /// assert!(JsonPath::parse("$.a")?.query_bytes(b"{}")?.is_empty());
    /// # Ok::<(), Box<dyn std::error::Error>>(())
    /// ```
    pub fn is_empty(&self) -> bool {
        self.count == 0
    }

    /// Whether the limits leave nodes out.
    ///
    /// ```
    /// # use jsonpath::{Document, JsonPath, Limits, LineForm};
    /// let document = Document::parse(b"[1, 2, 3]")?;
    /// let limits = Limits { nodes: 2, ..Limits::NONE };
    /// let lines = JsonPath::parse("$[*]")?.lines(&document, LineForm::Value, limits)?;
    /// assert_eq!(lines.as_str(), "1\n2\n");
    /// assert!(lines.is_cut_short());
    /// # Ok::<(), Box<dyn std::error::Error>>(())
    /// ```
    pub fn is_cut_short(&self) -> bool {
        self.is_cut_short
    }

    /// The lines as one text, each ended by a line feed.
    ///
    /// ```
    /// # use jsonpath::JsonPath;
    /// assert_eq!(JsonPath::parse("$[*]")?.query_bytes(b"[1, 2]")?.as_str(), "1\n2\n");
    /// # Ok::<(), Box<dyn std::error::Error>>(())
    /// ```
    pub fn as_str(&self) -> &str {
        &self.text
    }

    /// The lines as one text, as [`as_str`](Lines::as_str) lends it.
    ///
    /// ```
    /// # use jsonpath::JsonPath;
    /// let text: String = JsonPath::parse("$")?.query_bytes(b"[ ]")?.into_string();
    /// assert_eq!(text, "[]\n");
    /// # Ok::<(), Box<dyn std::error::Error>>(())
    /// ```
    pub fn into_string(self) -> String {
        self.text
    }

    /// Goes over the lines, in order, without their line feeds.
    ///
    /// ```
    /// # use jsonpath::JsonPath;
    /// let values = JsonPath::parse("$[*]")?.query_bytes(b"[1, [ ]]")?;
    /// assert_eq!(values.iter().collect::<Vec<_>>(), ["1", "[]"]);
    /// # Ok::<(), Box<dyn std::error::Error>>(())
    /// ```
    pub fn iter(&self) -> LinesIter<'_> {
        LinesIter {
            lines: self.text.split_terminator('\n'),
            left: self.count,
        }
    }
}

impl<'a> IntoIterator for &'a Lines {
    type Item = &'a str;
    type IntoIter = LinesIter<'a>;

    fn into_iter(self) -> LinesIter<'a> {
        self.iter()
    }
}

/// Goes over [`Lines`].
#[derive(Clone, Debug)]
pub struct LinesIter<'a> {
    lines: SplitTerminator<'a, char>,
    left: usize,
}

impl<'a> Iterator for LinesIter<'a> {
    type Item = &'a str;

    fn next(&mut self) -> Option<&'a str> {
        let line = self.lines.next()?;
        self.left -= 1;
        Some(line)
    }

    fn size_hint(&self) -> (usize, Option<usize>) {
        (self.left, Some(self.left))
    }
}

impl ExactSizeIterator for LinesIter<'_> {}

impl FusedIterator for LinesIter<'_> {}

/// A node as JSON, and where it is.
///
/// ```
/// use jsonpath::JsonPath;
///
/// let values = JsonPath::parse("$.a[0]")?.query_located_bytes(br#"{"a":["b"]}"#)?;
/// for value in &values {
///     assert_eq!(value.location, "$['a'][0]");
///     assert_eq!(value.json, r#""b""#);
/// }
/// # Ok::<(), Box<dyn std::error::Error>>(())
/// ```
#[derive(Clone, Copy, Debug, PartialEq, Eq, Hash)]
pub struct LocatedValue<'a> {
    /// The node's normalised path, which selects it alone.
    pub location: &'a str,
    /// The node as compact JSON.
    pub json: &'a str,
}

/// The nodes that a path selects from a document as JSON, each with its location.
///
/// ```
/// use jsonpath::JsonPath;
///
/// let values = JsonPath::parse("$[-1]")?.query_located_bytes(b"[1, 2]")?;
/// let locations: Vec<&str> = values.iter().map(|value| value.location).collect();
/// assert_eq!(locations, ["$[1]"]);
/// # Ok::<(), Box<dyn std::error::Error>>(())
/// ```
#[derive(Clone, Debug, PartialEq, Eq)]
pub struct LocatedValues {
    lines: Lines,
}

impl LocatedValues {
    /// The values that lines are, which have locations and values.
    pub(crate) fn of(lines: Lines) -> LocatedValues {
        LocatedValues { lines }
    }

    /// How many values there are.
    ///
    /// ```
    /// # use jsonpath::JsonPath;
    /// assert_eq!(JsonPath::parse("$[0,0]")?.query_located_bytes(b"[7]")?.len(), 2);
    /// # Ok::<(), Box<dyn std::error::Error>>(())
    /// ```
    pub fn len(&self) -> usize {
        self.lines.len()
    }

    /// Whether there is none.
    ///
    /// ```
    /// # use jsonpath::JsonPath;
    /// assert!(JsonPath::parse("$[1]")?.query_located_bytes(b"[7]")?.is_empty());
    /// # Ok::<(), Box<dyn std::error::Error>>(())
    /// ```
    pub fn is_empty(&self) -> bool {
        self.lines.is_empty()
    }

    /// Goes over the values, in order.
    ///
    /// ```
    /// # use jsonpath::JsonPath;
    /// let values = JsonPath::parse("$[1]")?.query_located_bytes(b"[7, 8]")?;
    /// assert_eq!(values.iter().next().map(|value| value.json), Some("8"));
    /// # Ok::<(), Box<dyn std::error::Error>>(())
    /// ```
    pub fn iter(&self) -> LocatedValuesIter<'_> {
        LocatedValuesIter {
            lines: self.lines.iter(),
        }
    }
}

impl<'a> IntoIterator for &'a LocatedValues {
    type Item = LocatedValue<'a>;
    type IntoIter = LocatedValuesIter<'a>;

    fn into_iter(self) -> LocatedValuesIter<'a> {
        self.iter()
    }
}

/// Goes over [`LocatedValues`].
#[derive(Clone, Debug)]
pub struct LocatedValuesIter<'a> {
    lines: LinesIter<'a>,
}

impl<'a> Iterator for LocatedValuesIter<'a> {
    type Item = LocatedValue<'a>;

    fn next(&mut self) -> Option<LocatedValue<'a>> {
        let line = self.lines.next()?;
        // Neither a location nor compact JSON has a tab or a line feed of its own: both are escaped.
        let (location, json) = line.split_once('\t').expect("a line has a tab");
        Some(LocatedValue { location, json })
    }

    fn size_hint(&self) -> (usize, Option<usize>) {
        self.lines.size_hint()
    }
}

impl ExactSizeIterator for LocatedValuesIter<'_> {}

impl FusedIterator for LocatedValuesIter<'_> {}
