//! Why a path, a document or a query is refused.

use crate::ffi::{self, Refusal, Status};
use crate::text::written;
use std::error::Error;
use std::fmt;

/// What is wrong with a path.
///
/// ```
/// use jsonpath::{JsonPath, ParseErrorKind};
///
/// let error = JsonPath::parse("items").unwrap_err();
/// assert_eq!(error.kind(), ParseErrorKind::ExpectedRoot);
/// ```
#[derive(Clone, Copy, Debug, PartialEq, Eq, Hash)]
#[non_exhaustive]
pub enum ParseErrorKind {
    /// There is no `$` at the start.
    ExpectedRoot,
    /// The first character of a member name does not fit.
    BadMemberName,
    /// A selector is followed by neither `,` nor `]`.
    ExpectedClosingBracket,
    /// A string has no ending quote.
    ExpectedEndingQuote,
    /// An escape is unknown or cut, or a surrogate stands alone.
    BadEscape,
    /// A control character stands in a string.
    ControlCharacter,
    /// No selector begins where one should.
    ExpectedSelector,
    /// An index, or a part of a slice, is out of range.
    IntegerOutOfRange,
    /// A number literal has an exponent, by whole numbers, or no digit after a point or in an exponent.
    ExponentOrEmptyFraction,
    /// A number literal is out of range.
    NumberOutOfRange,
    /// No expression begins where one should.
    ExpectedExpression,
    /// No `)` stands where one should.
    ExpectedClosingParenthesis,
    /// A literal has no comparison operator after it.
    ExpectedComparisonOperator,
    /// A query that may give several nodes is compared.
    NonSingularQuery,
    /// A function is not declared.
    UndefinedFunction,
    /// A call has too many or too few arguments.
    WrongNumberOfArguments,
    /// An argument has the wrong type.
    WrongArgumentType,
    /// A call's result may not stand where the call does.
    WrongReturnType,
    /// Filters, parentheses and calls are nested more than 128 deep.
    NestedTooDeep,
    /// There is text after the path.
    TextAfterPath,
    /// A number literal has more than nine digits of a fraction.
    FractionTooLong,
    /// Memory was refused.
    NoMemory,
}

impl ParseErrorKind {
    /// The kind that a number of the header stands for.
    fn of(number: u32) -> ParseErrorKind {
        match number {
            1 => ParseErrorKind::ExpectedRoot,
            2 => ParseErrorKind::BadMemberName,
            3 => ParseErrorKind::ExpectedClosingBracket,
            4 => ParseErrorKind::ExpectedEndingQuote,
            5 => ParseErrorKind::BadEscape,
            6 => ParseErrorKind::ControlCharacter,
            7 => ParseErrorKind::ExpectedSelector,
            8 => ParseErrorKind::IntegerOutOfRange,
            9 => ParseErrorKind::ExponentOrEmptyFraction,
            10 => ParseErrorKind::NumberOutOfRange,
            11 => ParseErrorKind::ExpectedExpression,
            12 => ParseErrorKind::ExpectedClosingParenthesis,
            13 => ParseErrorKind::ExpectedComparisonOperator,
            14 => ParseErrorKind::NonSingularQuery,
            15 => ParseErrorKind::UndefinedFunction,
            16 => ParseErrorKind::WrongNumberOfArguments,
            17 => ParseErrorKind::WrongArgumentType,
            18 => ParseErrorKind::WrongReturnType,
            19 => ParseErrorKind::NestedTooDeep,
            20 => ParseErrorKind::TextAfterPath,
            21 => ParseErrorKind::FractionTooLong,
            _ => unreachable!("the header has no other kinds"),
        }
    }
}

/// Why a path is refused, and where.
///
/// ```
/// use jsonpath::JsonPath;
///
/// let error = JsonPath::parse("$.a ").unwrap_err();
/// assert_eq!(error.position(), 4);
/// assert_eq!(error.message(), "text after the path");
/// assert_eq!(error.to_string(), "at position 4, text after the path");
/// ```
#[derive(Clone, Debug, PartialEq, Eq)]
pub struct ParseError {
    kind: ParseErrorKind,
    position: usize,
    message: String,
    hint: Option<String>,
}

/// How many bytes a message or a hint has at most.
const LONGEST_WORDS: usize = 100;

impl ParseError {
    /// The error of a path that is refused so by a rule for numbers.
    pub(crate) fn of(path: &str, numbers: u8, refusal: Refusal) -> ParseError {
        let message = written(LONGEST_WORDS, |out| ffi::message(path, numbers, out));
        let hint = written(LONGEST_WORDS, |out| ffi::hint(path, numbers, out));
        let (Ok((message, _)), Ok((hint, _))) = (message, hint) else {
            return ParseError::no_memory();
        };
        ParseError {
            kind: ParseErrorKind::of(refusal.kind),
            position: refusal.position,
            message,
            hint: Some(hint).filter(|hint| !hint.is_empty()),
        }
    }

    /// The error where memory is refused.
    pub(crate) fn no_memory() -> ParseError {
        ParseError {
            kind: ParseErrorKind::NoMemory,
            position: 1,
            message: "no memory".to_string(),
            hint: None,
        }
    }

    /// What is wrong.
    pub fn kind(&self) -> ParseErrorKind {
        self.kind
    }

    /// The number of the byte at which it is wrong, from 1; one past the last byte where the path ends too early.
    pub fn position(&self) -> usize {
        self.position
    }

    /// What is wrong, in words.
    pub fn message(&self) -> &str {
        &self.message
    }

    /// What was probably meant, in a few words, or `None` where the path shows no known slip.
    ///
    /// ```
    /// use jsonpath::JsonPath;
    ///
    /// let error = JsonPath::parse("$.a b").unwrap_err();
    /// assert_eq!(error.hint(), Some("`$['a b']`: such a name is quoted in brackets"));
    /// ```
    pub fn hint(&self) -> Option<&str> {
        self.hint.as_deref()
    }
}

impl fmt::Display for ParseError {
    fn fmt(&self, f: &mut fmt::Formatter<'_>) -> fmt::Result {
        write!(f, "at position {}, {}", self.position, self.message)
    }
}

impl Error for ParseError {}

/// Why bytes are not taken as a document.
///
/// ```
/// use jsonpath::{Document, DocumentError};
///
/// let error = Document::parse(b"[1, 2").unwrap_err();
/// assert_eq!(error, DocumentError::NotJson { position: 6 });
/// assert_eq!(error.to_string(), "at position 6, not JSON");
/// ```
#[derive(Clone, Copy, Debug, PartialEq, Eq, Hash)]
#[non_exhaustive]
pub enum DocumentError {
    /// The bytes are not a JSON text, or have a number beyond those of 64-bit floats, as `1e400`.
    NotJson {
        /// The byte where that shows, from 1; one past the last byte where the text ends too early.
        position: usize,
    },
    /// The document nests deeper than 127 levels.
    TooDeep {
        /// The byte where that shows, from 1.
        position: usize,
    },
    /// Memory was refused.
    NoMemory,
}

impl DocumentError {
    /// The error of a document that is refused so, at a byte.
    pub(crate) fn of(status: Status, position: usize) -> DocumentError {
        match status {
            Status::DocumentRefused => DocumentError::NotJson { position },
            Status::DocumentTooDeep => DocumentError::TooDeep { position },
            Status::NoMemory => DocumentError::NoMemory,
            _ => unreachable!("a document has no other refusals"),
        }
    }

    /// The byte at which the document is refused, from 1, or `None` where memory was.
    ///
    /// ```
    /// use jsonpath::Document;
    ///
    /// assert_eq!(Document::parse(b"[1,]").unwrap_err().position(), Some(3));
    /// ```
    pub fn position(&self) -> Option<usize> {
        match self {
            DocumentError::NotJson { position } | DocumentError::TooDeep { position } => {
                Some(*position)
            }
            DocumentError::NoMemory => None,
        }
    }
}

impl fmt::Display for DocumentError {
    fn fmt(&self, f: &mut fmt::Formatter<'_>) -> fmt::Result {
        match self {
            DocumentError::NotJson { position } => write!(f, "at position {position}, not JSON"),
            DocumentError::TooDeep { position } => {
                write!(f, "at position {position}, nested more than 127 deep")
            }
            DocumentError::NoMemory => f.write_str("no memory"),
        }
    }
}

impl Error for DocumentError {}

/// Why a query has no answer.
///
/// ```
/// use jsonpath::{Document, JsonPath, QueryError};
///
/// let path = JsonPath::parse(r#"$[?match(@, "\\w{1000}{10}")]"#)?;
/// let document = Document::parse(br#"["a"]"#)?;
/// assert_eq!(path.query(&document).unwrap_err(), QueryError::Pattern);
/// assert_eq!(QueryError::Pattern.to_string(), "pattern refused");
/// # Ok::<(), Box<dyn std::error::Error>>(())
/// ```
#[derive(Clone, Copy, Debug, PartialEq, Eq, Hash)]
#[non_exhaustive]
pub enum QueryError {
    /// The bytes are not taken as a document: only of the calls that read them, as
    /// [`query_bytes`](crate::JsonPath::query_bytes).
    Document(DocumentError),
    /// A pattern of `match` or `search`, which `regex` reads, is too large once built.
    Pattern,
    /// Memory was refused.
    NoMemory,
}

impl QueryError {
    /// The error of a query that is refused so.
    pub(crate) fn of(status: Status) -> QueryError {
        match status {
            Status::QueryRefused => QueryError::Pattern,
            Status::NoMemory => QueryError::NoMemory,
            _ => unreachable!("a query has no other refusals"),
        }
    }

    /// The error of a query of bytes that is refused so, at a byte.
    pub(crate) fn of_bytes((status, position): (Status, usize)) -> QueryError {
        match status {
            Status::DocumentRefused | Status::DocumentTooDeep => {
                QueryError::Document(DocumentError::of(status, position))
            }
            status => QueryError::of(status),
        }
    }
}

impl From<DocumentError> for QueryError {
    fn from(error: DocumentError) -> QueryError {
        match error {
            DocumentError::NoMemory => QueryError::NoMemory,
            error => QueryError::Document(error),
        }
    }
}

impl fmt::Display for QueryError {
    fn fmt(&self, f: &mut fmt::Formatter<'_>) -> fmt::Result {
        match self {
            QueryError::Document(error) => error.fmt(f),
            QueryError::Pattern => f.write_str("pattern refused"),
            QueryError::NoMemory => f.write_str("no memory"),
        }
    }
}

impl Error for QueryError {}
