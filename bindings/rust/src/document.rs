//! Documents that are read once.

use crate::error::DocumentError;
use crate::ffi::DocumentHandle;
use std::fmt;

/// A JSON document, which is read once and asked any number of paths.
///
/// It is `Send` and `Sync`: any number of threads may ask one document at once. A clone is another owner of the same document,
/// and panics where memory is refused for a few bytes.
///
/// ```
/// use jsonpath::{Document, JsonPath};
///
/// let document = Document::parse(br#"{"user": {"name": "Ada", "age": 36}}"#)?;
/// assert!(JsonPath::parse("$.user.name")?.exists(&document)?);
/// assert_eq!(JsonPath::parse("$.user.*")?.count(&document)?, 2);
///
/// let clone = document.clone();
/// let moved = std::thread::spawn(move || JsonPath::parse("$..*").unwrap().count(&clone));
/// assert_eq!(JsonPath::parse("$..name")?.count(&document)?, 1);
/// assert_eq!(moved.join().unwrap(), Ok(3));
/// # Ok::<(), Box<dyn std::error::Error>>(())
/// ```
pub struct Document {
    handle: DocumentHandle,
    /// How many bytes were read.
    length: usize,
}

impl Document {
    /// Reads the bytes of a JSON text: of members of one name the last one counts.
    ///
    /// ```
    /// use jsonpath::{Document, DocumentError};
    ///
    /// assert!(Document::parse(b" [1, 2] ").is_ok());
    /// let deep = "[".repeat(128) + &"]".repeat(128);
    /// assert_eq!(
    ///     Document::parse(deep.as_bytes()).unwrap_err(),
    ///     DocumentError::TooDeep { position: 128 },
    /// );
    /// ```
    pub fn parse(bytes: &[u8]) -> Result<Document, DocumentError> {
        let handle = DocumentHandle::read(bytes)
            .map_err(|(status, position)| DocumentError::of(status, position))?;
        Ok(Document {
            handle,
            length: bytes.len(),
        })
    }

    /// The document's handle.
    pub(crate) fn handle(&self) -> &DocumentHandle {
        &self.handle
    }

    /// How many bytes were read.
    pub(crate) fn length(&self) -> usize {
        self.length
    }
}

impl Clone for Document {
    fn clone(&self) -> Document {
        Document {
            handle: self.handle.share().expect("memory for an owner"),
            length: self.length,
        }
    }
}

impl fmt::Debug for Document {
    fn fmt(&self, f: &mut fmt::Formatter<'_>) -> fmt::Result {
        f.debug_struct("Document")
            .field("length", &self.length)
            .finish_non_exhaustive()
    }
}
