//! The calls of `include/jsonpath.h`, made safe. All unsafe code of the crate is here.
//!
//! What the header asks of the caller holds of each call below: a pointer of a slice or a vector is not null and valid for
//! its length, what a call writes is a vector that it alone borrows or a variable of the function, and a handle keeps to
//! [`Handle`].

use std::cell::Cell;
use std::os::raw::c_uchar;
use std::ptr;

/// Why a path is refused, and where: `struct jsonpath_refusal`.
#[repr(C)]
#[derive(Clone, Copy, Debug, Default)]
pub(crate) struct Refusal {
    pub(crate) kind: u32,
    pub(crate) position: usize,
}

/// How much lines or a list of nodes may have: `struct jsonpath_limits`.
///
/// ```
/// use jsonpath::Limits;
///
/// let limits = Limits { bytes: 1 << 20, ..Limits::NONE };
/// assert_eq!(limits.nodes, usize::MAX);
/// ```
#[repr(C)]
#[derive(Clone, Copy, Debug, PartialEq, Eq, Hash)]
pub struct Limits {
    /// The greatest number of nodes.
    pub nodes: usize,
    /// The greatest number of bytes: of lines all, of a list the names in the locations of its nodes.
    pub bytes: usize,
}

impl Limits {
    /// No limit.
    pub const NONE: Limits = Limits {
        nodes: usize::MAX,
        bytes: usize::MAX,
    };
}

/// What is known of a node without its document: `struct jsonpath_node`.
#[repr(C)]
#[derive(Clone, Copy, Debug, Default)]
pub(crate) struct Known {
    pub(crate) kind: u32,
    pub(crate) length: usize,
    pub(crate) integer: i64,
    pub(crate) unsigned: u64,
    pub(crate) number: f64,
}

/// What a call answers. Of a call that writes a text, the length stands beside it.
#[derive(Clone, Copy, Debug, PartialEq, Eq)]
pub(crate) enum Status {
    Done,
    PathRefused,
    DocumentRefused,
    QueryRefused,
    NoMemory,
    NoRoom,
    CutShort,
    DocumentTooDeep,
    NoSuchNode,
}

impl Status {
    /// The status that a number of the header stands for.
    fn of(number: u8) -> Status {
        match number {
            0 => Status::Done,
            1 => Status::PathRefused,
            2 => Status::DocumentRefused,
            3 => Status::QueryRefused,
            4 => Status::NoMemory,
            5 => Status::NoRoom,
            8 => Status::CutShort,
            9 => Status::DocumentTooDeep,
            10 => Status::NoSuchNode,
            _ => unreachable!("a `str` is UTF-8, and no handle of this crate is empty"),
        }
    }

    /// An answer where all is done, and else the status.
    fn done<T>(self, answer: T) -> Result<T, Status> {
        match self {
            Status::Done => Ok(answer),
            _ => Err(self),
        }
    }
}

/// What the library has behind a handle: one of the three types below.
pub(crate) trait Kept {
    /// The call that frees it.
    const FREE: unsafe extern "C" fn(*mut *mut Self);
}

/// `jsonpath_path`.
#[repr(C)]
pub(crate) struct RawPath([u8; 0]);

/// `jsonpath_document`.
#[repr(C)]
pub(crate) struct RawDocument([u8; 0]);

/// `jsonpath_nodes`.
#[repr(C)]
pub(crate) struct RawNodes([u8; 0]);

impl Kept for RawPath {
    const FREE: unsafe extern "C" fn(*mut *mut RawPath) = jsonpath_path_free;
}

impl Kept for RawDocument {
    const FREE: unsafe extern "C" fn(*mut *mut RawDocument) = jsonpath_document_free;
}

impl Kept for RawNodes {
    const FREE: unsafe extern "C" fn(*mut *mut RawNodes) = jsonpath_nodes_free;
}

/// A variable of a handle. It begins as null, one call fills it, and one call frees it.
pub(crate) struct Handle<T: Kept> {
    variable: *mut T,
}

// SAFETY: The library's proof has `Send` of what a handle owns, and Rust orders what two threads do with one.
unsafe impl<T: Kept> Send for Handle<T> {}

// SAFETY: Any number of threads may ask what a handle owns at once: the proof has `Send` of what a call is lent. By a `&`
// to a handle calls only ask; filling and freeing take it by `&mut`.
unsafe impl<T: Kept> Sync for Handle<T> {}

impl<T: Kept> Handle<T> {
    /// The handle that a call fills, and its status. It is empty unless all was done.
    fn filled(call: impl FnOnce(*mut *mut T) -> u8) -> (Handle<T>, Status) {
        let mut handle = Handle {
            variable: ptr::null_mut(),
        };
        let status = Status::of(call(&mut handle.variable));
        (handle, status)
    }

    /// What the handle owns, for a call that asks it.
    fn asked(&self) -> *const T {
        self.variable
    }
}

impl<T: Kept> Drop for Handle<T> {
    fn drop(&mut self) {
        // SAFETY: The variable is this handle's own.
        unsafe { T::FREE(&mut self.variable) }
    }
}

/// A compiled path.
pub(crate) type PathHandle = Handle<RawPath>;

/// A document that was read.
pub(crate) type DocumentHandle = Handle<RawDocument>;

/// A list of nodes.
pub(crate) type NodesHandle = Handle<RawNodes>;

extern "C" {
    fn jsonpath_message(
        path: *const c_uchar,
        path_length: usize,
        numbers: u8,
        out: *mut c_uchar,
        out_length: usize,
        length: *mut usize,
    ) -> u8;
    fn jsonpath_hint(
        path: *const c_uchar,
        path_length: usize,
        numbers: u8,
        out: *mut c_uchar,
        out_length: usize,
        length: *mut usize,
    ) -> u8;
    fn jsonpath_path_new(
        text: *const c_uchar,
        text_length: usize,
        numbers: u8,
        path: *mut *mut RawPath,
        refusal: *mut Refusal,
    ) -> u8;
    fn jsonpath_path_share(path: *const RawPath, other: *mut *mut RawPath) -> u8;
    fn jsonpath_path_free(path: *mut *mut RawPath);
    fn jsonpath_path_text(
        path: *const RawPath,
        out: *mut c_uchar,
        out_length: usize,
        length: *mut usize,
    ) -> u8;
    fn jsonpath_path_equals(
        path: *const RawPath,
        other: *const RawPath,
        equal: *mut u8,
    ) -> u8;
    fn jsonpath_document_new(
        bytes: *const c_uchar,
        bytes_length: usize,
        document: *mut *mut RawDocument,
        position: *mut usize,
    ) -> u8;
    fn jsonpath_document_share(
        document: *const RawDocument,
        other: *mut *mut RawDocument,
    ) -> u8;
    fn jsonpath_document_free(document: *mut *mut RawDocument);
    fn jsonpath_lines(
        path: *const RawPath,
        document: *const RawDocument,
        form: u8,
        limits: *const Limits,
        out: *mut c_uchar,
        out_length: usize,
        length: *mut usize,
    ) -> u8;
    fn jsonpath_count(
        path: *const RawPath,
        document: *const RawDocument,
        count: *mut usize,
    ) -> u8;
    fn jsonpath_exists(
        path: *const RawPath,
        document: *const RawDocument,
        exists: *mut u8,
    ) -> u8;
    fn jsonpath_lines_in(
        path: *const RawPath,
        document: *const c_uchar,
        document_length: usize,
        form: u8,
        limits: *const Limits,
        out: *mut c_uchar,
        out_length: usize,
        length: *mut usize,
        position: *mut usize,
    ) -> u8;
    fn jsonpath_count_in(
        path: *const RawPath,
        document: *const c_uchar,
        document_length: usize,
        count: *mut usize,
        position: *mut usize,
    ) -> u8;
    fn jsonpath_exists_in(
        path: *const RawPath,
        document: *const c_uchar,
        document_length: usize,
        exists: *mut u8,
        position: *mut usize,
    ) -> u8;
    fn jsonpath_select(
        path: *const RawPath,
        document: *const RawDocument,
        unique: u8,
        limits: *const Limits,
        nodes: *mut *mut RawNodes,
    ) -> u8;
    fn jsonpath_nodes_free(nodes: *mut *mut RawNodes);
    fn jsonpath_nodes_length(nodes: *const RawNodes, length: *mut usize) -> u8;
    fn jsonpath_node(nodes: *const RawNodes, index: usize, node: *mut Known) -> u8;
    fn jsonpath_node_location(
        nodes: *const RawNodes,
        index: usize,
        out: *mut c_uchar,
        out_length: usize,
        length: *mut usize,
    ) -> u8;
    fn jsonpath_node_pointer(
        nodes: *const RawNodes,
        index: usize,
        out: *mut c_uchar,
        out_length: usize,
        length: *mut usize,
    ) -> u8;
    fn jsonpath_node_text(
        nodes: *const RawNodes,
        document: *const RawDocument,
        index: usize,
        out: *mut c_uchar,
        out_length: usize,
        length: *mut usize,
    ) -> u8;
    fn jsonpath_node_json(
        nodes: *const RawNodes,
        document: *const RawDocument,
        index: usize,
        out: *mut c_uchar,
        out_length: usize,
        length: *mut usize,
    ) -> u8;
    fn jsonpath_version() -> u32;
}

/// The library's version, as one number.
pub(crate) fn version() -> u32 {
    // SAFETY: The call takes nothing.
    unsafe { jsonpath_version() }
}

/// Lends what a vector has room for to a call, and takes what the call writes there as its bytes. The call is handed where
/// it may write, how much, and where the length goes.
fn write(
    out: &mut Vec<u8>,
    call: impl FnOnce(*mut c_uchar, usize, *mut usize) -> u8,
) -> (Status, usize) {
    let mut length = 0;
    out.clear();
    let status = Status::of(call(out.as_mut_ptr(), out.capacity(), &mut length));
    if matches!(status, Status::Done | Status::CutShort) {
        // SAFETY: With these two the call has written so many bytes, and found room for them.
        unsafe { out.set_len(length) }
    }
    (status, length)
}

/// Writes the message of a path's refusal by a rule for numbers.
pub(crate) fn message(path: &str, numbers: u8, out: &mut Vec<u8>) -> (Status, usize) {
    write(out, |bytes, room, length| {
        // SAFETY: The text is read, the vector and its length are written.
        unsafe { jsonpath_message(path.as_ptr(), path.len(), numbers, bytes, room, length) }
    })
}

/// Writes what was probably meant by a path that is refused by a rule for numbers, or nothing.
pub(crate) fn hint(path: &str, numbers: u8, out: &mut Vec<u8>) -> (Status, usize) {
    write(out, |bytes, room, length| {
        // SAFETY: The text is read, the vector and its length are written.
        unsafe { jsonpath_hint(path.as_ptr(), path.len(), numbers, bytes, room, length) }
    })
}

impl PathHandle {
    /// Compiles a path.
    pub(crate) fn compile(text: &str, numbers: u8) -> Result<PathHandle, (Status, Refusal)> {
        let (bytes, length, mut refusal) = (text.as_ptr(), text.len(), Refusal::default());
        let (path, status) = Handle::filled(|variable| {
            // SAFETY: The text is read, the new variable and `refusal` are written.
            unsafe { jsonpath_path_new(bytes, length, numbers, variable, &mut refusal) }
        });
        status.done(path).map_err(|status| (status, refusal))
    }

    /// Another owner of the path.
    pub(crate) fn share(&self) -> Result<PathHandle, Status> {
        let (path, status) = Handle::filled(|variable| {
            // SAFETY: The path is read, the new variable is written.
            unsafe { jsonpath_path_share(self.asked(), variable) }
        });
        status.done(path)
    }

    /// Writes the path's text.
    pub(crate) fn text(&self, out: &mut Vec<u8>) -> (Status, usize) {
        write(out, |bytes, room, length| {
            // SAFETY: The path is read, the vector and its length are written.
            unsafe { jsonpath_path_text(self.asked(), bytes, room, length) }
        })
    }

    /// Whether two paths have the same tree.
    pub(crate) fn equals(&self, other: &PathHandle) -> bool {
        let mut equal = 0;
        // SAFETY: The two paths are read, `equal` is written.
        let status = unsafe { jsonpath_path_equals(self.asked(), other.asked(), &mut equal) };
        Status::of(status) == Status::Done && equal == 1
    }

    /// Writes lines of the nodes that the path selects, as many as the limits allow.
    pub(crate) fn lines(
        &self,
        document: &DocumentHandle,
        form: u8,
        limits: &Limits,
        out: &mut Vec<u8>,
    ) -> (Status, usize) {
        let (path, document) = (self.asked(), document.asked());
        write(out, |bytes, room, length| {
            // SAFETY: The path, the document and `limits` are read, the vector and its length are written.
            unsafe { jsonpath_lines(path, document, form, limits, bytes, room, length) }
        })
    }

    /// How many nodes the path selects.
    pub(crate) fn count(&self, document: &DocumentHandle) -> Result<usize, Status> {
        let mut count = 0;
        // SAFETY: The path and the document are read, `count` is written.
        let status = unsafe { jsonpath_count(self.asked(), document.asked(), &mut count) };
        Status::of(status).done(count)
    }

    /// Whether the path selects a node.
    pub(crate) fn exists(&self, document: &DocumentHandle) -> Result<bool, Status> {
        let mut exists = 0;
        // SAFETY: The path and the document are read, `exists` is written.
        let status = unsafe { jsonpath_exists(self.asked(), document.asked(), &mut exists) };
        Status::of(status).done(exists == 1)
    }

    /// As `lines`, of the document that bytes are; or `position` has the byte where they are none.
    pub(crate) fn lines_in(
        &self,
        document: &[u8],
        form: u8,
        limits: &Limits,
        out: &mut Vec<u8>,
        position: &Cell<usize>,
    ) -> (Status, usize) {
        let (path, data, size) = (self.asked(), document.as_ptr(), document.len());
        let position = position.as_ptr();
        write(out, |bytes, room, length| {
            // SAFETY: The path, the document and `limits` are read, the vector, its length and `position` are written.
            unsafe {
                jsonpath_lines_in(
                    path, data, size, form, limits, bytes, room, length, position,
                )
            }
        })
    }

    /// As `count`, of the document that bytes are. A refusal has its position.
    pub(crate) fn count_in(&self, document: &[u8]) -> Result<usize, (Status, usize)> {
        let (mut count, mut position) = (0, 0);
        let (data, size) = (document.as_ptr(), document.len());
        // SAFETY: The path and the document are read, `count` and `position` are written.
        let status =
            unsafe { jsonpath_count_in(self.asked(), data, size, &mut count, &mut position) };
        Status::of(status)
            .done(count)
            .map_err(|status| (status, position))
    }

    /// As `exists`, of the document that bytes are. A refusal has its position.
    pub(crate) fn exists_in(&self, document: &[u8]) -> Result<bool, (Status, usize)> {
        let (mut exists, mut position) = (0, 0);
        let (data, size) = (document.as_ptr(), document.len());
        // SAFETY: The path and the document are read, `exists` and `position` are written.
        let status =
            unsafe { jsonpath_exists_in(self.asked(), data, size, &mut exists, &mut position) };
        Status::of(status)
            .done(exists == 1)
            .map_err(|status| (status, position))
    }

    /// The list of the nodes that the path selects, as many as the limits allow, and whether it is cut short.
    pub(crate) fn select(
        &self,
        document: &DocumentHandle,
        unique: bool,
        limits: &Limits,
    ) -> Result<(NodesHandle, bool), Status> {
        let (path, document, unique) = (self.asked(), document.asked(), u8::from(unique));
        let (nodes, status) = Handle::filled(|variable| {
            // SAFETY: The path, the document and `limits` are read, the new variable is written.
            unsafe { jsonpath_select(path, document, unique, limits, variable) }
        });
        match status {
            Status::CutShort => Ok((nodes, true)),
            status => status.done((nodes, false)),
        }
    }
}

impl DocumentHandle {
    /// Reads a document. A refusal has its position.
    pub(crate) fn read(bytes: &[u8]) -> Result<DocumentHandle, (Status, usize)> {
        let (data, size, mut position) = (bytes.as_ptr(), bytes.len(), 0);
        let (document, status) = Handle::filled(|variable| {
            // SAFETY: The bytes are read, the new variable and `position` are written.
            unsafe { jsonpath_document_new(data, size, variable, &mut position) }
        });
        status.done(document).map_err(|status| (status, position))
    }

    /// Another owner of the document.
    pub(crate) fn share(&self) -> Result<DocumentHandle, Status> {
        let (document, status) = Handle::filled(|variable| {
            // SAFETY: The document is read, the new variable is written.
            unsafe { jsonpath_document_share(self.asked(), variable) }
        });
        status.done(document)
    }
}

impl NodesHandle {
    /// How many nodes there are.
    pub(crate) fn length(&self) -> usize {
        let mut length = 0;
        // SAFETY: The list is read, `length` is written.
        unsafe { jsonpath_nodes_length(self.asked(), &mut length) };
        length
    }

    /// What is known of the node at an index.
    pub(crate) fn node(&self, index: usize) -> Result<Known, Status> {
        let mut node = Known::default();
        // SAFETY: The list is read, `node` is written.
        let status = unsafe { jsonpath_node(self.asked(), index, &mut node) };
        Status::of(status).done(node)
    }

    /// Writes the normalised path of the node at an index.
    pub(crate) fn location(&self, index: usize, out: &mut Vec<u8>) -> (Status, usize) {
        write(out, |bytes, room, length| {
            // SAFETY: The list is read, the vector and its length are written.
            unsafe { jsonpath_node_location(self.asked(), index, bytes, room, length) }
        })
    }

    /// Writes the JSON pointer of the node at an index.
    pub(crate) fn pointer(&self, index: usize, out: &mut Vec<u8>) -> (Status, usize) {
        write(out, |bytes, room, length| {
            // SAFETY: The list is read, the vector and its length are written.
            unsafe { jsonpath_node_pointer(self.asked(), index, bytes, room, length) }
        })
    }

    /// Writes the string at an index.
    pub(crate) fn text(
        &self,
        document: &DocumentHandle,
        index: usize,
        out: &mut Vec<u8>,
    ) -> (Status, usize) {
        let (nodes, document) = (self.asked(), document.asked());
        write(out, |bytes, room, length| {
            // SAFETY: The list and the document are read, the vector and its length are written.
            unsafe { jsonpath_node_text(nodes, document, index, bytes, room, length) }
        })
    }

    /// Writes the compact JSON of the node at an index.
    pub(crate) fn json(
        &self,
        document: &DocumentHandle,
        index: usize,
        out: &mut Vec<u8>,
    ) -> (Status, usize) {
        let (nodes, document) = (self.asked(), document.asked());
        write(out, |bytes, room, length| {
            // SAFETY: The list and the document are read, the vector and its length are written.
            unsafe { jsonpath_node_json(nodes, document, index, bytes, room, length) }
        })
    }
}
