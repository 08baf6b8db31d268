//! Texts that calls write.

use crate::ffi::Status;

/// A vector with room for so many bytes, if there is memory.
fn room_for(length: usize) -> Result<Vec<u8>, Status> {
    let mut out = Vec::new();
    match out.try_reserve_exact(length) {
        Ok(()) => Ok(out),
        Err(_) => Err(Status::NoMemory),
    }
}

/// The text that a call writes, and whether it is cut short; or the status by which there is none.
///
/// The first call has room for so many bytes, and a second one, if need be, for as many as the first says.
pub(crate) fn written(
    room: usize,
    call: impl Fn(&mut Vec<u8>) -> (Status, usize),
) -> Result<(String, bool), Status> {
    let mut out = room_for(room)?;
    let (mut status, length) = call(&mut out);
    if status == Status::NoRoom {
        out = room_for(length)?;
        (status, _) = call(&mut out);
    }
    if !matches!(status, Status::Done | Status::CutShort) {
        return Err(status);
    }
    out.shrink_to_fit();
    let text = String::from_utf8(out).expect("the engine writes UTF-8");
    Ok((text, status == Status::CutShort))
}
