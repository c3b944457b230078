//! Texts that the library writes.

use crate::error::{answered, Error};

/// The room with which a text is asked for at first.
const ROOM: usize = 512;

/// The text that the call writes, whose answer is how long it is. It is called again where the room is too small.
pub(crate) fn whole(mut call: impl FnMut(*mut u8, usize) -> i64) -> Result<String, Error> {
    let mut bytes = vec![0; ROOM];
    loop {
        let length = answered(call(bytes.as_mut_ptr(), bytes.len()))?;
        if length <= bytes.len() {
            return Ok(front(&bytes, length));
        }
        bytes.resize(length, 0);
    }
}

/// The first bytes, as a text. The library writes printable ASCII and line feeds.
pub(crate) fn front(bytes: &[u8], length: usize) -> String {
    String::from_utf8_lossy(&bytes[..length.min(bytes.len())]).into_owned()
}
