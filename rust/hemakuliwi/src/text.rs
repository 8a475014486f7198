//! Content as Rust's strings. Content is UTF-8, save that a lone surrogate stands in three bytes, ED A0 80 to ED BF BF, which is known as
//! WTF-8 and is no `str`.

use std::borrow::Cow;
use std::str::{from_utf8, Utf8Error};

/// U+FFFD, which is as long as a lone surrogate.
const REPLACEMENT: [u8; 3] = [0xEF, 0xBF, 0xBD];

/// The content as it is, if it has no lone surrogate.
pub(crate) fn exact(content: Cow<'_, [u8]>) -> Result<Cow<'_, str>, Utf8Error> {
    match content {
        Cow::Borrowed(bytes) => from_utf8(bytes).map(Cow::Borrowed),
        Cow::Owned(bytes) => match String::from_utf8(bytes) {
            Ok(text) => Ok(Cow::Owned(text)),
            Err(error) => Err(error.utf8_error()),
        },
    }
}

/// The content with U+FFFD for each lone surrogate. `String::from_utf8_lossy` would write three of them for each.
pub(crate) fn lossy(content: Cow<'_, [u8]>) -> Cow<'_, str> {
    match content {
        Cow::Borrowed(bytes) => match from_utf8(bytes) {
            Ok(text) => Cow::Borrowed(text),
            Err(_) => Cow::Owned(replaced(bytes.to_vec())),
        },
        Cow::Owned(bytes) => Cow::Owned(match String::from_utf8(bytes) {
            Ok(text) => text,
            Err(error) => replaced(error.into_bytes()),
        }),
    }
}

fn replaced(mut bytes: Vec<u8>) -> String {
    for at in 2..bytes.len() {
        let three = &mut bytes[at - 2..=at];
        if let [0xED, 0xA0..=0xBF, 0x80..=0xBF] = three {
            three.copy_from_slice(&REPLACEMENT);
        }
    }
    // Only bytes that are no content, which a caller can put into a `Value`, are not UTF-8 now.
    String::from_utf8(bytes)
        .unwrap_or_else(|error| String::from_utf8_lossy(error.as_bytes()).into_owned())
}
