//! Texts that the crates below write, which are ASCII.

use std::fmt;

/// The text as a string.
pub(crate) fn string_of(text: &[u8]) -> String {
    String::from_utf8_lossy(text).into_owned()
}

/// Writes the text, padded to the width that the formatter asks for.
pub(crate) fn pad(out: &mut fmt::Formatter<'_>, text: &[u8]) -> fmt::Result {
    out.pad(&String::from_utf8_lossy(text))
}
