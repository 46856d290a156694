//! The arguments of a program.

use std::io::{Error, ErrorKind, Result};

/// The arguments, the program's name first.
pub type Args = std::vec::IntoIter<String>;

/// The arguments, unless one isn't UTF-8 or memory was wanting.
pub fn args(rt: &super::rt::HostRuntime) -> Result<Args> {
    match rt.words.replace(Ok(std::vec::Vec::new())) {
        Ok(words) => Ok(words.into_iter()),
        Err(kind) => Err(Error::from(kind)),
    }
}

// A word, which is copied.
pub(super) fn word(bytes: &[u8]) -> std::result::Result<String, ErrorKind> {
    let text = std::str::from_utf8(bytes).map_err(|_| ErrorKind::InvalidData)?;
    let mut word = String::new();
    word.try_reserve_exact(text.len()).map_err(|_| ErrorKind::OutOfMemory)?;
    word.push_str(text);
    Ok(word)
}
