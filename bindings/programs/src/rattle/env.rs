//! The words of the call.

use super::{HostRuntime, String};
use std::io;

/// Returns the words of the call, with the program's name.
///
/// # Errors
/// Returns an error if a word is not UTF-8.
pub fn args(_: &HostRuntime) -> io::Result<impl Iterator<Item = String>> {
    let words: Result<std::vec::Vec<_>, _> = std::env::args_os().map(|word| word.into_string()).collect();
    match words {
        Ok(words) => Ok(words.into_iter().map(String::from)),
        Err(_) => Err(io::ErrorKind::InvalidData.into()),
    }
}
