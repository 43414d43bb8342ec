//! What the examples share, and the tests with them.

use checkraven::NO_OWN;
use std::fs;
use std::io::ErrorKind;
use std::path::Path;

/// The own book of a works; where there is no such file, one without rows. One
/// that cannot be read counts as empty, so that it is refused and not passed over.
pub fn own_book(path: impl AsRef<Path>) -> Vec<u8> {
    match fs::read(path) {
        Err(error) if error.kind() == ErrorKind::NotFound => NO_OWN.to_vec(),
        read => read.unwrap_or_default(),
    }
}
