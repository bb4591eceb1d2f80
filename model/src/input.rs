//! The files that the programs read.

use std::fs::File;
use std::io::Read;

/// The first bytes of a file, at most so many; a missing file counts as empty.
pub fn first_bytes(path: &str, most: usize) -> Vec<u8> {
    let mut bytes = vec![];
    if let Ok(file) = File::open(path) {
        let _ = file.take(most as u64).read_to_end(&mut bytes);
    }
    bytes
}
