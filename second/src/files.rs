//! The files that cases are written to.

use std::fs;
use std::io;
use std::path::Path;

/// Writes a file, unless it holds just this already. The cases are the same each time, and
/// thousands of small files take longer to write than to read.
pub fn write(path: &Path, bytes: impl AsRef<[u8]>) -> io::Result<()> {
    let bytes = bytes.as_ref();
    if fs::read(path).is_ok_and(|held| held == bytes) {
        return Ok(());
    }
    fs::write(path, bytes)
}
