//! What is read and written.

use mbelaguy::{pack, Names};
use std::fs::{self, File};
use std::io::{self, Read, Write};
use std::path::Path;

/// Whoever reads the text may stop before its end.
pub fn print(text: &str) -> io::Result<()> {
    match io::stdout().write_all(text.as_bytes()) {
        Err(error) if error.kind() == io::ErrorKind::BrokenPipe => Ok(()),
        written => written,
    }
}

/// Names and pack of a file.
pub fn read(file: &Path) -> io::Result<Vec<u8>> {
    File::open(file).and_then(read_from)
}

/// Names and pack. What is longer is refused, so that no more is read than shows it.
pub fn read_from(input: impl Read) -> io::Result<Vec<u8>> {
    let mut bytes = Vec::new();
    input.take((Names::BYTES + pack::MAX_BYTES + 1) as u64).read_to_end(&mut bytes)?;
    Ok(bytes)
}

/// Writes a file, but never over a pack: with no name behind `--html` or `--csv` the first pack would
/// stand in its place.
pub fn write(path: &str, text: &str) -> io::Result<()> {
    let is_file = fs::metadata(path).is_ok_and(|known| known.is_file());
    if is_file && fs::read(path).is_ok_and(|bytes| bytes.ends_with(&pack::MARK)) {
        return Err(io::Error::other(format!("{path} is a pack, and is not written over")));
    }
    fs::write(path, text).map_err(|error| named(path, error))
}

pub fn named(file: &str, error: io::Error) -> io::Error {
    io::Error::new(error.kind(), format!("{file}: {error}"))
}

/// The file's name without its folder and ending.
pub fn title(file: &str) -> String {
    match Path::new(file).file_stem() {
        Some(stem) if file != "-" => stem.to_string_lossy().into_owned(),
        _ => "pack".to_string(),
    }
}
