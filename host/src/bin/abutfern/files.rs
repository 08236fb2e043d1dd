//! Opens and reads files, and says what to do where that fails.

use crate::{names, streams};
use abutfern::numbers::SYMBOL_LIMIT;
use std::fs::{File, Metadata};
use std::io::{Error, ErrorKind, Read};
use std::path::Path;

/// A capture as it was read: of one too long, a symbol more than the limit.
pub struct Capture {
    pub symbols: Vec<u8>,
    /// The symbols in the file. Of one too long that is no plain file, those that were read.
    pub length: u64,
}

/// Reads a capture file, or standard input.
pub fn read(path: &Path) -> Result<Capture, String> {
    let (file, data) = open(path, "capture files")?;
    let most = SYMBOL_LIMIT as u64 + 1;
    let mut symbols = Vec::new();
    symbols.reserve_exact(data.len().min(most) as usize);
    file.take(most).read_to_end(&mut symbols).map_err(advice)?;
    let mut length = symbols.len() as u64;
    if length == most {
        length = data.len().max(most);
    }
    Ok(Capture { symbols, length })
}

/// Opens a file of the `wanted`, or standard input.
pub fn open(path: &Path, wanted: &str) -> Result<(File, Metadata), String> {
    let file = if path.as_os_str() == names::INPUT {
        streams::input()
    } else {
        File::open(path)
    };
    let file = file.map_err(advice)?;
    let data = file.metadata().map_err(advice)?;
    if data.is_dir() {
        return Err(format!("is a folder: name the {wanted} in it"));
    }
    Ok((file, data))
}

/// An error in words, and what to do.
pub fn advice(error: Error) -> String {
    match error.kind() {
        ErrorKind::NotFound => "is not there: check the name and the folder".to_string(),
        ErrorKind::PermissionDenied => "may not be read: check its permissions".to_string(),
        _ => format!("could not be read ({error}): check where it comes from and try again"),
    }
}
