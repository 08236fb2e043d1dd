//! A new file that is there whole or not at all. It is written under another name beside its own,
//! which it gets once it is on the disk, and it never takes the place of another file.

use crate::names;
use std::fs::File;
use std::io::{Error, ErrorKind, Write};
use std::path::{Path, PathBuf};

/// A file on its way, under a name that is removed in the end.
struct Part(PathBuf);

impl Drop for Part {
    fn drop(&mut self) {
        let _ = std::fs::remove_file(&self.0);
    }
}

impl Part {
    /// Makes it, beside the file that it is to be.
    fn beside(out: &Path) -> Result<(Self, File), String> {
        let mut name = out.as_os_str().to_os_string();
        name.push(format!(".{}.part", std::process::id()));
        let path = PathBuf::from(name);
        match new(&path) {
            Ok(file) => Ok((Self(path), file)),
            Err(error) if error.kind() == ErrorKind::AlreadyExists => {
                let left = names::shown(&path);
                Err(format!(
                    "cannot be written, {left} is left from an earlier run: remove that and try again"
                ))
            }
            Err(error) => Err(advice(error)),
        }
    }
}

/// Opens a file that is not there yet.
fn new(path: &Path) -> Result<File, Error> {
    File::options().write(true).create_new(true).open(path)
}

/// Whether a file can be made under a name that is still free; the error says what to do.
pub fn can_be(out: &Path) -> Result<(), String> {
    if out.symlink_metadata().is_ok() {
        return Err("exists already; remove it or give another name".to_string());
    }
    Part::beside(out).map(drop)
}

/// Writes the file; the error says what to do, and that nothing is there.
pub fn write(out: &Path, bytes: &[u8]) -> Result<(), String> {
    let (part, mut file) = Part::beside(out)?;
    let written = file.write_all(bytes).and_then(|()| file.sync_all());
    written.map_err(advice)?;
    named(&part.0, out).map_err(|error| match error.kind() {
        ErrorKind::AlreadyExists => APPEARED.to_string(),
        _ => advice(error),
    })?;
    drop(part);
    settled(out);
    Ok(())
}

const APPEARED: &str =
    "has been made by another meanwhile, and is left as it is: give another name and try again";

/// Gives a part its name, unless another file has it.
fn named(part: &Path, out: &Path) -> Result<(), Error> {
    match std::fs::hard_link(part, out) {
        Err(error) if error.kind() != ErrorKind::AlreadyExists => named_without_link(part, out),
        linked => linked,
    }
}

/// The same on a disk that has one name to a file: the name is taken by an empty file first, which
/// fails if another has it, and the part then takes the place of that.
fn named_without_link(part: &Path, out: &Path) -> Result<(), Error> {
    drop(new(out)?);
    std::fs::rename(part, out).inspect_err(|_| {
        let _ = std::fs::remove_file(out);
    })
}

/// Puts the name on the disk too, where a folder can be flushed.
fn settled(out: &Path) {
    let folder = out.parent().filter(|folder| !folder.as_os_str().is_empty());
    let folder = File::open(folder.unwrap_or(Path::new(".")));
    let _ = folder.and_then(|folder| folder.sync_all());
}

/// An error in words, and what to do.
fn advice(error: Error) -> String {
    match error.kind() {
        ErrorKind::NotFound | ErrorKind::NotADirectory => {
            "cannot be written, its folder is not there: make it or give another name".to_string()
        }
        ErrorKind::PermissionDenied => {
            "may not be written: check the permissions of its folder, or give another name"
                .to_string()
        }
        _ => format!(
            "could not be written ({error}), and is not there: make room or give another name, and \
             try again"
        ),
    }
}

#[cfg(test)]
mod tests {
    use super::*;

    /// A folder of its own for a test, removed when it is over.
    struct Room(PathBuf);

    impl Drop for Room {
        fn drop(&mut self) {
            let _ = std::fs::remove_dir_all(&self.0);
        }
    }

    impl Room {
        fn new(name: &str) -> Self {
            let folder = format!("abutfern-{}-{name}", std::process::id());
            let folder = std::env::temp_dir().join(folder);
            std::fs::create_dir(&folder).expect("a temporary folder can be made");
            Self(folder)
        }

        /// The files in it with what they hold.
        fn files(&self) -> Vec<(String, Vec<u8>)> {
            let entries = std::fs::read_dir(&self.0).expect("it can be read");
            let paths = entries.map(|entry| entry.expect("it can be read").path());
            let mut files: Vec<_> = paths.map(|path| (base(&path), held(&path))).collect();
            files.sort();
            files
        }
    }

    fn base(path: &Path) -> String {
        let name = path.file_name().expect("a file has a name");
        name.to_string_lossy().into_owned()
    }

    fn held(path: &Path) -> Vec<u8> {
        std::fs::read(path).expect("it can be read")
    }

    #[test]
    fn a_file_is_written_once() {
        let room = Room::new("once");
        let out = room.0.join("out");
        let expected = [("out".to_string(), b"one".to_vec())];
        assert_eq!(can_be(&out), Ok(()));
        assert_eq!(room.files(), []);
        assert_eq!(write(&out, b"one"), Ok(()));
        assert_eq!(room.files(), expected);
        assert!(can_be(&out).is_err());
        assert_eq!(write(&out, b"two"), Err(APPEARED.to_string()));
        assert_eq!(room.files(), expected);
    }

    #[test]
    fn a_part_that_was_left_is_named_and_kept() {
        let room = Room::new("left");
        let part = format!("out.{}.part", std::process::id());
        std::fs::write(room.0.join(&part), b"old").expect("it can be written");
        let refused = can_be(&room.0.join("out"));
        assert!(refused.is_err_and(|words| words.contains(&part)));
        assert_eq!(room.files(), [(part, b"old".to_vec())]);
    }

    #[test]
    fn a_disk_without_links_is_no_way_round() {
        let room = Room::new("links");
        let (part, out) = (room.0.join("part"), room.0.join("out"));
        std::fs::write(&part, b"one").expect("it can be written");
        assert!(named_without_link(&part, &out).is_ok());
        assert_eq!(room.files(), [("out".to_string(), b"one".to_vec())]);
        std::fs::write(&part, b"two").expect("it can be written");
        let taken = named_without_link(&part, &out).map_err(|error| error.kind());
        assert_eq!(taken, Err(ErrorKind::AlreadyExists));
        assert_eq!(held(&out), b"one");
        std::fs::remove_file(&out).expect("it can be removed");
        let lost = named_without_link(&room.0.join("gone"), &out);
        assert!(lost.is_err() && !out.exists());
    }
}
