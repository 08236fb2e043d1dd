//! A terminal of the test's own.

use std::ffi::{CStr, c_char, c_int};
use std::fs::File;
use std::io::Read;
use std::os::fd::{AsRawFd, FromRawFd};
use std::path::PathBuf;

unsafe extern "C" {
    fn posix_openpt(flags: c_int) -> c_int;
    fn grantpt(descriptor: c_int) -> c_int;
    fn unlockpt(descriptor: c_int) -> c_int;
    fn ptsname_r(descriptor: c_int, name: *mut c_char, length: usize) -> c_int;
}

/// `O_RDWR | O_NOCTTY | O_CLOEXEC` of Linux.
const READ_AND_WRITE: c_int = 0o2_000_402;

/// The end at which one sees what the other end's program writes.
pub struct Terminal(File);

impl Terminal {
    /// A new one; none where the system gives none.
    pub fn new() -> Option<Self> {
        let descriptor = unsafe { posix_openpt(READ_AND_WRITE) };
        if descriptor < 0 {
            return None;
        }
        // SAFETY: the descriptor is new, and nothing else has it.
        let terminal = Self(unsafe { File::from_raw_fd(descriptor) });
        let opened = unsafe { grantpt(descriptor) == 0 && unlockpt(descriptor) == 0 };
        opened.then_some(terminal)
    }

    /// The end for a program.
    pub fn own_end(&self) -> File {
        let mut name = [0; 64];
        let found = unsafe { ptsname_r(self.0.as_raw_fd(), name.as_mut_ptr(), name.len()) };
        assert_eq!(found, 0, "a terminal has a name");
        // SAFETY: `ptsname_r` ends the name with a zero byte.
        let name = unsafe { CStr::from_ptr(name.as_ptr()) };
        let path = PathBuf::from(name.to_str().expect("its name is plain"));
        let end = File::options().read(true).write(true).open(path);
        end.expect("a terminal can be opened")
    }

    /// All that programs write until the last has closed its end.
    pub fn read(mut self) -> String {
        let mut seen = Vec::new();
        // Linux ends this with an error, which leaves what was read.
        let _ = self.0.read_to_end(&mut seen);
        String::from_utf8(seen).expect("the command writes UTF-8")
    }
}
