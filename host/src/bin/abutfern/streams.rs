//! Standard input, output and error as the caller gave them.
//!
//! Before main, Rust opens /dev/null in the place of a stream that is closed, so that a rating
//! written to it would be lost without a word. A look before that tells which were closed.

use std::ffi::c_int;
use std::fs::File;
use std::io::{Error, ErrorKind, Write};
use std::os::fd::AsFd;
use std::sync::atomic::{AtomicBool, Ordering};

static INPUT_CLOSED: AtomicBool = AtomicBool::new(false);
static OUTPUT_CLOSED: AtomicBool = AtomicBool::new(false);

unsafe extern "C" {
    fn fcntl(descriptor: c_int, command: c_int, ...) -> c_int;
}

/// `F_GETFD`, which fails on a descriptor that is closed and changes nothing.
const FLAGS: c_int = 1;

extern "C" fn look() {
    let closed = |descriptor| unsafe { fcntl(descriptor, FLAGS) } == -1;
    INPUT_CLOSED.store(closed(0), Ordering::Relaxed);
    OUTPUT_CLOSED.store(closed(1), Ordering::Relaxed);
}

/// What this section lists is called before main.
#[cfg(target_os = "linux")]
#[used]
#[unsafe(link_section = ".init_array")]
static BEFORE_MAIN: extern "C" fn() = look;

/// Standard input as a file.
pub fn input() -> Result<File, Error> {
    if INPUT_CLOSED.load(Ordering::Relaxed) {
        return Err(Error::other("it is closed"));
    }
    Ok(File::from(std::io::stdin().as_fd().try_clone_to_owned()?))
}

/// Whether standard output is open; says so if not.
pub fn output_is_open() -> bool {
    let closed = OUTPUT_CLOSED.load(Ordering::Relaxed);
    if closed {
        say("standard output is closed: give it a file, a pipe or a terminal");
    }
    !closed
}

/// Writes to standard output; if that fails it says so, unless the reader of a pipe has gone.
pub fn print(text: &str) -> bool {
    match write(text) {
        Ok(()) => return true,
        Err(error) if error.kind() == ErrorKind::BrokenPipe => {}
        Err(error) => say(&format!(
            "standard output could not be written ({error}), and has not all: make room and try again"
        )),
    }
    false
}

/// Past `std::io::Stdout`, which takes a descriptor that cannot be written for a written one.
fn write(text: &str) -> Result<(), Error> {
    let output = std::io::stdout().as_fd().try_clone_to_owned()?;
    File::from(output).write_all(text.as_bytes())
}

/// Writes to standard error, where that can be.
pub fn say(text: &str) {
    let _ = writeln!(std::io::stderr(), "abutfern: {text}");
}
