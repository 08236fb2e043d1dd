//! A folder of its own for a test, and the command run in it.

use crate::strict;
use std::fs::Permissions;
use std::os::unix::fs::PermissionsExt;
use std::path::{Path, PathBuf};
use std::process::{Command, Output, Stdio};

/// A folder that is removed when the test is over.
pub struct Room(PathBuf);

impl Drop for Room {
    fn drop(&mut self) {
        let _ = std::fs::remove_dir_all(&self.0);
    }
}

/// What a run of the command left.
#[derive(Debug, PartialEq)]
pub struct Outcome {
    pub status: i32,
    pub stdout: String,
    pub stderr: String,
}

impl Room {
    /// A new folder, which every user can read. A name serves one test.
    pub fn new(name: &str) -> Self {
        let folder = format!("abutfern-{}-{name}", std::process::id());
        let room = Self(std::env::temp_dir().join(folder));
        std::fs::create_dir(&room.0).expect("a temporary folder can be made");
        std::fs::set_permissions(&room.0, Permissions::from_mode(0o755)).expect("its mode is set");
        room
    }

    /// The path of something in it.
    pub fn path(&self, name: &str) -> PathBuf {
        self.0.join(name)
    }

    /// Writes a file.
    pub fn file(&self, name: &str, bytes: &[u8]) {
        std::fs::write(self.path(name), bytes).expect("a temporary file can be written");
    }

    /// The command, to be run in the folder. Standard input is empty.
    pub fn command(&self, words: &[&str]) -> Command {
        let mut command = Command::new(env!("CARGO_BIN_EXE_abutfern"));
        command
            .args(words)
            .current_dir(&self.0)
            .stdin(Stdio::null());
        command
    }

    /// Runs the command.
    pub fn run(&self, words: &[&str]) -> Outcome {
        outcome(&mut self.command(words))
    }

    /// Runs the command through a shell, in which it is `"$0" "$@"`.
    pub fn shell(&self, line: &str, words: &[&str]) -> Outcome {
        let mut shell = Command::new("sh");
        shell.args(["-c", line, env!("CARGO_BIN_EXE_abutfern")]);
        outcome(shell.args(words).current_dir(&self.0).stdin(Stdio::null()))
    }
}

/// Runs a command to its end; what it writes as JSON is read by a strict reader.
pub fn outcome(command: &mut Command) -> Outcome {
    let output = command.output().expect("the command can be started");
    let json = command.get_args().any(|word| word == "--json");
    let outcome = told(output);
    if json {
        strict::read(&outcome.stdout);
    }
    outcome
}

/// An output in text.
pub fn told(output: Output) -> Outcome {
    let text = |bytes| String::from_utf8(bytes).expect("the command writes UTF-8");
    Outcome {
        status: output.status.code().expect("the command is not killed"),
        stdout: text(output.stdout),
        stderr: text(output.stderr),
    }
}

/// The folder of the repository.
pub fn repository() -> PathBuf {
    let package = Path::new(env!("CARGO_MANIFEST_DIR"));
    let repository = package.parent();
    repository.expect("the package stands in it").to_path_buf()
}

/// A page of the repository.
pub fn page(name: &str) -> String {
    let path = repository().join(name);
    std::fs::read_to_string(&path).unwrap_or_else(|error| panic!("{}: {error}", path.display()))
}

/// The sample capture.
pub fn sample() -> Vec<u8> {
    let path = repository().join("sample/board-17.bin");
    std::fs::read(path).expect("sample/board-17.bin can be read")
}

/// A text that is expected, of tests/data/.
pub fn stored(name: &str) -> String {
    let path = Path::new(env!("CARGO_MANIFEST_DIR"))
        .join("tests/data")
        .join(name);
    std::fs::read_to_string(&path).unwrap_or_else(|error| panic!("{}: {error}", path.display()))
}
