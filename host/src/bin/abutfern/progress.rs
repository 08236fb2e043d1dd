//! One line on a terminal that says what is being rated; nothing where standard error is none.

use std::io::{IsTerminal, Write};
use std::sync::Mutex;

/// The most letters of the line, so that it stays one on a narrow terminal.
const MOST: usize = 79;

/// The line, shared by those who rate.
pub struct Progress {
    state: Option<Mutex<State>>,
}

struct State {
    all: usize,
    done: usize,
    /// What each of those who rate is at.
    now: Vec<String>,
}

impl Progress {
    /// A line for some files and some who rate them.
    pub fn new(all: usize, jobs: usize) -> Self {
        let state = State {
            all,
            done: 0,
            now: vec![String::new(); jobs],
        };
        let shown = std::io::stderr().is_terminal();
        Self {
            state: shown.then(|| Mutex::new(state)),
        }
    }

    /// Says what one of them is at.
    pub fn at(&self, job: usize, what: String) {
        self.change(|state| state.now[job] = what);
    }

    /// Says that one of them has done a file.
    pub fn done(&self, job: usize) {
        self.change(|state| {
            state.now[job].clear();
            state.done += 1;
        });
    }

    /// Clears the line and keeps it clear while something else is printed.
    pub fn aside<T>(&self, print: impl FnOnce() -> T) -> T {
        let held = self.state.as_ref().map(Mutex::lock);
        if held.is_some() {
            draw("");
        }
        print()
    }

    fn change(&self, change: impl FnOnce(&mut State)) {
        let Some(state) = &self.state else { return };
        let Ok(mut state) = state.lock() else { return };
        change(&mut state);
        let now: Vec<&str> = state.now.iter().map(String::as_str).collect();
        let now: Vec<&str> = now.into_iter().filter(|what| !what.is_empty()).collect();
        let line = format!("{} of {} rated; {}", state.done, state.all, now.join(", "));
        draw(&line.chars().take(MOST).collect::<String>());
    }
}

/// Writes a line in the place of the one before, where that can be.
fn draw(line: &str) {
    let mut terminal = std::io::stderr();
    let _ = write!(terminal, "\r\x1b[K{line}").and_then(|()| terminal.flush());
}
