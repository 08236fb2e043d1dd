//! File names as people see them.

use std::path::Path;

/// The name that stands for standard input.
pub const INPUT: &str = "-";

/// A file's name in a message or a table.
pub fn shown(file: &Path) -> String {
    if file.as_os_str() == INPUT {
        return "standard input".to_string();
    }
    printable(&file.to_string_lossy())
}

/// A text without what would move a terminal's cursor or end a line.
pub fn printable(text: &str) -> String {
    let mut printable = String::new();
    for letter in text.chars() {
        if letter.is_control() {
            printable.extend(letter.escape_default());
        } else {
            printable.push(letter);
        }
    }
    printable
}

#[cfg(test)]
mod tests {
    use super::*;

    #[test]
    fn a_name_stays_on_its_line() {
        assert_eq!(shown(Path::new("-")), "standard input");
        assert_eq!(
            shown(Path::new("a'\"\\ é\n\x1b[2J")),
            "a'\"\\ é\\n\\u{1b}[2J"
        );
    }
}
