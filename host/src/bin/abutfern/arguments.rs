//! The command line.

use crate::names;
use crate::values::{BITS, new_file, record_kind, sample_bits, span, symbol_bits, text, within};
use abutfern::NAMED_RECORD_KIND;
use abutfern::numbers::WIDTHS;
use std::ffi::{OsStr, OsString};
use std::os::unix::ffi::OsStrExt;
use std::path::PathBuf;

/// What the caller wants.
#[derive(Debug, PartialEq)]
pub enum Call {
    Help,
    Version,
    Rate(Rate),
    Show(Show),
    Health(Health),
}

/// Files to rate, and how.
#[derive(Debug, PartialEq)]
pub struct Rate {
    pub files: Vec<PathBuf>,
    pub width: u8,
    pub json: bool,
    pub jobs: usize,
    pub records: Option<Out>,
}

/// Where the records go, and of which kind they are.
#[derive(Debug, PartialEq)]
pub struct Out {
    pub file: PathBuf,
    pub kind: u64,
}

/// Files of records to show, and how.
#[derive(Debug, PartialEq)]
pub struct Show {
    pub files: Vec<PathBuf>,
    pub json: bool,
}

/// Captures to run the repetition count test over, and how.
#[derive(Debug, PartialEq)]
pub struct Health {
    pub files: Vec<PathBuf>,
    /// Bits of min-entropy per sample.
    pub entropy: f64,
    pub json: bool,
}

/// Reads the words of the command line; the error says in one line what is wrong with them.
pub fn read(words: impl Iterator<Item = OsString>) -> Result<Call, String> {
    let words: Vec<OsString> = words.collect();
    let mut options = words.iter().take_while(|word| *word != "--");
    let asked = options.find_map(|word| match word.to_str() {
        Some("--help" | "-h") => Some(Call::Help),
        Some("--version" | "-V") => Some(Call::Version),
        _ => None,
    });
    match (asked, words.split_first()) {
        (Some(call), _) => Ok(call),
        (None, None) => Ok(Call::Help),
        (None, Some((first, rest))) if first == "rate" => rate(rest).map(Call::Rate),
        (None, Some((first, rest))) if first == "show" => show(rest).map(Call::Show),
        (None, Some((first, rest))) if first == "health" => health(rest).map(Call::Health),
        (None, Some((first, _))) => {
            let first = names::printable(&first.to_string_lossy());
            Err(format!(
                "{first} is no command; the commands are rate, show and health"
            ))
        }
    }
}

fn rate(words: &[OsString]) -> Result<Rate, String> {
    let mut files: Vec<PathBuf> = Vec::new();
    let (mut width, mut json, mut jobs) = (None, false, 2);
    let (mut records, mut kind) = (None, None);
    let mut words = words.iter();
    while let Some(word) = words.next() {
        let Some((option, own)) = option(word) else {
            files.push(word.into());
            continue;
        };
        let mut value = || own.clone().or_else(|| words.next().cloned());
        match option.as_str() {
            "--width" => width = Some(symbol_bits(value())?),
            "--jobs" => jobs = within("--jobs", value(), 1..=64)?.into(),
            "--records" if records.is_some() => return Err(TWO_ROWS.to_string()),
            "--records" => records = Some(new_file("--records", value())?),
            "--kind" => kind = Some(record_kind(value())?),
            "--json" if own.is_none() => json = true,
            "--" if own.is_none() => files.extend(words.by_ref().map(PathBuf::from)),
            "--json" => return Err(NO_VALUE.to_string()),
            _ => return Err(unknown(&option)),
        }
    }
    named(&files, "no capture file is named")?;
    let missing = || {
        format!(
            "the bits in a symbol are missing: --width W, {}",
            span(&WIDTHS)
        )
    };
    let width = width.ok_or_else(missing)?;
    Ok(Rate {
        files,
        width,
        json,
        jobs,
        records: out(records, kind)?,
    })
}

/// The file of records with their kind, where one is asked for.
fn out(file: Option<PathBuf>, kind: Option<u64>) -> Result<Option<Out>, String> {
    if file.is_none() && kind.is_some() {
        return Err(NO_RECORDS.to_string());
    }
    let kind = kind.unwrap_or(NAMED_RECORD_KIND);
    Ok(file.map(|file| Out { file, kind }))
}

fn show(words: &[OsString]) -> Result<Show, String> {
    let mut files: Vec<PathBuf> = Vec::new();
    let mut json = false;
    let mut words = words.iter();
    while let Some(word) = words.next() {
        match option(word) {
            None => files.push(word.into()),
            Some((option, own)) => match (option.as_str(), own) {
                ("--json", None) => json = true,
                ("--", None) => files.extend(words.by_ref().map(PathBuf::from)),
                ("--json", Some(_)) => return Err(NO_VALUE.to_string()),
                _ => return Err(unknown(&option)),
            },
        }
    }
    named(&files, "no file of records is named")?;
    Ok(Show { files, json })
}

fn health(words: &[OsString]) -> Result<Health, String> {
    let mut files: Vec<PathBuf> = Vec::new();
    let (mut entropy, mut json) = (None, false);
    let mut words = words.iter();
    while let Some(word) = words.next() {
        let Some((option, own)) = option(word) else {
            files.push(word.into());
            continue;
        };
        match option.as_str() {
            "--entropy" => entropy = Some(sample_bits(own.or_else(|| words.next().cloned()))?),
            "--json" if own.is_none() => json = true,
            "--" if own.is_none() => files.extend(words.by_ref().map(PathBuf::from)),
            "--json" => return Err(NO_VALUE.to_string()),
            _ => return Err(unknown(&option)),
        }
    }
    named(&files, "no capture file is named")?;
    let entropy = entropy.ok_or(format!(
        "the entropy of a sample is missing: --entropy H, in bits, {BITS}"
    ))?;
    Ok(Health {
        files,
        entropy,
        json,
    })
}

const NO_VALUE: &str = "--json takes no value";
const TWO_ROWS: &str = "--records is given twice: all records go to one file";
const NO_RECORDS: &str = "--kind is of the records, and none are asked for: \
                          say with --records where they go, or leave --kind out";

/// An option and the value that follows it after `=`; none where the word is a file's name.
fn option(word: &OsStr) -> Option<(String, Option<OsString>)> {
    let bytes = word.as_bytes();
    if !bytes.starts_with(b"-") || word == names::INPUT {
        return None;
    }
    let part = |bytes| OsStr::from_bytes(bytes).to_os_string();
    match bytes.iter().position(|byte| *byte == b'=') {
        Some(i) => Some((text(&part(&bytes[..i])), Some(part(&bytes[i + 1..])))),
        None => Some((text(word), None)),
    }
}

fn unknown(option: &str) -> String {
    let option = names::printable(option);
    if option.starts_with("--") {
        format!("{option} is not known")
    } else {
        format!("{option} is not known; a file of that name is ./{option}")
    }
}

/// Whether there are files, each with a name, and standard input at most once.
fn named(files: &[PathBuf], none: &str) -> Result<(), String> {
    let count = |name: &str| files.iter().filter(|file| file.as_os_str() == name).count();
    if files.is_empty() {
        return Err(none.to_string());
    }
    if count("") > 0 {
        return Err("a file's name is empty; is a variable unset?".to_string());
    }
    if count(names::INPUT) > 1 {
        return Err("- is standard input, which can be read once: name it once".to_string());
    }
    Ok(())
}

#[cfg(test)]
mod tests {
    use super::*;

    fn read_line(line: &str) -> Result<Call, String> {
        read(line.split_whitespace().map(OsString::from))
    }

    fn expected(files: &[&str], width: u8, json: bool, jobs: usize) -> Result<Call, String> {
        let files = files.iter().map(PathBuf::from).collect();
        Ok(Call::Rate(Rate {
            files,
            width,
            json,
            jobs,
            records: None,
        }))
    }

    #[test]
    fn a_call_is_read() {
        let call = read_line("rate a.bin --width 4 b.bin --json --jobs 3");
        assert_eq!(call, expected(&["a.bin", "b.bin"], 4, true, 3));
        let call = read_line("rate --width=8 --jobs=64 - a=b.bin");
        assert_eq!(call, expected(&["-", "a=b.bin"], 8, false, 64));
        let call = read_line("rate --width 1 -- --help --json=1 -x");
        assert_eq!(call, expected(&["--help", "--json=1", "-x"], 1, false, 2));
    }

    #[test]
    fn records_go_to_a_file_and_are_shown() {
        for (line, kind) in [
            ("rate a --width 4 --records b=c", 2),
            ("rate --records=b=c --width=4 a", 2),
            ("rate --kind 1 --records=b=c --width=4 a", 1),
            ("rate a --width 4 --records b=c --kind=2", 2),
        ] {
            let Ok(Call::Rate(call)) = read_line(line) else {
                panic!("{line}");
            };
            let file = "b=c".into();
            assert_eq!(call.files, [PathBuf::from("a")]);
            assert_eq!(call.records, Some(Out { file, kind }));
        }
        let shown = |files: &[&str], json| {
            let files = files.iter().map(PathBuf::from).collect();
            Ok(Call::Show(Show { files, json }))
        };
        assert_eq!(read_line("show a - --json"), shown(&["a", "-"], true));
        assert_eq!(read_line("show -- --json"), shown(&["--json"], false));
    }

    #[test]
    fn a_call_for_the_test_is_read() {
        let tested = |files: &[&str], entropy, json| {
            let files = files.iter().map(PathBuf::from).collect();
            Ok(Call::Health(Health {
                files,
                entropy,
                json,
            }))
        };
        let call = read_line("health a - --entropy 2.5 --json");
        assert_eq!(call, tested(&["a", "-"], 2.5, true));
        let call = read_line("health --entropy=1e0 -- --json");
        assert_eq!(call, tested(&["--json"], 1.0, false));
    }

    #[test]
    fn a_name_that_is_no_utf_8_stays_as_it_is() {
        let name = OsStr::from_bytes(b"--records=\xff.rec").to_os_string();
        let words = ["rate", "a", "--width=8"].map(OsString::from);
        let Ok(Call::Rate(call)) = read(words.into_iter().chain([name])) else {
            panic!("the call is read");
        };
        let records = call.records.expect("a name is given");
        assert_eq!(records.file.as_os_str().as_bytes(), b"\xff.rec");
    }

    #[test]
    fn help_and_version_are_asked_for_anywhere() {
        assert_eq!(read_line(""), Ok(Call::Help));
        assert_eq!(read_line("rate --help"), Ok(Call::Help));
        assert_eq!(read_line("-V"), Ok(Call::Version));
        assert_eq!(read_line("rate --version --help"), Ok(Call::Version));
    }

    #[test]
    fn a_wrong_call_is_refused() {
        for line in [
            "frob",
            "rate",
            "rate a.bin",
            "rate --width 8",
            "rate a.bin --width",
            "rate a.bin --width x",
            "rate a.bin --width 8 --jobs 0",
            "rate a.bin --width 8 --frob",
            "rate a.bin --width 8 --json=yes",
            "rate a.bin -w 8",
            "rate - - --width 8",
            "rate a.bin --width 8 --records",
            "rate a.bin --width 8 --records=",
            "rate a.bin --width 8 --records -",
            "rate a.bin --width 8 --records --json",
            "rate a.bin --width 8 --records b --records c",
            "rate a.bin --width 8 --records b --kind",
            "rate a.bin --width 8 --records b --kind 3",
            "rate a.bin --width 8 --kind 1",
            "show",
            "show - -",
            "show a.rec --width 8",
            "show a.rec --json=yes",
            "show a.rec --records b",
            "show a.rec --kind 1",
            "health",
            "health a.bin",
            "health --entropy 1",
            "health a.bin --entropy",
            "health a.bin --entropy x",
            "health - - --entropy 1",
            "health a.bin --entropy 1 --json=yes",
            "health a.bin --entropy 1 --width 8",
            "health a.bin --entropy 1 --records b",
            "rate a.bin --entropy 1",
        ] {
            assert!(read_line(line).is_err(), "{line}");
        }
    }
}
