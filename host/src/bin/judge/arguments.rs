//! The judge's command line.

/// What `judge --help` prints.
pub const HELP: &str = "\
judge: compare the proved library with the Rust that it was ported from

  judge [--seconds N] [--only FAMILY] [--seed S]
  judge --replay FILE [--replay FILE ..]

  --seconds N     how long to compare (default 60), shared by the families
  --only FAMILY   one family: capture, real, prediction, mcw, mmc, rules, board, records,
                  repetition or states
  --seed S        another random sequence (default 1)
  --replay FILE   replay a list of the Rust's answers instead, which `sample` wrote; the Rust's
                  sources are not needed for that

One line for each kind of case says how many were compared and how many differ, with the first
that do. The exit status is 0 if none differ, 1 if any, 2 for a wrong call.
";

/// What the caller asked for.
#[cfg_attr(not(has_reference), allow(dead_code))]
pub struct Arguments {
    pub seconds: f64,
    pub only: Option<String>,
    pub seed: u64,
    pub replay: Vec<String>,
}

/// Reads the words of the command line; None asks for help.
pub fn read(mut words: impl Iterator<Item = String>) -> Result<Option<Arguments>, String> {
    let mut arguments = Arguments {
        seconds: 60.0,
        only: None,
        seed: 1,
        replay: Vec::new(),
    };
    while let Some(word) = words.next() {
        if word == "--help" || word == "-h" {
            return Ok(None);
        }
        let value = words.next().ok_or(format!("{word} needs a value"))?;
        match word.as_str() {
            "--seconds" => arguments.seconds = number(&value)?,
            "--only" => arguments.only = Some(value),
            "--seed" => arguments.seed = number(&value)?,
            "--replay" => arguments.replay.push(value),
            _ => return Err(format!("{word} is not known")),
        }
    }
    Ok(Some(arguments))
}

fn number<T: std::str::FromStr>(word: &str) -> Result<T, String> {
    word.parse().map_err(|_| format!("{word} is not a number"))
}
