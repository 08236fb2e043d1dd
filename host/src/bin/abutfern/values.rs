//! The values that options bring.

use crate::names;
use abutfern::numbers::{ENTROPIES, WIDTHS};
use abutfern::{NAMED_RECORD_KIND, RECORD_KIND};
use std::ffi::{OsStr, OsString};
use std::ops::RangeInclusive;
use std::os::unix::ffi::OsStrExt;
use std::path::PathBuf;

const EMPTY: &str = "its value is empty; is a variable unset?";
const BLANK: &str = ", and a width field that was left empty arrives as 0";
/// The entropies that are taken, in words.
pub const BITS: &str = "1/64 to 8";

/// A word as text, whatever its bytes.
pub fn text(word: &OsStr) -> String {
    word.to_string_lossy().into_owned()
}

/// The number that an option brings, which is to be in a range.
pub fn within(
    option: &str,
    value: Option<OsString>,
    range: RangeInclusive<u8>,
) -> Result<u8, String> {
    let wanted = format!("{option} takes a number from {}", span(&range));
    let value = text(&value.ok_or(format!("{wanted}, and none is given"))?);
    match value.parse() {
        Ok(number) if range.contains(&number) => Ok(number),
        _ if value.is_empty() => Err(format!("{wanted}, and {EMPTY}")),
        _ => Err(format!("{wanted}, not '{}'", names::printable(&value))),
    }
}

/// A range in words.
pub fn span(range: &RangeInclusive<u8>) -> String {
    format!("{} to {}", range.start(), range.end())
}

/// The bits in a symbol, which --width brings.
pub fn symbol_bits(value: Option<OsString>) -> Result<u8, String> {
    let given = value.as_deref().map(text).unwrap_or_default();
    within("--width", value, WIDTHS).map_err(|wrong| no_width(&given).unwrap_or(wrong))
}

/// What is said of a whole number that is no width, which the library refuses with 7; nothing of
/// other words.
fn no_width(given: &str) -> Option<String> {
    let digits = given.strip_prefix('+').unwrap_or(given);
    if digits.is_empty() || !digits.bytes().all(|digit| digit.is_ascii_digit()) {
        return None;
    }
    let zero = digits.bytes().all(|digit| digit == b'0');
    let origin = if zero { BLANK } else { "" };
    Some(format!(
        "{given} is no width (answer 7){origin}: say with --width how many bits a symbol has, {}",
        span(&WIDTHS)
    ))
}

/// The bits of min-entropy per sample, which --entropy brings.
pub fn sample_bits(value: Option<OsString>) -> Result<f64, String> {
    let wanted = format!("--entropy takes a decimal number of bits, {BITS}");
    let value = text(&value.ok_or(format!("{wanted}, and none is given"))?);
    match value.parse() {
        Ok(entropy) if ENTROPIES.contains(&entropy) => Ok(entropy),
        Ok(entropy) => Err(no_entropy(&value, entropy)),
        Err(_) if value.is_empty() => Err(format!("{wanted}, and {EMPTY}")),
        Err(_) => Err(format!("{wanted}, not '{}'", names::printable(&value))),
    }
}

/// What is said of a number that is no entropy to test for, which the library refuses with 5.
fn no_entropy(given: &str, entropy: f64) -> String {
    let origin = match entropy {
        0.0 => ", and 0 is the figure of a board that gives nothing",
        -1.0 => ", and -1 stands where there is no board figure",
        _ => "",
    };
    format!(
        "{given} is no entropy to test for (answer 5){origin}: say with --entropy how many bits of \
         min-entropy a sample has, {BITS}"
    )
}

/// The name of a new file that an option brings. What looks like an option is none.
pub fn new_file(option: &str, value: Option<OsString>) -> Result<PathBuf, String> {
    let wanted = format!("{option} takes the name of a new file");
    let value = value.filter(|value| !value.is_empty());
    let value = value.ok_or(format!("{wanted}, and none is given"))?;
    if value.as_bytes().starts_with(b"-") {
        let value = names::printable(&text(&value));
        return Err(format!(
            "{wanted}, not '{value}'; a file of that name is ./{value}"
        ));
    }
    Ok(value.into())
}

/// The kind of the records, which --kind brings.
pub fn record_kind(value: Option<OsString>) -> Result<u64, String> {
    let wanted = format!(
        "--kind takes {NAMED_RECORD_KIND}, which tells who predicted, or {RECORD_KIND}, for readers \
         that know no other"
    );
    let value = text(&value.ok_or(format!("{wanted}, and none is given"))?);
    match value.parse() {
        Ok(kind @ (RECORD_KIND | NAMED_RECORD_KIND)) => Ok(kind),
        _ if value.is_empty() => Err(format!("{wanted}, and {EMPTY}")),
        _ => Err(format!("{wanted}, not '{}'", names::printable(&value))),
    }
}

#[cfg(test)]
mod tests {
    use super::*;

    /// What is said of a value that is no width.
    fn of_width(value: &str) -> String {
        symbol_bits(Some(value.into())).expect_err(value)
    }

    #[test]
    fn a_whole_number_that_is_no_width_is_told_as_such() {
        for zero in ["0", "0000", "+0"] {
            let start = format!("{zero} is no width (answer 7), and a width field that was left ");
            assert!(of_width(zero).starts_with(&start), "{zero}");
        }
        for many in ["9", "09", "+9", "255", "256", "300", &"7".repeat(40)] {
            let start = format!("{many} is no width (answer 7): say with --width ");
            assert!(of_width(many).starts_with(&start), "{many}");
        }
    }

    #[test]
    fn a_width_that_is_no_whole_number_is_told_otherwise() {
        assert!(of_width("").ends_with(EMPTY));
        for value in [
            "x", "8\n8", "-1", "-0", "1.5", "+", "++0", "300x", "0x8", " 8", "\u{666}",
        ] {
            let said = of_width(value);
            let start = "--width takes a number from 1 to 8, not '";
            assert!(said.starts_with(start), "{said}");
        }
    }

    #[test]
    fn the_widths_that_are_taken_are_those_of_the_library() {
        for width in 0..=255 {
            let taken = symbol_bits(Some(width.to_string().into())) == Ok(width);
            let number = abutfern::bit(&[0], width, 0).number;
            assert_eq!(number, if taken { 0 } else { 7 }, "{width}");
        }
    }

    fn of_entropy(value: &str) -> Result<f64, String> {
        sample_bits(Some(value.into()))
    }

    #[test]
    fn the_entropies_that_are_taken_are_those_of_the_library() {
        let near = [1.0 / 64.0, 1.0, 8.0].map(|near: f64| [near.next_down(), near, near.next_up()]);
        let far = [0.0, -0.0, -1.0, 1e-300, 1e300, f64::INFINITY, f64::NAN];
        for entropy in near.into_iter().flatten().chain(far) {
            let call = of_entropy(&format!("{entropy:?}"));
            let number = abutfern::repetition_cutoff(entropy).number;
            assert_eq!(number, if call.is_ok() { 0 } else { 5 }, "{entropy:?}");
        }
    }

    #[test]
    fn a_number_that_is_no_entropy_is_told_as_such() {
        for (given, origin) in [
            ("0", ", and 0 is the figure of a board that gives nothing"),
            (
                "-0.0",
                ", and 0 is the figure of a board that gives nothing",
            ),
            ("-1", ", and -1 stands where there is no board figure"),
            ("0.015", ""),
            ("8.0000001", ""),
            ("NaN", ""),
            ("-inf", ""),
        ] {
            let start = format!("{given} is no entropy to test for (answer 5){origin}: say with ");
            let said = of_entropy(given).expect_err(given);
            assert!(said.starts_with(&start), "{said}");
        }
    }

    #[test]
    fn an_entropy_that_is_no_number_is_told_otherwise() {
        assert!(of_entropy("").is_err_and(|said| said.ends_with(EMPTY)));
        for value in ["x", "1/64", "1,5", " 1", "2\n", "0x1", "1 bit"] {
            let said = of_entropy(value).expect_err(value);
            let start = "--entropy takes a decimal number of bits, 1/64 to 8, not '";
            assert!(said.starts_with(start), "{said}");
        }
    }

    #[test]
    fn a_kind_is_1_or_2() {
        let of = |value: &str| record_kind(Some(value.into()));
        assert_eq!([of("1"), of("2")], [Ok(1), Ok(2)]);
        assert!(of("").is_err_and(|said| said.ends_with(EMPTY)));
        assert!(record_kind(None).is_err_and(|said| said.ends_with("and none is given")));
        for value in ["0", "3", "-1", "1.0", "x", "12", "1,2", " 1", "2\n", "257"] {
            let said = of(value).expect_err(value);
            let end = format!(", not '{}'", names::printable(value));
            assert!(
                said.starts_with("--kind takes 2, which ") && said.ends_with(&end),
                "{said}"
            );
        }
    }
}
