//! Writes the fixed list of the Rust's answers: `sample FOLDER` makes FOLDER/answers.bin, which a
//! program replays, and FOLDER/general.bin, whose captures need the general store and which the
//! judge replays (`judge --replay FILE`). The list is made from the Rust alone, from fixed seeds;
//! the last bits of the Rust's logarithms and powers are those of the machine's C library.
//!
//! answers.bin has fewer than 524,288 bytes, and no capture of more than 16,384 symbols.
//!
//! A file is a row of cases up to its end, all numbers little-endian. A case:
//!
//! | at | bytes | |
//! |---|---|---|
//! | 0 | 1 | kind, below |
//! | 1 | 1 | shape of the capture: 0 to 4 by rule, 255 stored |
//! | 2 | 1 | width |
//! | 3 | 1 | checks: 1 if p_global' has the Rust's bits (else within 1e-9), plus 2 if p_local and min-entropy are within 1e-6 (else not compared) |
//! | 4 | 4 | values of the capture's rule |
//! | 8 | 4 | length of the capture in symbols |
//! | 12 | 4 | seed of the capture's rule |
//! | 16 | 4 | E, the number of expected bytes |
//! | 20 | 4 | W, the number of words |
//! | 24 | 8 W | words, floats by their bits |
//! | | | the capture, if its shape is 255 |
//! | | E | expected bytes |
//!
//! Kinds, with their words and expected bytes:
//!
//! | kind | words | expected |
//! |---|---|---|
//! | 1 bit | none | every bit of the capture at the width, a byte each |
//! | 2 dense_alphabet | size | translated capture |
//! | 3 value_sorted_alphabet | size | translated capture |
//! | 4 rel_epsilon_equal | a, b, max_abs_factor, max_rel_factor, max_ulp, 1 for yes | |
//! | 5 sqrt | x, root: same bits, or both not a number | |
//! | 6 ln | x, logarithm: at most 4 units in the last place away, not a number and infinities the same | |
//! | 7 power | x, n, power: the exact value is a double, so same bits | |
//! | 8 min_entropy | p, -log2 p: within 1e-6 | |
//! | 9 prediction_estimate | C, N, run, k, then the answer | |
//! | 10 calc_p_local | run, N, ldomain, p_local: within 1e-6 | |
//! | 11 multi_mcw | the answer | |
//! | 12 multi_mcw_literal | the answer | |
//! | 13 multi_mmc | the answer | |
//! | 14 multi_mmc_literal, at most two values | the answer | |
//! | 15 multi_mmc_literal, more values (general.bin) | the answer | |
//!
//! The answer is nine words: number (0, or 6 where the Rust did not run), C, N, longest run, k,
//! p_global (same bits), p_global', p_local, min-entropy. A number of 6 has zeros and four -1.0.
//! Who predicted is not in the list, since the Rust does not say it.
//!
//! A capture by rule has `length` symbols. The state starts as the seed; each draw makes it
//! state * 48,271 modulo 2,147,483,647 and gives it divided by 128 (whole part). Each place draws
//! r, then s, and its symbol is, by shape:
//!
//! | shape | symbol |
//! |---|---|
//! | 0 | s modulo values |
//! | 1 | 0 if r modulo 16 is below 12, else s modulo values |
//! | 2 | the symbol before (0 at first) if r modulo 16 is below 14, else s modulo values |
//! | 3 | place modulo values |
//! | 4 | place modulo values if r modulo 16 is below 15, else s modulo values |

#[cfg(has_reference)]
mod list;

fn main() {
    let mut words = std::env::args().skip(1);
    match (words.next(), words.next()) {
        (Some(folder), None) if folder != "--help" => write(folder.as_ref()),
        _ => println!("sample FOLDER: write answers.bin and general.bin, the Rust's answers"),
    }
}

#[cfg(has_reference)]
fn write(folder: &std::path::Path) {
    for (name, bytes) in [
        ("answers.bin", list::answers()),
        ("general.bin", list::general()),
    ] {
        let path = folder.join(name);
        match std::fs::write(&path, &bytes) {
            Ok(()) => println!("{}: {} bytes", path.display(), bytes.len()),
            Err(error) => {
                eprintln!("sample: {}: {error}", path.display());
                std::process::exit(1);
            }
        }
    }
}

#[cfg(not(has_reference))]
fn write(_: &std::path::Path) {
    eprintln!("sample: the Rust's sources were not at hand when this was built");
    std::process::exit(1);
}
