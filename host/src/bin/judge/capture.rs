//! The bit reader and the two translators.

use crate::captures::{
    TRIED, damage, described, digits, random_bits, random_capture, refusable, some_width,
};
use crate::lent::{Lent, bytes};
use crate::plain;
use crate::tally::{Clock, Tally, spread};
use abutfern::numbers::SYMBOL_LIMIT;
use abutfern::random::Random;
use abutfern::{Alphabet, BitRead, exported, reference};

/// Judges what of the family exists; returns how many differ.
pub fn judge(clock: Clock, random: &mut Random) -> u64 {
    let mut differ = 0;
    if exported("bit") {
        differ += short_bits(clock.part(6)) + random_bit(clock.part(5), random);
        differ += every_width(random);
    }
    for translator in [DENSE, SORTED] {
        if exported(translator.name) {
            differ += short_translations(&translator, clock.part(4), random);
            differ += random_translations(&translator, clock.part(3), random);
        }
    }
    differ + limit()
}

/// Every capture of up to three of these symbols, every width, every bit and two past the end.
fn short_bits(clock: Clock) -> u64 {
    const SYMBOLS: [u8; 10] = [0, 1, 2, 3, 0x55, 0x80, 0xa9, 0xc8, 0xfe, 0xff];
    let mut tally = Tally::new("bit: every capture of 0 to 3 symbols out of ten");
    'all: for length in 0..=3u32 {
        for number in spread(10u64.pow(length)) {
            let symbols = digits(number, 10, length as usize);
            let symbols: Vec<u8> = symbols.iter().map(|i| SYMBOLS[usize::from(*i)]).collect();
            for width in TRIED {
                read_all(&symbols, width, &mut tally);
            }
            if clock.over() {
                break 'all;
            }
        }
    }
    tally.close()
}

fn random_bit(clock: Clock, random: &mut Random) -> u64 {
    let mut tally = Tally::new("bit: random captures of 0 to 600 symbols");
    for () in clock.turns() {
        let length = random.index(600);
        let width = some_width(random);
        let mut symbols = if width < 2 {
            random_bits(length, random)
        } else {
            random_capture(length, random)
        };
        read_all(&symbols, width, &mut tally);
        damage(&mut symbols, random);
        read_all(&symbols, width, &mut tally);
    }
    tally.close()
}

/// Every width, beside the other reasons to refuse: a capture that is too long, a bit past its end,
/// a symbol above 1.
fn every_width(random: &mut Random) -> u64 {
    let mut tally = Tally::new("bit: every width, beside the other refusals");
    for symbols in refusable(random) {
        let length = symbols.len() as u64;
        let last = length.saturating_sub(1);
        for width in 0..=u8::MAX {
            let bits = rust_bits(&symbols, width);
            let end = length * u64::from(width);
            for i in [0, last, length, 8 * last, 8 * length, end, u64::MAX] {
                read(&symbols, width, i, &bits, &mut tally);
            }
        }
    }
    tally.close()
}

/// Compares every bit of a capture, and some past its end. Where the width is refused, the end is
/// that of the symbols.
fn read_all(symbols: &[u8], width: u8, tally: &mut Tally) {
    let bits = rust_bits(symbols, width);
    let end = bits.len().max(symbols.len()) as u64;
    let past = [end + 1, end + 7, 1 << 32, u64::MAX];
    for i in (0..=end).chain(past) {
        read(symbols, width, i, &bits, tally);
    }
}

/// The Rust's bits of a capture, or none where all of them are refused.
fn rust_bits(symbols: &[u8], width: u8) -> Vec<u8> {
    match plain::bit(symbols, width, 0) {
        Some((1 | 7, _)) => Vec::new(),
        _ => reference::bitstring(symbols, width),
    }
}

/// Compares one bit of a capture; `bits` are the Rust's.
fn read(symbols: &[u8], width: u8, i: u64, bits: &[u8], tally: &mut Tally) {
    let expected = match plain::bit(symbols, width, i) {
        Some((number, place)) => BitRead {
            number,
            place,
            bit: 0,
        },
        None => BitRead {
            number: 0,
            place: 0,
            bit: bits[i as usize].into(),
        },
    };
    let ours = abutfern::bit(symbols, width, i);
    tally.check(ours == expected, || {
        format!(
            "bit {i} of {} at width {width}: {ours:?}, not {expected:?}",
            described(symbols)
        )
    });
}

/// A translator of the library and the Rust's.
struct Translator {
    name: &'static str,
    ours: fn(&[u8], &mut [u8]) -> Alphabet,
    rust: fn(&[u8]) -> (Vec<u8>, usize),
}

const DENSE: Translator = Translator {
    name: "dense_alphabet",
    ours: abutfern::dense_alphabet,
    rust: reference::dense,
};

const SORTED: Translator = Translator {
    name: "value_sorted_alphabet",
    ours: abutfern::value_sorted_alphabet,
    rust: reference::value_sorted,
};

/// Every capture of 0 to 7 symbols over three values, with every shorter output, the exact one
/// and three longer ones.
fn short_translations(translator: &Translator, clock: Clock, random: &mut Random) -> u64 {
    let name = format!(
        "{}: every capture of 0 to 7 symbols over 3 values",
        translator.name
    );
    let mut tally = Tally::new(&name);
    let mut lent = bytes(10, random);
    'all: for length in 0..=7usize {
        for number in spread(3u64.pow(length as u32)) {
            let mut values = [random.byte(), random.byte(), random.byte()];
            if random.chance(1, 2) {
                values = [0, 128, 255];
            }
            let symbols = digits(number, 3, length);
            let symbols: Vec<u8> = symbols.iter().map(|i| values[usize::from(*i)]).collect();
            for out in 0..=length + 3 {
                translate(translator, &symbols, out, &mut lent, random, &mut tally);
            }
            if clock.over() {
                break 'all;
            }
        }
    }
    tally.close()
}

fn random_translations(translator: &Translator, clock: Clock, random: &mut Random) -> u64 {
    let mut tally = Tally::new(&format!("{}: random captures", translator.name));
    let mut lent = bytes(5040, random);
    for () in clock.turns() {
        let most = random.one_of(&[8, 60, 300, 300, 5000]);
        let mut symbols = random_capture(random.index(most), random);
        for _ in 0..2 {
            let length = symbols.len();
            for out in [length.saturating_sub(1), length, length + 1, length + 40] {
                translate(translator, &symbols, out, &mut lent, random, &mut tally);
            }
            let short = random.index(length + 1);
            translate(translator, &symbols, short, &mut lent, random, &mut tally);
            damage(&mut symbols, random);
        }
    }
    tally.close()
}

/// Compares one translation, and all of the output's memory.
fn translate(
    translator: &Translator,
    symbols: &[u8],
    out: usize,
    lent: &mut Lent<u8>,
    random: &mut Random,
    tally: &mut Tally,
) {
    let ours = (translator.ours)(symbols, lent.lend(out, random));
    let (number, translated, size) = match plain::translator(symbols, out) {
        Some((number, _)) => (number, Vec::new(), 0),
        None => {
            let (translated, size) = (translator.rust)(symbols);
            (0, translated, size as u64)
        }
    };
    let expected = Alphabet { number, size };
    let mut faults = Vec::from_iter(lent.fault(&translated));
    if ours != expected {
        faults.push(format!("{ours:?}, not {expected:?}"));
    }
    tally.judge(faults, || {
        format!(
            "{} into {out} bytes of {}",
            translator.name,
            described(symbols)
        )
    });
}

/// The longest capture that is taken, and one symbol more.
fn limit() -> u64 {
    let mut tally = Tally::new("bit and translators: 16,777,216 symbols and one more");
    let mut random = Random::new(1);
    let mut lent = bytes(SYMBOL_LIMIT + 2, &mut random);
    let symbols: Vec<u8> = (0..=SYMBOL_LIMIT).map(|i| (i >> 8) as u8 & 1).collect();
    for length in [SYMBOL_LIMIT, SYMBOL_LIMIT + 1] {
        let capture = &symbols[..length];
        for translator in [DENSE, SORTED] {
            if exported(translator.name) {
                for out in [length - 1, length, length + 1] {
                    translate(
                        &translator,
                        capture,
                        out,
                        &mut lent,
                        &mut random,
                        &mut tally,
                    );
                }
            }
        }
        if exported("bit") {
            bits_at_limit(capture, &mut tally);
        }
    }
    tally.close()
}

fn bits_at_limit(symbols: &[u8], tally: &mut Tally) {
    for width in 0..=u8::MAX {
        let end = symbols.len() as u64 * u64::from(width);
        for i in [0, end / 2, end.saturating_sub(1), end, end + 1, u64::MAX] {
            let ours = abutfern::bit(symbols, width, i);
            let expected = plain::bit(symbols, width, i).map_or(0, |(number, _)| number);
            let same =
                ours.number == expected && (expected == 0 || (ours.bit, ours.place) == (0, 0));
            tally.check(same, || {
                format!(
                    "bit {i} of {} symbols at width {width}: {ours:?}",
                    symbols.len()
                )
            });
        }
    }
}
