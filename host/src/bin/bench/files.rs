//! Captures that are no noise at all, such as files.

use crate::sources::Draw;

/// Common words, those that come most often first.
const WORDS: &str = "\
    the of and to a in is it you that he was for on are with as his they at be this have from or \
    one had by word but not what all were we when your can said there use an each which she do how \
    their if will up other about out many then them these so some her would make like him into \
    time has look two more write go see number no way could people my than first water been call \
    who oil its now find long down day did get come made may part over new sound take only little \
    work know place year live me back give most very after thing our just name good sentence man \
    think say great where help through much before line right too mean old any same tell boy \
    follow came want show also around form three small set put end does another well large must \
    big even such because turn here why ask went men read need land different home us move try \
    kind hand picture again change off play spell air away animal house point page letter mother \
    answer found study still learn should world high every near add food between own below \
    country plant last school father keep tree never start city earth eye light thought";

/// English words, one in twelve at the end of a line. Drawn below a number that is drawn itself, a
/// word comes the more often the nearer it is to the first.
pub fn text(length: usize, draw: Draw) -> Vec<u8> {
    let words: Vec<&str> = WORDS.split_whitespace().collect();
    let word = |_| {
        let below = 1 + draw() as usize % words.len();
        let word = words[draw() as usize % below];
        let end = if draw().is_multiple_of(12) {
            b'\n'
        } else {
            b' '
        };
        word.bytes().chain([end])
    };
    (0..length).flat_map(word).take(length).collect()
}

/// 0, 1, 2 and so on, each in four bytes, the lowest first.
pub fn counter(length: usize, _: Draw) -> Vec<u8> {
    (0..).flat_map(u32::to_le_bytes).take(length).collect()
}
