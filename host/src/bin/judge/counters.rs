//! Document 01's counters of binary MultiMMC, counted from the bits themselves.

use abutfern::numbers::{COUNTERS, LEVELS, PAIR_CAP};

/// The counters over all places up to the last. Level L counts how often each bit followed each
/// context of L bits, if the pair is among the first 100,000 distinct ones by place.
pub fn count(bits: &[u8], counters: &mut Vec<u32>) {
    counters.clear();
    counters.resize(COUNTERS, 0);
    for level in 1..=LEVELS {
        let start = (1 << (level + 1)) - 4;
        let part = &mut counters[start..start + (1 << (level + 1))];
        count_level(bits, level, part);
    }
}

fn count_level(bits: &[u8], level: usize, counters: &mut [u32]) {
    let mut pairs = 0;
    let mut context = 0;
    for (place, bit) in bits.iter().map(|bit| usize::from(*bit)).enumerate() {
        if place >= level {
            let pair = context * 2 + bit;
            let new = counters[pair] == 0;
            if !new || pairs < PAIR_CAP {
                pairs += usize::from(new);
                counters[pair] += 1;
            }
        }
        context = (context * 2 + bit) % (1 << level);
    }
}
