//! Whole-number powers to 256 bits, rounded outward, for the entropy's exact bounds.

/// A positive number: a mantissa of four words, its top bit set, times a power of two.
#[derive(Clone, Copy, PartialEq)]
struct Long {
    words: [u64; 4],
    exponent: i64,
}

#[derive(Clone, Copy, PartialEq)]
enum Toward {
    Zero,
    Infinity,
}

impl Long {
    /// The exact value of a positive, normal double.
    fn of(p: f64) -> Self {
        let bits = p.to_bits();
        let mantissa = (bits & ((1 << 52) - 1)) | (1 << 52);
        Self {
            words: [0, 0, 0, mantissa << 11],
            exponent: (bits >> 52) as i64 - 1075 - 11 - 192,
        }
    }

    /// The square, its mantissa cut to 256 bits.
    fn squared(&self, toward: Toward) -> Self {
        let mut product = product(&self.words);
        let mut exponent = 2 * self.exponent;
        if product[7] >> 63 == 0 {
            doubled(&mut product);
            exponent -= 1;
        }
        let mut words = [product[4], product[5], product[6], product[7]];
        exponent += 256;
        if toward == Toward::Infinity && product[..4] != [0; 4] && carried(&mut words) {
            words[3] = 1 << 63;
            exponent += 1;
        }
        Self { words, exponent }
    }

    /// Whether the number times two to a power is at most 1, and whether it is at least 1.
    fn beside_one(&self, power: i64) -> (bool, bool) {
        let top = self.exponent + 255 + power;
        let one = self.words == [0, 0, 0, 1 << 63];
        (top < 0 || (top == 0 && one), top >= 0)
    }
}

fn product(words: &[u64; 4]) -> [u64; 8] {
    let mut product = [0u64; 8];
    for (i, a) in words.iter().enumerate() {
        let mut carry = 0;
        for (j, b) in words.iter().enumerate() {
            let sum = u128::from(*a) * u128::from(*b) + u128::from(product[i + j]) + carry;
            product[i + j] = sum as u64;
            carry = sum >> 64;
        }
        product[i + 4] = carry as u64;
    }
    product
}

fn doubled(words: &mut [u64; 8]) {
    let mut carry = 0;
    for word in words {
        (*word, carry) = (*word << 1 | carry, *word >> 63);
    }
}

/// Adds one; true if that ran over.
fn carried(words: &mut [u64; 4]) -> bool {
    for word in words {
        let over;
        (*word, over) = word.overflowing_add(1);
        if !over {
            return false;
        }
    }
    true
}

/// Whether p^(2^24) * 2^m <= 1 <= p^(2^24) * 2^(m+4): the figure m / 2^24 is not above -log2 p,
/// and at most 2^-22 below. None where 256 bits do not tell.
pub fn bounds_entropy(p: f64, m: i64) -> Option<bool> {
    let (mut low, mut high) = (Long::of(p), Long::of(p));
    for _ in 0..24 {
        low = low.squared(Toward::Zero);
        high = high.squared(Toward::Infinity);
    }
    let not_above = (high.beside_one(m).0, low.beside_one(m).0);
    let near = (low.beside_one(m + 4).1, high.beside_one(m + 4).1);
    match (not_above, near) {
        ((true, _), (true, _)) => Some(true),
        ((_, false), _) | (_, (_, false)) => Some(false),
        _ => None,
    }
}

#[cfg(test)]
mod tests {
    use super::bounds_entropy;

    #[test]
    fn powers_of_two_are_exact() {
        for j in 0..=8 {
            let p = 1.0 / f64::from(1u32 << j);
            let m = i64::from(j) << 24;
            assert_eq!(bounds_entropy(p, m), Some(true));
            assert_eq!(bounds_entropy(p, m + 1), Some(false));
            assert_eq!(bounds_entropy(p, m - 4), Some(true));
            assert_eq!(bounds_entropy(p, m - 5), Some(false));
        }
    }

    #[test]
    fn one_third_is_bounded_on_both_sides() {
        // -log2 of the double nearest 1/3 is 26,591,258.2 units of 2^-24.
        let fits = |m: i64| bounds_entropy(1.0 / 3.0, m) == Some(true);
        let exact = (3f64.log2() * 16_777_216.0) as i64;
        assert!(fits(exact) && fits(exact - 3));
        assert!(!fits(exact + 1) && !fits(exact - 4));
    }
}
