//! The C interface of the proved libraries as it stands in their archives. A slice is a pointer and
//! a length. A function that no archive has yet ends the program if it is called; `exported` says
//! which are there.

/// What the shared estimate found: three counts and four floats.
#[repr(C)]
#[derive(Clone, Copy, Debug)]
pub struct Estimate {
    /// Correct predictions, C.
    pub c: u64,
    /// Predictions, N.
    pub n: u64,
    /// The longest run of correct predictions.
    pub max_run_len: u64,
    /// C / N.
    pub p_global: f64,
    /// The upper bound of p_global's 99% interval.
    pub p_global_prime: f64,
    /// The solution of the run's equation, -1.0 unless solved.
    pub p_local: f64,
    /// Min-entropy in bits per sample.
    pub min_entropy: f64,
}

/// What every estimator returns: the answer number, and the rest as document 01 states for it.
#[repr(C)]
#[derive(Clone, Copy, Debug)]
pub struct Answer {
    /// The answer number; 0 is done.
    pub number: u64,
    /// The first bad place, for answer 3.
    pub place: u64,
    /// The alphabet's size.
    pub k: u64,
    /// Bisection rounds begun.
    pub rounds: u64,
    /// The sub-predictor that won, from 1: the window of MultiMCW, shortest first, or the level of
    /// MultiMMC. 0 where there is none: in every answer but 0, and of counts alone.
    pub winner: u64,
    /// How often the winner's own prediction was right, at most N; 0 where there is none.
    pub score: u64,
    /// The estimate.
    pub estimate: Estimate,
}

/// A bit of a capture.
#[repr(C)]
#[derive(Clone, Copy, Debug, PartialEq, Eq)]
pub struct BitRead {
    /// The answer number.
    pub number: u64,
    /// The place of the bad symbol, for answer 3.
    pub place: u64,
    /// The bit.
    pub bit: u64,
}

/// The size of a translated capture's alphabet.
#[repr(C)]
#[derive(Clone, Copy, Debug, PartialEq, Eq)]
pub struct Alphabet {
    /// The answer number.
    pub number: u64,
    /// The number of distinct symbols.
    pub size: u64,
}

/// One float with its answer number.
#[repr(C)]
#[derive(Clone, Copy, Debug)]
pub struct Value {
    /// The answer number.
    pub number: u64,
    /// The value, -1.0 unless the number is 0.
    pub value: f64,
}

/// The solution of the bisection.
#[repr(C)]
#[derive(Clone, Copy, Debug)]
pub struct Solved {
    /// The answer number.
    pub number: u64,
    /// Rounds begun.
    pub rounds: u64,
    /// The solution, -1.0 unless the number is 0.
    pub value: f64,
}

/// The board figure.
#[repr(C)]
#[derive(Clone, Copy, Debug)]
pub struct Figure {
    /// The answer number.
    pub number: u64,
    /// The estimator that gave it: 1 MultiMCW bits, 2 MultiMCW literal, 3 MultiMMC bits,
    /// 4 MultiMMC literal, 0 where the number is not 0.
    pub which: u64,
    /// Min-entropy in bits per symbol, -1.0 unless the number is 0.
    pub value: f64,
}

/// What the writer of a record says.
#[repr(C)]
#[derive(Clone, Copy, Debug, PartialEq, Eq)]
pub struct Written {
    /// The answer number: 0, 2, 8, 9.
    pub number: u64,
    /// How many bytes the record takes, 0 unless the number is 0.
    pub size: u64,
}

/// What the reader of a record says.
#[repr(C)]
#[derive(Clone, Copy, Debug)]
pub struct Reading {
    /// 0 where a record was read, else 8 or 9.
    pub number: u64,
    /// How many bytes the record takes, 0 unless the number is 0.
    pub size: u64,
    /// 1 where the record tells who predicted; 0 where the answer's winner and score are absent and
    /// say nothing.
    pub told: u64,
    /// The answer in the record; a refusal of the same number where the number is not 0.
    pub answer: Answer,
}

/// What the reader of records in a row says.
#[repr(C)]
#[derive(Clone, Copy, Debug, PartialEq, Eq)]
pub struct Row {
    /// How many good records stand before the first bad one, or in all. The first bad one is the
    /// record of this place, counted from 0.
    pub good: u64,
    /// 0 where none is bad, else the number of the first bad one, 8 or 9.
    pub number: u64,
    /// The byte at which the first bad record starts; the number of bytes where none is bad.
    pub byte: u64,
}

/// The state of a running repetition count test; all 0 where it was never started.
#[repr(C)]
#[derive(Clone, Copy, Debug, PartialEq, Eq)]
pub struct RepetitionTest {
    /// How many equal samples in a row the alarm stands at.
    pub cutoff: u16,
    /// The last sample, 0 before the first.
    pub last_sample: u16,
    /// How many equal samples end with the last, the cutoff at most; 0 before the first.
    pub count: u16,
}

/// The cutoff for an entropy.
#[repr(C)]
#[derive(Clone, Copy, Debug, PartialEq, Eq)]
pub struct Cutoff {
    /// The answer number: 0, 5.
    pub number: u64,
    /// The cutoff, 4 to 1,281; 0 unless the number is 0.
    pub cutoff: u64,
}

/// What a sample is answered. It has passed only where both are 0.
#[repr(C)]
#[derive(Clone, Copy, Debug, PartialEq, Eq)]
pub struct Alarm {
    /// The answer number: 0, 10.
    pub number: u64,
    /// 1 where the alarm stands; 0 where it does not, and where the number is not 0.
    pub alarm: u64,
}

macro_rules! functions {
    ($($name:literal fn $symbol:ident($($argument:ident: $kind:ty),*) -> $result:ty;)*) => {
        $(
            #[cfg(exported = $name)]
            unsafe extern "C" {
                pub fn $symbol($($argument: $kind),*) -> $result;
            }
            #[cfg(not(exported = $name))]
            pub unsafe fn $symbol($(_: $kind),*) -> $result {
                panic!("no archive has abutfern_{}", $name)
            }
        )*

        /// Whether an archive has a function, by its name without `abutfern_`.
        pub fn exported(name: &str) -> bool {
            match name {
                $($name => cfg!(exported = $name),)*
                _ => false,
            }
        }
    };
}

functions! {
    "bit" fn abutfern_bit(symbols: *const u8, length: usize, width: u8, i: u64) -> BitRead;
    "dense_alphabet" fn abutfern_dense_alphabet(
        symbols: *const u8, length: usize, out: *mut u8, out_length: usize) -> Alphabet;
    "value_sorted_alphabet" fn abutfern_value_sorted_alphabet(
        symbols: *const u8, length: usize, out: *mut u8, out_length: usize) -> Alphabet;
    "rel_epsilon_equal" fn abutfern_rel_epsilon_equal(
        a: f64, b: f64, max_abs_factor: f64, max_rel_factor: f64, max_ulp: u64) -> bool;
    "sqrt" fn abutfern_sqrt(x: f64) -> f64;
    "ln" fn abutfern_ln(x: f64) -> f64;
    "power" fn abutfern_power(x: f64, n: u64) -> f64;
    "min_entropy" fn abutfern_min_entropy(p: f64) -> Value;
    "prediction_estimate_function" fn abutfern_prediction_estimate_function(
        p: f64, max_run_len: u64, n: u64) -> Value;
    "calc_p_local" fn abutfern_calc_p_local(max_run_len: u64, n: u64, ldomain: f64) -> Solved;
    "prediction_estimate" fn abutfern_prediction_estimate(
        c: u64, n: u64, max_run_len: u64, k: u64) -> Answer;
    "multi_mcw" fn abutfern_multi_mcw(
        symbols: *const u8, length: usize, bits_per_symbol: u8) -> Answer;
    "multi_mcw_literal" fn abutfern_multi_mcw_literal(
        symbols: *const u8, length: usize, out: *mut u8, out_length: usize) -> Answer;
    "multi_mmc" fn abutfern_multi_mmc(
        symbols: *const u8, length: usize, bits_per_symbol: u8,
        counters: *mut u32, counters_length: usize) -> Answer;
    "multi_mmc_literal" fn abutfern_multi_mmc_literal(
        symbols: *const u8, length: usize, out: *mut u8, out_length: usize,
        space: *mut u32, space_length: usize) -> Answer;
    "board_figure" fn abutfern_board_figure(
        mcw_bits: Answer, mcw_literal: Answer, mmc_bits: Answer, mmc_literal: Answer,
        bits_per_symbol: u8) -> Figure;
    "write_record" fn abutfern_write_record(
        answer: Answer, told: u64, kind: u64, out: *mut u8, out_length: usize) -> Written;
    "read_record" fn abutfern_read_record(bytes: *const u8, length: usize) -> Reading;
    "read_records" fn abutfern_read_records(bytes: *const u8, length: usize) -> Row;
    "record_at" fn abutfern_record_at(bytes: *const u8, length: usize, place: u64) -> Reading;
    "repetition_cutoff" fn abutfern_repetition_cutoff(entropy: f64) -> Cutoff;
    "repetition_start" fn abutfern_repetition_start(
        test: *mut RepetitionTest, entropy: f64) -> u64;
    "repetition_sample" fn abutfern_repetition_sample(
        test: *mut RepetitionTest, sample: u8) -> Alarm;
}
