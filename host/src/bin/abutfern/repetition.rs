//! The repetition count test over a capture, sample by sample, by the library.

use crate::files;
use crate::table::{counted, grouped};
use abutfern::numbers::meaning;
use abutfern::{RepetitionTest, repetition_sample, repetition_start};
use std::io::Read;
use std::path::Path;

/// The functions of the library that are called.
pub const CALLED: [&str; 2] = ["repetition_start", "repetition_sample"];

/// What a test has heard.
#[derive(Debug, PartialEq)]
pub struct Heard {
    /// The entropy that was taken: the one given, rounded down to 1/64.
    pub sixty_fourths: u64,
    pub cutoff: u64,
    pub samples: u64,
    pub first: Option<First>,
    /// The samples that the alarm stands after.
    pub alarms: u64,
    /// The stretches of them with no other sample between.
    pub runs: u64,
}

/// The first sample that the alarm stands after.
#[derive(Debug, PartialEq)]
pub struct First {
    /// Its place in the capture, from 0.
    pub place: u64,
    pub value: u8,
}

/// How much of a capture is read at once.
const BLOCK: u64 = 1 << 20;

/// Tests a capture file, or standard input, from its first sample to its last.
pub fn run(path: &Path, entropy: f64) -> Result<Heard, String> {
    let (mut file, _) = files::open(path, "capture files")?;
    let mut running = Running::start(entropy)?;
    let mut block = Vec::new();
    loop {
        block.clear();
        let read = file.by_ref().take(BLOCK).read_to_end(&mut block);
        if read.map_err(files::advice)? == 0 {
            return running.ended();
        }
        for sample in &block {
            running.hear(*sample)?;
        }
    }
}

/// A test that goes on.
struct Running {
    test: RepetitionTest,
    heard: Heard,
    /// Whether the alarm stands after the last sample.
    stands: bool,
}

impl Running {
    fn start(entropy: f64) -> Result<Self, String> {
        let mut test = RepetitionTest::NEVER_STARTED;
        match repetition_start(&mut test, entropy) {
            0 => {}
            number => return Err(format!("is not tested: {}", refusal(number))),
        }
        let heard = Heard {
            sixty_fourths: (entropy * 64.0) as u64,
            cutoff: test.cutoff.into(),
            samples: 0,
            first: None,
            alarms: 0,
            runs: 0,
        };
        Ok(Self {
            test,
            heard,
            stands: false,
        })
    }

    fn hear(&mut self, value: u8) -> Result<(), String> {
        let place = self.heard.samples;
        let answer = repetition_sample(&mut self.test, value);
        if answer.number != 0 {
            let refusal = refusal(answer.number);
            return Err(format!(
                "is not tested from place {} on: {refusal}",
                grouped(place)
            ));
        }
        let stood = std::mem::replace(&mut self.stands, answer.alarm != 0);
        if self.stands {
            self.heard.first.get_or_insert(First { place, value });
            self.heard.alarms += 1;
            self.heard.runs += u64::from(!stood);
        }
        self.heard.samples += 1;
        Ok(())
    }

    /// What was heard, if an alarm could have stood.
    fn ended(self) -> Result<Heard, String> {
        let Heard {
            samples, cutoff, ..
        } = self.heard;
        match samples {
            0 => Err(format!("is empty, and nothing was tested: {CAPTURE}")),
            few if few < cutoff => Err(format!(
                "has {}, fewer than the cutoff, {}, so that no alarm could stand and nothing was \
                 tested: {CAPTURE}",
                counted(few, "sample"),
                grouped(cutoff)
            )),
            _ => Ok(self.heard),
        }
    }
}

const CAPTURE: &str = "record more of this board and test that capture";

/// A refusal that cannot be, since the entropy was looked at before.
fn refusal(number: u64) -> String {
    let meaning = meaning(number);
    format!("{meaning} (answer {number}); build the command anew, from its sources")
}

#[cfg(test)]
mod tests {
    use super::*;

    #[test]
    fn the_entropy_that_is_told_has_the_cutoff() {
        for entry in 1..=512 {
            let exact = entry as f64 / 64.0;
            let more = (exact + 1.0 / 64.0).next_down().min(8.0);
            for entropy in [exact, more] {
                let heard = Running::start(entropy).map(|running| running.heard);
                let heard = heard.expect("the entropy is taken");
                let cutoff = 1 + 1280_u64.div_ceil(entry);
                assert_eq!((heard.sixty_fourths, heard.cutoff), (entry, cutoff));
            }
        }
    }

    #[test]
    fn a_refused_sample_ends_the_test() {
        let mut running = Running::start(1.0).expect("the entropy is taken");
        assert_eq!(running.hear(7), Ok(()));
        running.test = RepetitionTest::NEVER_STARTED;
        let said = "is not tested from place 1 on: a sample before a start, or a state that no \
                    start and samples could have left (answer 10); build the command anew, from \
                    its sources";
        assert_eq!(running.hear(7), Err(said.to_string()));
        assert_eq!(running.heard.samples, 1);
    }

    #[test]
    fn a_refused_entropy_starts_no_test() {
        let said = Running::start(0.0).map(|_| ());
        assert!(said.is_err_and(|said| said.starts_with("is not tested: a prob")));
    }
}
