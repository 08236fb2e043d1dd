//! Running tests as they are lent to the library: one among others that nothing may touch.

use crate::lent::Lent;
use abutfern::RepetitionTest;
use abutfern::random::Random;
use std::fmt::Debug;

/// How many places a lent test may stand at, for every alignment.
const PLACES: usize = 4;

/// The others.
pub struct Standing {
    lent: Lent<RepetitionTest>,
}

/// What a call answered and left, and the fault if it touched another test.
pub struct Called<A> {
    answer: A,
    pub left: RepetitionTest,
    touched: Option<String>,
}

impl Standing {
    /// Others of any kind.
    pub fn new(random: &mut Random) -> Self {
        Self {
            lent: Lent::new(PLACES, || any_state(random)),
        }
    }

    /// Lends a test to a call.
    pub fn call<A>(
        &mut self,
        test: RepetitionTest,
        random: &mut Random,
        call: impl FnOnce(&mut RepetitionTest) -> A,
    ) -> Called<A> {
        let place = random.index(PLACES);
        let lent = self.lent.lend(PLACES, random);
        let mut memory = [test; PLACES];
        memory.copy_from_slice(lent);
        lent[place] = test;
        let answer = call(&mut lent[place]);
        let left = lent[place];
        memory[place] = left;
        Called {
            answer,
            left,
            touched: self.lent.fault(&memory),
        }
    }
}

impl<A: PartialEq + Debug> Called<A> {
    /// What is wrong with a call that should answer and leave these.
    pub fn faults(&self, answer: &A, left: &RepetitionTest) -> Vec<String> {
        let mut faults = Vec::new();
        if self.answer != *answer {
            faults.push(format!("{:?}, not {answer:?}", self.answer));
        }
        if self.left != *left {
            faults.push(format!("it leaves {:?}, not {left:?}", self.left));
        }
        faults.extend(self.touched.clone());
        faults
    }
}

/// A state of any kind: running, never started, or one that no start and samples leave.
pub fn any_state(random: &mut Random) -> RepetitionTest {
    let mut field = || {
        let below = random.one_of(&[1, 5, 22, 300, 1300, 65_536]);
        random.below(below) as u16
    };
    RepetitionTest {
        cutoff: field(),
        last_sample: field(),
        count: field(),
    }
}
