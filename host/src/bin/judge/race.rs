//! The race of document 01 between sub-predictors, who are windows or levels: who predicts at each
//! place, and who has won at the end.

use abutfern::Answer;

/// What each sub-predictor says at a place: a symbol, or nothing where it takes no part or is silent.
pub type Said<const S: usize> = [Option<u8>; S];

/// What a race comes to.
#[derive(Clone, Copy, Debug, PartialEq, Eq)]
pub struct Outcome {
    pub c: u64,
    pub n: u64,
    pub longest: u64,
    /// The last winner, from 1; 0 where nobody predicted.
    pub winner: u64,
    pub score: u64,
}

/// A race that goes on.
pub struct Race<const S: usize> {
    scores: [u64; S],
    winner: usize,
    c: u64,
    n: u64,
    run: u64,
    longest: u64,
    /// N after each place at which another took the lead.
    pub turns: Vec<u64>,
}

impl<const S: usize> Race<S> {
    pub fn new() -> Self {
        Self {
            scores: [0; S],
            winner: 0,
            c: 0,
            n: 0,
            run: 0,
            longest: 0,
            turns: Vec::new(),
        }
    }

    /// One place: the winner at its start is tested, then all are scored in their order.
    pub fn place(&mut self, said: &Said<S>, symbol: u8) {
        self.n += 1;
        match said[self.winner] {
            Some(predicted) if predicted == symbol => self.hit(),
            Some(_) => self.run = 0,
            None => {}
        }
        let before = self.winner;
        for (one, predicted) in said.iter().enumerate() {
            if *predicted == Some(symbol) {
                self.scores[one] += 1;
                if self.scores[one] >= self.scores[self.winner] {
                    self.winner = one;
                }
            }
        }
        if self.winner != before {
            self.turns.push(self.n);
        }
    }

    fn hit(&mut self) {
        self.c += 1;
        self.run += 1;
        self.longest = self.longest.max(self.run);
    }

    pub fn end(&self) -> Outcome {
        Outcome {
            c: self.c,
            n: self.n,
            longest: self.longest,
            winner: self.winner as u64 + 1,
            score: self.scores[self.winner],
        }
    }
}

impl Outcome {
    /// Counts alone, which have no predictors.
    pub fn of_counts(c: u64, n: u64, longest: u64) -> Self {
        Self {
            c,
            n,
            longest,
            winner: 0,
            score: 0,
        }
    }

    /// What an answer says of its race.
    pub fn of(answer: &Answer) -> Self {
        let estimate = &answer.estimate;
        Self {
            c: estimate.c,
            n: estimate.n,
            longest: estimate.max_run_len,
            winner: answer.winner,
            score: answer.score,
        }
    }

    pub fn counts(&self) -> (u64, u64, u64) {
        (self.c, self.n, self.longest)
    }
}

#[cfg(test)]
mod tests {
    use super::*;

    const YES: Option<u8> = Some(7);
    const NO: Option<u8> = Some(8);

    fn run(places: &[[Option<u8>; 3]]) -> [u64; 5] {
        let mut race = Race::new();
        for said in places {
            race.place(said, 7);
        }
        let end = race.end();
        [end.c, end.n, end.longest, end.winner, end.score]
    }

    #[test]
    fn races_by_hand() {
        assert_eq!(run(&[]), [0, 0, 0, 1, 0]);
        assert_eq!(run(&[[NO, NO, NO]]), [0, 1, 0, 1, 0]);
        // A score as good takes the win, within the place too, and counts from the next place on.
        assert_eq!(run(&[[YES, YES, YES]]), [1, 1, 1, 3, 1]);
        assert_eq!(run(&[[NO, YES, NO]]), [0, 1, 0, 2, 1]);
        assert_eq!(run(&[[NO, YES, NO], [YES, NO, NO]]), [0, 2, 0, 1, 1]);
        // The second is the winner when the first wins its point, and is overtaken before its own.
        let places = [[NO, YES, NO], [YES, YES, NO], [NO, YES, NO]];
        assert_eq!(run(&places), [2, 3, 2, 2, 3]);
        let mut race = Race::new();
        for said in [[YES, NO, NO], [NO, YES, NO], [YES, YES, NO]] {
            race.place(&said, 7);
        }
        assert_eq!((race.turns, race.winner), (vec![2], 1));
        // A silent winner neither adds to the run nor ends it.
        let places = [[YES, NO, NO], [None, NO, NO], [YES, NO, NO]];
        assert_eq!(run(&places), [2, 3, 2, 1, 2]);
        let places = [[YES, NO, NO], [NO, NO, NO], [YES, NO, NO]];
        assert_eq!(run(&places), [2, 3, 1, 1, 2]);
    }
}
