//! MultiMCW's windows as document 01 has them. Each keeps the counts of the samples that it covers,
//! and looks through the alphabet only where its commonest value may have become another.

use crate::race::Race;

pub const WINDOWS: [usize; 4] = [63, 255, 1023, 4095];

/// The race of the windows over some samples of any values.
pub fn race(data: &[u8]) -> Race<4> {
    let mut race = Race::new();
    let values = values_of(data);
    let mut windows = WINDOWS.map(Window::new);
    for (place, symbol) in data.iter().enumerate() {
        if place >= WINDOWS[0] {
            let said = windows.each_ref().map(|window| window.said(place));
            race.place(&said, *symbol);
        }
        for window in &mut windows {
            window.slide(data, place, &values);
        }
    }
    race
}

/// The values that occur.
fn values_of(data: &[u8]) -> Vec<u8> {
    let mut seen = [false; 256];
    for symbol in data {
        seen[usize::from(*symbol)] = true;
    }
    (0..=255)
        .filter(|value| seen[usize::from(*value)])
        .collect()
}

/// The samples just before a place: how often each value stands there, and where it was seen last.
struct Window {
    width: usize,
    counts: [u32; 256],
    latest: [usize; 256],
    commonest: u8,
}

impl Window {
    fn new(width: usize) -> Self {
        Self {
            width,
            counts: [0; 256],
            latest: [0; 256],
            commonest: 0,
        }
    }

    /// The commonest value; nothing before the window is full.
    fn said(&self, place: usize) -> Option<u8> {
        (place >= self.width).then_some(self.commonest)
    }

    /// How common a value is, a tie going to the one seen latest.
    fn key(&self, value: u8) -> (u32, usize) {
        let at = usize::from(value);
        (self.counts[at], self.latest[at])
    }

    /// Takes in the sample of a place, and lets go of the one that the window leaves behind. The one
    /// that enters may have become the commonest, and any other where it is the commonest that leaves.
    fn slide(&mut self, data: &[u8], place: usize, values: &[u8]) {
        let entering = data[place];
        self.counts[usize::from(entering)] += 1;
        self.latest[usize::from(entering)] = place;
        let leaving = place.checked_sub(self.width).map(|first| data[first]);
        if let Some(leaving) = leaving {
            self.counts[usize::from(leaving)] -= 1;
        }
        let candidates = match leaving {
            Some(leaving) if leaving == self.commonest => values,
            _ => &[entering, self.commonest],
        };
        let best = candidates
            .iter()
            .copied()
            .max_by_key(|value| self.key(*value));
        self.commonest = best.unwrap_or(entering);
    }
}

#[cfg(test)]
mod tests {
    use super::*;

    fn run(data: &[u8]) -> [u64; 5] {
        let end = race(data).end();
        [end.c, end.n, end.longest, end.winner, end.score]
    }

    #[test]
    fn captures_by_hand() {
        assert_eq!(run(&[0; 4096]), [4033, 4033, 4033, 1, 4033]);
        let alternating: Vec<u8> = (0..4096).map(|place| (place % 2) as u8).collect();
        assert_eq!(run(&alternating), [0, 4033, 0, 1, 0]);
    }

    #[test]
    fn a_tie_goes_to_the_latest() {
        let data = [[0; 21], [1; 21], [2; 21]].concat();
        assert_eq!(run(&[&data[..], &[2]].concat()), [1, 1, 1, 1, 1]);
        assert_eq!(run(&[&data[..], &[0]].concat()), [0, 1, 0, 1, 0]);
    }

    /// 40 ones in 240 mislead the shortest window 63 times, the next one 40 times: it makes up for
    /// the 192 places that it came later.
    #[test]
    fn a_longer_window_takes_over() {
        let burst = [&[1; 40][..], &[0; 200]].concat();
        let data = [&[0; 600][..], &burst.repeat(12)].concat();
        let end = race(&data).end();
        assert_eq!((end.winner, end.n), (2, data.len() as u64 - 63));
        assert_eq!(end.score, data.len() as u64 - 255 - 12 * 40);
        let first = race(&data).turns[0] as usize + WINDOWS[0];
        assert_eq!(race(&data[..first - 1]).end().winner, 1);
        assert_eq!(race(&data[..first]).end().winner, 2);
    }
}
