//! The worst ratio of a table.

/// The largest ratio so far, and the capture it was reached on.
pub struct Worst {
    ratio: f64,
    name: &'static str,
}

impl Worst {
    pub fn new() -> Self {
        Self {
            ratio: 0.0,
            name: "",
        }
    }

    pub fn meet(&mut self, ratio: f64, name: &'static str) {
        if ratio > self.ratio {
            *self = Self { ratio, name };
        }
    }

    /// Prints the line of the worst, if there was a ratio.
    pub fn print(&self, title: &str) {
        let Self { ratio, name } = self;
        if *ratio > 0.0 {
            println!("{title:<22} worst {ratio:>42.3}  {name}");
        }
    }
}
