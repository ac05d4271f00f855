//! The yearly share from unrounded growth. The powers are kept to the last
//! digit and nothing is divided.

use crate::natural::Natural;

/// The powers (10,000 + i)ⁿ and 10,000ⁿ. Growth is A / B, and S = iA / (A − B).
struct Growth {
    rate: u64,
    /// A
    grown: Natural,
    /// B
    start: Natural,
}

impl Growth {
    fn new(rate: u64, years: u64) -> Growth {
        Growth {
            rate,
            grown: Natural::power(10_000 + rate, years),
            start: Natural::power(10_000, years),
        }
    }

    /// Whether S is at least h / 2: then (h − 2i) × A is at most h × B. Up to
    /// h = 2i it always is.
    fn share_reaches(&self, halves: u64) -> bool {
        let rest = halves.saturating_sub(2 * self.rate);
        self.grown.times(rest) <= self.start.times(halves)
    }
}

/// S to the nearest 0.0001, a half going up, for a rate and a term in their
/// ranges.
pub fn share(rate: u64, years: u64) -> u16 {
    let growth = Growth::new(rate, years);
    let (mut share, mut beyond) = (0, 10_001);
    while beyond - share > 1 {
        let middle = (share + beyond) / 2;
        if growth.share_reaches(2 * u64::from(middle) - 1) {
            share = middle;
        } else {
            beyond = middle;
        }
    }
    share
}
