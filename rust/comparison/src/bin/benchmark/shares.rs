//! What a yearly share costs.

use crate::report::line;
use crate::speed::best_seconds;
use comparison::plain::{self, RATES, TERMS};
use std::hint::black_box;

pub fn proved_share(rate: u64, years: u64) -> Result<u16, u8> {
    let mut share = 0;
    match kennelday::share(rate, years, &mut share) {
        Ok(()) => Ok(share),
        Err(refusal) => Err(refusal.number()),
    }
}

/// One call for each rate and term.
pub fn over_terms<T>(mut call: impl FnMut(u64, u64) -> T) {
    for rate in RATES {
        for years in TERMS {
            black_box(call(black_box(rate), black_box(years)));
        }
    }
}

pub fn print() {
    let count = RATES.count() * TERMS.count();
    let mut proved = || over_terms(proved_share);
    let mut plain = || over_terms(plain::share);
    let [proved, plain] = best_seconds([&mut proved, &mut plain])
        .map(|seconds| format!("{:.1}", 1e9 * seconds / count as f64));
    line("rates and terms", count);
    line("proved, ns", proved);
    line("plain exact, ns", plain);
}
