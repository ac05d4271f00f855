//! Every rate and term, by the proved call and by the plain one, the shares
//! also from unrounded growth; then rates and terms outside their ranges.

use comparison::plain::{self, Bracket, RATES, TERMS};
use comparison::{both, unrounded};

/// The rates and terms whose two ends round differently.
const PARTED: [(u64, u64); 3] = [(4, 4), (158, 8), (299, 16)];

/// Three whose term is too long.
const PARTED_OUTSIDE: [(u64, u64); 3] = [(9, 72), (122, 72), (199, 66)];

/// Rates outside the range, also those that look sound when they are cut.
const STRAY_RATES: [u64; 14] = [
    0,
    3_001,
    3_002,
    10_000,
    0xffff,
    0x1_0000,
    0x1_0000 + 1_000,
    0xffff_ffff,
    0x1_0000_0000,
    0x1_0000_0000 + 1_000,
    1 << 63,
    (1 << 63) + 1_000,
    u64::MAX - 1,
    u64::MAX,
];

const STRAY_TERMS: [u64; 16] = [
    0,
    1,
    31,
    32,
    255,
    256,
    256 + 6,
    0xffff,
    0x1_0000,
    0x1_0000 + 6,
    0xffff_ffff,
    0x1_0000_0000 + 6,
    1 << 63,
    (1 << 63) + 6,
    u64::MAX - 1,
    u64::MAX,
];

fn pairs() -> impl Iterator<Item = (u64, u64)> {
    RATES.flat_map(|rate| TERMS.map(move |years| (rate, years)))
}

/// The exact share, and one that the sheet's field takes.
fn assert_share(rate: u64, years: u64, share: u16) {
    let exact = unrounded::share(rate, years);
    assert_eq!(share, exact, "exact share of rate {rate}, {years} years");
    let field = plain::YEARLY_SHARE;
    let taken = (field.least..=field.greatest).contains(&share.into());
    assert!(taken, "{share} is the share of rate {rate}, {years} years");
}

fn assert_outside(rate: u64, years: u64) {
    let share = both::share(rate, years);
    assert_eq!(share, Err(41), "rate {rate}, {years} years");
}

#[test]
fn every_rate_and_term() {
    let mut answered = 0;
    let mut refused = Vec::new();
    for (rate, years) in pairs() {
        match both::share(rate, years) {
            Ok(share) => {
                assert_share(rate, years, share);
                answered += 1;
            }
            Err(number) => refused.push((rate, years, number)),
        }
    }
    assert_eq!(answered, 86_997);
    assert_eq!(refused, PARTED.map(|(rate, years)| (rate, years, 42)));
}

#[test]
fn ten_per_cent_over_six_years() {
    assert_eq!(both::share(1_000, 6), Ok(2_296));
}

/// The exact share is at the upper end each time.
#[test]
fn parted_ends() {
    let growth = [
        (1_001_600_960, 1_001_600_962),
        (1_133_615_217, 1_133_615_223),
        (1_602_215_495, 1_602_215_512),
    ];
    let ends = [(2_502, 2_503), (1_340, 1_341), (795, 796)];
    for (place, (rate, years)) in PARTED.into_iter().enumerate() {
        let (lower, upper) = growth[place];
        assert_eq!(plain::growth(rate, years), Bracket { lower, upper });
        assert_eq!(plain::share_ends(rate, years), ends[place]);
        assert_eq!(u128::from(unrounded::share(rate, years)), ends[place].1);
    }
}

#[test]
fn stray_rates() {
    for rate in STRAY_RATES {
        for years in (0..=40).chain(STRAY_TERMS) {
            assert_outside(rate, years);
        }
    }
}

#[test]
fn stray_terms() {
    for years in STRAY_TERMS {
        for rate in (0..=3_010).chain(STRAY_RATES) {
            assert_outside(rate, years);
        }
    }
}

/// Sound rates and terms with a bit or more set above them.
#[test]
fn high_bits() {
    for (rate, years) in pairs() {
        for high in [1 << 16, 1 << 32, 1 << 63, u64::MAX << 16, u64::MAX << 32] {
            assert_outside(high | rate, years);
            assert_outside(rate, high | years);
            assert_outside(high | rate, high | years);
        }
        for high in [1 << 5, 1 << 8, u64::MAX << 8] {
            assert_outside(rate, high | years);
        }
    }
}

/// Check 41 comes before 42.
#[test]
fn parted_ends_outside() {
    for (rate, years) in PARTED_OUTSIDE {
        let (lower, upper) = plain::share_ends(rate, years);
        assert_eq!(lower + 1, upper, "rate {rate}, {years} years");
        assert_outside(rate, years);
    }
}
