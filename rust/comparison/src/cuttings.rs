//! Goal 7 exactly read: fractions of whole numbers of any size, nothing rounded
//! and nothing cancelled.

use crate::natural::Natural;
use crate::plain::{self, Sheet};

/// A fraction.
#[derive(Clone, Debug)]
struct Fraction {
    numerator: Natural,
    denominator: Natural,
}

impl Fraction {
    fn new(numerator: u128, denominator: u128) -> Fraction {
        Fraction {
            numerator: Natural::new(numerator),
            denominator: Natural::new(denominator),
        }
    }

    fn plus(&self, numerator: u64, denominator: u64) -> Fraction {
        let added = self.denominator.times(numerator);
        Fraction {
            numerator: self.numerator.times(denominator).plus(&added),
            denominator: self.denominator.times(denominator),
        }
    }
}

/// "With strips j = mD to mE − 1, the under-sum adds 2/(2j+1) and the over-sum
/// adds (2j+1)/(2j(j+1))." Both are kept from rung to rung.
struct Sums {
    /// m
    cutting: u64,
    outer: u64,
    lower: Fraction,
    upper: Fraction,
}

impl Sums {
    fn from_diameter(diameter: u16, cutting: u64) -> Sums {
        Sums {
            cutting,
            outer: diameter.into(),
            lower: Fraction::new(0, 1),
            upper: Fraction::new(0, 1),
        }
    }

    fn extend_to(&mut self, outer: u64) {
        for j in self.cutting * self.outer..self.cutting * outer {
            self.lower = self.lower.plus(2, 2 * j + 1);
            self.upper = self.upper.plus(2 * j + 1, 2 * j * (j + 1));
        }
        self.outer = outer;
    }
}

/// Have, "E × sum × 10⁵" plus 2L × 10⁷ / α.
fn provided(sheet: &Sheet, outer: u64, sum: &Fraction) -> Fraction {
    let coefficient = u64::from(sheet.coefficient);
    let film = 2 * u64::from(sheet.conductivity) * 10_000_000;
    let layer = sum.numerator.times(outer * 100_000).times(coefficient);
    Fraction {
        numerator: layer.plus(&sum.denominator.times(film)),
        denominator: sum.denominator.times(coefficient),
    }
}

/// Whether the square of have is at or above the difference, 1 − 200L / (αE),
/// times the square of need: 14,402,025,000 × fLτΔ / (PS) with
/// P + 20,000 × aim / E in place of P. "A rung where the difference is not
/// positive misses, exactly read as well."
fn reaches(sheet: &Sheet, outer: u64, provided: &Fraction) -> bool {
    let film = 200 * u64::from(sheet.conductivity);
    let whole = u64::from(sheet.coefficient) * outer;
    if film >= whole {
        return false;
    }
    let jacket = 20_000 * u64::from(sheet.jacket_price());
    let price = u64::from(sheet.insulation_price) * outer + jacket;
    let difference = u64::try_from(sheet.difference()).expect("Δ is above zero");
    let required = [
        sheet.heat_price.into(),
        sheet.conductivity.into(),
        sheet.hours.into(),
        difference,
        outer,
        whole - film,
    ];
    let divisors = [price, sheet.yearly_share.into(), whole];
    let times = |number: Natural, factor: &u64| number.times(*factor);
    let left = provided.numerator.square();
    let right = provided.denominator.square().times(14_402_025_000);
    divisors.iter().fold(left, times) >= required.iter().fold(right, times)
}

/// The same for a whole number of nanometres.
pub fn reached_by(sheet: &Sheet, rung: u16, provided: u128) -> bool {
    let outer = plain::outer_diameter(sheet.diameter, rung);
    reaches(sheet, outer, &Fraction::new(provided, 1))
}

/// A rung read on a cutting.
#[derive(Clone, Copy, Debug, PartialEq, Eq)]
pub struct Reading {
    pub rung: u16,
    /// It meets the equation on the under-sum.
    pub meets: bool,
    /// It misses it on the over-sum.
    pub misses: bool,
}

/// The rungs from 0 up, each read on the cutting m.
pub fn readings(sheet: &Sheet, cutting: u64) -> impl Iterator<Item = Reading> + '_ {
    let mut sums = Sums::from_diameter(sheet.diameter, cutting);
    plain::ladder().map(move |rung| {
        let outer = plain::outer_diameter(sheet.diameter, rung);
        sums.extend_to(outer);
        let reached = |sum| reaches(sheet, outer, &provided(sheet, outer, sum));
        Reading {
            rung,
            meets: reached(&sums.lower),
            misses: !reached(&sums.upper),
        }
    })
}
