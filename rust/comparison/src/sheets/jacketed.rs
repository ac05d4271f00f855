//! Sheets of goal 7: jackets of every price, films about as thick as the pipe,
//! and have next to what is required of it.

use super::draft::{
    any_draft, any_jacket_price, any_rung, get_field, push_found, put, put_field, sheet_of, Draft,
};
use super::exact::{in_range, put_factors};
use super::limited::put_near;
use super::near::{any_figure, any_window, layer_at, nearest, put_difference, surface_fit, Fit};
use super::ordinary::office_draft;
use super::{Batch, Random};
use crate::plain::{self, outer_diameter, Field, Goal, Shape, Verdict};

const GOAL: Goal = Goal::JacketedEconomy;

/// A pipe, the fields anywhere. Thin ones come most often.
fn pipe(random: &mut Random) -> Draft {
    let service = random.pick(&plain::SERVICES);
    let mut draft = any_draft(random, (GOAL, service, Shape::Cylinder));
    let field = plain::CONDUCTIVITY;
    let conductivity = random.between(field.least, field.greatest);
    put_field(&mut draft, field, conductivity);
    if random.once_in(2) {
        let diameter = random.low_between(plain::DIAMETER.least, 400);
        put_field(&mut draft, plain::DIAMETER, diameter);
    }
    draft
}

/// Sheets such as a design office writes, but for the price of the jacket: none,
/// a small one, the greatest and any.
pub fn jacket_price(random: &mut Random, sheets: &mut Batch) {
    let (small, any) = (random.between(1, 20), any_jacket_price(random));
    for price in [0, small, 65_535, any] {
        let service = random.pick(&plain::SERVICES);
        let mut draft = office_draft(random, (GOAL, service, Shape::Cylinder));
        put(&mut draft, plain::AIM_OFFSET, price);
        sheets.push(draft.to_vec());
    }
}

// What is required of have: the root of the difference, times need.

/// A field that decides it, with the values whose neighbours pass test 13.
#[derive(Clone, Copy)]
struct Lever {
    offset: usize,
    range: (i32, i32),
    /// More of it requires more of have.
    heat: bool,
}

const fn lever(field: Field, heat: bool) -> Lever {
    Lever {
        offset: field.offset,
        range: (field.least + 1, field.greatest - 1),
        heat,
    }
}

const JACKET_PRICE: Lever = Lever {
    offset: plain::AIM_OFFSET,
    range: (1, 65_534),
    heat: false,
};
const INSULATION_PRICE: Lever = lever(plain::INSULATION_PRICE, false);
const YEARLY_SHARE: Lever = lever(plain::YEARLY_SHARE, false);
const HEAT_PRICE: Lever = lever(plain::HEAT_PRICE, true);
const HOURS: Lever = lever(plain::HOURS, true);

/// A figure for have at a rung of a draft.
struct Target {
    rung: u16,
    have: f64,
}

impl Target {
    /// One of the figures that the rung may be judged by.
    fn any(random: &mut Random, draft: &Draft, rung: u16) -> Target {
        let sheet = sheet_of(draft).expect("a good draft");
        let have = any_figure(random, plain::provided_at(&sheet, rung));
        Target { rung, have }
    }

    /// A part of have, between two percentages.
    fn part(random: &mut Random, draft: &Draft, rung: u16, percent: (i32, i32)) -> Target {
        let part = f64::from(random.between(percent.0, percent.1)) / 100.0;
        let target = Target::any(random, draft, rung);
        Target {
            have: part * target.have,
            ..target
        }
    }

    /// The square of what is required, over the square of the target; for a
    /// lever of cost the other way up. It is linear in the lever's value.
    fn ratio(&self, draft: &Draft, lever: Lever, value: i32) -> Option<f64> {
        let mut draft = *draft;
        put(&mut draft, lever.offset, value);
        let sheet = sheet_of(&draft)?;
        let outer = outer_diameter(sheet.diameter, self.rung);
        let required = plain::required_square(&sheet, outer)?;
        let required = required.numerator as f64 / required.denominator as f64;
        let ratio = required / (self.have * self.have);
        Some(if lever.heat { ratio } else { 1.0 / ratio })
    }

    /// The lever's value that makes what is required the target, for a Δ that is
    /// so many times the draft's.
    fn fit(&self, draft: &Draft, lever: Lever) -> Option<impl Fn(f64) -> Fit> {
        let (least, greatest) = lever.range;
        let ratios = [least, greatest].map(|value| self.ratio(draft, lever, value));
        let [first, last] = [ratios[0]?, ratios[1]?];
        let slope = (last - first) / f64::from(greatest - least);
        let start = first - slope * f64::from(least);
        let have = self.have;
        Some(move |times: f64| {
            let wanted = if lever.heat { 1.0 / times } else { times };
            Fit {
                value: (wanted - start) / slope,
                weight: have / 2.0 * (1.0 - start / wanted),
                range: lever.range,
            }
        })
    }

    /// Puts the lever's value that makes what is required about the target.
    fn put(&self, draft: &mut Draft, lever: Lever) -> Option<()> {
        let (value, _) = self.fit(draft, lever)?(1.0).rounded()?;
        put(draft, lever.offset, value);
        Some(())
    }

    /// Puts the Δ and the lever's value that bring what is required nearest to
    /// the target.
    fn put_nearest(&self, random: &mut Random, draft: &mut Draft, lever: Lever) -> Option<()> {
        let sheet = sheet_of(draft)?;
        let window = any_window(random, &sheet, 1);
        let middle = (window.start + window.end) / 2;
        put_difference(draft, &sheet, middle);
        put_any_prices(random, draft, lever, |draft| {
            let share = lever.offset == YEARLY_SHARE.offset;
            self.put(draft, if share { HEAT_PRICE } else { YEARLY_SHARE })
        })?;
        let fit = self.fit(draft, lever)?;
        let times = |difference: i32| f64::from(difference) / f64::from(middle);
        let (difference, value) = nearest(window, |difference| fit(times(difference)))?;
        put_difference(draft, &sheet, difference);
        put(draft, lever.offset, value);
        Some(())
    }
}

/// Puts prices and hours until they suit. The lever has a large value, so that
/// the step to the next one is small.
fn put_any_prices(
    random: &mut Random,
    draft: &mut Draft,
    lever: Lever,
    suit: impl Fn(&mut Draft) -> Option<()>,
) -> Option<()> {
    (0..50).find_map(|_| {
        for other in [INSULATION_PRICE, YEARLY_SHARE, HEAT_PRICE, HOURS] {
            let value = random.low_between(other.range.0, other.range.1);
            put(draft, other.offset, value);
        }
        put(draft, JACKET_PRICE.offset, any_jacket_price(random));
        let greatest = lever.range.1;
        put(draft, lever.offset, random.between(greatest / 3, greatest));
        suit(draft)
    })
}

/// Whether every rung below that one misses.
fn reached(draft: &Draft, rung: u16) -> bool {
    let sheet = sheet_of(draft).expect("a good draft");
    let mut below = plain::jacketed(&sheet).take_while(|&(lower, ..)| lower < rung);
    below.all(|(.., verdict)| verdict == Verdict::Insufficient)
}

/// Prices for which the search ends at that rung.
fn put_prices(random: &mut Random, draft: &mut Draft, rung: u16) -> Option<()> {
    let target = Target::part(random, draft, rung, (70, 99));
    put_any_prices(random, draft, INSULATION_PRICE, |draft| {
        target.put(draft, INSULATION_PRICE)
    })?;
    reached(draft, rung).then_some(())
}

// A film about as thick as the pipe with its layer.

/// A pipe and a rung, up to 190 mm, with αE about 200L: L is the least for
/// which the difference is not positive. In every other draft it is zero.
fn thick_film(random: &mut Random) -> (Draft, u16) {
    let mut draft = pipe(random);
    let rung = plain::GRADE * random.below(20) as u16;
    let layer = outer_diameter(0, rung) as i32;
    let (l, alpha) = (plain::CONDUCTIVITY, plain::COEFFICIENT);
    let least = plain::DIAMETER.least + layer;
    let (tens, twenties) = random.pick(&[(1, 1), (10, 20)]);
    let coefficient = random.low_between(alpha.least, 200 * l.greatest / least) / tens * tens;
    loop {
        let outer = random.low_between(least, 200 * l.greatest / alpha.least);
        let outer = least + (outer - least) / twenties * twenties;
        let conductivity = (coefficient * outer + 199) / 200;
        if let Some(conductivity) = in_range(l, conductivity) {
            put_field(&mut draft, plain::DIAMETER, outer - layer);
            put_field(&mut draft, alpha, coefficient);
            put_field(&mut draft, l, conductivity);
            return (draft, rung);
        }
    }
}

/// The difference a little above zero, at zero or a little below, and a rung
/// soon after it that meets.
pub fn thin_difference(random: &mut Random, sheets: &mut Batch) {
    for _ in 0..2 {
        push_found(random, plain::CONDUCTIVITY.offset, thin, sheets);
    }
}

fn thin(random: &mut Random) -> Option<Draft> {
    let (mut draft, rung) = thick_film(random);
    let target = Target::part(random, &draft, rung + plain::GRADE, (60, 110));
    put_any_prices(random, &mut draft, INSULATION_PRICE, |draft| {
        target.put(draft, INSULATION_PRICE)
    })?;
    Some(draft)
}

/// A rung meets since the difference is small, and rungs above it miss again.
pub fn missing_again(random: &mut Random, sheets: &mut Batch) {
    push_found(random, JACKET_PRICE.offset, again, sheets);
}

fn again(random: &mut Random) -> Option<Draft> {
    let (mut draft, rung) = thick_film(random);
    let l = plain::CONDUCTIVITY;
    let conductivity = get_field(&draft, l);
    let less = random.low_between(1, conductivity);
    put_field(&mut draft, l, in_range(l, conductivity - less)?);
    let target = Target::part(random, &draft, rung, (20, 99));
    put_any_prices(random, &mut draft, JACKET_PRICE, |draft| {
        target.put(draft, JACKET_PRICE)
    })?;
    let sheet = sheet_of(&draft)?;
    let mut verdicts = plain::jacketed(&sheet).map(|(.., verdict)| verdict);
    let misses = |verdict| verdict == Verdict::Insufficient;
    verdicts.find(|&verdict| !misses(verdict))?;
    verdicts.any(misses).then_some(draft)
}

// Have next to what is required.

/// Have as near as whole prices, hours or shares allow to what is required at a
/// rung, those below it missing.
pub fn near(random: &mut Random, sheets: &mut Batch) {
    let other = random.pick(&[INSULATION_PRICE, YEARLY_SHARE, HEAT_PRICE, HOURS]);
    for lever in [JACKET_PRICE, JACKET_PRICE, JACKET_PRICE, other] {
        let make = |random: &mut Random| near_by(random, lever);
        push_found(random, lever.offset, make, sheets);
    }
}

fn near_by(random: &mut Random, lever: Lever) -> Option<Draft> {
    let mut draft = pipe(random);
    let rung = any_rung(random);
    let target = Target::any(random, &draft, rung);
    target.put_nearest(random, &mut draft, lever)?;
    reached(&draft, rung).then_some(draft)
}

/// Have at the rung that the search finds next to the need at a limit.
pub fn near_limit(random: &mut Random, sheets: &mut Batch) {
    for make in [near_loss_limit, near_surface_limit] {
        push_found(random, plain::COEFFICIENT.offset, make, sheets);
    }
}

fn near_loss_limit(random: &mut Random) -> Option<Draft> {
    let mut draft = pipe(random);
    let rung = any_rung(random).min(plain::TOP);
    put_near(random, &mut draft, rung, plain::loss_limit)?;
    put_prices(random, &mut draft, rung)?;
    Some(draft)
}

fn near_surface_limit(random: &mut Random) -> Option<Draft> {
    let mut draft = pipe(random);
    let rung = any_rung(random).clamp(plain::GRADE, plain::TOP);
    let sheet = sheet_of(&draft)?;
    let layer = layer_at(random, &sheet, rung);
    let limit = sheet.from_air(plain::surface_limit(sheet.air_temperature));
    let window = any_window(random, &sheet, limit + 1);
    let (difference, coefficient) = nearest(window, |difference| {
        surface_fit(&sheet, difference, limit, layer)
    })?;
    put_difference(&mut draft, &sheet, difference);
    put_field(&mut draft, plain::COEFFICIENT, coefficient);
    put_prices(random, &mut draft, rung)?;
    Some(draft)
}

/// Bare pipes with have equal to what is required, to the last digit.
pub fn exact(random: &mut Random, sheets: &mut Batch) {
    push_found(random, plain::HEAT_PRICE.offset, bare_pipe, sheets);
}

/// A product of twos and fives.
fn round_number(random: &mut Random, greatest: i32) -> i32 {
    let mut value = 1;
    while !random.once_in(12) {
        let next = value * random.pick(&[2, 5]);
        if next > greatest {
            break;
        }
        value = next;
    }
    value
}

/// Twice a film of r mm on a pipe of w + 20r tenths, so that αD − 200L is αw, and
/// the square of have 4r² × 10¹². With P, S and the jacket's price 3,795 times a,
/// b and c, it is the square of what is required where L × fτΔ × w is
/// 4r² × 10⁹ × (aD + 20,000c) × b.
fn bare_pipe(random: &mut Random) -> Option<Draft> {
    let mut draft = pipe(random);
    let film = random.low_between(1, 200);
    let coefficient = in_range(plain::COEFFICIENT, round_number(random, 10_000))?;
    let conductivity = in_range(plain::CONDUCTIVITY, film * coefficient / 10)?;
    let beyond = round_number(random, plain::LARGEST_CYLINDER.into());
    let diameter = in_range(plain::DIAMETER, beyond + 20 * film)?;
    let [a, b, c] = [(1, 17), (1, 2), (0, 17)].map(|(least, most)| random.between(least, most));
    let cost = i128::from(b * (a * diameter + 20_000 * c));
    let product = 4_000_000_000 * i128::from(film).pow(2) * cost;
    let divisor = i128::from(conductivity * beyond);
    let whole = film * coefficient % 10 == 0 && product % divisor == 0;
    if !whole || diameter > plain::LARGEST_CYLINDER.into() {
        return None;
    }
    put_field(&mut draft, plain::DIAMETER, diameter);
    put_field(&mut draft, plain::CONDUCTIVITY, conductivity);
    put_field(&mut draft, plain::COEFFICIENT, coefficient);
    put_field(&mut draft, plain::INSULATION_PRICE, 3_795 * a);
    put_field(&mut draft, plain::YEARLY_SHARE, 3_795 * b);
    put(&mut draft, plain::AIM_OFFSET, 3_795 * c);
    put_factors(random, &mut draft, i64::try_from(product / divisor).ok()?)?;
    Some(draft)
}
