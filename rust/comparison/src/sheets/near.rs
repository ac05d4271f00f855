//! Sheets for which have and need lie next to each other at a chosen rung.

use super::draft::{
    any_draft, any_rung, any_sort, diameters, largest_difference, push_found, put, put_field,
    sheet_of, Draft, ECONOMY, SURFACE,
};
use super::{Batch, Random};
use crate::plain::{self, Bracket, Goal, Shape, Sheet};
use std::ops::Range;

/// How many pipe temperatures are tried for the nearest one, where there are as
/// many.
const WINDOW: i32 = 1_500;

/// Thin pipes come most often: their open rungs are the widest.
fn any_diameter(random: &mut Random) -> i32 {
    let (least, greatest) = match random.below(9) {
        0..=3 => return random.low_between(plain::DIAMETER.least, 400),
        4 | 5 => diameters(Shape::Cylinder),
        _ => diameters(Shape::Flat),
    };
    random.between(least, greatest)
}

/// A draft of a goal with room for high rungs.
pub fn setting(random: &mut Random, goal: Goal) -> Draft {
    let (_, service, shape) = any_sort(random);
    let mut draft = any_draft(random, (goal, service, shape));
    let diameter = any_diameter(random);
    put_field(&mut draft, plain::DIAMETER, diameter);
    let field = plain::CONDUCTIVITY;
    let conductivity = random.between(field.least, field.greatest);
    put_field(&mut draft, field, conductivity);
    draft
}

/// The value that would make have and need equal at some temperature. A value
/// that is off by a part of itself leaves them apart by that part of the
/// weight, in nanometres. The nearest whole number has to be in the range.
pub struct Fit {
    pub value: f64,
    pub weight: f64,
    pub range: (i32, i32),
}

impl Fit {
    /// The whole number and how far it leaves have from need.
    pub fn rounded(&self) -> Option<(i32, f64)> {
        let whole = self.value.round() as i32;
        let distance = self.weight * (self.value - f64::from(whole)).abs() / f64::from(whole);
        (self.range.0..=self.range.1)
            .contains(&whole)
            .then_some((whole, distance))
    }
}

/// A window of the sheet's possible Δ, from the least one up.
pub fn any_window(random: &mut Random, sheet: &Sheet, least: i32) -> Range<i32> {
    let air = sheet.air_temperature.into();
    let beyond = largest_difference(sheet.goal.flow(), air) + 1;
    let start = random.between(least, least.max(beyond - WINDOW));
    start..beyond.min(start + WINDOW)
}

/// The Δ, in the window, and the value that bring have and need nearest to each
/// other.
pub fn nearest(window: Range<i32>, fit: impl Fn(i32) -> Fit) -> Option<(i32, i32)> {
    let fits = window.filter_map(|difference| {
        let (value, distance) = fit(difference).rounded()?;
        Some((distance, difference, value))
    });
    let best = fits.min_by(|first, second| first.0.total_cmp(&second.0))?;
    Some((best.1, best.2))
}

/// One of the figures that have may be compared by, as a float. It only
/// chooses the sheet.
pub fn any_figure(random: &mut Random, have: Bracket) -> f64 {
    let middle = (have.lower + have.upper) / 2;
    random.pick(&[have.lower, have.upper, middle]) as f64
}

/// Puts the pipe's temperature that gives a Δ.
pub fn put_difference(draft: &mut Draft, sheet: &Sheet, difference: i32) {
    let pipe = sheet.temperature_at(difference).into();
    put_field(draft, plain::PIPE_TEMPERATURE, pipe);
}

// The goal's own need next to have.

pub fn economy(random: &mut Random, sheets: &mut Batch) {
    for _ in 0..7 {
        let goal = random.pick(&ECONOMY);
        let (draft, _, target) = target(random, goal);
        push_priced(random, draft, target, sheets);
    }
}

/// Economy with the outer diameter anywhere up to its greatest. These sheets
/// find errors in a table of logarithms.
pub fn outer_diameter(random: &mut Random, sheets: &mut Batch) {
    for _ in 0..6 {
        let (diameter, rung) = any_outer_diameter(random);
        let goal = random.pick(&ECONOMY);
        let mut draft = setting(random, goal);
        put_field(&mut draft, plain::DIAMETER, diameter);
        let sheet = sheet_of(&draft).expect("a good draft");
        let have = plain::provided_at(&sheet, rung);
        let target = random.pick(&[have.lower, have.upper]) as f64;
        push_priced(random, draft, target, sheets);
    }
}

/// The diameter and the rung of an outer diameter.
fn any_outer_diameter(random: &mut Random) -> (i32, u16) {
    let (least, greatest) = diameters(Shape::Cylinder);
    let layer = |rung: u16| plain::outer_diameter(0, rung) as i32;
    let outer = random.between(least, greatest + layer(plain::TOP));
    loop {
        let rung = any_rung(random);
        let diameter = outer - layer(rung);
        if (least..=greatest).contains(&diameter) {
            return (diameter, rung);
        }
    }
}

fn push_priced(random: &mut Random, draft: Draft, target: f64, sheets: &mut Batch) {
    let make = |random: &mut Random| priced(random, draft, target);
    push_found(random, plain::INSULATION_PRICE.offset, make, sheets);
}

pub fn loss(random: &mut Random, sheets: &mut Batch) {
    for _ in 0..4 {
        push_found(random, plain::AIM_OFFSET, near_loss, sheets);
    }
}

pub fn surface(random: &mut Random, sheets: &mut Batch) {
    for _ in 0..8 {
        push_found(random, plain::AIM_OFFSET, near_surface, sheets);
    }
}

/// A setting with a figure for have at some rung.
fn target(random: &mut Random, goal: Goal) -> (Draft, Sheet, f64) {
    let draft = setting(random, goal);
    let sheet = sheet_of(&draft).expect("a good draft");
    let have = plain::provided_at(&sheet, any_rung(random));
    (draft, sheet, any_figure(random, have))
}

/// 2L on a cylinder, L on a flat wall.
pub fn conductivity(sheet: &Sheet) -> f64 {
    let once = f64::from(sheet.conductivity);
    match sheet.shape() {
        Shape::Cylinder => 2.0 * once,
        Shape::Flat => once,
    }
}

/// Any f and τ, an S that makes P large, and the P for which need is the
/// target. The step to the next P is then small, and need changes half as much.
fn priced(random: &mut Random, mut draft: Draft, target: f64) -> Option<Draft> {
    for field in [plain::HEAT_PRICE, plain::HOURS] {
        put_field(
            &mut draft,
            field,
            random.between(field.least, field.greatest),
        );
    }
    let sheet = sheet_of(&draft)?;
    let window = any_window(random, &sheet, 1);
    let price = plain::INSULATION_PRICE;
    let large = f64::from(random.between(price.greatest / 3, price.greatest));
    // Need is the target where PS is this much for each tenth of Δ.
    let cost = heat_value(&sheet) / (target * target);
    let middle = (window.start + window.end) / 2;
    let share = (cost * f64::from(middle) / large).round();
    if !(1.0..=f64::from(plain::YEARLY_SHARE.greatest)).contains(&share) {
        return None;
    }
    let (difference, value) = nearest(window, |difference| Fit {
        value: cost * f64::from(difference) / share,
        weight: target / 2.0,
        range: (price.least + 1, price.greatest - 1),
    })?;
    put_field(&mut draft, plain::YEARLY_SHARE, share as i32);
    put_difference(&mut draft, &sheet, difference);
    put_field(&mut draft, price, value);
    Some(draft)
}

/// The square of need, for each tenth of Δ and before P and S divide it.
pub fn heat_value(sheet: &Sheet) -> f64 {
    let printed: f64 = match sheet.shape() {
        Shape::Cylinder => 3_795.0,
        Shape::Flat => 1_897.0,
    };
    let heat = f64::from(sheet.heat_price) * f64::from(sheet.hours);
    printed * printed * 1_000.0 * heat * f64::from(sheet.conductivity)
}

/// The loss aim for which need is the target.
fn near_loss(random: &mut Random) -> Option<Draft> {
    let (mut draft, sheet, target) = target(random, Goal::Loss);
    let window = any_window(random, &sheet, 1);
    let (difference, aim) = nearest(window, |difference| Fit {
        value: conductivity(&sheet) * f64::from(difference) * 1e5 / target,
        weight: target,
        range: (1, 65_535),
    })?;
    put_difference(&mut draft, &sheet, difference);
    put(&mut draft, plain::AIM_OFFSET, aim);
    Some(draft)
}

/// The surface aim for which need is the target.
fn near_surface(random: &mut Random) -> Option<Draft> {
    let goal = random.pick(&SURFACE);
    let (mut draft, sheet, target) = target(random, goal);
    let film = conductivity(&sheet) * 1e7 / f64::from(sheet.coefficient);
    let window = any_window(random, &sheet, 2);
    let (difference, from_air) = nearest(window, |difference| Fit {
        value: film * f64::from(difference) / target,
        weight: target,
        range: (1, difference - 1),
    })?;
    put_difference(&mut draft, &sheet, difference);
    let aim = sheet.temperature_at(from_air).into();
    put(&mut draft, plain::AIM_OFFSET, aim);
    Some(draft)
}

// The need at a limit next to have. The aim lies above the limit, so the
// chosen rung meets, and its check is close.

pub fn loss_limit(random: &mut Random, sheets: &mut Batch) {
    for _ in 0..2 {
        push_found(random, plain::COEFFICIENT.offset, near_loss_limit, sheets);
    }
}

pub fn surface_limit(random: &mut Random, sheets: &mut Batch) {
    push_found(
        random,
        plain::COEFFICIENT.offset,
        near_surface_limit,
        sheets,
    );
}

/// A setting with a figure for the layer at some rung.
fn layer(random: &mut Random, goal: Goal) -> (Draft, Sheet, f64) {
    let draft = setting(random, goal);
    let sheet = sheet_of(&draft).expect("a good draft");
    let rung = any_rung(random).max(plain::GRADE);
    let layer = layer_at(random, &sheet, rung);
    (draft, sheet, layer)
}

/// A figure for the layer: have less the film.
pub fn layer_at(random: &mut Random, sheet: &Sheet, rung: u16) -> f64 {
    let film = plain::provided_at(sheet, 0);
    let have = plain::provided_at(sheet, rung);
    let layer = Bracket {
        lower: have.lower - film.lower,
        upper: have.upper - film.upper,
    };
    any_figure(random, layer)
}

const COEFFICIENTS: (i32, i32) = (
    plain::COEFFICIENT.least + 1,
    plain::COEFFICIENT.greatest - 1,
);

/// The α whose film makes up what the layer lacks for a loss, at a Δ.
pub fn film_fit(sheet: &Sheet, difference: i32, loss: u16, layer: f64) -> Fit {
    let heat = conductivity(sheet) * f64::from(difference);
    let film = heat * 1e5 / f64::from(loss) - layer;
    Fit {
        value: conductivity(sheet) * 1e7 / film,
        weight: film,
        range: COEFFICIENTS,
    }
}

/// The α for which need at the limit is have.
fn near_loss_limit(random: &mut Random) -> Option<Draft> {
    let (mut draft, sheet, layer) = layer(random, Goal::Loss);
    // Where none is printed, a limit that no film reaches.
    let limit = |difference: i32| {
        let pipe = sheet.temperature_at(difference);
        plain::loss_limit(sheet.service, pipe).unwrap_or(1)
    };
    let least = sheet.from_air(10 * plain::LOSS_LIMITS[0].temperature);
    let window = any_window(random, &sheet, least.max(1));
    let (difference, coefficient) = nearest(window, |difference| {
        film_fit(&sheet, difference, limit(difference), layer)
    })?;
    put_difference(&mut draft, &sheet, difference);
    put_field(&mut draft, plain::COEFFICIENT, coefficient);
    let aim = i32::from(limit(difference)) + random.between(1, 20);
    put(&mut draft, plain::AIM_OFFSET, aim);
    Some(draft)
}

/// The α for which the layer keeps the surface at its limit, at a Δ: layer × s
/// is film × (Δ − s).
pub fn surface_fit(sheet: &Sheet, difference: i32, limit: i32, layer: f64) -> Fit {
    let beyond = f64::from(difference - limit);
    Fit {
        value: conductivity(sheet) * 1e7 * beyond / (f64::from(limit) * layer),
        weight: layer,
        range: COEFFICIENTS,
    }
}

/// The α for which need at the limit is have.
fn near_surface_limit(random: &mut Random) -> Option<Draft> {
    let (mut draft, sheet, layer) = layer(random, Goal::Surface);
    let limit = sheet.from_air(plain::surface_limit(sheet.air_temperature));
    let aim = limit + random.between(1, 20);
    let window = any_window(random, &sheet, aim + 1);
    let (difference, coefficient) = nearest(window, |difference| {
        surface_fit(&sheet, difference, limit, layer)
    })?;
    put_difference(&mut draft, &sheet, difference);
    put_field(&mut draft, plain::COEFFICIENT, coefficient);
    let aim = sheet.temperature_at(aim).into();
    put(&mut draft, plain::AIM_OFFSET, aim);
    Some(draft)
}
