//! Sheets of goal 6 that tell its loss check and its second pass.

use super::draft::{any_draft, any_rung, push_found, put_field, put_temperatures, sheet_of, Draft};
use super::exact::{in_range, whole_difference, Wall};
use super::near::{conductivity, film_fit, heat_value, layer_at, nearest, setting};
use super::ordinary::office_draft;
use super::{Batch, Random};
use crate::plain::{self, Goal, Service, Shape, Sheet};

const GOAL: Goal = Goal::LimitedEconomy;

/// Sheets such as a design office writes, with cheap heat.
pub fn cheap_heat(random: &mut Random, sheets: &mut Batch) {
    for service in plain::SERVICES {
        for shape in [Shape::Cylinder, Shape::Flat] {
            let mut draft = office_draft(random, (GOAL, service, shape));
            let price = random.low_between(1, 2_000);
            put_field(&mut draft, plain::HEAT_PRICE, price);
            sheets.push(draft.to_vec());
        }
    }
}

/// A hot line in cold air with a layer of high conductivity, at a row of the
/// loss table or up to 30 K below one: every rung misses the second aim.
pub fn beyond_ladder(random: &mut Random, sheets: &mut Batch) {
    push_found(random, plain::COEFFICIENT.offset, beyond, sheets);
}

/// On a pipe the top rung always meets 90 per cent of a seasonal limit.
fn beyond(random: &mut Random) -> Option<Draft> {
    let (service, shape) = random.pick(&[
        (Service::YearRound, Shape::Cylinder),
        (Service::YearRoundInterpolated, Shape::Cylinder),
        (Service::YearRound, Shape::Flat),
        (Service::YearRoundInterpolated, Shape::Flat),
        (Service::Seasonal, Shape::Flat),
        (Service::SeasonalInterpolated, Shape::Flat),
    ]);
    let mut draft = any_draft(random, (GOAL, service, shape));
    let air = plain::AIR_TEMPERATURE.least + random.between(0, 50);
    let below_row = random.between(0, 300) * random.between(0, 1);
    put_temperatures(&mut draft, (any_row(random) - below_row, air));
    for field in [plain::CONDUCTIVITY, plain::COEFFICIENT] {
        let value = random.between(field.greatest * 9 / 10, field.greatest - 1);
        put_field(&mut draft, field, value);
    }
    let sheet = sheet_of(&draft)?;
    let loss = plain::second_aim(service, sheet.pipe_temperature)?;
    let need = conductivity(&sheet) * f64::from(sheet.difference()) * 1e5 / f64::from(loss);
    if need < plain::provided_at(&sheet, plain::TOP).upper as f64 {
        return None;
    }
    let first = rung_below(random, plain::TOP);
    put_prices(random, &mut draft, first)?;
    Some(draft)
}

/// The loss to which have is brought near: the limit, or a second aim.
pub type Loss = fn(Service, i16) -> Option<u16>;

/// Have next to the need at the limit, at the rung that the first pass finds.
pub fn near_first_check(random: &mut Random, sheets: &mut Batch) {
    for _ in 0..2 {
        let rung = any_rung(random).min(plain::TOP);
        let make = |random: &mut Random| near(random, rung, plain::loss_limit, rung);
        push_found(random, plain::COEFFICIENT.offset, make, sheets);
    }
}

/// Have next to the need of the second pass, the first pass finding a lower
/// rung.
pub fn near_second_rung(random: &mut Random, sheets: &mut Batch) {
    for _ in 0..4 {
        let rung = any_rung(random).max(plain::GRADE);
        let first = rung_below(random, rung);
        let make = |random: &mut Random| near(random, rung, plain::second_aim, first);
        push_found(random, plain::COEFFICIENT.offset, make, sheets);
    }
}

fn rung_below(random: &mut Random, rung: u16) -> u16 {
    plain::GRADE * random.below((rung / plain::GRADE).into()) as u16
}

/// Have at a rung next to the need for the loss, the first pass finding the
/// other rung.
fn near(random: &mut Random, rung: u16, loss: Loss, first: u16) -> Option<Draft> {
    let mut draft = setting(random, GOAL);
    put_near(random, &mut draft, rung, loss)?;
    put_prices(random, &mut draft, first)?;
    Some(draft)
}

/// The temperature of a pipe that may have a limit: at a row of the loss table
/// or anywhere.
fn any_pipe(random: &mut Random) -> i32 {
    if random.once_in(2) {
        return any_row(random);
    }
    let least = 10 * i32::from(plain::LOSS_LIMITS[0].temperature);
    random.between(least, plain::PIPE_TEMPERATURE.greatest)
}

/// The temperature of a row of the loss table.
fn any_row(random: &mut Random) -> i32 {
    let row = &plain::LOSS_LIMITS[random.below(plain::LOSS_LIMITS.len())];
    10 * i32::from(row.temperature)
}

/// Puts an L that suits the rung, and the air's temperature and the α that
/// bring have and need nearest to each other.
pub fn put_near(random: &mut Random, draft: &mut Draft, rung: u16, loss: Loss) -> Option<()> {
    let pipe = any_pipe(random);
    let air = plain::AIR_TEMPERATURE;
    put_temperatures(draft, (pipe, air.least));
    let sheet = sheet_of(draft)?;
    let loss = loss(sheet.service, sheet.pipe_temperature)?;
    let window = (pipe - air.greatest).max(1)..pipe - air.least + 1;
    if rung > 0 {
        let difference = random.between(window.start, window.end - 1);
        let suitable = suitable(random, &sheet, rung, difference, loss)?;
        put_field(draft, plain::CONDUCTIVITY, suitable);
    }
    let sheet = sheet_of(draft)?;
    let layer = layer_at(random, &sheet, rung);
    let (difference, coefficient) = nearest(window, |difference| {
        film_fit(&sheet, difference, loss, layer)
    })?;
    put_temperatures(draft, (pipe, pipe - difference));
    put_field(draft, plain::COEFFICIENT, coefficient);
    Some(())
}

/// The L for which the rung and the film of some α have about what the loss
/// asks for, if it is in its range.
fn suitable(
    random: &mut Random,
    sheet: &Sheet,
    rung: u16,
    difference: i32,
    loss: u16,
) -> Option<i32> {
    let inner = f64::from(sheet.diameter);
    let outer = inner + 20.0 * f64::from(rung);
    let layer = match sheet.shape() {
        Shape::Cylinder => outer * (outer / inner).ln() / 2.0 * 1e5,
        Shape::Flat => f64::from(rung) * 1e6,
    };
    let field = plain::COEFFICIENT;
    let coefficient = f64::from(random.between(field.least, field.greatest));
    let each = f64::from(difference) * 1e5 / f64::from(loss) - 1e7 / coefficient;
    in_range(plain::CONDUCTIVITY, (layer / each).round() as i32)
}

/// Prices and hours for which the first pass finds that rung: the need for
/// economy is above have of the rung below it.
fn put_prices(random: &mut Random, draft: &mut Draft, rung: u16) -> Option<()> {
    let sheet = sheet_of(draft)?;
    let have = |rung| plain::provided_at(&sheet, rung).lower as f64;
    let below = rung.checked_sub(plain::GRADE).map_or(0.0, have);
    let part = f64::from(random.between(1, 99)) / 100.0;
    let need = below + part * (have(rung) - below);
    (0..100).find_map(|_| priced(random, draft, need))
}

/// Any f, τ and S, and the P for which need is about the target.
fn priced(random: &mut Random, draft: &mut Draft, target: f64) -> Option<()> {
    for field in [plain::HEAT_PRICE, plain::HOURS, plain::YEARLY_SHARE] {
        let value = random.low_between(field.least, field.greatest);
        put_field(draft, field, value);
    }
    let sheet = sheet_of(draft)?;
    let heat = heat_value(&sheet) * f64::from(sheet.difference());
    let price = heat / (target * target) / f64::from(sheet.yearly_share);
    let field = plain::INSULATION_PRICE;
    if !(100.0..=f64::from(field.greatest)).contains(&price) {
        return None;
    }
    put_field(draft, field, price as i32);
    Some(())
}

/// Walls and bare pipes with have equal to the need at the limit, and walls with
/// have equal to the need of the second pass.
pub fn exact(random: &mut Random, sheets: &mut Batch) {
    let makers: [fn(&mut Random) -> Option<Draft>; 3] = [checked_wall, second_wall, bare_pipe];
    for maker in makers {
        push_found(random, plain::COEFFICIENT.offset, maker, sheets);
    }
}

/// Have at the rung of the first pass equals the need at the limit.
fn checked_wall(random: &mut Random) -> Option<Draft> {
    let wall = Wall::any(random);
    let rung = wall.rung as u16;
    exact_wall(random, &wall, plain::loss_limit, rung)
}

/// Have at some rung equals the need of the second pass.
fn second_wall(random: &mut Random) -> Option<Draft> {
    let wall = Wall::any(random);
    let rung = wall.rung as u16;
    let first = rung_below(random, rung.max(plain::GRADE));
    exact_wall(random, &wall, plain::second_aim, first)
}

fn exact_wall(random: &mut Random, wall: &Wall, loss: Loss, first: u16) -> Option<Draft> {
    let service = random.pick(&plain::SERVICES);
    let pipe = any_pipe(random);
    let loss = loss(service, pipe as i16)?;
    let air = pipe - whole_difference(wall.loss_ratio(), loss.into())?;
    in_range(plain::AIR_TEMPERATURE, air)?;
    let mut draft = wall.draft(random, GOAL, (pipe, air), 0);
    draft[plain::SERVICE_OFFSET] = service as u8;
    put_prices(random, &mut draft, first)?;
    Some(draft)
}

/// A bare pipe loses exactly its limit: αΔ = 100 × limit.
fn bare_pipe(random: &mut Random) -> Option<Draft> {
    let service = random.pick(&plain::SERVICES);
    let mut draft = any_draft(random, (GOAL, service, Shape::Cylinder));
    let pipe = any_pipe(random);
    let loss = 100 * i32::from(plain::loss_limit(service, pipe as i16)?);
    let coefficient = random.low_between(plain::COEFFICIENT.least + 1, 1_000);
    let air = in_range(plain::AIR_TEMPERATURE, pipe - loss / coefficient)?;
    if loss % coefficient != 0 {
        return None;
    }
    put_temperatures(&mut draft, (pipe, air));
    put_field(&mut draft, plain::COEFFICIENT, coefficient);
    put_prices(random, &mut draft, 0)?;
    Some(draft)
}
