//! Sheets for which have equals need to the last digit, and bare pipes and
//! walls.

use super::draft::{
    any_draft, any_rung, any_sort, goal_of, largest_difference, push_found, push_neighbours, put,
    put_field, put_temperatures, Draft, ECONOMY, SURFACE,
};
use super::{Batch, Random};
use crate::plain::{self, Field, Flow, Goal, Shape};

/// A product of small primes.
fn smooth(random: &mut Random, least: i32, greatest: i32) -> i32 {
    loop {
        let mut value = 1;
        while value < least {
            value *= random.pick(&[2, 2, 3, 5, 5, 7, 10, 11, 13]);
        }
        while value <= greatest && !random.once_in(3) {
            value *= random.pick(&[2, 3, 5, 7]);
        }
        if value <= greatest {
            return value;
        }
    }
}

pub fn in_range(field: Field, value: i32) -> Option<i32> {
    (field.least..=field.greatest)
        .contains(&value)
        .then_some(value)
}

fn greatest_common_divisor(mut a: i64, mut b: i64) -> i64 {
    while b != 0 {
        (a, b) = (b, a % b);
    }
    a
}

/// Two numbers in the ratio of a to b, neither above its bound.
fn in_ratio(random: &mut Random, (a, b): (i64, i64), bounds: (i64, i64)) -> Option<(i32, i32)> {
    let divisor = greatest_common_divisor(a, b);
    let (a, b) = (a / divisor, b / divisor);
    let times = (bounds.0 / a).min(bounds.1 / b);
    if times == 0 {
        return None;
    }
    let times = 1 + random.below(times as usize) as i64;
    Some(((a * times) as i32, (b * times) as i32))
}

/// A flat wall with round figures.
pub struct Wall {
    conductivity: i64,
    coefficient: i64,
    pub rung: i64,
}

impl Wall {
    pub fn any(random: &mut Random) -> Wall {
        let (l, alpha) = (plain::CONDUCTIVITY, plain::COEFFICIENT);
        Wall {
            conductivity: smooth(random, l.least, l.greatest).into(),
            coefficient: smooth(random, alpha.least, alpha.greatest).into(),
            rung: any_rung(random).into(),
        }
    }

    pub fn draft(
        &self,
        random: &mut Random,
        goal: Goal,
        temperatures: (i32, i32),
        aim: i32,
    ) -> Draft {
        let (_, service, _) = any_sort(random);
        let mut draft = any_draft(random, (goal, service, Shape::Flat));
        put_field(&mut draft, plain::CONDUCTIVITY, self.conductivity as i32);
        put_field(&mut draft, plain::COEFFICIENT, self.coefficient as i32);
        put_temperatures(&mut draft, temperatures);
        put(&mut draft, plain::AIM_OFFSET, aim);
        draft
    }

    /// Δ / aim for which k × 10⁶ + L × 10⁷ / α = LΔ × 10⁵ / aim.
    pub fn loss_ratio(&self) -> (i64, i64) {
        let (l, alpha) = (self.conductivity, self.coefficient);
        (10 * self.rung * alpha + 100 * l, l * alpha)
    }

    /// Δ / s for which k × 10⁶ + L × 10⁷ / α = LΔ × 10⁷ / (αs).
    fn surface_ratio(&self) -> (i64, i64) {
        let (l, alpha) = (self.conductivity, self.coefficient);
        (self.rung * alpha + 10 * l, 10 * l)
    }
}

const LARGEST_AIM: i64 = u16::MAX as i64;

/// The largest Δ of all.
fn largest(flow: Flow) -> i32 {
    let field = plain::AIR_TEMPERATURE;
    let ends = [field.least, field.greatest];
    let largest = ends.map(|air| largest_difference(flow, air));
    largest[0].max(largest[1])
}

/// The Δ that has the ratio to a limit or its s, if it is a whole number.
pub fn whole_difference(ratio: (i64, i64), divisor: i32) -> Option<i32> {
    let product = ratio.0 * i64::from(divisor);
    let whole = product % ratio.1 == 0 && product / ratio.1 <= largest(Flow::Outward).into();
    whole.then_some((product / ratio.1) as i32)
}

/// Temperatures with a Δ, anywhere in their ranges.
fn temperatures_with(random: &mut Random, goal: Goal, difference: i32) -> Option<(i32, i32)> {
    let flow = goal.flow();
    let pipes = plain::PIPE_TEMPERATURE.range(goal);
    let airs = [pipes.start(), pipes.end()].map(|&pipe| flow.temperature(-difference, pipe));
    let least = plain::AIR_TEMPERATURE.least.max(airs[0]);
    let greatest = plain::AIR_TEMPERATURE.greatest.min(airs[1]);
    if greatest < least {
        return None;
    }
    let air = random.between(least, greatest);
    Some((flow.temperature(difference, air), air))
}

/// Walls whose need, for the aim or at a limit, equals have.
pub fn wall(random: &mut Random, sheets: &mut Batch) {
    let makers: [fn(&mut Random) -> Option<Draft>; 3] =
        [loss_wall, loss_limit_wall, surface_limit_wall];
    for maker in makers {
        push_found(random, plain::AIM_OFFSET, maker, sheets);
    }
    for goal in SURFACE {
        let make = |random: &mut Random| surface_wall(random, goal);
        push_found(random, plain::AIM_OFFSET, make, sheets);
    }
}

/// Need for the loss aim equals have.
fn loss_wall(random: &mut Random) -> Option<Draft> {
    let wall = Wall::any(random);
    let bounds = (largest(Flow::Outward).into(), LARGEST_AIM);
    let (difference, aim) = in_ratio(random, wall.loss_ratio(), bounds)?;
    let temperatures = temperatures_with(random, Goal::Loss, difference)?;
    Some(wall.draft(random, Goal::Loss, temperatures, aim))
}

/// Need for the surface aim equals have.
fn surface_wall(random: &mut Random, goal: Goal) -> Option<Draft> {
    let wall = Wall::any(random);
    let flow = goal.flow();
    let bounds = (largest(flow).into(), largest(flow).into());
    let (difference, from_air) = in_ratio(random, wall.surface_ratio(), bounds)?;
    let (pipe, air) = temperatures_with(random, goal, difference)?;
    let aim = flow.temperature(from_air, air);
    Some(wall.draft(random, goal, (pipe, air), aim))
}

/// Need at the loss limit equals have. The aim is one above the limit.
fn loss_limit_wall(random: &mut Random) -> Option<Draft> {
    let wall = Wall::any(random);
    let least = 10 * i32::from(plain::LOSS_LIMITS[0].temperature);
    let pipe = random.between(least, plain::PIPE_TEMPERATURE.greatest);
    let service = random.pick(&plain::SERVICES);
    let limit = plain::loss_limit(service, pipe as i16)?.into();
    let air = pipe - whole_difference(wall.loss_ratio(), limit)?;
    in_range(plain::AIR_TEMPERATURE, air)?;
    let mut draft = wall.draft(random, Goal::Loss, (pipe, air), limit + 1);
    draft[plain::SERVICE_OFFSET] = service as u8;
    Some(draft)
}

/// Need at the surface limit equals have. The aim is one above the limit.
fn surface_limit_wall(random: &mut Random) -> Option<Draft> {
    let wall = Wall::any(random);
    let field = plain::AIR_TEMPERATURE;
    let air = random.between(field.least, field.greatest);
    let limit = i32::from(plain::surface_limit(air as i16));
    let pipe = air + whole_difference(wall.surface_ratio(), limit - air)?;
    let reached = limit + 1 < pipe && pipe <= plain::PIPE_TEMPERATURE.greatest;
    reached.then(|| wall.draft(random, Goal::Surface, (pipe, air), limit + 1))
}

/// Flat walls and bare pipes whose economy need equals have.
pub fn economy(random: &mut Random, sheets: &mut Batch) {
    for shape in [Shape::Cylinder, Shape::Flat] {
        let goal = random.pick(&ECONOMY);
        let make = |random: &mut Random| economy_draft(random, goal, shape);
        push_found(random, plain::HEAT_PRICE.offset, make, sheets);
    }
}

/// A film of r mm, so that L × 10⁷ / α = r × 10⁶. With P and S multiples of
/// the printed coefficient, need² = 1,000 × fLτΔ / (ab). A flat wall has
/// (k + r) × 10⁶, a bare pipe 2r × 10⁶.
fn economy_draft(random: &mut Random, goal: Goal, shape: Shape) -> Option<Draft> {
    let (_, service, _) = any_sort(random);
    let mut draft = any_draft(random, (goal, service, shape));
    let film = smooth(random, 1, 200);
    let conductivity = smooth(random, 1, plain::CONDUCTIVITY.greatest);
    let (have, printed) = match shape {
        Shape::Cylinder => (2 * film, 3_795),
        Shape::Flat => (i32::from(any_rung(random)) + film, 1_897),
    };
    let (a, b) = (random.between(1, 17), random.between(1, 2));
    let product = i64::from(have).pow(2) * 1_000_000_000 * i64::from(a * b);
    if 10 * conductivity % film != 0 || product % i64::from(conductivity) != 0 {
        return None;
    }
    let coefficient = in_range(plain::COEFFICIENT, 10 * conductivity / film)?;
    put_field(&mut draft, plain::CONDUCTIVITY, conductivity);
    put_field(&mut draft, plain::COEFFICIENT, coefficient);
    put_field(&mut draft, plain::INSULATION_PRICE, printed * a);
    put_field(&mut draft, plain::YEARLY_SHARE, printed * b);
    put_factors(random, &mut draft, product / i64::from(conductivity))?;
    Some(draft)
}

/// Puts f, τ and Δ of the given product.
pub fn put_factors(random: &mut Random, draft: &mut Draft, product: i64) -> Option<()> {
    let goal = goal_of(draft);
    for _ in 0..100 {
        let least = random.pick(&[1, 50, 1_000]);
        let hours = smooth(random, least, plain::HOURS.greatest);
        let difference = smooth(random, least, largest(goal.flow()));
        let divisor = i64::from(hours) * i64::from(difference);
        if product % divisor != 0 {
            continue;
        }
        let price = i32::try_from(product / divisor).unwrap_or(0);
        if let Some(price) = in_range(plain::HEAT_PRICE, price) {
            put_field(draft, plain::HOURS, hours);
            put_field(draft, plain::HEAT_PRICE, price);
            put_temperatures(draft, temperatures_with(random, goal, difference)?);
            return Some(());
        }
    }
    None
}

/// Bare surfaces at their loss aim and at the surface limit, cold ones, and
/// surfaces with an aim next to the bare one.
pub fn bare(random: &mut Random, sheets: &mut Batch) {
    let shape = random.pick(&[Shape::Cylinder, Shape::Flat]);
    let draft = bare_loss(random, shape);
    push_neighbours(&draft, plain::AIM_OFFSET, sheets);
    let draft = bare_at_surface_limit(random, shape);
    push_neighbours(&draft, plain::COEFFICIENT.offset, sheets);
    let draft = cheap(random, Goal::ColdEconomy, shape);
    push_neighbours(&draft, plain::PIPE_TEMPERATURE.offset, sheets);
    let draft = hardly_bare(random, shape);
    push_neighbours(&draft, plain::AIM_OFFSET, sheets);
}

/// The bare surface loses exactly its aim: αΔ = 100 × aim.
fn bare_loss(random: &mut Random, shape: Shape) -> Draft {
    loop {
        let (_, service, _) = any_sort(random);
        let mut draft = any_draft(random, (Goal::Loss, service, shape));
        let field = plain::COEFFICIENT;
        let coefficient = smooth(random, field.least, field.greatest);
        let difference = 50 * random.between(1, largest(Flow::Outward) / 50);
        let aim = coefficient * difference / 100;
        let exact = aim * 100 == coefficient * difference && i64::from(aim) <= LARGEST_AIM;
        let temperatures = temperatures_with(random, Goal::Loss, difference);
        if let (true, Some(temperatures)) = (exact, temperatures) {
            put_temperatures(&mut draft, temperatures);
            put_field(&mut draft, plain::COEFFICIENT, coefficient);
            put(&mut draft, plain::AIM_OFFSET, aim);
            return draft;
        }
    }
}

/// A pipe just above the surface limit in cold air, with so little have that
/// a nanometre decides, and so cheap a heat that it stays bare.
fn bare_at_surface_limit(random: &mut Random, shape: Shape) -> Draft {
    let goal = match shape {
        Shape::Cylinder => random.pick(&[Goal::Economy, Goal::JacketedEconomy]),
        Shape::Flat => Goal::Economy,
    };
    let mut draft = cheap(random, goal, shape);
    let air = random.between(plain::AIR_TEMPERATURE.least, -200);
    put_temperatures(&mut draft, (500 + random.between(1, 2), air));
    put_least_film(random, &mut draft);
    draft
}

/// An aim a tenth of a degree from t, with so little have that the bare surface
/// misses it by a nanometre or is open.
fn hardly_bare(random: &mut Random, shape: Shape) -> Draft {
    let (_, service, _) = any_sort(random);
    let goal = random.pick(&SURFACE);
    let flow = goal.flow();
    let mut draft = any_draft(random, (goal, service, shape));
    let difference = random.between(500, largest(flow));
    let (pipe, air) = temperatures_with(random, goal, difference).expect("room for Δ");
    put_temperatures(&mut draft, (pipe, air));
    put_least_film(random, &mut draft);
    let aim = flow.temperature(difference - 1, air);
    put(&mut draft, plain::AIM_OFFSET, aim);
    draft
}

/// A film of hardly more than a micrometre, twice that on a pipe.
fn put_least_film(random: &mut Random, draft: &mut Draft) {
    let coefficient = random.between(9_000, 9_999);
    put_field(draft, plain::CONDUCTIVITY, 1);
    put_field(draft, plain::COEFFICIENT, coefficient);
}

/// Heat is cheap and the layer dear, so that a surface stays bare.
fn cheap(random: &mut Random, goal: Goal, shape: Shape) -> Draft {
    let (_, service, _) = any_sort(random);
    let mut draft = any_draft(random, (goal, service, shape));
    for field in [plain::HEAT_PRICE, plain::HOURS] {
        put_field(&mut draft, field, random.between(1, 3));
    }
    for field in [plain::INSULATION_PRICE, plain::YEARLY_SHARE] {
        let value = random.between(field.greatest / 2, field.greatest);
        put_field(&mut draft, field, value);
    }
    draft
}
