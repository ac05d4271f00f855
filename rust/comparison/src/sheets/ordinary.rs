//! Sheets with fields anywhere in their ranges, and at the ends.

use super::draft::{
    any_draft, any_hot_sort, any_sort, diameters, ends, every_sort, get_temperatures, goal_of, put,
    put_any_aim, put_field, put_temperatures, shapes, Draft, PRICED,
};
use super::{Batch, Random};
use crate::plain::{self, Field, Flow, Goal, Method, Service, Shape};

/// Sheets such as a design office writes.
pub fn office(random: &mut Random, sheets: &mut Batch) {
    for sort in every_sort(random) {
        sheets.push(office_draft(random, sort).to_vec());
    }
}

pub fn office_draft(random: &mut Random, sort: (Goal, Service, Shape)) -> Draft {
    let mut draft = any_draft(random, sort);
    let (goal, _, shape) = sort;
    let (least, greatest) = diameters(shape);
    let diameter = random.low_between(least.max(180), greatest);
    put_field(&mut draft, plain::DIAMETER, diameter);
    let temperatures = office_temperatures(random, goal.flow());
    put_temperatures(&mut draft, temperatures);
    let usual = [
        (plain::CONDUCTIVITY, 250, 900),
        (plain::COEFFICIENT, 600, 2_500),
        (plain::HEAT_PRICE, 800, 9_000),
        (plain::HOURS, 2_000, 8_784),
        (plain::INSULATION_PRICE, 300, 4_000),
        (plain::YEARLY_SHARE, 800, 3_000),
    ];
    for (field, least, greatest) in usual {
        if plain::used(&field, goal) {
            put_field(&mut draft, field, random.between(least, greatest));
        }
    }
    let aim = office_aim(random, goal, temperatures);
    put(&mut draft, plain::AIM_OFFSET, aim);
    draft
}

/// Hot water and steam; chilled water and brine, or anything down to liquid
/// nitrogen.
fn office_temperatures(random: &mut Random, flow: Flow) -> (i32, i32) {
    match flow {
        Flow::Outward => (random.between(600, 5_400), random.between(-150, 350)),
        Flow::Inward => {
            let least = random.pick(&[-300, -1_960]);
            (random.between(least, 120), random.between(150, 380))
        }
    }
}

/// The wanted surface of a cold line is above the dew point, 1 to 8 K below the
/// air.
fn office_aim(random: &mut Random, goal: Goal, (pipe, air): (i32, i32)) -> i32 {
    match goal {
        Goal::Economy | Goal::ColdEconomy | Goal::LimitedEconomy => 0,
        Goal::JacketedEconomy => random.between(20, 300),
        Goal::Loss => random.between(400, 3_000),
        Goal::Surface => random.between(400.max(air + 80), 590),
        Goal::ColdSurface => random.between((air - 80).max(pipe + 1), air - 10),
    }
}

/// Every goal and shape, the fields anywhere.
pub fn anywhere(random: &mut Random, sheets: &mut Batch) {
    for sort in every_sort(random) {
        sheets.push(any_draft(random, sort).to_vec());
    }
}

/// Diameters at the ends and about the change of shape.
pub fn diameter_edge(random: &mut Random, sheets: &mut Batch) {
    let sort = any_sort(random);
    for diameter in [100, 101, 9_999, 10_000, 10_001, 10_002, 65_534, 65_535] {
        let mut draft = any_draft(random, sort);
        put_field(&mut draft, plain::DIAMETER, diameter);
        sheets.push(draft.to_vec());
    }
}

/// Temperatures at a row of the loss table, a tenth beside it, and halfway to
/// the next row.
pub fn table_row(random: &mut Random, sheets: &mut Batch) {
    let row = &plain::LOSS_LIMITS[random.below(plain::LOSS_LIMITS.len())];
    let (goal, _, shape) = any_hot_sort(random);
    for service in plain::SERVICES {
        for tenths in [-1, 0, 1, 250] {
            let mut draft = office_draft(random, (goal, service, shape));
            let pipe = 10 * i32::from(row.temperature) + tenths;
            put_field(&mut draft, plain::PIPE_TEMPERATURE, pipe);
            put_any_aim(random, &mut draft);
            sheets.push(draft.to_vec());
        }
    }
}

/// Air about 27.0 °C, and a pipe about the surface limit.
pub fn surface_limit(random: &mut Random, sheets: &mut Batch) {
    let sort = any_hot_sort(random);
    for air in 268..=272 {
        let mut draft = any_draft(random, sort);
        let limit = plain::surface_limit(air as i16);
        let pipe = match random.below(3) {
            0 => random.between(300, 6_500),
            _ => i32::from(limit) + random.between(-2, 2),
        };
        put_temperatures(&mut draft, (pipe, air));
        put_any_aim(random, &mut draft);
        sheets.push(draft.to_vec());
    }
}

/// One field at an end of its range. t is at the lower end of hot lines and at
/// that of cold ones, whatever the goal.
pub fn end_of_range(random: &mut Random, sheets: &mut Batch) {
    for field in plain::FIELDS {
        for (value, _) in ends(field) {
            let (mut goal, service, shape) = any_sort(random);
            if field.economy_only {
                goal = random.pick(&PRICED);
            }
            let mut draft = any_draft(random, (goal, service, shape));
            put_field(&mut draft, field, value);
            keep_apart(&mut draft, field);
            put_any_aim(random, &mut draft);
            sheets.push(draft.to_vec());
        }
    }
}

/// Moves the pipe's temperature away from the air's if that one was changed. A
/// pipe at an end stays: a hot one at its least has no air below it, and a cold
/// one at its greatest none above it.
fn keep_apart(draft: &mut Draft, changed: Field) {
    let flow = goal_of(draft).flow();
    let (pipe, air) = get_temperatures(draft);
    if changed.offset == plain::AIR_TEMPERATURE.offset && flow.from_air(pipe, air) < 2 {
        put_temperatures(draft, (flow.temperature(2, air), air));
    }
}

/// Temperatures about zero, for every goal.
pub fn about_zero(random: &mut Random, sheets: &mut Batch) {
    for goal in plain::GOALS {
        for &shape in shapes(goal) {
            let service = random.pick(&plain::SERVICES);
            let mut draft = any_draft(random, (goal, service, shape));
            put_about_zero(random, &mut draft);
            sheets.push(draft.to_vec());
        }
    }
}

/// The pipe, the air or some place between them within 0.2 K of zero, and every
/// other surface aim at that place.
fn put_about_zero(random: &mut Random, draft: &mut Draft) {
    let goal = goal_of(draft);
    let place = random.between(-2, 2);
    let difference = random.low_between(1, 500);
    let from_air = match random.below(4) {
        0 => 0,
        1 => difference,
        _ => random.between(0, difference),
    };
    let air = goal.flow().temperature(-from_air, place);
    put_temperatures(draft, (goal.flow().temperature(difference, air), air));
    if goal.method() == Method::Surface && random.once_in(2) {
        put(draft, plain::AIM_OFFSET, place);
    } else {
        put_any_aim(random, draft);
    }
}

/// Economy with the largest products below the root. The prices of the layer,
/// with its jacket, are high as well, so that a rung is found.
pub fn widest_product(random: &mut Random, sheets: &mut Batch) {
    let service = random.pick(&plain::SERVICES);
    for goal in PRICED {
        let shape = random.pick(shapes(goal));
        let mut draft = any_draft(random, (goal, service, shape));
        let others = [
            plain::CONDUCTIVITY,
            plain::HEAT_PRICE,
            plain::HOURS,
            plain::INSULATION_PRICE,
            plain::YEARLY_SHARE,
        ];
        for field in others {
            let least = field.greatest - field.greatest / 12;
            put_field(&mut draft, field, random.between(least, field.greatest));
        }
        if goal == Goal::JacketedEconomy {
            let price = random.between(60_000, 65_535);
            put(&mut draft, plain::AIM_OFFSET, price);
        }
        put_temperatures(&mut draft, far_apart(random, goal.flow()));
        sheets.push(draft.to_vec());
    }
}

/// Temperatures near those ends of their ranges that make Δ large.
fn far_apart(random: &mut Random, flow: Flow) -> (i32, i32) {
    let (pipe, air) = (plain::PIPE_TEMPERATURE, plain::AIR_TEMPERATURE);
    match flow {
        Flow::Outward => (
            random.between(pipe.greatest - 500, pipe.greatest),
            random.between(air.least, air.least + 100),
        ),
        Flow::Inward => (
            random.between(pipe.cold_least, pipe.cold_least + 100),
            random.between(air.greatest - 100, air.greatest),
        ),
    }
}
