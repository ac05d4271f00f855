//! Sheets under construction.

use super::{Batch, Random};
use crate::plain::{self, Field, Flow, Goal, Layout, Method, Service, Shape, Sheet};

pub type Draft = [u8; plain::SHEET_LENGTH];

/// Writes the low 16 bits of a value, big-endian.
pub fn put(draft: &mut Draft, offset: usize, value: i32) {
    draft[offset..offset + 2].copy_from_slice(&(value as u16).to_be_bytes());
}

/// Reads a value with its sign, or without.
pub fn get(draft: &Draft, offset: usize, signed: bool) -> i32 {
    let bytes = [draft[offset], draft[offset + 1]];
    if signed {
        i16::from_be_bytes(bytes).into()
    } else {
        u16::from_be_bytes(bytes).into()
    }
}

pub fn put_field(draft: &mut Draft, field: Field, value: i32) {
    put(draft, field.offset, value);
}

pub fn get_field(draft: &Draft, field: Field) -> i32 {
    get(draft, field.offset, field.signed)
}

pub fn goal_of(draft: &Draft) -> Goal {
    let code = draft[plain::GOAL_OFFSET];
    let goal = plain::GOALS.into_iter().find(|&goal| goal as u8 == code);
    goal.expect("a known goal")
}

/// The draft as a sheet, if it passes tests 11 to 16 and 43.
pub fn sheet_of(draft: &Draft) -> Option<Sheet> {
    plain::examine(draft).ok()
}

/// Goal 7 is for cylinders.
pub fn shapes(goal: Goal) -> &'static [Shape] {
    match goal {
        Goal::JacketedEconomy => &[Shape::Cylinder],
        _ => &[Shape::Cylinder, Shape::Flat],
    }
}

/// Every goal with every service and each of its shapes. A cold goal has two
/// services each time: its answer does not depend on the service.
pub fn every_sort(random: &mut Random) -> Vec<(Goal, Service, Shape)> {
    let mut sorts = Vec::new();
    for goal in plain::GOALS {
        let services = match goal.flow() {
            Flow::Outward => plain::SERVICES.to_vec(),
            Flow::Inward => vec![random.pick(&plain::SERVICES), random.pick(&plain::SERVICES)],
        };
        for service in services {
            sorts.extend(shapes(goal).iter().map(|&shape| (goal, service, shape)));
        }
    }
    sorts
}

/// Economy of hot lines, of cold ones and within the loss limit.
pub const ECONOMY: [Goal; 3] = [Goal::Economy, Goal::ColdEconomy, Goal::LimitedEconomy];

/// These, and economy with the price of the jacket.
pub const PRICED: [Goal; 4] = [
    Goal::Economy,
    Goal::ColdEconomy,
    Goal::LimitedEconomy,
    Goal::JacketedEconomy,
];

/// The surface of hot lines and of cold ones.
pub const SURFACE: [Goal; 2] = [Goal::Surface, Goal::ColdSurface];

fn sort_of(random: &mut Random, goal: Goal) -> (Goal, Service, Shape) {
    let service = random.pick(&plain::SERVICES);
    (goal, service, random.pick(shapes(goal)))
}

pub fn any_sort(random: &mut Random) -> (Goal, Service, Shape) {
    let goal = random.pick(&plain::GOALS);
    sort_of(random, goal)
}

/// A sort whose checks have limits.
pub fn any_hot_sort(random: &mut Random) -> (Goal, Service, Shape) {
    let goal = random.pick(&[
        Goal::Economy,
        Goal::Loss,
        Goal::Surface,
        Goal::LimitedEconomy,
        Goal::JacketedEconomy,
    ]);
    sort_of(random, goal)
}

/// The ends of a field's range, each with the step that leads out of it. t has
/// two lower ones: that of hot lines and that of cold ones.
pub fn ends(field: Field) -> Vec<(i32, i32)> {
    let mut ends = vec![(field.least, -1), (field.greatest, 1)];
    if field.cold_least != field.least {
        ends.push((field.cold_least, -1));
    }
    ends
}

/// The diameters of a shape.
pub fn diameters(shape: Shape) -> (i32, i32) {
    match shape {
        Shape::Cylinder => (plain::DIAMETER.least, plain::LARGEST_CYLINDER.into()),
        Shape::Flat => (
            i32::from(plain::LARGEST_CYLINDER) + 1,
            plain::DIAMETER.greatest,
        ),
    }
}

/// The largest Δ that leaves the pipe's temperature in its range.
pub fn largest_difference(flow: Flow, air: i32) -> i32 {
    let field = plain::PIPE_TEMPERATURE;
    match flow {
        Flow::Outward => flow.from_air(field.greatest, air),
        Flow::Inward => flow.from_air(field.cold_least, air),
    }
}

/// A pipe temperature and an air temperature at least 0.2 K apart, so that a
/// surface aim fits in between.
fn any_temperatures(random: &mut Random, flow: Flow) -> (i32, i32) {
    let field = plain::AIR_TEMPERATURE;
    let air = random.between(field.least, field.greatest);
    let moderate = match flow {
        Flow::Outward => 700,
        Flow::Inward => -200,
    };
    let greatest = match random.below(4) {
        0 => 20,
        1 => flow.from_air(moderate, air).max(20),
        _ => largest_difference(flow, air),
    };
    let difference = random.between(2, greatest);
    (flow.temperature(difference, air), air)
}

/// The pipe's and the air's.
pub fn put_temperatures(draft: &mut Draft, (pipe, air): (i32, i32)) {
    put_field(draft, plain::PIPE_TEMPERATURE, pipe);
    put_field(draft, plain::AIR_TEMPERATURE, air);
}

pub fn get_temperatures(draft: &Draft) -> (i32, i32) {
    let pipe = get_field(draft, plain::PIPE_TEMPERATURE);
    (pipe, get_field(draft, plain::AIR_TEMPERATURE))
}

/// A jacket's price of any size.
pub fn any_jacket_price(random: &mut Random) -> i32 {
    match random.below(8) {
        0 => 0,
        1 => random.pick(&[1, 255, 256, 32_767, 32_768, 65_534, 65_535]),
        2 => random.between(0, 65_535),
        _ => random.low_between(0, 65_535),
    }
}

/// Puts an aim that passes test 16, if there is one, a jacket's price, or zero
/// for economy without it.
pub fn put_any_aim(random: &mut Random, draft: &mut Draft) {
    let goal = goal_of(draft);
    let aim = match goal.method() {
        Method::Economy => 0,
        Method::JacketedEconomy => any_jacket_price(random),
        Method::Loss => random.low_between(1, 65_535),
        Method::Surface => {
            let (pipe, air) = get_temperatures(draft);
            let difference = goal.flow().from_air(pipe, air);
            let from_air = random.between(1, (difference - 1).max(1));
            goal.flow().temperature(from_air, air)
        }
    };
    put(draft, plain::AIM_OFFSET, aim);
}

/// A sheet that passes tests 11 to 16 and 43, its fields anywhere in their
/// ranges.
pub fn any_draft(random: &mut Random, (goal, service, shape): (Goal, Service, Shape)) -> Draft {
    let mut draft = [0; plain::SHEET_LENGTH];
    draft[plain::GOAL_OFFSET] = goal as u8;
    draft[plain::SERVICE_OFFSET] = service as u8;
    put(&mut draft, plain::LINE_OFFSET, random.between(0, 65_535));
    for field in plain::FIELDS {
        if plain::used(&field, goal) {
            let value = random.low_between(field.least, field.greatest);
            put_field(&mut draft, field, value);
        }
    }
    let (least, greatest) = diameters(shape);
    let diameter = random.between(least, greatest);
    put_field(&mut draft, plain::DIAMETER, diameter);
    put_temperatures(&mut draft, any_temperatures(random, goal.flow()));
    put_any_aim(random, &mut draft);
    draft
}

/// A standard sheet, of any length, as one of a layout. The further bytes of its
/// line number are put before the two that it has, and are zero one time in four.
pub fn in_layout(random: &mut Random, layout: Layout, mut sheet: Vec<u8>) -> Vec<u8> {
    let place = sheet.len().min(plain::LINE_OFFSET);
    let low = random.once_in(4);
    let further = (0..layout.further()).map(|_| if low { 0 } else { random.byte() });
    sheet.splice(place..place, further);
    sheet
}

/// A rung of the ladder, or the one that would come next above the top.
pub fn any_rung(random: &mut Random) -> u16 {
    let rungs = usize::from(plain::TOP / plain::GRADE) + 2;
    plain::GRADE * random.below(rungs) as u16
}

/// The draft with one field a step lower, as it is, and a step higher.
pub fn push_neighbours(draft: &Draft, offset: usize, sheets: &mut Batch) {
    let value = get(draft, offset, false);
    for step in [-1, 0, 1] {
        let mut neighbour = *draft;
        put(&mut neighbour, offset, value + step);
        sheets.push(neighbour.to_vec());
    }
}

/// How often a draft is tried.
const ATTEMPTS: usize = 1_000;

/// Pushes a draft that `make` finds, if it does, and its neighbours.
pub fn push_found(
    random: &mut Random,
    offset: usize,
    make: impl Fn(&mut Random) -> Option<Draft>,
    sheets: &mut Batch,
) {
    if let Some(draft) = (0..ATTEMPTS).find_map(|_| make(random)) {
        push_neighbours(&draft, offset, sheets);
    }
}
