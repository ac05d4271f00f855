//! Sheets with faults, and sheets just inside the faults.

use super::draft::{
    any_draft, any_sort, diameters, ends, get_temperatures, goal_of, put, put_any_aim, put_field,
    put_temperatures, Draft, PRICED,
};
use super::{Batch, Random};
use crate::plain::{self, Field, Flow, Goal, Method, Shape};

/// Lengths other than 24, and 24 now and then.
pub fn wrong_length(random: &mut Random, sheets: &mut Batch) {
    for length in [random.below(31), random.below(31), random.below(300)] {
        let sort = any_sort(random);
        let mut sheet = any_draft(random, sort).to_vec();
        sheet.resize(length, random.byte());
        sheets.push(sheet);
    }
}

/// One change of a good sheet.
type Fault = fn(&mut Random, &mut Draft);

fn faulty(random: &mut Random, sheets: &mut Batch, times: usize, fault: Fault) {
    for _ in 0..times {
        let sort = any_sort(random);
        let mut draft = any_draft(random, sort);
        fault(random, &mut draft);
        sheets.push(draft.to_vec());
    }
}

pub fn unknown_code(random: &mut Random, sheets: &mut Batch) {
    faulty(random, sheets, 4, put_unknown_code);
}

pub fn stray_field(random: &mut Random, sheets: &mut Batch) {
    faulty(random, sheets, 4, put_stray_field);
}

pub fn wrong_side(random: &mut Random, sheets: &mut Batch) {
    faulty(random, sheets, 4, put_wrong_side);
}

pub fn aim(random: &mut Random, sheets: &mut Batch) {
    faulty(random, sheets, 8, put_aim);
}

/// A jacket on a wall: alone, with a second fault or with an aim of its own.
pub fn jacketed_wall(random: &mut Random, sheets: &mut Batch) {
    let others: [Fault; 5] = [
        put_unknown_code,
        put_beyond_range,
        put_wrong_side,
        put_any_aim,
        put_wall,
    ];
    for _ in 0..4 {
        let service = random.pick(&plain::SERVICES);
        let sort = (Goal::JacketedEconomy, service, Shape::Cylinder);
        let mut draft = any_draft(random, sort);
        put_wall(random, &mut draft);
        others[random.below(others.len())](random, &mut draft);
        sheets.push(draft.to_vec());
    }
}

/// Each field one beyond its range, and one field anywhere beyond. t is one
/// below the least of hot lines and one below that of cold ones, whatever the
/// goal.
pub fn beyond_range(random: &mut Random, sheets: &mut Batch) {
    for field in plain::FIELDS {
        for (end, step) in ends(field) {
            let value = end + step;
            if representable(field, value) {
                let (mut goal, service, shape) = any_sort(random);
                if field.economy_only {
                    goal = random.pick(&PRICED);
                }
                let mut draft = any_draft(random, (goal, service, shape));
                put_field(&mut draft, field, value);
                sheets.push(draft.to_vec());
            }
        }
    }
    faulty(random, sheets, 2, put_beyond_range);
}

/// Up to three faults at once: the first listed one counts.
pub fn several_faults(random: &mut Random, sheets: &mut Batch) {
    let faults: [Fault; 6] = [
        put_unknown_code,
        put_beyond_range,
        put_stray_field,
        put_wrong_side,
        put_aim,
        put_wall,
    ];
    for _ in 0..8 {
        let sort = any_sort(random);
        let mut draft = any_draft(random, sort);
        // The goal is read by some faults, so an unknown one comes last.
        let mut chosen: Vec<usize> = (0..random.between(2, 3)).map(|_| random.below(6)).collect();
        chosen.sort_by(|first, second| second.cmp(first));
        for fault in chosen {
            faults[fault](random, &mut draft);
        }
        let mut sheet = draft.to_vec();
        if random.once_in(8) {
            sheet.resize(random.below(40), 0);
        }
        sheets.push(sheet);
    }
}

/// Bytes anywhere, the two codes being known in most of them.
pub fn any_bytes(random: &mut Random, sheets: &mut Batch) {
    let mut draft: Draft = std::array::from_fn(|_| random.byte());
    sheets.push(draft.to_vec());
    let (goal, service, _) = any_sort(random);
    draft[plain::GOAL_OFFSET] = goal as u8;
    draft[plain::SERVICE_OFFSET] = service as u8;
    sheets.push(draft.to_vec());
    let sort = any_sort(random);
    draft = any_draft(random, sort);
    draft[random.below(plain::SHEET_LENGTH)] = random.byte();
    sheets.push(draft.to_vec());
}

fn put_unknown_code(random: &mut Random, draft: &mut Draft) {
    let (offset, known) = match random.below(2) {
        0 => (plain::GOAL_OFFSET, plain::GOALS.len()),
        _ => (plain::SERVICE_OFFSET, plain::SERVICES.len()),
    };
    let beyond = known as i32 + 1;
    draft[offset] = match random.below(3) {
        0 => 0,
        1 => beyond as u8,
        _ => random.between(beyond, 255) as u8,
    };
}

fn representable(field: Field, value: i32) -> bool {
    if field.signed {
        i16::try_from(value).is_ok()
    } else {
        u16::try_from(value).is_ok()
    }
}

fn put_beyond_range(random: &mut Random, draft: &mut Draft) {
    let goal = goal_of(draft);
    let used = plain::FIELDS
        .into_iter()
        .filter(|field| plain::used(field, goal));
    let used: Vec<Field> = used.collect();
    loop {
        let field = random.pick(&used);
        let value = if field.signed {
            random.between(i16::MIN.into(), i16::MAX.into())
        } else {
            random.low_between(0, u16::MAX.into())
        };
        if !field.range(goal).contains(&value) {
            put_field(draft, field, value);
            return;
        }
    }
}

/// One byte, or both, of a field that has to be zero. Goal 7 has no such field.
fn put_stray_field(random: &mut Random, draft: &mut Draft) {
    let value = match random.below(3) {
        0 => random.between(1, 255),
        1 => random.between(1, 255) << 8,
        _ => random.between(1, 65_535),
    };
    let goal = goal_of(draft);
    let unused = plain::FIELDS
        .into_iter()
        .filter(|field| !plain::used(field, goal));
    let mut offsets: Vec<usize> = unused.map(|field| field.offset).collect();
    if goal.method() == Method::Economy {
        offsets.push(plain::AIM_OFFSET);
    }
    if !offsets.is_empty() {
        put(draft, random.pick(&offsets), value);
    }
}

/// t at ta, a tenth on the wrong side of it, or anywhere there.
fn put_wrong_side(random: &mut Random, draft: &mut Draft) {
    let flow = goal_of(draft).flow();
    let field = plain::AIR_TEMPERATURE;
    let air = random.between(field.least + 1, field.greatest);
    let end = match flow {
        Flow::Outward => plain::PIPE_TEMPERATURE.least,
        Flow::Inward => plain::PIPE_TEMPERATURE.greatest,
    };
    let from_air = match random.below(3) {
        0 => 0,
        1 => -1,
        _ => random.between(flow.from_air(end, air), 0),
    };
    put_temperatures(draft, (flow.temperature(from_air, air), air));
}

/// A wall's diameter, which is a fault of goal 7.
fn put_wall(random: &mut Random, draft: &mut Draft) {
    let (least, greatest) = diameters(Shape::Flat);
    let any = random.low_between(least, greatest);
    let diameter = random.pick(&[least, least + 1, greatest - 1, greatest, any, any]);
    put_field(draft, plain::DIAMETER, diameter);
}

/// Economy: not zero. Loss: 0, or 1 which is valid. Surface: at or outside ta
/// and t, or just inside. Goal 7 takes any.
fn put_aim(random: &mut Random, draft: &mut Draft) {
    let (pipe, air) = get_temperatures(draft);
    let value = match goal_of(draft).method() {
        Method::Economy => random.between(1, 65_535),
        Method::Loss => i32::from(random.once_in(4)),
        Method::JacketedEconomy => random.between(0, 65_535),
        Method::Surface => {
            let (lowest, highest) = (i16::MIN.into(), i16::MAX.into());
            let below = random.between(lowest, pipe.min(air));
            let above = random.between(pipe.max(air), highest);
            let edges = [air - 1, air, air + 1, pipe - 1, pipe, pipe + 1];
            let others = [below, above, lowest, highest, 0];
            random.pick(&[&edges[..], &others[..]].concat())
        }
    };
    put(draft, plain::AIM_OFFSET, value);
}
