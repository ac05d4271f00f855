//! The sets of sheets that the benchmark works out.

use crate::report::line;
use comparison::plain::{Goal, Shape, GOAL_OFFSET};
use comparison::sheets::{Batch, Family, Sheets};

pub const SEED: u64 = 0x6265_6e63_686d_6172;

/// Sheets in a set of one goal and shape, and in the refused set.
pub const CASE_COUNT: usize = 10_000;

/// The answer, or the number of the refusal.
pub type Response = Result<[u8; 8], u8>;

pub fn proved_answer(sheet: &[u8]) -> Response {
    let mut answer = [0; 8];
    match kennelday::answer(sheet, &mut answer) {
        Ok(()) => Ok(answer),
        Err(refusal) => Err(refusal.number()),
    }
}

fn of_kind(name: &'static str) -> impl Iterator<Item = Vec<u8>> {
    Sheets::new(SEED, move |kind| kind.name == name).map(|(_, sheet)| sheet)
}

pub fn of_family(family: Family) -> impl Iterator<Item = Vec<u8>> {
    Sheets::new(SEED, move |kind| kind.family == family).map(|(_, sheet)| sheet)
}

/// Of a hundred sheets, seventy as an office writes them, nine with fields
/// anywhere in their ranges, twenty with faults and one next to an open rung.
pub fn mixed() -> Batch {
    let faulty = of_family(Family::Refused);
    let near = of_family(Family::Near);
    let parts: [(&str, Batch); 4] = [
        (
            "as an office writes them",
            of_kind("office").take(14_000).collect(),
        ),
        ("fields anywhere", of_kind("anywhere").take(1_800).collect()),
        ("with faults", faulty.take(4_000).collect()),
        ("next to an open rung", near.take(200).collect()),
    ];
    for (label, sheets) in &parts {
        line(label, sheets.len());
    }
    parts.into_iter().flat_map(|(_, sheets)| sheets).collect()
}

/// Office sheets that are answered, of one shape.
fn answered(shape: Shape) -> impl Iterator<Item = Vec<u8>> {
    let of_shape = move |bytes: [u8; 8]| bytes[1] == shape as u8;
    of_kind("office").filter(move |sheet| proved_answer(sheet).is_ok_and(of_shape))
}

pub fn cylinders() -> Batch {
    answered(Shape::Cylinder).take(10_000).collect()
}

fn answered_for(goal: Goal, shape: Shape) -> Batch {
    let of_goal = answered(shape).filter(|sheet| sheet[GOAL_OFFSET] == goal as u8);
    of_goal.take(CASE_COUNT).collect()
}

/// Sheets with faults. Those at the edge of a fault that are answered after
/// all are left out.
fn refused() -> Batch {
    let refused = of_family(Family::Refused).filter(|sheet| proved_answer(sheet).is_err());
    refused.take(CASE_COUNT).collect()
}

/// Each goal and shape, and refused sheets.
pub fn cases() -> [(&'static str, Batch); 14] {
    use {Goal::*, Shape::*};
    [
        ("economy, cylinder", answered_for(Economy, Cylinder)),
        ("economy, flat wall", answered_for(Economy, Flat)),
        ("loss, cylinder", answered_for(Loss, Cylinder)),
        ("loss, flat wall", answered_for(Loss, Flat)),
        ("surface, cylinder", answered_for(Surface, Cylinder)),
        ("surface, flat wall", answered_for(Surface, Flat)),
        (
            "cold surface, cylinder",
            answered_for(ColdSurface, Cylinder),
        ),
        ("cold surface, flat wall", answered_for(ColdSurface, Flat)),
        (
            "cold economy, cylinder",
            answered_for(ColdEconomy, Cylinder),
        ),
        ("cold economy, flat wall", answered_for(ColdEconomy, Flat)),
        (
            "limited economy, cylinder",
            answered_for(LimitedEconomy, Cylinder),
        ),
        (
            "limited economy, flat wall",
            answered_for(LimitedEconomy, Flat),
        ),
        (
            "jacketed economy, cylinder",
            answered_for(JacketedEconomy, Cylinder),
        ),
        ("refused", refused()),
    ]
}
