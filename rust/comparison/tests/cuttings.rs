//! Goal 7 by the plain implementation and exactly, without the proved library:
//! its comparison with nothing cancelled, and its answers on cuttings of the
//! logarithm's area.

use comparison::cuttings::{self, Reading};
use comparison::plain::{self, Bracket, Goal, Refusal, Sheet, Verdict};
use comparison::sheets::{Family, Sheets};
use std::iter;

const SEED: u64 = 0x6375_7474_696e_6773;
const COMPARED: usize = 20_000;
const READ: usize = 3_000;

/// The cuttings m, and the most strips that are added up.
const CUTTINGS: [u64; 4] = [1, 2, 3, 6];
const STRIPS: u64 = 1_200;

/// Sheets of goal 7 that pass tests 11 to 16 and 43, each with its thickness or
/// refusal.
fn sheets() -> impl Iterator<Item = (Sheet, Result<u16, Refusal>)> {
    let sheets = Sheets::new(SEED, |kind| kind.family != Family::Refused);
    sheets.filter_map(|(_, bytes)| {
        let sheet = plain::examine(&bytes).ok()?;
        if sheet.goal != Goal::JacketedEconomy {
            return None;
        }
        let answer = plain::answer(&bytes);
        let thickness = answer.map(|answer| u16::from_be_bytes([answer[2], answer[3]]));
        Some((sheet, thickness))
    })
}

fn verdict(sheet: &Sheet, rung: u16, provided: Bracket) -> Verdict {
    if cuttings::reached_by(sheet, rung, provided.lower) {
        Verdict::Sufficient
    } else if cuttings::reached_by(sheet, rung, provided.upper) {
        Verdict::Undecided
    } else {
        Verdict::Insufficient
    }
}

/// The first rung that doesn't miss is the thickness if it meets.
fn response(verdicts: &[(u16, Verdict)]) -> Result<u16, Refusal> {
    let first = verdicts.iter().find(|rung| rung.1 != Verdict::Insufficient);
    match first.ok_or(17)? {
        (rung, Verdict::Sufficient) => Ok(*rung),
        _ => Err(18),
    }
}

#[test]
fn every_rung_with_nothing_cancelled() {
    let mut open = 0;
    for (sheet, thickness) in sheets().take(COMPARED) {
        let mut verdicts = Vec::new();
        for (rung, provided, judged) in plain::jacketed(&sheet) {
            let verdict = verdict(&sheet, rung, provided);
            assert_eq!(judged, verdict, "{rung} mm of {sheet:?}");
            verdicts.push((rung, verdict));
        }
        assert_eq!(thickness, response(&verdicts), "{sheet:?}");
        open += usize::from(thickness == Err(18));
    }
    println!("refused with 18: {open}");
    assert!(open >= 300, "{open} sheets were refused with 18 only");
}

/// The rungs that meet "the exact equation on that cutting's under-sum" while
/// "the rung below it, if there is one, misses it on that cutting's over-sum".
fn passing(readings: &[Reading]) -> Vec<u16> {
    let below = readings.iter().map(|reading| reading.misses);
    let pairs = readings.iter().zip(iter::once(true).chain(below));
    let passing = pairs.filter(|(reading, below_misses)| reading.meets && *below_misses);
    passing.map(|(reading, _)| reading.rung).collect()
}

/// Demand 3 for goal 7 "runs over the rungs from 0 up to the answer, that one
/// included, and no others".
#[test]
fn every_rung_up_to_the_answer_on_cuttings() {
    let (mut bare, mut insulated) = (0, 0);
    let answered = sheets().filter_map(|(sheet, thickness)| Some((sheet, thickness.ok()?)));
    for (sheet, thickness) in answered.take(READ) {
        let few = |cutting: &u64| 20 * u64::from(thickness) * cutting <= STRIPS;
        for cutting in CUTTINGS.into_iter().filter(few) {
            let up_to_answer = usize::from(thickness / plain::GRADE) + 1;
            let readings = cuttings::readings(&sheet, cutting).take(up_to_answer);
            let passing = passing(&readings.collect::<Vec<_>>());
            assert_eq!(passing, [thickness], "m {cutting}: {sheet:?}");
            *(if thickness == 0 {
                &mut bare
            } else {
                &mut insulated
            }) += 1;
        }
    }
    println!("bare: {bare}, insulated: {insulated}");
    assert!(bare >= 1_000 && insulated >= 1_000);
}
