//! Two million sheets, by the proved call and by the plain one.

use comparison::both;
use comparison::plain::{
    self, Flow, Goal, Judged, Method, Refusal, Service, Shape, Sheet, Verdict,
};
use comparison::sheets::{put, put_field, shapes, Draft, Sheets, KINDS};
use std::collections::BTreeMap;

const SEED: u64 = 0x6b65_6e6e_656c_6461;
const SHEETS: usize = 2_000_000;

/// t at the ends of its ranges and one beyond them, with the response on a hot
/// line and on a cold one: a refusal, or 0 for an answer. At −500 no air is
/// colder, and at 6,500 none is warmer.
const ENDS: [(i16, u16, u16); 6] = [
    (-1_961, 13, 13),
    (-1_960, 13, 0),
    (-501, 13, 0),
    (-500, 15, 0),
    (6_500, 0, 15),
    (6_501, 13, 13),
];

/// The signs of ta, of the bound and of t, on a cold line those of their
/// opposites. The bound differs from ta, and lies between it and t or is t.
const SIGNS: [[i32; 3]; 8] = [
    [-1, -1, -1],
    [-1, -1, 0],
    BOUND_AT_ZERO_PIPE,
    [-1, -1, 1],
    [-1, 0, 1],
    [-1, 1, 1],
    [0, 1, 1],
    [1, 1, 1],
];
const BOUND_AT_ZERO_PIPE: [i32; 3] = [-1, 0, 0];

/// How the passes of goal 6 end: the first one stands, its check is within or
/// none is printed; it is refused, its check being too close or by itself; or
/// the second one answers or is refused.
const WITHIN: &str = "first pass within";
const NONE_PRINTED: &str = "first pass, none printed";
const TOO_CLOSE: &str = "first pass too close";
const FIRST_17: &str = "first pass 17";
const FIRST_18: &str = "first pass 18";
const SECOND: &str = "second pass";
const SECOND_17: &str = "second pass 17";
const SECOND_18: &str = "second pass 18";

/// A second rung by its under-have less high need, or by low need less the
/// over-have of the rung below it.
const MEETS_BY_0: &str = "second rung meets by 0 nm";
const MEETS_BY_1: &str = "second rung meets by 1 nm";
const BELOW_MISSES_BY_1: &str = "rung below the second misses by 1 nm";

/// What the search of goal 7 passes over below its answer, and what lies above
/// it.
const NOT_POSITIVE: &str = "difference not positive at rung 0, answered above";
const ZERO: &str = "difference zero at a rung below the answer";
const MISSES_AGAIN: &str = "rung above the answer misses again";
const MEETS_AGAIN: &str = "rung above the answer meets after one that misses";

/// How many rungs above the answer are looked at.
const ABOVE: usize = 8;

/// How near have is to what goal 7 requires, at the answer and below it.
const EXACT: &str = "meets exactly";
const MEETS_BY_LESS: &str = "meets by less than 1 nm";
const MISSES_BY_LESS: &str = "misses by less than 1 nm";

const SEASONAL: [u16; 2] = [
    Service::Seasonal as u16,
    Service::SeasonalInterpolated as u16,
];

/// An answer, or the number of a refusal.
type Response = Result<[u8; 8], Refusal>;

/// What is counted, with up to three numbers that tell it apart.
type Label = (&'static str, u16, u16, u16);

fn signs_label(goal: Goal, shape: u16, signs: [i32; 3]) -> Label {
    let code = signs.iter().fold(0, |code, sign| 3 * code + sign + 1);
    ("signs", goal as u16, shape, code as u16)
}

fn aim_label(goal: Goal, shape: u16, sign: i16) -> Label {
    ("surface aim", goal as u16, shape, (sign + 1) as u16)
}

/// The last number says whether t is that of a row of the loss table.
fn passes_label(name: &'static str, sheet: &Sheet) -> Label {
    let mut rows = plain::LOSS_LIMITS.iter();
    let at_row = rows.any(|row| 10 * row.temperature == sheet.pipe_temperature);
    let (service, shape) = (sheet.service as u16, sheet.shape() as u16);
    (name, service, shape, at_row.into())
}

fn thickness_of(answer: [u8; 8]) -> u16 {
    u16::from_be_bytes([answer[2], answer[3]])
}

fn with_goal(sheet: &[u8], goal: Goal) -> Draft {
    let mut draft: Draft = sheet.try_into().expect("a whole sheet");
    draft[plain::GOAL_OFFSET] = goal as u8;
    draft
}

/// A sheet of goal 6 as one of goal 2, with the aim of the second pass.
fn second_sheet(sheet: &[u8]) -> Draft {
    let examined = plain::examine(sheet).expect("a good sheet");
    let aim = plain::second_aim(examined.service, examined.pipe_temperature);
    let mut draft = with_goal(sheet, Goal::Loss);
    for field in plain::FIELDS.into_iter().filter(|field| field.economy_only) {
        put_field(&mut draft, field, 0);
    }
    put(&mut draft, plain::AIM_OFFSET, aim.expect("a limit").into());
    draft
}

fn proved(sheet: &[u8]) -> Response {
    let mut answer = [0; 8];
    match kennelday::answer(sheet, &mut answer) {
        Ok(()) => Ok(answer),
        Err(refusal) => Err(refusal.number()),
    }
}

/// Goal 6 "is goal 1 with that second pass": how its passes end, and the
/// response, from those of goals 1 and 2.
fn passes(sheet: &[u8]) -> (&'static str, Response) {
    let first = proved(&with_goal(sheet, Goal::Economy));
    match first {
        Ok(answer) => match answer[4] {
            plain::WITHIN => (WITHIN, first),
            plain::NONE_PRINTED => (NONE_PRINTED, first),
            plain::TOO_CLOSE => (TOO_CLOSE, Err(18)),
            _ => second_pass(sheet, answer),
        },
        Err(17) => (FIRST_17, first),
        Err(_) => (FIRST_18, first),
    }
}

/// The rung is thicker than the first one and within the limit.
fn second_pass(sheet: &[u8], first: [u8; 8]) -> (&'static str, Response) {
    match proved(&second_sheet(sheet)) {
        Ok(mut answer) => {
            assert!(thickness_of(answer) > thickness_of(first), "{sheet:?}");
            assert_eq!(answer[4], plain::WITHIN, "{sheet:?}");
            answer[0] = 1;
            (SECOND, Ok(answer))
        }
        Err(17) => (SECOND_17, Err(17)),
        refused => (SECOND_18, refused),
    }
}

/// Have, at a rung of goal 7, exactly as required or within a nanometre of it.
fn edge(sheet: &Sheet, (rung, provided, verdict): Judged) -> Option<&'static str> {
    let outer = plain::outer_diameter(sheet.diameter, rung);
    let required = plain::required_square(sheet, outer)?;
    let square = |have: u128| have * have * required.denominator;
    match verdict {
        Verdict::Sufficient if square(provided.lower) == required.numerator => Some(EXACT),
        Verdict::Sufficient if square(provided.lower - 1) < required.numerator => {
            Some(MEETS_BY_LESS)
        }
        Verdict::Insufficient if square(provided.upper + 1) >= required.numerator => {
            Some(MISSES_BY_LESS)
        }
        _ => None,
    }
}

/// How often each response came.
#[derive(Default)]
struct Spread(BTreeMap<Label, usize>);

impl Spread {
    fn count(&mut self, label: Label) {
        *self.0.entry(label).or_default() += 1;
    }

    fn of(&self, label: Label) -> usize {
        self.0.get(&label).copied().unwrap_or(0)
    }

    fn assert_at_least(&self, least: usize, label: Label) {
        let times = self.of(label);
        println!("{label:?}: {times}");
        assert!(times >= least, "{label:?} came {times} times, not {least}");
    }

    fn assert_none(&self, label: Label) {
        assert_eq!(self.of(label), 0, "{label:?}");
    }

    fn count_response(&mut self, sheet: &[u8], response: Response) {
        match plain::examine(sheet) {
            Ok(examined) => {
                self.count_examined(&examined, response);
                match examined.goal {
                    Goal::LimitedEconomy => self.count_passes(sheet, &examined, response),
                    Goal::JacketedEconomy => self.count_jacketed(&examined, response),
                    _ => {}
                }
            }
            Err(number) => self.count_refused(sheet, number),
        }
    }

    fn count_examined(&mut self, sheet: &Sheet, response: Response) {
        match response {
            Ok(answer) => self.count_answer(sheet, answer),
            Err(number) => {
                let (goal, shape) = (sheet.goal as u16, sheet.shape() as u16);
                self.count(("no thickness", number.into(), goal, shape));
                self.count(("refused", number.into(), 0, 0));
            }
        }
    }

    /// Refusals 11 to 16 and 43; after 12 the goal is known.
    fn count_refused(&mut self, sheet: &[u8], number: Refusal) {
        self.count(("refused", number.into(), 0, 0));
        if number > 12 {
            let goal = sheet[plain::GOAL_OFFSET].into();
            self.count(("refused for goal", number.into(), goal, 0));
        }
    }

    /// t at an end of its range or one beyond, with the refusal, or 0 for an
    /// answer.
    fn count_end(&mut self, sheet: &[u8], response: Response) {
        if sheet.len() != plain::SHEET_LENGTH {
            return;
        }
        let pipe = plain::PIPE_TEMPERATURE.offset;
        let pipe = i16::from_be_bytes([sheet[pipe], sheet[pipe + 1]]);
        if let Some(place) = ENDS.iter().position(|&(end, ..)| end == pipe) {
            let goal = sheet[plain::GOAL_OFFSET].into();
            let number = response.err().unwrap_or(0);
            self.count(("end of t", goal, place as u16, number.into()));
        }
    }

    fn count_answer(&mut self, sheet: &Sheet, answer: [u8; 8]) {
        let (goal, shape) = (sheet.goal as u16, answer[1].into());
        assert!(
            answer[0] == 0 || sheet.goal == Goal::LimitedEconomy,
            "{sheet:?}"
        );
        self.count(("thickness", goal, shape, thickness_of(answer)));
        self.count_checks(sheet, shape, [answer[4], answer[5]]);
        let bound = i16::from_be_bytes([answer[6], answer[7]]);
        self.count_bound(sheet, shape, bound);
        if sheet.goal.method() == Method::Surface {
            self.count_aim(sheet, shape, bound);
        }
    }

    fn count_passes(&mut self, sheet: &[u8], examined: &Sheet, response: Response) {
        let (end, expected) = passes(sheet);
        assert_eq!(response, expected, "{sheet:?}");
        self.count(passes_label(end, examined));
        if let (SECOND, Ok(answer)) = (end, response) {
            let (shape, thickness) = (answer[1].into(), thickness_of(answer));
            self.count(("second thickness", shape, thickness, 0));
            self.count_second_edges(&second_sheet(sheet), thickness);
        }
    }

    /// The rung of a second pass meets by hardly anything, or the rung below it
    /// misses by hardly anything.
    fn count_second_edges(&mut self, sheet: &[u8], thickness: u16) {
        let sheet = plain::examine(sheet).expect("a good sheet");
        let need = plain::required(&sheet).expect("a need");
        match plain::provided_at(&sheet, thickness).lower - need.upper {
            0 => self.count(passes_label(MEETS_BY_0, &sheet)),
            1 => self.count(passes_label(MEETS_BY_1, &sheet)),
            _ => {}
        }
        let below = plain::provided_at(&sheet, thickness - plain::GRADE);
        if need.lower - below.upper == 1 {
            self.count(passes_label(BELOW_MISSES_BY_1, &sheet));
        }
    }

    /// How goal 7's search ends, and what it passes over.
    fn count_jacketed(&mut self, sheet: &Sheet, response: Response) {
        let mut judged = plain::jacketed(sheet);
        let mut rungs = Vec::new();
        for rung in judged.by_ref() {
            rungs.push(rung);
            if rung.2 != Verdict::Insufficient {
                break;
            }
        }
        if let Ok(answer) = response {
            self.count_jacketed_checks(sheet, answer);
            self.count_differences(sheet, &rungs);
            self.count_above(judged.take(ABOVE).map(|rung| rung.2));
        }
        for &rung in &rungs {
            if let Some(edge) = edge(sheet, rung) {
                self.count((edge, 0, 0, 0));
            }
        }
    }

    fn count_jacketed_checks(&mut self, sheet: &Sheet, answer: [u8; 8]) {
        let (service, bare) = (sheet.service as u16, thickness_of(answer) == 0);
        self.count(("jacketed, bare", bare.into(), 0, 0));
        self.count(("jacketed loss check", service, answer[4].into(), 0));
        self.count(("jacketed surface check", service, answer[5].into(), 0));
    }

    /// The verdicts on the rungs above the answer, from below.
    fn count_above(&mut self, mut verdicts: impl Iterator<Item = Verdict>) {
        if verdicts.any(|verdict| verdict == Verdict::Insufficient) {
            self.count((MISSES_AGAIN, 0, 0, 0));
            if verdicts.any(|verdict| verdict == Verdict::Sufficient) {
                self.count((MEETS_AGAIN, 0, 0, 0));
            }
        }
    }

    /// αE at or below 200L at rung 0, and equal to it at a rung below the answer.
    fn count_differences(&mut self, sheet: &Sheet, rungs: &[Judged]) {
        let film = 200 * u64::from(sheet.conductivity);
        let outer = |rung| plain::outer_diameter(sheet.diameter, rung);
        let whole = |rung| u64::from(sheet.coefficient) * outer(rung);
        if whole(0) <= film {
            self.count((NOT_POSITIVE, 0, 0, 0));
        }
        if rungs.iter().any(|rung| whole(rung.0) == film) {
            self.count((ZERO, 0, 0, 0));
        }
    }

    /// On a cold line the checks are always 3 and 0.
    fn count_checks(&mut self, sheet: &Sheet, shape: u16, checks: [u8; 2]) {
        let service = sheet.service as u16;
        match sheet.goal.flow() {
            Flow::Outward => {
                self.count(("loss check", service, shape, checks[0].into()));
                self.count(("surface check", service, shape, checks[1].into()));
            }
            Flow::Inward => self.count(("cold checks", service, shape, sheet.goal as u16)),
        }
    }

    /// The bound is at the pipe's temperature or not, and below zero or not.
    fn count_bound(&mut self, sheet: &Sheet, shape: u16, bound: i16) {
        let label = match sheet.goal.flow() {
            Flow::Outward => "bound",
            Flow::Inward => "cold bound",
        };
        let at_pipe = bound == sheet.pipe_temperature;
        self.count((label, shape, at_pipe.into(), (bound < 0).into()));
        let temperatures = [sheet.air_temperature, bound, sheet.pipe_temperature];
        let signs = temperatures.map(|value| sheet.goal.flow().from_air(value.into(), 0).signum());
        self.count(signs_label(sheet.goal, shape, signs));
    }

    /// Under a surface goal the bound does not pass the aim. The aim is below
    /// zero, at zero or above zero.
    fn count_aim(&mut self, sheet: &Sheet, shape: u16, bound: i16) {
        let aim = sheet.surface_aim();
        assert!(sheet.from_air(bound) <= sheet.from_air(aim), "{sheet:?}");
        self.count(aim_label(sheet.goal, shape, aim.signum()));
    }
}

/// The sheets are worth little if some response no longer comes.
fn assert_spread(spread: &Spread) {
    for kind in &KINDS {
        spread.assert_at_least(10_000, (kind.name, 0, 0, 0));
    }
    for number in 11..=18 {
        spread.assert_at_least(15_000, ("refused", number, 0, 0));
    }
    assert_jacketed(spread);
    for goal in plain::GOALS {
        assert_every_refusal(spread, goal);
    }
    for shape in [Shape::Cylinder as u16, Shape::Flat as u16] {
        for goal in plain::GOALS {
            if shapes(goal).iter().any(|&own| own as u16 == shape) {
                assert_every_thickness(spread, goal, shape);
                assert_every_sign(spread, goal, shape);
                assert_every_aim(spread, goal, shape);
            }
        }
        for service in plain::SERVICES.map(|service| service as u16) {
            assert_every_check(spread, service, shape);
            assert_every_pass(spread, service, shape);
        }
        assert_every_second_rung(spread, shape);
        for (at_pipe, below_zero) in [(0, 0), (0, 1), (1, 0), (1, 1)] {
            spread.assert_at_least(5_000, ("bound", shape, at_pipe, below_zero));
            spread.assert_at_least(3_000, ("cold bound", shape, at_pipe, below_zero));
        }
    }
}

/// The refusals from 13 to 16 and 43 that a goal has. 14 holds an economy aim to
/// zero, and goal 7 uses every field and takes every aim.
fn refusals(goal: Goal) -> &'static [u16] {
    match goal.method() {
        Method::Economy => &[13, 14, 15],
        Method::Loss | Method::Surface => &[13, 14, 15, 16],
        Method::JacketedEconomy => &[13, 15, 43],
    }
}

/// Refusals 13 to 16 and 43, and t about the ends of its ranges.
fn assert_every_refusal(spread: &Spread, goal: Goal) {
    for number in [13, 14, 15, 16, 43] {
        let label = ("refused for goal", number, goal as u16, 0);
        if refusals(goal).contains(&number) {
            spread.assert_at_least(2_000, label);
        } else {
            spread.assert_none(label);
        }
    }
    for (place, (_, hot, cold)) in ENDS.into_iter().enumerate() {
        let response = match goal.flow() {
            Flow::Outward => hot,
            Flow::Inward => cold,
        };
        spread.assert_at_least(400, ("end of t", goal as u16, place as u16, response));
    }
}

/// Every thickness, and refusals 17 and 18.
fn assert_every_thickness(spread: &Spread, goal: Goal, shape: u16) {
    for thickness in plain::ladder() {
        let label = ("thickness", goal as u16, shape, thickness);
        if goal.method() == Method::Surface && thickness == 0 {
            // A bare surface never meets an aim short of t: need is above have.
            spread.assert_none(label);
        } else {
            spread.assert_at_least(350, label);
        }
    }
    spread.assert_at_least(2_000, ("no thickness", 17, goal as u16, shape));
    spread.assert_at_least(1_200, ("no thickness", 18, goal as u16, shape));
}

fn assert_every_sign(spread: &Spread, goal: Goal, shape: u16) {
    for signs in SIGNS {
        let label = signs_label(goal, shape, signs);
        if goal.method() == Method::Surface && signs == BOUND_AT_ZERO_PIPE {
            spread.assert_none(label);
        } else {
            spread.assert_at_least(80, label);
        }
    }
}

/// A surface aim below zero, at zero and above zero.
fn assert_every_aim(spread: &Spread, goal: Goal, shape: u16) {
    if goal.method() == Method::Surface {
        for (sign, least) in [(-1, 5_000), (0, 200), (1, 5_000)] {
            spread.assert_at_least(least, aim_label(goal, shape, sign));
        }
    }
}

fn assert_every_check(spread: &Spread, service: u16, shape: u16) {
    for code in [plain::WITHIN, plain::OVER, plain::NONE_PRINTED] {
        spread.assert_at_least(9_000, ("loss check", service, shape, code.into()));
    }
    for code in [plain::WITHIN, plain::OVER] {
        spread.assert_at_least(10_000, ("surface check", service, shape, code.into()));
    }
    for check in ["loss check", "surface check"] {
        spread.assert_at_least(100, (check, service, shape, plain::TOO_CLOSE.into()));
    }
    for goal in [Goal::ColdSurface, Goal::ColdEconomy] {
        spread.assert_at_least(5_000, ("cold checks", service, shape, goal as u16));
    }
}

/// Every end of the passes of goal 6, at a row of the loss table and between
/// rows. Every row has a year-round limit. With a seasonal one a pipe never
/// needs more than 708 mm, and at 300 mm it has 752 mm or more.
fn assert_every_pass(spread: &Spread, service: u16, shape: u16) {
    let seasonal = SEASONAL.contains(&service);
    for at_row in [0, 1] {
        for (end, least) in [(WITHIN, 1_500), (SECOND, 1_500)] {
            spread.assert_at_least(least, (end, service, shape, at_row));
        }
        for end in [TOO_CLOSE, SECOND_18] {
            spread.assert_at_least(100, (end, service, shape, at_row));
        }
        for edge in [MEETS_BY_0, MEETS_BY_1, BELOW_MISSES_BY_1] {
            spread.assert_at_least(5, (edge, service, shape, at_row));
        }
        if seasonal && shape == Shape::Cylinder as u16 {
            spread.assert_none((SECOND_17, service, shape, at_row));
        } else {
            spread.assert_at_least(30, (SECOND_17, service, shape, at_row));
        }
    }
    for (end, least) in [(NONE_PRINTED, 4_000), (FIRST_17, 1_000), (FIRST_18, 300)] {
        spread.assert_at_least(least, (end, service, shape, 0));
    }
    if seasonal {
        spread.assert_at_least(200, (NONE_PRINTED, service, shape, 1));
    } else {
        spread.assert_none((NONE_PRINTED, service, shape, 1));
    }
}

/// Goal 7: bare pipes and others, both checks, differences that are not
/// positive, rungs above the answer that miss again, and have next to what is
/// required.
fn assert_jacketed(spread: &Spread) {
    for bare in [0, 1] {
        spread.assert_at_least(20_000, ("jacketed, bare", bare, 0, 0));
    }
    for label in [NOT_POSITIVE, ZERO, MISSES_AGAIN, MEETS_AGAIN] {
        spread.assert_at_least(2_000, (label, 0, 0, 0));
    }
    for label in [EXACT, MEETS_BY_LESS, MISSES_BY_LESS] {
        spread.assert_at_least(200, (label, 0, 0, 0));
    }
    for service in plain::SERVICES.map(|service| service as u16) {
        for code in [plain::WITHIN, plain::OVER, plain::NONE_PRINTED] {
            let label = ("jacketed loss check", service, code.into(), 0);
            spread.assert_at_least(2_000, label);
        }
        for code in [plain::WITHIN, plain::OVER] {
            let label = ("jacketed surface check", service, code.into(), 0);
            spread.assert_at_least(2_000, label);
        }
        for check in ["jacketed loss check", "jacketed surface check"] {
            let label = (check, service, plain::TOO_CLOSE.into(), 0);
            spread.assert_at_least(50, label);
        }
    }
}

/// The first rung is over the limit, so the second is never rung 0.
fn assert_every_second_rung(spread: &Spread, shape: u16) {
    spread.assert_none(("second thickness", shape, 0, 0));
    for thickness in plain::ladder().skip(1) {
        spread.assert_at_least(300, ("second thickness", shape, thickness, 0));
    }
}

#[test]
fn two_million_sheets_are_answered_alike() {
    let mut spread = Spread::default();
    for (kind, sheet) in Sheets::new(SEED, |_| true).take(SHEETS) {
        spread.count((kind, 0, 0, 0));
        let response = both::answer(&sheet);
        spread.count_end(&sheet, response);
        spread.count_response(&sheet, response);
    }
    assert_spread(&spread);
}
