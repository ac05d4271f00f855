//! The rules of the papers worked out the plain way: whole numbers, loops over
//! the definitions and no tables of logarithms.

use std::ops::{Range, RangeInclusive};

/// The number of a refusal.
pub type Refusal = u8;

// The sheet: 24 bytes, a larger one 26.

pub const SHEET_LENGTH: usize = 24;
pub const ANSWER_LENGTH: usize = 8;

/// The widths in which the two kinds of sheets and of books differ.
#[derive(Clone, Copy, Debug, PartialEq, Eq)]
pub struct Layout {
    pub name: &'static str,
    /// Bytes of a sheet's line number.
    pub line_width: usize,
    /// Zero bytes at the start of a book.
    pub lead: usize,
    /// Bytes of a book's capacity, and of its count.
    pub size_width: usize,
    pub largest_capacity: u64,
}

/// "Sizes first": "capacity c (2 bytes, 1 to 1,000), count n (2 bytes)".
pub const STANDARD: Layout = Layout {
    name: "standard",
    line_width: 2,
    lead: 0,
    size_width: 2,
    largest_capacity: 1_000,
};

/// "The sheet's line number grows to four bytes and the sheet to 26. The larger
/// book starts with two zero bytes, then capacity and count in four bytes each,
/// then the two arrays. Its capacity runs to 100,000."
pub const LARGER: Layout = Layout {
    name: "larger",
    line_width: 4,
    lead: 2,
    size_width: 4,
    largest_capacity: 100_000,
};

/// 26.
pub const LARGER_SHEET_LENGTH: usize = LARGER.sheet_length();

impl Layout {
    /// By how many bytes the line number is longer than that of a standard sheet.
    pub const fn further(self) -> usize {
        self.line_width - STANDARD.line_width
    }

    pub const fn sheet_length(self) -> usize {
        SHEET_LENGTH + self.further()
    }

    /// Where a field is that a standard sheet has at this offset.
    pub const fn place(self, offset: usize) -> usize {
        if offset <= LINE_OFFSET {
            offset
        } else {
            offset + self.further()
        }
    }
}

pub const GOAL_OFFSET: usize = 0;
pub const SERVICE_OFFSET: usize = 1;
pub const LINE_OFFSET: usize = 2;
pub const AIM_OFFSET: usize = 22;

/// A two-byte field and the range to which test 13 holds it.
#[derive(Clone, Copy, Debug)]
pub struct Field {
    /// On a standard sheet.
    pub offset: usize,
    pub signed: bool,
    pub least: i32,
    /// The least value on the sheet of a cold line.
    pub cold_least: i32,
    pub greatest: i32,
    /// Used for goals 1 and 5 to 7 only and zero otherwise.
    pub economy_only: bool,
}

impl Field {
    /// The range for a goal that uses the field.
    pub fn range(&self, goal: Goal) -> RangeInclusive<i32> {
        match goal.flow() {
            Flow::Outward => self.least..=self.greatest,
            Flow::Inward => self.cold_least..=self.greatest,
        }
    }
}

const fn field(offset: usize, least: i32, greatest: i32) -> Field {
    Field {
        offset,
        signed: false,
        least,
        cold_least: least,
        greatest,
        economy_only: false,
    }
}

const fn signed(field: Field) -> Field {
    Field {
        signed: true,
        ..field
    }
}

const fn down_to(cold_least: i32, field: Field) -> Field {
    Field {
        cold_least,
        ..field
    }
}

const fn economy_only(field: Field) -> Field {
    Field {
        economy_only: true,
        ..field
    }
}

pub const DIAMETER: Field = field(4, 100, 65_535);
/// On the sheet of a cold line "t is below ta, down to −1,960".
pub const PIPE_TEMPERATURE: Field = down_to(-1_960, signed(field(6, -500, 6_500)));
pub const AIR_TEMPERATURE: Field = signed(field(8, -500, 500));
pub const CONDUCTIVITY: Field = field(10, 1, 2_000);
pub const COEFFICIENT: Field = field(12, 100, 10_000);
pub const HEAT_PRICE: Field = economy_only(field(14, 1, 65_535));
pub const HOURS: Field = economy_only(field(16, 1, 8_784));
pub const INSULATION_PRICE: Field = economy_only(field(18, 1, 65_535));
pub const YEARLY_SHARE: Field = economy_only(field(20, 1, 10_000));

/// The fields that have a range, in the order of the sheet.
pub const FIELDS: [Field; 9] = [
    DIAMETER,
    PIPE_TEMPERATURE,
    AIR_TEMPERATURE,
    CONDUCTIVITY,
    COEFFICIENT,
    HEAT_PRICE,
    HOURS,
    INSULATION_PRICE,
    YEARLY_SHARE,
];

/// 1 economy, 2 loss, 3 surface. "Goal 4 is cold surface", "goal 5 is cold
/// economy". "Goal 6 is goal 1 with that second pass." Goal 7 is economy by the
/// formula "which counts the jacket by the square metre".
#[derive(Clone, Copy, Debug, PartialEq, Eq)]
pub enum Goal {
    Economy = 1,
    Loss = 2,
    Surface = 3,
    ColdSurface = 4,
    ColdEconomy = 5,
    LimitedEconomy = 6,
    JacketedEconomy = 7,
}

pub const GOALS: [Goal; 7] = [
    Goal::Economy,
    Goal::Loss,
    Goal::Surface,
    Goal::ColdSurface,
    Goal::ColdEconomy,
    Goal::LimitedEconomy,
    Goal::JacketedEconomy,
];

/// The equation that gives a goal's need.
#[derive(Clone, Copy, Debug, PartialEq, Eq)]
pub enum Method {
    Economy,
    Loss,
    Surface,
    JacketedEconomy,
}

/// The way that heat takes through the layer: out of a hot line, or into a
/// cold one.
#[derive(Clone, Copy, Debug, PartialEq, Eq)]
pub enum Flow {
    Outward,
    Inward,
}

impl Goal {
    /// For goal 6 that of the first pass.
    pub fn method(self) -> Method {
        match self {
            Goal::Economy | Goal::ColdEconomy | Goal::LimitedEconomy => Method::Economy,
            Goal::Loss => Method::Loss,
            Goal::Surface | Goal::ColdSurface => Method::Surface,
            Goal::JacketedEconomy => Method::JacketedEconomy,
        }
    }

    pub fn flow(self) -> Flow {
        match self {
            Goal::Economy | Goal::Loss | Goal::Surface => Flow::Outward,
            Goal::ColdSurface | Goal::ColdEconomy => Flow::Inward,
            Goal::LimitedEconomy | Goal::JacketedEconomy => Flow::Outward,
        }
    }
}

impl Flow {
    fn sign(self) -> i32 {
        match self {
            Flow::Outward => 1,
            Flow::Inward => -1,
        }
    }

    /// How far a temperature is from the air's, counted towards the pipe's:
    /// how far above it on a hot line, how far below it on a cold one.
    pub fn from_air(self, temperature: i32, air: i32) -> i32 {
        self.sign() * (temperature - air)
    }

    /// The temperature at that distance from the air's.
    pub fn temperature(self, from_air: i32, air: i32) -> i32 {
        air + self.sign() * from_air
    }
}

/// 1 year-round, 2 seasonal; 3 year-round and 4 seasonal, with "a straight line
/// between neighbouring rows of the loss table".
#[derive(Clone, Copy, Debug, PartialEq, Eq)]
pub enum Service {
    YearRound = 1,
    Seasonal = 2,
    YearRoundInterpolated = 3,
    SeasonalInterpolated = 4,
}

pub const SERVICES: [Service; 4] = [
    Service::YearRound,
    Service::Seasonal,
    Service::YearRoundInterpolated,
    Service::SeasonalInterpolated,
];

/// Byte 1 of the answer: 1 cylinder, 2 flat.
#[derive(Clone, Copy, Debug, PartialEq, Eq)]
pub enum Shape {
    Cylinder = 1,
    Flat = 2,
}

/// The largest D of a cylinder.
pub const LARGEST_CYLINDER: u16 = 10_000;

/// A sheet that has passed tests 11 to 16 and 43. Letters are the paper's.
#[derive(Clone, Copy, Debug)]
pub struct Sheet {
    pub goal: Goal,
    pub service: Service,
    /// D
    pub diameter: u16,
    /// t
    pub pipe_temperature: i16,
    /// ta
    pub air_temperature: i16,
    /// L
    pub conductivity: u16,
    /// α
    pub coefficient: u16,
    /// f
    pub heat_price: u16,
    /// τ
    pub hours: u16,
    /// P
    pub insulation_price: u16,
    /// S
    pub yearly_share: u16,
    /// The aim's two bytes: unsigned for goals 2 and 7, signed for goals 3 and 4.
    aim: [u8; 2],
}

/// The bytes of a sheet. Each field is found by its offset on a standard sheet.
#[derive(Clone, Copy)]
struct SheetBytes<'a> {
    layout: Layout,
    bytes: &'a [u8],
}

impl SheetBytes<'_> {
    /// "All files are big-endian."
    fn bytes_at(self, offset: usize) -> [u8; 2] {
        let place = self.layout.place(offset);
        [self.bytes[place], self.bytes[place + 1]]
    }

    fn unsigned_at(self, offset: usize) -> u16 {
        u16::from_be_bytes(self.bytes_at(offset))
    }

    /// "t, ta and a surface aim are signed 16-bit two's complement."
    fn signed_at(self, offset: usize) -> i16 {
        i16::from_be_bytes(self.bytes_at(offset))
    }
}

fn goal_of(code: u8) -> Option<Goal> {
    GOALS.into_iter().find(|&goal| goal as u8 == code)
}

fn service_of(code: u8) -> Option<Service> {
    SERVICES.into_iter().find(|&service| service as u8 == code)
}

impl Sheet {
    fn from_bytes(sheet: SheetBytes, goal: Goal, service: Service) -> Sheet {
        Sheet {
            goal,
            service,
            diameter: sheet.unsigned_at(DIAMETER.offset),
            pipe_temperature: sheet.signed_at(PIPE_TEMPERATURE.offset),
            air_temperature: sheet.signed_at(AIR_TEMPERATURE.offset),
            conductivity: sheet.unsigned_at(CONDUCTIVITY.offset),
            coefficient: sheet.unsigned_at(COEFFICIENT.offset),
            heat_price: sheet.unsigned_at(HEAT_PRICE.offset),
            hours: sheet.unsigned_at(HOURS.offset),
            insulation_price: sheet.unsigned_at(INSULATION_PRICE.offset),
            yearly_share: sheet.unsigned_at(YEARLY_SHARE.offset),
            aim: sheet.bytes_at(AIM_OFFSET),
        }
    }

    /// Goal 2's aim: "loss, 0.1 W/m², unsigned".
    pub fn loss_aim(&self) -> u16 {
        u16::from_be_bytes(self.aim)
    }

    /// Goal 3's aim: "surface, 0.1 °C". "Goal 4's aim is the wanted surface
    /// temperature."
    pub fn surface_aim(&self) -> i16 {
        i16::from_be_bytes(self.aim)
    }

    /// Goal 7 has "the jacket price in yuan/m² in the aim field, 0 to 65,535".
    pub fn jacket_price(&self) -> u16 {
        u16::from_be_bytes(self.aim)
    }

    /// "Δ = t − ta"; on a cold line "Δ becomes ta − t". Test 15 holds it above
    /// zero.
    pub fn difference(&self) -> i32 {
        self.from_air(self.pipe_temperature)
    }

    /// How far a temperature is from ta. For the aim, "s = aim − ta"; on a cold
    /// line "s = ta − aim". Test 16 holds s above zero and below Δ.
    pub fn from_air(&self, temperature: i16) -> i32 {
        let flow = self.goal.flow();
        flow.from_air(temperature.into(), self.air_temperature.into())
    }

    /// The temperature at that distance from the air's.
    pub fn temperature_at(&self, from_air: i32) -> i16 {
        let flow = self.goal.flow();
        let temperature = flow.temperature(from_air, self.air_temperature.into());
        i16::try_from(temperature).expect("a temperature of a sheet")
    }

    /// "D up to 10,000 is a cylinder, above that a flat wall."
    pub fn shape(&self) -> Shape {
        if self.diameter <= LARGEST_CYLINDER {
            Shape::Cylinder
        } else {
            Shape::Flat
        }
    }
}

// Sent back because of the sheet: tests 11 to 16 and 43.

/// A standard sheet.
pub fn examine(sheet: &[u8]) -> Result<Sheet, Refusal> {
    examine_in(STANDARD, sheet)
}

/// "Tests run in this order." The line number is not looked at.
pub fn examine_in(layout: Layout, sheet: &[u8]) -> Result<Sheet, Refusal> {
    // 11: length is not 24, and "11 for 26 bytes in the larger book".
    if sheet.len() != layout.sheet_length() {
        return Err(11);
    }
    // 12: goal or service code unknown.
    let goal = goal_of(sheet[GOAL_OFFSET]).ok_or(12)?;
    let service = service_of(sheet[SERVICE_OFFSET]).ok_or(12)?;
    let sheet = SheetBytes {
        layout,
        bytes: sheet,
    };
    // 13: a field outside its range.
    if FIELDS.iter().any(|field| outside(field, goal, sheet)) {
        return Err(13);
    }
    // 14: an unused field not zero, or goal 1 with an aim not zero. Of goals 5
    // and 6 too the "aim is zero".
    let unused = FIELDS.iter().any(|field| stray(field, goal, sheet));
    if unused || (goal.method() == Method::Economy && sheet.unsigned_at(AIM_OFFSET) != 0) {
        return Err(14);
    }
    let sheet = Sheet::from_bytes(sheet, goal, service);
    // 15: t not above ta. On a cold line "t is below ta".
    if sheet.difference() <= 0 {
        return Err(15);
    }
    // 16: goal 2 with aim 0; goal 3 unless ta < aim < t. Goal 4 "with
    // t < aim < ta".
    if !valid_aim(&sheet) {
        return Err(16);
    }
    // 43: "after 16, for goal 7 with D above 10,000".
    if goal == Goal::JacketedEconomy && sheet.shape() == Shape::Flat {
        return Err(43);
    }
    Ok(sheet)
}

/// Test 16: the goals that have an aim to judge.
fn valid_aim(sheet: &Sheet) -> bool {
    match sheet.goal.method() {
        Method::Economy | Method::JacketedEconomy => true,
        Method::Loss => sheet.loss_aim() != 0,
        Method::Surface => {
            let from_air = sheet.from_air(sheet.surface_aim());
            0 < from_air && from_air < sheet.difference()
        }
    }
}

/// "Offsets 14–21 are used for goal 1 only." "Goal 5 uses offsets 14–21 as
/// goal 1 does", goal 6 "is goal 1 with that second pass", and goal 7 has
/// "goal 1's fields".
pub fn used(field: &Field, goal: Goal) -> bool {
    let economy = matches!(goal.method(), Method::Economy | Method::JacketedEconomy);
    economy || !field.economy_only
}

/// Test 13: the range of an unused field does not apply.
fn outside(field: &Field, goal: Goal, sheet: SheetBytes) -> bool {
    let value = if field.signed {
        i32::from(sheet.signed_at(field.offset))
    } else {
        i32::from(sheet.unsigned_at(field.offset))
    };
    used(field, goal) && !field.range(goal).contains(&value)
}

/// Test 14: "and are zero otherwise".
fn stray(field: &Field, goal: Goal, sheet: SheetBytes) -> bool {
    !used(field, goal) && sheet.unsigned_at(field.offset) != 0
}

// Ladder and figures.

pub const GRADE: u16 = 10;
pub const TOP: u16 = 300;

/// "The ladder has rungs 0, 10, 20 and so on to 300 mm."
pub fn ladder() -> impl Iterator<Item = u16> {
    (0..=TOP).step_by(GRADE.into())
}

/// "On a cylinder a rung of k mm has outer diameter E = D + 20k."
pub fn outer_diameter(diameter: u16, rung: u16) -> u64 {
    u64::from(diameter) + 20 * u64::from(rung)
}

/// The unit of the step figures is 10⁻¹². No product here needs 64 bits.
const TRILLION: u64 = 1_000_000_000_000;

/// "Under-step = 2×10¹² / (2i+1) rounded down."
pub fn lower_step(i: u64) -> u64 {
    2 * TRILLION / (2 * i + 1)
}

/// "Over-step = 10¹² × (2i+1) / (2i(i+1)) rounded up."
pub fn upper_step(i: u64) -> u64 {
    (TRILLION * (2 * i + 1)).div_ceil(2 * i * (i + 1))
}

/// "The under-log or over-log from D to E is the sum of the steps for
/// i = D to E − 1, zero when E = D." The sums are kept from rung to rung.
#[derive(Clone, Copy, Debug)]
pub struct Logarithm {
    pub outer: u64,
    pub lower: u64,
    pub upper: u64,
}

impl Logarithm {
    pub fn from_diameter(diameter: u16) -> Logarithm {
        Logarithm {
            outer: diameter.into(),
            lower: 0,
            upper: 0,
        }
    }

    pub fn extend_to(&mut self, outer: u64) {
        for i in self.outer..outer {
            self.lower += lower_step(i);
            self.upper += upper_step(i);
        }
        self.outer = outer;
    }
}

/// A figure rounded down and the same figure rounded up: have and need in
/// nanometres, growth in units of 10⁻⁹.
#[derive(Clone, Copy, Debug, PartialEq, Eq)]
pub struct Bracket {
    pub lower: u128,
    pub upper: u128,
}

/// Have at a rung, the logarithm being carried on from the rung below.
/// "Under-have uses the under-log and rounds each quotient down. Over-have uses
/// the over-log and rounds each up."
fn provided(sheet: &Sheet, rung: u16, logarithm: &mut Logarithm) -> Bracket {
    match sheet.shape() {
        Shape::Cylinder => {
            logarithm.extend_to(outer_diameter(sheet.diameter, rung));
            provided_by_cylinder(sheet, logarithm)
        }
        Shape::Flat => provided_by_wall(sheet, rung),
    }
}

/// Have at a rung, the logarithm being summed afresh.
pub fn provided_at(sheet: &Sheet, rung: u16) -> Bracket {
    provided(sheet, rung, &mut Logarithm::from_diameter(sheet.diameter))
}

/// The papers print 2L for a cylinder and L for a flat wall.
fn factor(shape: Shape) -> u128 {
    match shape {
        Shape::Cylinder => 2,
        Shape::Flat => 1,
    }
}

/// 2L × 10⁷, flat L × 10⁷.
fn film_numerator(sheet: &Sheet) -> u128 {
    factor(sheet.shape()) * u128::from(sheet.conductivity) * 10_000_000
}

/// 2L × 10⁷ / α, flat L × 10⁷ / α.
fn film(sheet: &Sheet) -> Bracket {
    quotient(film_numerator(sheet), sheet.coefficient.into())
}

/// Have, "cylinder: E × log / 10⁷ plus 2L × 10⁷ / α".
fn provided_by_cylinder(sheet: &Sheet, logarithm: &Logarithm) -> Bracket {
    let outer = u128::from(logarithm.outer);
    let film = film(sheet);
    Bracket {
        lower: outer * u128::from(logarithm.lower) / 10_000_000 + film.lower,
        upper: (outer * u128::from(logarithm.upper)).div_ceil(10_000_000) + film.upper,
    }
}

/// Have, "flat: k × 10⁶ plus L × 10⁷ / α".
fn provided_by_wall(sheet: &Sheet, rung: u16) -> Bracket {
    let layer = u128::from(rung) * 1_000_000;
    let film = film(sheet);
    Bracket {
        lower: layer + film.lower,
        upper: layer + film.upper,
    }
}

/// "Low need is the largest whole number not above it; high need is the least
/// not below it." The need is the quotient.
fn quotient(numerator: u128, denominator: u128) -> Bracket {
    Bracket {
        lower: numerator / denominator,
        upper: numerator.div_ceil(denominator),
    }
}

/// The same where the need is the quotient's square root. It is below 2⁴⁴, as
/// the product below the root needs at most 87 bits.
fn root_of_quotient(numerator: u128, denominator: u128) -> Bracket {
    let (mut lower, mut beyond) = (0, 1 << 44);
    while beyond - lower > 1 {
        let middle: u128 = (lower + beyond) / 2;
        if middle * middle * denominator <= numerator {
            lower = middle;
        } else {
            beyond = middle;
        }
    }
    let exact = lower * lower * denominator == numerator;
    let upper = if exact { lower } else { lower + 1 };
    Bracket { lower, upper }
}

/// Need of the sheet's own goal, for goal 6 that of the first pass. Goal 7 has
/// another one at each rung.
pub fn required(sheet: &Sheet) -> Option<Bracket> {
    match sheet.goal.method() {
        Method::Economy => Some(required_for_economy(sheet)),
        Method::Loss => Some(required_for_loss(sheet, sheet.loss_aim().into())),
        Method::Surface => Some(required_for_surface(sheet, sheet.surface_aim())),
        Method::JacketedEconomy => None,
    }
}

/// A Δ or an s of a sheet that has passed tests 15 and 16.
fn natural(difference: i32) -> u128 {
    u128::try_from(difference).expect("a difference above zero")
}

/// 14,402,025,000 × fLτΔ on a cylinder, 3,598,609,000 × fLτΔ on a flat wall.
fn heat_term(sheet: &Sheet) -> u128 {
    let coefficient: u128 = match sheet.shape() {
        Shape::Cylinder => 14_402_025_000,
        Shape::Flat => 3_598_609_000,
    };
    let heat = u128::from(sheet.heat_price)
        * u128::from(sheet.conductivity)
        * u128::from(sheet.hours)
        * natural(sheet.difference());
    coefficient * heat
}

/// Need, "economy: the square root of 14,402,025,000 × fLτΔ / (PS) on a
/// cylinder, of 3,598,609,000 × fLτΔ / (PS) on a flat wall".
fn required_for_economy(sheet: &Sheet) -> Bracket {
    let cost = u128::from(sheet.insulation_price) * u128::from(sheet.yearly_share);
    root_of_quotient(heat_term(sheet), cost)
}

/// Need, "loss: 2LΔ × 10⁵ / aim, flat LΔ × 10⁵ / aim".
fn required_for_loss(sheet: &Sheet, aim: u128) -> Bracket {
    let heat = u128::from(sheet.conductivity) * natural(sheet.difference());
    quotient(factor(sheet.shape()) * heat * 100_000, aim)
}

/// Need, "surface: 2LΔ × 10⁷ / (αs), flat half of that".
fn required_for_surface(sheet: &Sheet, aim: i16) -> Bracket {
    quotient(
        film_numerator(sheet) * natural(sheet.difference()),
        u128::from(sheet.coefficient) * natural(sheet.from_air(aim)),
    )
}

/// A fraction.
#[derive(Clone, Copy, Debug, PartialEq, Eq)]
pub struct Fraction {
    pub numerator: u128,
    pub denominator: u128,
}

/// What the square of have is compared with at a rung of goal 7: the difference
/// "1 − 200L / (αE)" times the square of need, which "has P + 20,000 × aim / E
/// in place of P". None where the difference is not positive.
///
/// The difference is (αE − 200L) / (αE), and the square of need the heat's term
/// × E / ((PE + 20,000 × aim) × S), so E cancels. The numerator is below
/// 2⁸⁷ × 2²⁸, the denominator below 2¹⁴ × 2³² × 2¹⁴. Have is below 2³², being at
/// most 2,508 mm and a film of 400 mm, and its square times the denominator is
/// below 2¹²⁴.
pub fn required_square(sheet: &Sheet, outer: u64) -> Option<Fraction> {
    let (outer, coefficient) = (u128::from(outer), u128::from(sheet.coefficient));
    let difference = (coefficient * outer).saturating_sub(200 * u128::from(sheet.conductivity));
    if difference == 0 {
        return None;
    }
    let insulation = u128::from(sheet.insulation_price) * outer;
    let cost = insulation + 20_000 * u128::from(sheet.jacket_price());
    Some(Fraction {
        numerator: heat_term(sheet) * difference,
        denominator: coefficient * cost * u128::from(sheet.yearly_share),
    })
}

/// Meets, misses or open.
#[derive(Clone, Copy, Debug, PartialEq, Eq)]
pub enum Verdict {
    Sufficient,
    Insufficient,
    Undecided,
}

/// "A rung meets if under-have is at or above high need. It misses if
/// over-have is below low need. Otherwise it is open."
fn judge(provided: Bracket, required: Bracket) -> Verdict {
    if provided.lower >= required.upper {
        Verdict::Sufficient
    } else if provided.upper < required.lower {
        Verdict::Insufficient
    } else {
        Verdict::Undecided
    }
}

/// Goal 7: "A rung meets when the square of under-have is at or above that
/// difference times the exact square of need. It misses when the square of
/// over-have is below it." "A rung where the difference is not positive misses."
fn judge_square(provided: Bracket, required: Option<Fraction>) -> Verdict {
    let Some(required) = required else {
        return Verdict::Insufficient;
    };
    let square = |have: u128| have * have * required.denominator;
    if square(provided.lower) >= required.numerator {
        Verdict::Sufficient
    } else if square(provided.upper) < required.numerator {
        Verdict::Insufficient
    } else {
        Verdict::Undecided
    }
}

/// A rung with its have and its verdict.
pub type Judged = (u16, Bracket, Verdict);

/// The rungs from 0 up, the judge being given a rung and its have.
fn judged<'a>(
    sheet: &'a Sheet,
    judge: impl Fn(u16, Bracket) -> Verdict + 'a,
) -> impl Iterator<Item = Judged> + 'a {
    let mut logarithm = Logarithm::from_diameter(sheet.diameter);
    ladder().map(move |rung| {
        let provided = provided(sheet, rung, &mut logarithm);
        (rung, provided, judge(rung, provided))
    })
}

/// The rungs of a sheet of goal 7 from 0 up.
pub fn jacketed(sheet: &Sheet) -> impl Iterator<Item = Judged> + '_ {
    judged(sheet, |rung, provided| {
        let outer = outer_diameter(sheet.diameter, rung);
        judge_square(provided, required_square(sheet, outer))
    })
}

/// "The first rung that doesn't miss is the thickness if it meets." Refusal
/// 18 if it is open, 17 if all 31 rungs miss. Have comes with the thickness.
/// Above the first rung that doesn't miss none is looked at: for goal 7 such
/// rungs "may miss again".
fn choose(mut rungs: impl Iterator<Item = Judged>) -> Result<(u16, Bracket), Refusal> {
    match rungs.find(|&(.., verdict)| verdict != Verdict::Insufficient) {
        Some((rung, provided, Verdict::Sufficient)) => Ok((rung, provided)),
        Some(_) => Err(18),
        None => Err(17),
    }
}

/// The thickness for a need that is the same at each rung.
fn choose_for(sheet: &Sheet, required: Bracket) -> Result<(u16, Bracket), Refusal> {
    choose(judged(sheet, |_, provided| judge(provided, required)))
}

// The answer: 8 bytes.

/// 0 within, 1 over, 2 too close, 3 none printed.
pub const WITHIN: u8 = 0;
pub const OVER: u8 = 1;
pub const TOO_CLOSE: u8 = 2;
pub const NONE_PRINTED: u8 = 3;

fn check_code(verdict: Verdict) -> u8 {
    match verdict {
        Verdict::Sufficient => WITHIN,
        Verdict::Insufficient => OVER,
        Verdict::Undecided => TOO_CLOSE,
    }
}

/// A row of the loss table: t in °C, W/m² year-round, W/m² seasonal.
pub struct LossLimit {
    pub temperature: i16,
    pub year_round: Option<u16>,
    pub seasonal: Option<u16>,
}

const fn both(temperature: i16, year_round: u16, seasonal: u16) -> LossLimit {
    LossLimit {
        temperature,
        year_round: Some(year_round),
        seasonal: Some(seasonal),
    }
}

const fn year_round_only(temperature: i16, year_round: u16) -> LossLimit {
    LossLimit {
        temperature,
        year_round: Some(year_round),
        seasonal: None,
    }
}

/// "Limits in W/m² by t in °C (001, table 5.1.1), year-round / seasonal."
pub const LOSS_LIMITS: [LossLimit; 13] = [
    both(50, 58, 116),
    both(100, 93, 163),
    both(150, 116, 203),
    both(200, 140, 244),
    both(250, 163, 273),
    both(300, 186, 296),
    both(350, 209, 308),
    both(400, 227, 314),
    year_round_only(450, 244),
    year_round_only(500, 262),
    year_round_only(550, 279),
    year_round_only(600, 296),
    year_round_only(650, 314),
];

impl LossLimit {
    /// t in tenths of a degree, as on a sheet.
    fn pipe_temperature(&self) -> i16 {
        10 * self.temperature
    }

    /// The printed limit in tenths of W/m².
    fn printed(&self, service: Service) -> Option<u16> {
        let watts = match service {
            Service::YearRound | Service::YearRoundInterpolated => self.year_round,
            Service::Seasonal | Service::SeasonalInterpolated => self.seasonal,
        };
        watts.map(|watts| 10 * watts)
    }
}

/// "The row is the highest one not above t." In tenths of W/m². "Services 1 and
/// 2 keep the row below"; beyond its temperature 3 and 4 read the straight line
/// to the next row.
pub fn loss_limit(service: Service, pipe_temperature: i16) -> Option<u16> {
    let count = LOSS_LIMITS.partition_point(|row| row.pipe_temperature() <= pipe_temperature);
    let (not_above, above) = LOSS_LIMITS.split_at(count);
    let row = not_above.last()?;
    let interpolates = matches!(
        service,
        Service::YearRoundInterpolated | Service::SeasonalInterpolated
    );
    if interpolates && row.pipe_temperature() < pipe_temperature {
        interpolated(service, (row, above.first()?), pipe_temperature)
    } else {
        row.printed(service)
    }
}

/// "The limit is in tenths of W/m², rounded down." The limits rise with t.
fn interpolated(
    service: Service,
    rows: (&LossLimit, &LossLimit),
    pipe_temperature: i16,
) -> Option<u16> {
    let (low, high) = (rows.0.printed(service)?, rows.1.printed(service)?);
    let width = u32::from(
        rows.1
            .pipe_temperature()
            .abs_diff(rows.0.pipe_temperature()),
    );
    let beyond = u32::from(pipe_temperature.abs_diff(rows.0.pipe_temperature()));
    let rise = u32::from(high - low) * beyond / width;
    Some(low + u16::try_from(rise).expect("at most the next row's"))
}

/// "Surface limit: 50.0 °C for ta up to 27.0, else ta + 25.0."
pub fn surface_limit(air_temperature: i16) -> i16 {
    if air_temperature <= 270 {
        500
    } else {
        air_temperature + 250
    }
}

/// "The loss check reads meets, misses or open of the chosen rung against the
/// loss need at the limit."
fn loss_check(sheet: &Sheet, provided: Bracket) -> u8 {
    match loss_limit(sheet.service, sheet.pipe_temperature) {
        None => NONE_PRINTED,
        Some(limit) => check_code(judge(provided, required_for_loss(sheet, limit.into()))),
    }
}

/// "The surface check does so with the limit in place of aim. A t at or below
/// the surface limit is within."
fn surface_check(sheet: &Sheet, provided: Bracket) -> u8 {
    let limit = surface_limit(sheet.air_temperature);
    if sheet.pipe_temperature <= limit {
        return WITHIN;
    }
    check_code(judge(provided, required_for_surface(sheet, limit)))
}

/// Bytes 4 and 5. "Both checks of a cold sheet read 0 for surface and 3 for
/// loss."
fn checks(sheet: &Sheet, provided: Bracket) -> [u8; 2] {
    match sheet.goal.flow() {
        Flow::Outward => [loss_check(sheet, provided), surface_check(sheet, provided)],
        Flow::Inward => [NONE_PRINTED, WITHIN],
    }
}

/// "Surface bound: ta plus 2L × 10⁷ × Δ / (α × under-have) rounded up, flat
/// with L in place of 2L, and never above t." On a cold line it is "a lower
/// one: ta minus the quotient rounded up, and never below t".
fn surface_bound(sheet: &Sheet, provided: Bracket) -> i16 {
    let difference = natural(sheet.difference());
    let numerator = film_numerator(sheet) * difference;
    let from_air = numerator.div_ceil(u128::from(sheet.coefficient) * provided.lower);
    let from_air = i32::try_from(from_air.min(difference)).expect("at most Δ");
    sheet.temperature_at(from_air)
}

/// "90 per cent of the limit in tenths, rounded down."
pub fn second_aim(service: Service, pipe_temperature: i16) -> Option<u16> {
    let limit = loss_limit(service, pipe_temperature)?;
    let aim = u32::from(limit) * 90 / 100;
    Some(u16::try_from(aim).expect("at most the limit"))
}

/// The second pass of goal 6, from have of the first: "If the loss check says
/// over, the rung is found again by the loss method with 90 per cent of the
/// limit." "If the check says too close, the sheet gets 18."
fn choose_again(sheet: &Sheet, provided: Bracket) -> Result<Option<(u16, Bracket)>, Refusal> {
    if sheet.goal != Goal::LimitedEconomy {
        return Ok(None);
    }
    match loss_check(sheet, provided) {
        OVER => {
            let aim = second_aim(sheet.service, sheet.pipe_temperature).expect("a limit");
            choose_for(sheet, required_for_loss(sheet, aim.into())).map(Some)
        }
        TOO_CLOSE => Err(18),
        _ => Ok(None),
    }
}

/// The answer to a standard sheet.
pub fn answer(sheet: &[u8]) -> Result<[u8; ANSWER_LENGTH], Refusal> {
    answer_in(STANDARD, sheet)
}

/// The answer to a sheet: "Byte 0 is 0", but of a second pass "1 in place of
/// 0". "Byte 1: 1 cylinder, 2 flat. Bytes 2–3: thickness in mm. Byte 4, loss
/// check. Byte 5, surface check. Bytes 6–7: surface bound in 0.1 °C, signed."
/// After a second pass "checks and bound are then those of the second rung".
pub fn answer_in(layout: Layout, sheet: &[u8]) -> Result<[u8; ANSWER_LENGTH], Refusal> {
    let sheet = examine_in(layout, sheet)?;
    let first = match required(&sheet) {
        Some(required) => choose_for(&sheet, required),
        None => choose(jacketed(&sheet)),
    }?;
    let second = choose_again(&sheet, first.1)?;
    let (thickness, provided) = second.unwrap_or(first);
    let mut answer = [0; ANSWER_LENGTH];
    answer[0] = second.is_some().into();
    answer[1] = sheet.shape() as u8;
    answer[2..4].copy_from_slice(&thickness.to_be_bytes());
    answer[4..6].copy_from_slice(&checks(&sheet, provided));
    answer[6..8].copy_from_slice(&surface_bound(&sheet, provided).to_be_bytes());
    Ok(answer)
}

// The book.

impl Layout {
    pub const fn header_length(self) -> usize {
        self.lead + 2 * self.size_width
    }

    /// "Length 4 + 32c", of the larger book "10 + 34c".
    pub const fn book_length(self, capacity: usize) -> usize {
        self.header_length() + (self.sheet_length() + ANSWER_LENGTH) * capacity
    }

    /// "c sheet slots".
    pub fn sheet_slot(self, entry: usize) -> Range<usize> {
        let start = self.header_length() + self.sheet_length() * entry;
        start..start + self.sheet_length()
    }

    /// "c answer slots", after the sheet slots.
    pub fn answer_slot(self, capacity: usize, entry: usize) -> Range<usize> {
        let start = self.sheet_slot(capacity).start + ANSWER_LENGTH * entry;
        start..start + ANSWER_LENGTH
    }

    /// Where a book has its capacity.
    pub fn capacity_slot(self) -> Range<usize> {
        self.lead..self.lead + self.size_width
    }

    /// Where a book has its count.
    pub fn count_slot(self) -> Range<usize> {
        self.capacity_slot().end..self.header_length()
    }
}

/// "The new reader takes both kinds by their first two bytes."
pub fn layout_of(book: &[u8]) -> Layout {
    match book {
        [0, 0, ..] => LARGER,
        _ => STANDARD,
    }
}

/// A size in its two or four bytes.
fn size_at(book: &[u8], slot: Range<usize>) -> u64 {
    let bytes = book[slot].iter();
    bytes.fold(0, |size, &byte| 256 * size + u64::from(byte))
}

/// Puts a size into its two or four bytes.
pub fn put_size(book: &mut [u8], slot: Range<usize>, size: usize) {
    let bytes = (size as u64).to_be_bytes();
    let (high, low) = bytes.split_at(bytes.len() - slot.len());
    assert!(high.iter().all(|&byte| byte == 0), "size {size}");
    book[slot].copy_from_slice(low);
}

/// A book's capacity c and count n.
struct Header {
    capacity: usize,
    count: usize,
}

/// "31: under 4 bytes, c outside 1 to 1,000, or length not 4 + 32c", "with 31
/// and 32 restated for the larger sizes".
fn sound_capacity(layout: Layout, length: usize, capacity: u64) -> Result<usize, Refusal> {
    if !(1..=layout.largest_capacity).contains(&capacity) {
        return Err(31);
    }
    let capacity = usize::try_from(capacity).map_err(|_| 31)?;
    if length == layout.book_length(capacity) {
        Ok(capacity)
    } else {
        Err(31)
    }
}

fn header(layout: Layout, book: &[u8]) -> Result<Header, Refusal> {
    // 31, of a book that is there already.
    if book.len() < layout.header_length() {
        return Err(31);
    }
    let capacity = size_at(book, layout.capacity_slot());
    let capacity = sound_capacity(layout, book.len(), capacity)?;
    // 32: n above c.
    match usize::try_from(size_at(book, layout.count_slot())) {
        Ok(count) if count <= capacity => Ok(Header { capacity, count }),
        _ => Err(32),
    }
}

/// "A new book is all zero but for c." "Making a new book has this refusal
/// (31) only; c is then the capacity wanted."
pub fn new_book(layout: Layout, book: &mut [u8], capacity: u64) -> Result<(), Refusal> {
    let capacity = sound_capacity(layout, book.len(), capacity)?;
    book.fill(0);
    put_size(book, layout.capacity_slot(), capacity);
    Ok(())
}

/// "Filing writes slot n in both arrays, raises n by one, returns the answer
/// and changes nothing else." The sheet is one of the book's kind.
pub fn file(book: &mut [u8], sheet: &[u8]) -> Result<[u8; ANSWER_LENGTH], Refusal> {
    let layout = layout_of(book);
    let Header { capacity, count } = header(layout, book)?;
    // 34: filing, n = c.
    if count == capacity {
        return Err(34);
    }
    let answer = answer_in(layout, sheet)?;
    book[layout.sheet_slot(count)].copy_from_slice(sheet);
    book[layout.answer_slot(capacity, count)].copy_from_slice(&answer);
    put_size(book, layout.count_slot(), count + 1);
    Ok(answer)
}

/// What a reading returns: a sheet of 24 bytes or 26 and its answer.
pub type Entry = (Vec<u8>, [u8; ANSWER_LENGTH]);

/// "An old reader sees capacity zero and gives 31": it takes every book for a
/// standard one.
pub fn read(book: &[u8], entry: u64) -> Result<Entry, Refusal> {
    read_in(STANDARD, book, entry)
}

pub fn read_either(book: &[u8], entry: u64) -> Result<Entry, Refusal> {
    read_in(layout_of(book), book, entry)
}

/// "Reading entry e (0 to n − 1) works the sheet out again and returns the
/// stored sheet with the stored answer."
fn read_in(layout: Layout, book: &[u8], entry: u64) -> Result<Entry, Refusal> {
    let Header { capacity, count } = header(layout, book)?;
    // 33: reading, e not below n.
    let entry = usize::try_from(entry).map_err(|_| 33)?;
    if entry >= count {
        return Err(33);
    }
    let sheet = &book[layout.sheet_slot(entry)];
    let stored_answer = &book[layout.answer_slot(capacity, entry)];
    // 35: the stored sheet is refused or its answer differs.
    match answer_in(layout, sheet) {
        Ok(answer) if answer == stored_answer => Ok((sheet.to_vec(), answer)),
        _ => Err(35),
    }
}

// The yearly share from interest and years.

/// "The rate i counts 0.0001 and runs from 1 to 3,000"
pub const RATES: RangeInclusive<u64> = 1..=3_000;

/// "n runs from 2 to 30, since one year would give more than 1"
pub const TERMS: RangeInclusive<u64> = 2..=30;

/// A growth of one.
const BILLION: u128 = 1_000_000_000;

/// "Growth is compounded year by year from 10⁹, each year multiplied by
/// (10,000 + i) / 10,000, once rounded down and once up."
pub fn growth(rate: u64, years: u64) -> Bracket {
    let factor = 10_000 + u128::from(rate);
    let (mut lower, mut upper) = (BILLION, BILLION);
    for _ in 0..years {
        lower = lower * factor / 10_000;
        upper = (upper * factor).div_ceil(10_000);
    }
    Bracket { lower, upper }
}

/// S, "the rate times the growth over n years, divided by the growth less one",
/// "to the nearest 0.0001, a half going up".
fn rounded_share(rate: u64, growth: u128) -> u128 {
    let divisor = growth - BILLION;
    (2 * u128::from(rate) * growth + divisor) / (2 * divisor)
}

/// "S falls as growth rises, so the two growth figures enclose it." The upper
/// end is that of the lower growth.
pub fn share_ends(rate: u64, years: u64) -> (u128, u128) {
    let growth = growth(rate, years);
    let lower = rounded_share(rate, growth.upper);
    let upper = rounded_share(rate, growth.lower);
    (lower, upper)
}

/// "S is given to the nearest 0.0001, a half going up, when both ends round
/// alike."
pub fn share(rate: u64, years: u64) -> Result<u16, Refusal> {
    // 41: a rate or term outside its range.
    if !RATES.contains(&rate) || !TERMS.contains(&years) {
        return Err(41);
    }
    // 42: the two ends round differently.
    let (lower, upper) = share_ends(rate, years);
    if lower != upper {
        return Err(42);
    }
    Ok(u16::try_from(lower).expect("at most 10,000"))
}
