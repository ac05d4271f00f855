//! The thickness as a spreadsheet works it out: 64-bit floating-point numbers
//! in SI units, a logarithm and a square root. It never says "too close".

use crate::plain::{self, Flow, Goal, Method, Refusal, Shape, Sheet};

/// What the spreadsheet prints for a sheet.
#[derive(Clone, Copy, Debug, PartialEq, Eq)]
pub struct Estimate {
    pub shape: Shape,
    /// Thickness in mm.
    pub thickness: u16,
    /// The answer's codes, without "too close".
    pub loss_check: u8,
    pub surface_check: u8,
    /// Surface bound in 0.1 °C.
    pub surface_bound: i16,
}

/// The sheet in SI units.
struct Case {
    shape: Shape,
    /// m
    diameter: f64,
    /// K, above zero on hot lines and on cold ones.
    difference: f64,
    /// W/(m·K)
    conductivity: f64,
    /// Film term in m: 2λ/α on a cylinder, λ/α on a flat wall.
    film: f64,
}

impl Case {
    fn new(sheet: &Sheet) -> Case {
        let shape = sheet.shape();
        let conductivity = f64::from(sheet.conductivity) / 10_000.0;
        let coefficient = f64::from(sheet.coefficient) / 100.0;
        Case {
            shape,
            diameter: f64::from(sheet.diameter) / 10_000.0,
            difference: f64::from(sheet.difference()) / 10.0,
            conductivity,
            film: shape_factor(shape) * conductivity / coefficient,
        }
    }

    /// Have, in metres: Do ln(Do/Di) + 2λ/α, or δ + λ/α.
    fn provided(&self, rung: u16) -> f64 {
        let thickness = f64::from(rung) / 1_000.0;
        match self.shape {
            Shape::Cylinder => {
                let outer = self.diameter + 2.0 * thickness;
                outer * (outer / self.diameter).ln() + self.film
            }
            Shape::Flat => thickness + self.film,
        }
    }

    /// Need for economy at a price per m³: 3.795×10⁻³ or 1.897×10⁻³ times the
    /// root of fλτΔ/(PS).
    fn required_for_economy(&self, sheet: &Sheet, price: f64) -> f64 {
        let coefficient = match self.shape {
            Shape::Cylinder => 3.795e-3,
            Shape::Flat => 1.897e-3,
        };
        let heat_price = f64::from(sheet.heat_price) / 100.0;
        let share = f64::from(sheet.yearly_share) / 10_000.0;
        let heat = heat_price * self.conductivity * f64::from(sheet.hours) * self.difference;
        coefficient * (heat / (price * share)).sqrt()
    }

    /// Goal 7: have over the root of 1 − 2λ/(αDo) is not below the need that
    /// has the price of 2/Do m² of jacket in its P.
    fn sufficient_with_jacket(&self, sheet: &Sheet, rung: u16, provided: f64) -> bool {
        let outer = self.diameter + 2.0 * f64::from(rung) / 1_000.0;
        let difference = 1.0 - self.film / outer;
        let jacket = 2.0 * f64::from(sheet.jacket_price()) / outer;
        let price = f64::from(sheet.insulation_price) + jacket;
        let required = self.required_for_economy(sheet, price);
        difference > 0.0 && provided / difference.sqrt() >= required
    }

    /// Need for a heat loss in tenths of W/m².
    fn required_for_loss(&self, tenths: u16) -> f64 {
        let loss = f64::from(tenths) / 10.0;
        shape_factor(self.shape) * self.conductivity * self.difference / loss
    }

    /// Need for a surface that many tenths of a degree from the air.
    fn required_for_surface(&self, tenths: i32) -> f64 {
        self.film * self.difference / (f64::from(tenths) / 10.0)
    }
}

fn shape_factor(shape: Shape) -> f64 {
    match shape {
        Shape::Cylinder => 2.0,
        Shape::Flat => 1.0,
    }
}

fn check_code(sufficient: bool) -> u8 {
    if sufficient {
        plain::WITHIN
    } else {
        plain::OVER
    }
}

fn loss_check(sheet: &Sheet, case: &Case, provided: f64) -> u8 {
    match plain::loss_limit(sheet.service, sheet.pipe_temperature) {
        None => plain::NONE_PRINTED,
        Some(limit) => check_code(provided >= case.required_for_loss(limit)),
    }
}

fn surface_check(sheet: &Sheet, case: &Case, provided: f64) -> u8 {
    let limit = plain::surface_limit(sheet.air_temperature);
    let required = case.required_for_surface(sheet.from_air(limit));
    check_code(sheet.pipe_temperature <= limit || provided >= required)
}

/// The loss check and the surface check. A cold line has no limits.
fn checks(sheet: &Sheet, case: &Case, provided: f64) -> (u8, u8) {
    match sheet.goal.flow() {
        Flow::Outward => (
            loss_check(sheet, case, provided),
            surface_check(sheet, case, provided),
        ),
        Flow::Inward => (plain::NONE_PRINTED, plain::WITHIN),
    }
}

/// The surface's distance from ta, up to the next tenth of a degree.
fn surface_bound(sheet: &Sheet, case: &Case, provided: f64) -> i16 {
    let tenths = (10.0 * case.film * case.difference / provided).ceil();
    sheet.temperature_at(tenths.min(f64::from(sheet.difference())) as i32)
}

/// A thickness with its have.
type Choice = (u16, f64);

/// The first rung where have is not below need.
fn choose(case: &Case, required: f64) -> Option<Choice> {
    plain::ladder()
        .map(|rung| (rung, case.provided(rung)))
        .find(|&(_, provided)| provided >= required)
}

/// The first rung that is sufficient for goal 7.
fn choose_with_jacket(sheet: &Sheet, case: &Case) -> Option<Choice> {
    plain::ladder()
        .map(|rung| (rung, case.provided(rung)))
        .find(|&(rung, provided)| case.sufficient_with_jacket(sheet, rung, provided))
}

/// The rung of the sheet's own goal, for goal 6 that of the first pass.
fn choose_first(sheet: &Sheet, case: &Case) -> Option<Choice> {
    let required = match sheet.goal.method() {
        Method::Economy => case.required_for_economy(sheet, sheet.insulation_price.into()),
        Method::Loss => case.required_for_loss(sheet.loss_aim()),
        Method::Surface => case.required_for_surface(sheet.from_air(sheet.surface_aim())),
        Method::JacketedEconomy => return choose_with_jacket(sheet, case),
    };
    choose(case, required)
}

/// Goal 6: a rung that is over the loss limit gives way to the one for 90 per
/// cent of it.
fn choose_again(sheet: &Sheet, case: &Case, first: Choice) -> Option<Choice> {
    let over = loss_check(sheet, case, first.1) == plain::OVER;
    match plain::second_aim(sheet.service, sheet.pipe_temperature) {
        Some(aim) if over && sheet.goal == Goal::LimitedEconomy => {
            choose(case, case.required_for_loss(aim))
        }
        _ => Some(first),
    }
}

/// The rung chosen, with its checks and bound; none if there is no such rung.
/// Refusals 11 to 16 and 43 are the sheet's own.
pub fn estimate(sheet: &[u8]) -> Result<Option<Estimate>, Refusal> {
    let sheet = plain::examine(sheet)?;
    let case = Case::new(&sheet);
    let first = choose_first(&sheet, &case);
    let chosen = first.and_then(|first| choose_again(&sheet, &case, first));
    Ok(chosen.map(|(thickness, provided)| {
        let (loss_check, surface_check) = checks(&sheet, &case, provided);
        Estimate {
            shape: case.shape,
            thickness,
            loss_check,
            surface_check,
            surface_bound: surface_bound(&sheet, &case, provided),
        }
    }))
}
