//! The loss limit of hot lines at every temperature above −50.0 °C, for every
//! service. Where there is one, the answers to two sheets leave only that, to
//! the tenth of a W/m², those to two sheets of goal 7 too, and those to two
//! sheets of goal 6 only 90 per cent of it; where there is none, one sheet of
//! each says so. Cold lines have none, down to −196.0 °C.

use comparison::both;
use comparison::plain::{self, Goal, Logarithm, Service, NONE_PRINTED, OVER, WITHIN};
use comparison::sheets::{put, put_field, Draft};

/// The greatest pipe.
const PIPE: u16 = plain::LARGEST_CYLINDER;

/// A flat wall of 0.1 W/(m·K) for a loss.
fn wall(service: Service, pipe: i32, air: i32, coefficient: i32, aim: i32) -> Draft {
    let mut draft = [0; plain::SHEET_LENGTH];
    draft[plain::GOAL_OFFSET] = Goal::Loss as u8;
    draft[plain::SERVICE_OFFSET] = service as u8;
    put_field(&mut draft, plain::DIAMETER, 20_000);
    put_field(&mut draft, plain::PIPE_TEMPERATURE, pipe);
    put_field(&mut draft, plain::AIR_TEMPERATURE, air);
    put_field(&mut draft, plain::CONDUCTIVITY, 1_000);
    put_field(&mut draft, plain::COEFFICIENT, coefficient);
    put(&mut draft, plain::AIM_OFFSET, aim);
    draft
}

/// Whole rungs, in mm, and an α for a wall that has hardly more than it needs
/// for a loss: α is the greatest for which the film makes up what the rungs
/// lack, 1 to 11 mm. The wall has less than it needs for a loss that is a tenth
/// smaller.
fn hardly_enough(pipe: i32, loss: i32) -> (u16, i32) {
    let need = 100_000_000 * i64::from(pipe);
    let need = (need + i64::from(loss) - 1) / i64::from(loss);
    let layer = (need - 1_000_000) / 10_000_000 * 10_000_000;
    let coefficient = 10_000_000_000 / (need - layer);
    let have = layer + 10_000_000_000 / coefficient;
    assert!(have >= need && have < 100_000_000 * i64::from(pipe) / i64::from(loss - 1) - 1);
    ((layer / 1_000_000) as u16, coefficient as i32)
}

fn hardly_within(service: Service, pipe: i32, loss: i32) -> Draft {
    let (_, coefficient) = hardly_enough(pipe, loss);
    wall(service, pipe, 0, coefficient, loss)
}

/// The same wall for goal 6: heat of the lowest price and a layer of the
/// highest leave it bare on the first pass.
fn limited(mut draft: Draft) -> Draft {
    draft[plain::GOAL_OFFSET] = Goal::LimitedEconomy as u8;
    for field in [plain::HEAT_PRICE, plain::HOURS] {
        put_field(&mut draft, field, field.least);
    }
    for field in [plain::INSULATION_PRICE, plain::YEARLY_SHARE] {
        put_field(&mut draft, field, field.greatest);
    }
    put(&mut draft, plain::AIM_OFFSET, 0);
    draft
}

fn loss_check(sheet: &Draft) -> u8 {
    both::answer(sheet).expect("a thickness")[4]
}

fn assert_limit(service: Service, pipe: i32, limit: i32) {
    assert_eq!(
        loss_check(&hardly_within(service, pipe, limit)),
        WITHIN,
        "{service:?} at {pipe}"
    );
    assert_eq!(
        loss_check(&hardly_within(service, pipe, limit + 1)),
        OVER,
        "{service:?} at {pipe}"
    );
}

/// The rungs that have hardly enough for 90 per cent of the limit are given, and
/// 10 mm more where they have hardly enough for a tenth above it.
fn assert_second_aim(service: Service, pipe: i32, limit: i32) {
    let aim = limit * 90 / 100;
    for (loss, more) in [(aim, 0), (aim + 1, plain::GRADE)] {
        let (rungs, coefficient) = hardly_enough(pipe, loss);
        let sheet = limited(wall(service, pipe, 0, coefficient, 0));
        let answer = both::answer(&sheet).expect("a thickness");
        let [a, b] = (rungs + more).to_be_bytes();
        assert_eq!(answer[..5], [1, 2, a, b, WITHIN], "{service:?} at {pipe}");
    }
}

/// The layers of a pipe of 1 m, in nanometres, rounded down and up.
fn layers() -> Vec<(i64, i64)> {
    let mut logarithm = Logarithm::from_diameter(PIPE);
    let layer = |rung| {
        let outer = plain::outer_diameter(PIPE, rung);
        logarithm.extend_to(outer);
        let [lower, upper] = [logarithm.lower, logarithm.upper].map(|log| (outer * log) as i64);
        (lower / 10_000_000, upper / 10_000_000 + 1)
    };
    plain::ladder().map(layer).collect()
}

/// A rung and an α for a pipe of 1 m that has hardly more than it needs for a
/// loss, the film making up 2 to 31 mm. It has less than it needs for a loss
/// that is a tenth smaller.
fn hardly_enough_pipe(layers: &[(i64, i64)], pipe: i32, loss: i32) -> (u16, i32) {
    let need = 200_000_000 * i64::from(pipe);
    let (enough, short) = (need / i64::from(loss) + 1, need / i64::from(loss - 1));
    let rung = layers.partition_point(|layer| layer.1 + 2_000_000 <= enough) - 1;
    let (lower, upper) = layers[rung];
    let coefficient = 20_000_000_000 / (enough - lower);
    let film = 20_000_000_000 / coefficient;
    assert!(lower + film >= enough && upper + film + 1 < short);
    (plain::GRADE * rung as u16, coefficient as i32)
}

/// A pipe of 1 m and 0.1 W/(m·K) for goal 7.
fn jacketed(service: Service, pipe: i32, air: i32, coefficient: i32) -> Draft {
    let mut draft = wall(service, pipe, air, coefficient, 5_000);
    draft[plain::GOAL_OFFSET] = Goal::JacketedEconomy as u8;
    put_field(&mut draft, plain::DIAMETER, PIPE.into());
    let prices = [
        (plain::HEAT_PRICE, 1),
        (plain::HOURS, 8_000),
        (plain::INSULATION_PRICE, 10_000),
        (plain::YEARLY_SHARE, 2_500),
    ];
    for (field, value) in prices {
        put_field(&mut draft, field, value);
    }
    draft
}

/// The price of heat for which 10 mm less than have is required at a rung.
fn priced(mut draft: Draft, rung: u16) -> Draft {
    let sheet = plain::examine(&draft).expect("a good sheet");
    let wanted = plain::provided_at(&sheet, rung).lower as f64 - 1e7;
    let outer = plain::outer_diameter(PIPE, rung);
    let required = plain::required_square(&sheet, outer).expect("a thin film");
    let each = required.numerator as f64 / required.denominator as f64;
    let price = (wanted * wanted / each) as i32;
    assert!((1..=plain::HEAT_PRICE.greatest).contains(&price), "{price}");
    put_field(&mut draft, plain::HEAT_PRICE, price);
    draft
}

/// The undivided have of a pipe that has hardly enough for the limit is within
/// it, and that of one that has hardly enough for a tenth more is over it.
fn assert_jacketed_limit(layers: &[(i64, i64)], service: Service, pipe: i32, limit: i32) {
    for (loss, check) in [(limit, WITHIN), (limit + 1, OVER)] {
        let (rung, coefficient) = hardly_enough_pipe(layers, pipe, loss);
        let sheet = priced(jacketed(service, pipe, 0, coefficient), rung);
        let answer = both::answer(&sheet).expect("a thickness");
        let [a, b] = rung.to_be_bytes();
        assert_eq!(answer[..5], [0, 1, a, b, check], "{service:?} at {pipe}");
    }
}

fn assert_no_limit(service: Service, pipe: i32) {
    let air = plain::AIR_TEMPERATURE.least;
    let bare = both::answer(&jacketed(service, pipe, air, 1_000)).expect("a thickness");
    assert_eq!(
        bare[..5],
        [0, 1, 0, 0, NONE_PRINTED],
        "{service:?} at {pipe}"
    );
    let sheet = wall(service, pipe, air, 1_000, 65_535);
    assert_eq!(loss_check(&sheet), NONE_PRINTED, "{service:?} at {pipe}");
    let answer = both::answer(&limited(sheet)).expect("a thickness");
    let bare = [0, 2, 0, 0, NONE_PRINTED];
    assert_eq!(answer[..5], bare, "{service:?} at {pipe}");
}

#[test]
fn at_every_temperature() {
    let least = plain::PIPE_TEMPERATURE.least + 1;
    let layers = layers();
    for service in plain::SERVICES {
        for pipe in least..=plain::PIPE_TEMPERATURE.greatest {
            match plain::loss_limit(service, pipe as i16) {
                Some(limit) => {
                    assert_limit(service, pipe, limit.into());
                    assert_second_aim(service, pipe, limit.into());
                    assert_jacketed_limit(&layers, service, pipe, limit.into());
                }
                None => assert_no_limit(service, pipe),
            }
        }
    }
}

/// A wall of that temperature in the warmest air; its aim is the coldest
/// allowed, or its prices and hours are the least.
fn cold_wall(goal: Goal, service: Service, pipe: i32) -> Draft {
    let mut draft = wall(service, pipe, plain::AIR_TEMPERATURE.greatest, 1_000, 0);
    draft[plain::GOAL_OFFSET] = goal as u8;
    for field in plain::FIELDS.into_iter().filter(|field| field.economy_only) {
        let used = plain::used(&field, goal);
        put_field(&mut draft, field, if used { field.least } else { 0 });
    }
    if goal == Goal::ColdSurface {
        put(&mut draft, plain::AIM_OFFSET, pipe + 1);
    }
    draft
}

#[test]
fn at_every_cold_temperature() {
    let field = plain::PIPE_TEMPERATURE;
    for service in plain::SERVICES {
        // An aim needs a tenth of a degree on either side of it.
        for (goal, below_air) in [(Goal::ColdSurface, 2), (Goal::ColdEconomy, 1)] {
            for pipe in field.cold_least..=plain::AIR_TEMPERATURE.greatest - below_air {
                let answer = both::answer(&cold_wall(goal, service, pipe)).expect("a thickness");
                let checks = [answer[4], answer[5]];
                assert_eq!(checks, [NONE_PRINTED, WITHIN], "{service:?} at {pipe}");
            }
        }
    }
}
