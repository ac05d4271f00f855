//! The figures that the papers print, and sheets of goals 4 to 7 worked by hand:
//! answers from both implementations, the rest from the plain one.

use comparison::both;
use comparison::plain::{
    self, Bracket, Field, Goal, Logarithm, Refusal, Service, Sheet, Verdict, NONE_PRINTED, OVER,
    TOO_CLOSE, WITHIN,
};
use comparison::sheets::{put, Draft};

/// A sheet from its codes, line number, D, t, ta, L, α, the four fields of
/// economy and the aim.
fn sheet(codes: [u8; 2], fields: [i32; 11]) -> Draft {
    let mut draft = [0; plain::SHEET_LENGTH];
    draft[..2].copy_from_slice(&codes);
    for (place, value) in fields.into_iter().enumerate() {
        put(&mut draft, plain::LINE_OFFSET + 2 * place, value);
    }
    draft
}

fn sheet_f(aim: i32) -> Draft {
    let fields = [7, 12_000, 1_300, 200, 400, 800, 0, 0, 0, 0, aim];
    sheet([2, 1], fields)
}

fn sheet_g() -> Draft {
    let fields = [9, 10_001, 300, 200, 400, 1_163, 0, 0, 0, 0, 1_163];
    sheet([2, 1], fields)
}

/// The sheet of table 4 with its two temperatures exchanged.
fn economy(diameter: i32) -> Draft {
    let fields = [
        1, diameter, 207, 70, 333, 2_048, 7_500, 2_880, 1_600, 2_296, 0,
    ];
    sheet([1, 1], fields)
}

/// The sheet of table 4 as printed: water of 7 °C in air of 20.7 °C.
fn chilled_water(diameter: i32) -> Draft {
    let fields = [
        1, diameter, 70, 207, 333, 2_048, 7_500, 2_880, 1_600, 2_296, 0,
    ];
    sheet([5, 1], fields)
}

fn thickness(sheet: &[u8]) -> Result<u16, Refusal> {
    both::answer(sheet).map(|answer| u16::from_be_bytes([answer[2], answer[3]]))
}

/// The need that is the same at each rung.
fn need(sheet: &Sheet) -> Bracket {
    plain::required(sheet).expect("one need")
}

fn whole(lower: u128, upper: u128) -> Bracket {
    Bracket { lower, upper }
}

#[test]
fn steps() {
    assert_eq!(plain::lower_step(100), 9_950_248_756);
    assert_eq!(plain::upper_step(100), 9_950_495_050);
    let mut logarithm = Logarithm::from_diameter(270);
    logarithm.extend_to(plain::outer_diameter(270, 0));
    assert_eq!((logarithm.lower, logarithm.upper), (0, 0));
}

#[test]
fn sheet_f_and_its_aims() {
    assert_eq!(both::answer(&sheet_f(800)), Ok([0, 2, 0, 50, 0, 0, 1, 44]));
    assert_eq!(thickness(&sheet_f(799)), Ok(60));
    assert_eq!(thickness(&sheet_f(145)), Ok(300));
    assert_eq!(thickness(&sheet_f(144)), Err(17));

    let examined = plain::examine(&sheet_f(800)).unwrap();
    let have = plain::provided_at(&examined, 50);
    assert_eq!(have, whole(55_000_000, 55_000_000));
    assert_eq!(need(&examined), have);
    let examined = plain::examine(&sheet_f(799)).unwrap();
    assert_eq!(need(&examined), whole(55_068_836, 55_068_837));
}

#[test]
fn sheet_g_is_open_at_once() {
    assert_eq!(thickness(&sheet_g()), Err(18));
    let examined = plain::examine(&sheet_g()).unwrap();
    let have = plain::provided_at(&examined, 0);
    assert_eq!(have, whole(3_439_380, 3_439_381));
    assert_eq!(need(&examined), have);
}

#[test]
fn surface_aim_at_the_pipe() {
    let fields = [1, 1_000, 1_300, 200, 400, 800, 0, 0, 0, 0, 1_300];
    assert_eq!(thickness(&sheet([3, 1], fields)), Err(16));
}

#[test]
fn limits() {
    assert_eq!(plain::loss_limit(Service::YearRound, 2_999), Some(1_630));
    assert_eq!(plain::loss_limit(Service::Seasonal, 4_500), None);
    assert_eq!(plain::surface_limit(270), 500);
    assert_eq!(plain::surface_limit(271), 521);
}

#[test]
fn limits_between_rows() {
    let year_round = |t| plain::loss_limit(Service::YearRoundInterpolated, t);
    let seasonal = |t| plain::loss_limit(Service::SeasonalInterpolated, t);
    assert_eq!(year_round(1_300), Some(1_068));
    // 106.754, 186.92 and 92.93 are rounded down; 75.5 and 139.5 are halfway.
    assert_eq!(
        (year_round(1_299), seasonal(1_299)),
        (Some(1_067), Some(1_869))
    );
    assert_eq!(year_round(999), Some(929));
    assert_eq!((year_round(750), seasonal(750)), (Some(755), Some(1_395)));
    assert_eq!(seasonal(4_000), Some(3_140));
    assert_eq!((seasonal(4_001), seasonal(4_499)), (None, None));
    assert_eq!((year_round(499), seasonal(499)), (None, None));
    assert_eq!(year_round(6_500), Some(3_140));
    for row in &plain::LOSS_LIMITS {
        let (year_round, seasonal) = (
            year_round(10 * row.temperature),
            seasonal(10 * row.temperature),
        );
        assert_eq!(year_round, row.year_round.map(|watts| 10 * watts));
        assert_eq!(seasonal, row.seasonal.map(|watts| 10 * watts));
    }
}

#[test]
fn shapes() {
    for (diameter, shape) in [(10_000, 1), (10_001, 2)] {
        let answer = both::answer(&economy(diameter)).unwrap();
        assert_eq!(answer[1], shape);
    }
}

#[test]
fn economy_thickness() {
    assert_eq!(thickness(&economy(270)), Ok(20));
    assert_eq!(thickness(&economy(320)), Ok(30));
}

/// Table 4 of source document 002 up to D 10,000: pipe diameters, and the
/// printed thicknesses before the correction factor, in 0.01 mm.
const TABLE_4: [(i32, u16); 20] = [
    (270, 1_950),
    (320, 2_015),
    (380, 2_082),
    (450, 2_148),
    (570, 2_237),
    (760, 2_340),
    (890, 2_394),
    (1_080, 2_457),
    (1_330, 2_520),
    (1_590, 2_570),
    (2_190, 2_648),
    (2_730, 2_695),
    (3_250, 2_728),
    (3_770, 2_753),
    (4_260, 2_772),
    (4_800, 2_789),
    (5_300, 2_802),
    (6_300, 2_822),
    (7_300, 2_837),
    (8_300, 2_849),
];

/// "with the two temperatures exchanged and the printed thickness, before its
/// correction factor, taken up to the next 10 mm"
#[test]
fn table_4() {
    for (diameter, printed) in TABLE_4 {
        let next_10 = 10 * printed.div_ceil(1_000);
        assert_eq!(thickness(&economy(diameter)), Ok(next_10), "D {diameter}");
    }
}

/// The bound of table 4 as printed: ta is 207 and Δ is 137. Film and have are
/// in mm.
fn chilled_water_bound(diameter: i32, thickness: u16) -> i16 {
    let film = 2.0 * 33.3 / 20.48;
    let inner = f64::from(diameter) / 10.0;
    let outer = inner + 2.0 * f64::from(thickness);
    let have = outer * f64::ln(outer / inner) + film;
    207 - (137.0 * film / have).ceil() as i16
}

/// The temperatures as printed give the same thicknesses. At the printed
/// thickness have is the printed 58.9 mm and a film of 3.25 mm, so that the
/// surface is 0.72 K below the air; at the next 10 mm it is nearer.
#[test]
fn table_4_as_printed() {
    for (diameter, printed) in TABLE_4 {
        let next_10 = 10 * printed.div_ceil(1_000);
        let answer = both::answer(&chilled_water(diameter)).unwrap();
        assert_eq!(answer[..6], [0, 1, 0, next_10 as u8, NONE_PRINTED, WITHIN]);
        let bound = i16::from_be_bytes([answer[6], answer[7]]);
        let expected = chilled_water_bound(diameter, next_10);
        assert_eq!(bound, expected, "D {diameter}");
    }
    // E × ln (E / D) is 67 × 0.909 = 60.9 mm, and 137 × 3.25 / 64.1 is 6.9.
    let answer = both::answer(&chilled_water(270));
    assert_eq!(answer, Ok([0, 1, 0, 20, NONE_PRINTED, WITHIN, 0, 200]));
}

// Cold sheets. L 400 and α 800 make a film of 5 mm on a wall: have is 5 mm more
// than the rung, and need for a surface is 5 mm × Δ / s.

fn cold_wall(pipe: i32, air: i32, aim: i32) -> Draft {
    let fields = [11, 12_000, pipe, air, 400, 800, 0, 0, 0, 0, aim];
    sheet([4, 1], fields)
}

/// A wall of 20.0 °C less 50.0 K. With P and S the coefficient itself, the
/// square of need is 1,000 × fLτΔ.
fn cold_economy(price: i32) -> Draft {
    let fields = [
        12, 12_000, -300, 200, 400, 800, price, 3_125, 1_897, 1_897, 0,
    ];
    sheet([5, 1], fields)
}

fn with(mut draft: Draft, offset: usize, value: i32) -> Draft {
    put(&mut draft, offset, value);
    draft
}

fn cold_answer(thickness: u16, bound: i16) -> Result<[u8; 8], Refusal> {
    let [[a, b], [c, d]] = [thickness.to_be_bytes(), bound.to_be_bytes()];
    Ok([0, 2, a, b, NONE_PRINTED, WITHIN, c, d])
}

/// Δ is 500. With s = 100 need is 25 mm, have at 20 mm, and the surface is at
/// its aim. With s = 99 it is 2×10¹² / 79,200; at 30 mm the quotient is
/// 2×10¹² / (800 × 35×10⁶) = 71.4.
#[test]
fn a_cold_wall() {
    let wall = cold_wall(-300, 200, 100);
    assert_eq!(both::answer(&wall), cold_answer(20, 100));
    let examined = plain::examine(&wall).unwrap();
    let have = plain::provided_at(&examined, 20);
    assert_eq!(have, whole(25_000_000, 25_000_000));
    assert_eq!(need(&examined), have);

    let wall = cold_wall(-300, 200, 101);
    assert_eq!(both::answer(&wall), cold_answer(30, 200 - 72));
    let examined = plain::examine(&wall).unwrap();
    assert_eq!(need(&examined), whole(25_252_525, 25_252_526));
}

/// "A signed temperature near zero behaves like every other": the same wall
/// with all temperatures moved, and one of −0.1 °C in air of 0.1 °C, which needs
/// 10 mm and has 15, so that the quotient is 2 × 5 / 15.
#[test]
fn cold_walls_about_zero() {
    for air in -500..=500 {
        let wall = cold_wall(air - 500, air, air - 100);
        assert_eq!(both::answer(&wall), cold_answer(20, air as i16 - 100));
        let wall = cold_wall(air - 500, air, air - 99);
        assert_eq!(both::answer(&wall), cold_answer(30, air as i16 - 72));
    }
    assert_eq!(both::answer(&cold_wall(-1, 1, 0)), cold_answer(10, 0));
}

/// Δ / s is 2,460 / 60 = 41, then 2,440 / 40 = 61: 205 mm and 305 mm.
#[test]
fn the_coldest_walls() {
    let wall = cold_wall(-1_960, 500, 440);
    assert_eq!(both::answer(&wall), cold_answer(200, 440));
    let wall = cold_wall(-1_940, 500, 460);
    assert_eq!(both::answer(&wall), cold_answer(300, 460));
    assert_eq!(thickness(&cold_wall(-1_940, 500, 461)), Err(17));
}

/// A film of 1,000 nm, and a need of 1,000 × 2,460 / 2,459.
#[test]
fn a_cold_wall_is_open_at_once() {
    let fields = [13, 12_000, -1_960, 500, 1, 10_000, 0, 0, 0, 0, -1_959];
    let wall = sheet([4, 1], fields);
    assert_eq!(thickness(&wall), Err(18));
    let examined = plain::examine(&wall).unwrap();
    assert_eq!(plain::provided_at(&examined, 0), whole(1_000, 1_000));
    assert_eq!(need(&examined), whole(1_000, 1_001));
}

/// The film is 10 mm and Δ / s is 14. 180 × ln 1.8 is 105.8 mm and 200 × ln 2
/// is 138.6 mm; 1,400 × 10 / 148.6 is 94.2.
#[test]
fn a_cold_pipe() {
    let fields = [14, 1_000, -1_200, 200, 400, 800, 0, 0, 0, 0, 100];
    let answer = both::answer(&sheet([4, 1], fields));
    assert_eq!(answer, Ok([0, 1, 0, 50, NONE_PRINTED, WITHIN, 0, 200 - 95]));
}

/// 1,000 × 1,000 × 400 × 3,125 × 500 is the square of 25×10⁶, and the root of
/// 1.001 is 1.000499875.
#[test]
fn a_cold_wall_for_economy() {
    assert_eq!(both::answer(&cold_economy(1_000)), cold_answer(20, 100));
    let examined = plain::examine(&cold_economy(1_000)).unwrap();
    assert_eq!(need(&examined), whole(25_000_000, 25_000_000));

    assert_eq!(
        both::answer(&cold_economy(1_001)),
        cold_answer(30, 200 - 72)
    );
    let examined = plain::examine(&cold_economy(1_001)).unwrap();
    assert_eq!(need(&examined), whole(25_012_496, 25_012_497));
}

/// "Never below t": f and τ of 1 leave the wall bare. With α 700 under-have is
/// 5,714,285, and 2×10¹² / (700 × 5,714,285) is a little above 500.
#[test]
fn a_bare_cold_wall() {
    let bare = with(cold_economy(1), plain::HOURS.offset, 1);
    assert_eq!(both::answer(&bare), cold_answer(0, -300));
    let bare = with(bare, plain::COEFFICIENT.offset, 700);
    assert_eq!(both::answer(&bare), cold_answer(0, -300));
}

#[test]
fn cold_checks_whatever_the_service() {
    for (code, drafts) in [
        (4, [cold_wall(-300, 200, 100), cold_wall(498, 500, 499)]),
        (5, [cold_economy(1_000), chilled_water(8_300)]),
    ] {
        for mut draft in drafts {
            let first = both::answer(&draft).unwrap();
            assert_eq!(first[4..6], [NONE_PRINTED, WITHIN]);
            for service in plain::SERVICES {
                draft[..2].copy_from_slice(&[code, service as u8]);
                assert_eq!(both::answer(&draft), Ok(first));
            }
            for unknown in [0, 5, 255] {
                draft[plain::SERVICE_OFFSET] = unknown;
                assert_eq!(both::answer(&draft), Err(12));
            }
        }
    }
}

/// "Here t is below ta, down to −1,960"; hot lines keep −500.
#[test]
fn ends_of_the_pipe_temperature() {
    let [cold, economy] = [cold_wall(0, 500, 440), cold_economy(1_000)];
    let at = |draft: Draft, pipe: i32| {
        let draft = with(draft, plain::PIPE_TEMPERATURE.offset, pipe);
        both::answer(&draft).err()
    };
    for draft in [cold, economy] {
        for pipe in [-1_960, -1_959, -501, -500, -499] {
            assert_eq!(at(draft, pipe), None, "t {pipe}");
        }
        assert_eq!(at(draft, -1_961), Some(13));
        assert_eq!(at(draft, 6_500), Some(15));
        assert_eq!(at(draft, 6_501), Some(13));
    }
    for (goal, draft) in [
        (1, economy),
        (2, cold),
        (3, cold),
        (6, economy),
        (7, economy),
    ] {
        let mut hot = with(draft, plain::AIR_TEMPERATURE.offset, -500);
        hot[plain::GOAL_OFFSET] = goal;
        for pipe in [-1_961, -1_960, -501] {
            assert_eq!(at(hot, pipe), Some(13), "goal {goal}, t {pipe}");
        }
        assert_eq!(at(hot, -500), Some(15), "goal {goal}");
    }
}

/// The sheet is answered with the field at either end of its range, and has 13
/// one beyond. Nothing is beyond 65,535.
fn assert_ends(draft: Draft, (field, least, greatest): (Field, i32, i32)) {
    let at = |value| thickness(&with(draft, field.offset, value));
    let place = field.offset;
    for value in [least, greatest] {
        assert!(at(value).is_ok(), "{value} at offset {place}");
    }
    assert_eq!(at(least - 1), Err(13), "offset {place}");
    if greatest < 65_535 {
        assert_eq!(at(greatest + 1), Err(13), "offset {place}");
    }
}

/// The ranges of the fields that every goal uses, but for t, and of those that
/// economy uses.
const COMMON: [(Field, i32, i32); 4] = [
    (plain::DIAMETER, 100, 65_535),
    (plain::AIR_TEMPERATURE, -500, 500),
    (plain::CONDUCTIVITY, 1, 2_000),
    (plain::COEFFICIENT, 100, 10_000),
];
const ECONOMY_ONLY: [(Field, i32, i32); 4] = [
    (plain::HEAT_PRICE, 1, 65_535),
    (plain::HOURS, 1, 8_784),
    (plain::INSULATION_PRICE, 1, 65_535),
    (plain::YEARLY_SHARE, 1, 10_000),
];

/// The pipe is 0.2 K below the coldest air. For a surface Δ / s is 2 at most,
/// and heat of the lowest price asks for little.
#[test]
fn ends_of_the_other_cold_ranges() {
    let wall = cold_wall(-502, 200, -501);
    let economy = with(cold_economy(1), plain::PIPE_TEMPERATURE.offset, -502);
    for range in COMMON {
        assert_ends(wall, range);
        assert_ends(economy, range);
    }
    for range in ECONOMY_ONLY {
        assert_ends(economy, range);
    }
}

/// "t is below ta" and "with t < aim < ta", on both sides.
#[test]
fn cold_temperatures_out_of_order() {
    for air in [-500, -200, -1, 0, 1, 200, 500] {
        for pipe in [air, air + 1, air + 500] {
            // 15 comes before 16.
            assert_eq!(thickness(&cold_wall(pipe, air, air)), Err(15));
            let economy = with(cold_economy(1), plain::PIPE_TEMPERATURE.offset, pipe);
            let economy = with(economy, plain::AIR_TEMPERATURE.offset, air);
            assert_eq!(thickness(&economy), Err(15));
        }
        let pipe = air - 500;
        for aim in [i32::from(i16::MIN), pipe - 1, pipe, air, air + 1, 32_767] {
            assert_eq!(thickness(&cold_wall(pipe, air, aim)), Err(16), "aim {aim}");
        }
        assert_eq!(thickness(&cold_wall(pipe, air, pipe + 1)), Ok(10));
        assert_eq!(thickness(&cold_wall(pipe, air, air - 1)), Err(17));
    }
}

/// "Goal 5 uses offsets 14–21 as goal 1 does and its aim is zero"; for goal 4
/// they are zero.
#[test]
fn cold_fields_used_and_unused() {
    for offset in 14..22 {
        let mut draft = cold_wall(-300, 200, 100);
        draft[offset] = 1;
        assert_eq!(thickness(&draft), Err(14), "offset {offset}");
    }
    for field in plain::FIELDS.into_iter().filter(|field| field.economy_only) {
        let zero = with(cold_economy(1_000), field.offset, 0);
        assert_eq!(thickness(&zero), Err(13), "offset {}", field.offset);
    }
    for aim in [1, 100, 256, -1] {
        let aimed = with(cold_economy(1_000), plain::AIM_OFFSET, aim);
        assert_eq!(thickness(&aimed), Err(14), "aim {aim}");
    }
}

// Sheets of goal 6.

/// A wall with its service, its t and ta, its L and α, and τ. P and S are the
/// coefficient itself and f is 1,000, so that the square of the first need is
/// 10⁶ × LτΔ. For one hour the first pass leaves the wall bare.
fn limited(service: u8, temperatures: (i32, i32), layer: (i32, i32), hours: i32) -> Draft {
    let ((pipe, air), (conductivity, coefficient)) = (temperatures, layer);
    let fields = [
        15,
        12_000,
        pipe,
        air,
        conductivity,
        coefficient,
        1_000,
        hours,
        1_897,
        1_897,
        0,
    ];
    sheet([6, service], fields)
}

/// The answer to a wall; the pass is byte 0.
fn limited_answer(pass: u8, rung: u16, checks: [u8; 2], bound: i16) -> Result<[u8; 8], Refusal> {
    let [[a, b], [c, d]] = [rung.to_be_bytes(), bound.to_be_bytes()];
    Ok([pass, 2, a, b, checks[0], checks[1], c, d])
}

fn with_goal(mut draft: Draft, goal: Goal) -> Draft {
    draft[plain::GOAL_OFFSET] = goal as u8;
    draft
}

/// A film of 8 mm, and Δ is 1,100. The limit of 93.0 W/m² needs 44,000 / 930 =
/// 47.3 mm and 83.7 need 52.6 mm. The first needs are 33, 44 and 54 mm. The
/// quotients of the bound are 8,800 / 58, 8,800 / 48 and 8,800 / 58 again.
#[test]
fn the_first_rung_over_or_within() {
    let wall = |hours| limited(1, (1_300, 200), (400, 500), hours);
    let within = [WITHIN, WITHIN];
    for hours in [1, 2_475] {
        let second = limited_answer(1, 50, within, 200 + 152);
        assert_eq!(both::answer(&wall(hours)), second);
    }
    let economy = both::answer(&with_goal(wall(2_475), Goal::Economy));
    assert_eq!(economy, limited_answer(0, 30, [OVER, WITHIN], 200 + 232));
    for (hours, rung, quotient) in [(4_400, 40, 184), (6_700, 50, 152)] {
        let first = limited_answer(0, rung, within, 200 + quotient);
        assert_eq!(both::answer(&wall(hours)), first);
        let economy = with_goal(wall(hours), Goal::Economy);
        assert_eq!(both::answer(&economy), first);
    }
}

/// The seasonal limit of 163.0 W/m² needs 27.0 mm and 146.7 need 30.0: at 20 mm
/// have is 28 mm, which is enough for the first only.
#[test]
fn ninety_per_cent_of_a_seasonal_limit() {
    let wall = |hours| limited(2, (1_300, 200), (400, 500), hours);
    let answer = |pass| limited_answer(pass, 30, [WITHIN, WITHIN], 200 + 232);
    assert_eq!(both::answer(&wall(1)), answer(1));
    assert_eq!(both::answer(&wall(2_475)), answer(0));
}

/// 90 per cent of 106.8 W/m² are 96.1, rounded down, and need 45,785,640 nm.
/// At 40 mm have is 45,788,712 and 45,780,346. For 96.0 need is 45,833,334, and
/// for 96.2 it is 45,738,046.
#[test]
fn ninety_per_cent_between_rows() {
    let wall = |coefficient| limited(3, (1_300, 200), (400, coefficient), 1);
    assert_eq!(thickness(&wall(691)), Ok(40));
    assert_eq!(thickness(&wall(692)), Ok(50));
    assert_eq!(both::answer(&wall(691)).map(|answer| answer[0]), Ok(1));
}

/// A film of 10 mm. 83.7 W/m² need 60,000,000 nm for a Δ of 600, and 60,100,000
/// for 601. At 60 mm the quotient is 6,010 / 70.
#[test]
fn the_second_rung_meets_by_nothing() {
    let wall = |air| limited(1, (1_000, air), (837, 837), 1);
    let within = [WITHIN, WITHIN];
    let expected = limited_answer(1, 50, within, 400 + 100);
    assert_eq!(both::answer(&wall(400)), expected);
    let expected = limited_answer(1, 60, within, 399 + 86);
    assert_eq!(both::answer(&wall(399)), expected);
}

/// A film of 3,333,333⅓ nm. 83.7 W/m² need 23,333,333⅓ nm, as much as 20 mm
/// have, and 93.0 need 21 mm. For 1,659 hours the first need is 18 mm.
#[test]
fn the_second_rung_is_open() {
    let wall = |hours| limited(1, (1_000, 300), (279, 837), hours);
    assert_eq!(both::answer(&wall(1)), Err(18));
    let answer = both::answer(&wall(1_659)).unwrap();
    assert_eq!(answer[..5], [0, 2, 0, 20, WITHIN]);
}

/// The bare wall loses its limit exactly. The film, and need with it, is
/// 26,666,666⅔ nm or, for an L of 300, 20 mm.
#[test]
fn the_first_rung_is_too_close() {
    let wall = |service, conductivity| limited(service, (1_000, 380), (conductivity, 150), 1);
    let bare = |check| limited_answer(0, 0, [check, OVER], 1_000);
    for service in [1, 3] {
        assert_eq!(both::answer(&wall(service, 400)), Err(18));
        let economy = with_goal(wall(service, 400), Goal::Economy);
        assert_eq!(both::answer(&economy), bare(TOO_CLOSE));
        assert_eq!(both::answer(&wall(service, 300)), bare(WITHIN));
    }
    for service in [2, 4] {
        assert_eq!(both::answer(&wall(service, 400)), bare(WITHIN));
    }
}

/// The film is 25 mm and Δ is 1,500. 93.0 W/m² need 322.6 mm, less than the top
/// rung has, and 83.7 need 358.4 mm. On the first pass every rung misses where
/// P is 1: the square of need is then 1,897 × 8,784 × 3×10¹².
#[test]
fn every_rung_misses() {
    let wall = |hours| limited(1, (1_499, -1), (2_000, 800), hours);
    assert_eq!(both::answer(&wall(1)), Err(17));
    let dear_heat = with(wall(8_784), plain::INSULATION_PRICE.offset, 1);
    assert_eq!(both::answer(&dear_heat), Err(17));
    let economy = with_goal(dear_heat, Goal::Economy);
    assert_eq!(both::answer(&economy), Err(17));
}

/// Where no limit is printed the first pass stands: below 50.0 °C, and for
/// seasonal service from 450.0 °C or, between rows, above 400.0 °C.
#[test]
fn no_limit_to_respect() {
    let beginning = |service, pipe| {
        let wall = limited(service, (pipe, 200), (400, 500), 1);
        let answer = both::answer(&wall).unwrap();
        (answer[0], thickness(&wall) == Ok(0), answer[4])
    };
    for (service, greatest) in [(1, 6_500), (2, 4_499), (3, 6_500), (4, 4_000)] {
        for pipe in [500, greatest] {
            assert_eq!(beginning(service, pipe), (1, false, WITHIN), "t {pipe}");
        }
        assert_eq!(beginning(service, 499), (0, true, NONE_PRINTED));
    }
    for (service, pipe) in [(2, 4_500), (4, 4_001)] {
        assert_eq!(beginning(service, pipe), (0, true, NONE_PRINTED));
    }
}

/// Twice the film is 10 mm. 83.7 W/m² need 105.1 mm; 160 × ln 1.6 is 75.2 mm
/// and 180 × ln 1.8 is 105.8 mm. The quotient is 11,000 / 115.8 = 94.99.
#[test]
fn a_pipe_over_its_limit() {
    let wall = limited(1, (1_300, 200), (400, 800), 1);
    let pipe = with(wall, plain::DIAMETER.offset, 1_000);
    let answer = both::answer(&pipe);
    let [c, d] = 295_i16.to_be_bytes();
    assert_eq!(answer, Ok([1, 1, 0, 40, WITHIN, WITHIN, c, d]));
}

/// "Goal 6 is goal 1 with that second pass; its aim is zero."
#[test]
fn limited_fields() {
    let wall = limited(2, (502, 200), (400, 500), 1);
    for field in plain::FIELDS.into_iter().filter(|field| field.economy_only) {
        let zero = with(wall, field.offset, 0);
        assert_eq!(thickness(&zero), Err(13), "offset {}", field.offset);
    }
    for aim in [1, 100, 256, -1] {
        let aimed = with(wall, plain::AIM_OFFSET, aim);
        assert_eq!(thickness(&aimed), Err(14), "aim {aim}");
    }
    for air in [-500, -1, 0, 1, 500] {
        for pipe in [air - 1, air] {
            let wall = limited(2, (pipe.max(-500), air), (400, 500), 1);
            assert_eq!(thickness(&wall), Err(15), "t {pipe}");
        }
    }
    for range in COMMON.into_iter().chain(ECONOMY_ONLY) {
        assert_ends(wall, range);
    }
}

// Sheets of goal 7. L 400 and α 800 make twice the film 10 mm on a pipe of
// 40 mm: the difference is 3/4 at 0 mm, 5/6 at 10, 7/8 at 20, 9/10 at 30.

/// P and S are the coefficient itself, Δ is 500 and τ 2,000, so that the square
/// of need is 4×10¹¹ × f / (1 + 20,000/E × aim/3,795).
fn jacketed(heat_price: i32, jacket_price: i32) -> Draft {
    let fields = [
        16,
        400,
        700,
        200,
        400,
        800,
        heat_price,
        2_000,
        3_795,
        3_795,
        jacket_price,
    ];
    sheet([7, 1], fields)
}

fn pipe_answer(rung: u8, checks: [u8; 2], bound: i16) -> Result<[u8; 8], Refusal> {
    let [c, d] = bound.to_be_bytes();
    Ok([0, 1, 0, rung, checks[0], checks[1], c, d])
}

/// At 0 mm the square of need is 6.8×10¹⁵ / 51, and 3/4 of it is 10¹⁴, the square
/// of 10 mm. At 10 mm have is 60 × ln 1.5 + 10 = 34.33 mm and the quotient of the
/// bound 5,000 / 34.33 = 145.7. The loss limit needs 69 mm and the surface
/// 16.7 mm.
#[test]
fn a_jacketed_pipe_meets_by_nothing() {
    let pipe = jacketed(17_000, 3_795);
    assert_eq!(both::answer(&pipe), pipe_answer(0, [OVER, OVER], 700));
    let insulated = pipe_answer(10, [OVER, WITHIN], 200 + 146);
    assert_eq!(both::answer(&jacketed(17_001, 3_795)), insulated);
    assert_eq!(both::answer(&jacketed(17_000, 3_794)), insulated);
    let others = [
        (plain::HOURS, 2_001),
        (plain::INSULATION_PRICE, 3_794),
        (plain::YEARLY_SHARE, 3_794),
        (plain::PIPE_TEMPERATURE, 701),
    ];
    for (field, value) in others {
        let pipe = with(pipe, field.offset, value);
        assert_eq!(thickness(&pipe), Ok(10), "offset {}", field.offset);
    }
}

/// Without a jacket need is 82.5 mm. At 20 mm have is 80 × ln 2 + 10 = 65.5 mm
/// where 77.1 is required, 63.8 for a jacket of 70 yuan/m² and 66.9 for one of
/// 50. At 30 mm have is 100 × ln 2.5 + 10 = 101.6. The price has no sign.
#[test]
fn prices_of_the_jacket() {
    for (price, rung) in [(0, 30), (50, 30), (70, 20), (3_795, 0), (65_535, 0)] {
        let pipe = jacketed(17_000, price);
        assert_eq!(thickness(&pipe), Ok(rung), "{price} yuan/m²");
    }
}

/// On a pipe of 10 mm have is more than enough at 0 mm, but the difference is 0
/// there, and below 0 for a smaller α. It is 2/3 at 10 mm.
#[test]
fn a_difference_that_is_not_positive() {
    let pipe = with(jacketed(1, 3_795), plain::DIAMETER.offset, 100);
    for (coefficient, rung) in [(799, 10), (800, 10), (801, 0)] {
        let pipe = with(pipe, plain::COEFFICIENT.offset, coefficient);
        assert_eq!(thickness(&pipe), Ok(rung), "α {coefficient}");
    }
}

/// Twice the film is 400 mm, and the square of need 8×10¹³ × f at every rung.
fn poorly_insulated(diameter: i32, heat_price: i32) -> Draft {
    let fields = [
        17, diameter, 5_200, 200, 2_000, 100, heat_price, 8_000, 3_795, 3_795, 0,
    ];
    sheet([7, 1], fields)
}

/// Need is 2,000 mm. Where E is 410 mm the difference is 1/41 and 312 mm are
/// required, less than the film alone. Where it is 430 mm 528 mm are required,
/// and on a pipe of 390 mm have is 442 mm then; at 300 mm 1,544 and 1,322. The
/// quotient is 2,000,000 / 420.5 = 4,756.2.
#[test]
fn rungs_that_miss_again() {
    let responses = [
        (3_700, Ok(20)),
        (3_900, Ok(10)),
        (4_100, Ok(0)),
        (4_300, Err(17)),
    ];
    for (diameter, response) in responses {
        let pipe = poorly_insulated(diameter, 50_000);
        assert_eq!(thickness(&pipe), response, "D {diameter}");
    }
    let pipe = poorly_insulated(3_900, 50_000);
    let expected = pipe_answer(10, [OVER, OVER], 200 + 4_757);
    assert_eq!(both::answer(&pipe), expected);
    assert_eq!(meeting(&pipe), [10]);
}

/// Need is 1,700 mm. At 10 mm 266 mm are required, at 20 mm 449; at 290 mm 1,303,
/// have being 1,284, and at 300 mm 1,312 of 1,322.
#[test]
fn a_rung_that_meets_again() {
    let pipe = poorly_insulated(3_900, 36_125);
    assert_eq!(thickness(&pipe), Ok(10));
    assert_eq!(meeting(&pipe), [10, 300]);
}

fn meeting(pipe: &Draft) -> Vec<u16> {
    let examined = plain::examine(pipe).unwrap();
    let rungs = plain::jacketed(&examined);
    let meeting = rungs.filter(|&(.., verdict)| verdict == Verdict::Sufficient);
    meeting.map(|(rung, ..)| rung).collect()
}

/// Have at 0 mm is 80/7 mm. With P 10 times, and the jacket's price 4 times, the
/// coefficient the square of need is 6.4×10¹⁵ / 35, and 5/7 of it is the square
/// of have.
#[test]
fn a_jacketed_pipe_is_open() {
    let pipe = |heat_price| {
        let pipe = with(jacketed(heat_price, 15_180), plain::HOURS.offset, 4_000);
        let pipe = with(pipe, plain::INSULATION_PRICE.offset, 37_950);
        with(pipe, plain::COEFFICIENT.offset, 700)
    };
    let examined = plain::examine(&pipe(48_000)).unwrap();
    let have = plain::provided_at(&examined, 0);
    assert_eq!(have, whole(11_428_571, 11_428_572));
    assert_eq!(thickness(&pipe(47_999)), Ok(0));
    assert_eq!(thickness(&pipe(48_000)), Err(18));
    assert_eq!(thickness(&pipe(48_001)), Ok(10));
}

/// Have at 0 mm is 2×10⁷ / 9,999, a little above 2,000 nm. P + 50 × aim is
/// 25 × 19,997, and the difference 19,997 / 19,998: so the square of what is
/// required is 2,001² × f / 2,929. 2,000² lies between f 2,926 and 2,927.
#[test]
fn a_jacketed_pipe_is_open_up_to_its_over_have() {
    let pipe = |heat_price| {
        let fields = [
            18, 400, 209, 200, 1, 9_999, heat_price, 29, 49_925, 5_500, 9_000,
        ];
        sheet([7, 1], fields)
    };
    let responses = [
        (2_926, Ok(0)),
        (2_927, Err(18)),
        (2_929, Err(18)),
        (2_930, Ok(10)),
    ];
    for (heat_price, response) in responses {
        assert_eq!(thickness(&pipe(heat_price)), response, "f {heat_price}");
    }
}

/// The checks and the bound go by the undivided have: 34.33 mm, where the
/// divided one is 37.61. For a Δ of 1,080 the surface limit needs 36 mm; for one
/// of 733 the seasonal loss limit needs 35.98 mm and the surface limit 31.5. The
/// quotients are 10,800 / 34.33 = 314.6 and 7,330 / 34.33 = 213.5.
#[test]
fn checks_by_the_undivided_have() {
    let pipe = with(
        jacketed(17_000, 3_795),
        plain::PIPE_TEMPERATURE.offset,
        1_280,
    );
    let expected = pipe_answer(10, [OVER, OVER], 200 + 315);
    assert_eq!(both::answer(&pipe), expected);

    let mut seasonal = with(pipe, plain::PIPE_TEMPERATURE.offset, 1_000);
    put(&mut seasonal, plain::AIR_TEMPERATURE.offset, 267);
    seasonal[plain::SERVICE_OFFSET] = Service::Seasonal as u8;
    let expected = pipe_answer(10, [OVER, WITHIN], 267 + 214);
    assert_eq!(both::answer(&seasonal), expected);
}

/// "43, after 16, for goal 7 with D above 10,000", also where every rung of a
/// pipe misses.
#[test]
fn a_jacket_on_a_wall() {
    let cheap = jacketed(1, 0);
    let dear = with(jacketed(65_535, 0), plain::YEARLY_SHARE.offset, 1);
    for (pipe, response) in [(cheap, Ok(0)), (dear, Err(17))] {
        let at = |diameter| thickness(&with(pipe, plain::DIAMETER.offset, diameter));
        assert_eq!(at(10_000), response);
        for diameter in [10_001, 10_002, 32_768, 65_535] {
            assert_eq!(at(diameter), Err(43), "D {diameter}");
        }
    }
}

/// "beside goal 1's fields ... the jacket price in yuan/m² in the aim field, 0 to
/// 65,535"
#[test]
fn jacketed_fields() {
    let pipe = jacketed(1, 3_795);
    for price in [0, 1, 255, 256, 32_767, 32_768, 65_535] {
        let pipe = with(pipe, plain::AIM_OFFSET, price);
        assert_eq!(thickness(&pipe), Ok(0), "{price} yuan/m²");
    }
    for field in plain::FIELDS.into_iter().filter(|field| field.economy_only) {
        let zero = with(pipe, field.offset, 0);
        assert_eq!(thickness(&zero), Err(13), "offset {}", field.offset);
    }
    for range in COMMON.into_iter().skip(1).chain(ECONOMY_ONLY) {
        assert_ends(pipe, range);
    }
    let at = |diameter| thickness(&with(pipe, plain::DIAMETER.offset, diameter)).err();
    let diameters = [99, 100, 10_000, 10_001, 65_535];
    let expected = [Some(13), None, None, Some(43), Some(43)];
    assert_eq!(diameters.map(at), expected);
    for air in [-500, -1, 0, 1, 500] {
        for below in [0, 1] {
            let pipe = with(pipe, plain::AIR_TEMPERATURE.offset, air);
            let pipe = with(
                pipe,
                plain::PIPE_TEMPERATURE.offset,
                (air - below).max(-500),
            );
            assert_eq!(thickness(&pipe), Err(15), "ta {air}");
        }
    }
}

#[test]
fn goals() {
    for code in 0..=u8::MAX {
        let mut draft = cold_wall(-300, 200, 100);
        draft[plain::GOAL_OFFSET] = code;
        let expected = match code {
            4 => Ok(20),
            // The other six miss a price or have t on the wrong side.
            1 | 5..=7 => Err(13),
            2 | 3 => Err(15),
            _ => Err(12),
        };
        assert_eq!(thickness(&draft), expected, "goal {code}");
    }
}

/// A sheet that is answered, for each goal. The air is at 20.0 °C.
fn good_sheet(goal: Goal) -> Draft {
    let surface = [15, 12_000, 1_300, 200, 400, 800, 0, 0, 0, 0, 400];
    match goal {
        Goal::Economy => with(economy(12_000), plain::AIR_TEMPERATURE.offset, 200),
        Goal::Loss => sheet_f(800),
        Goal::Surface => sheet([3, 1], surface),
        Goal::ColdSurface => cold_wall(-300, 200, 100),
        Goal::ColdEconomy => cold_economy(1_000),
        Goal::LimitedEconomy => limited(1, (1_300, 200), (400, 500), 4_400),
        Goal::JacketedEconomy => jacketed(17_000, 3_795),
    }
}

/// A fault for each refusal from 12 to 16 and 43 that the goal can have: its
/// number, an offset and the value put there. The service becomes 0, α 99, an
/// unused field or an economy aim 1, t becomes ta, a loss aim 0, a surface aim
/// ta, and a jacket comes on a wall.
fn faults(goal: Goal) -> Vec<(Refusal, usize, i32)> {
    let (heat, aim) = (plain::HEAT_PRICE.offset, plain::AIM_OFFSET);
    let mut faults = vec![
        (12, plain::GOAL_OFFSET, (goal as i32) << 8),
        (13, plain::COEFFICIENT.offset, 99),
        (15, plain::PIPE_TEMPERATURE.offset, 200),
    ];
    faults.extend(match goal {
        Goal::Economy | Goal::ColdEconomy | Goal::LimitedEconomy => vec![(14, aim, 1)],
        Goal::Loss => vec![(14, heat, 1), (16, aim, 0)],
        Goal::Surface | Goal::ColdSurface => vec![(14, heat, 1), (16, aim, 200)],
        Goal::JacketedEconomy => vec![(43, plain::DIAMETER.offset, 10_001)],
    });
    faults.sort();
    faults
}

/// "Tests run in this order." Whichever of the faults hold at once, the lowest
/// number is given; with that fault repaired, the next one.
#[test]
fn the_first_of_several_faults() {
    for goal in plain::GOALS {
        let faults = faults(goal);
        for choice in 0..1 << faults.len() {
            let mut draft = good_sheet(goal);
            let mut first = None;
            for (place, &(number, offset, value)) in faults.iter().enumerate() {
                if choice >> place & 1 == 1 {
                    put(&mut draft, offset, value);
                    first.get_or_insert(number);
                }
            }
            assert_eq!(both::answer(&draft).err(), first, "{goal:?}: {draft:?}");
        }
    }
}

#[test]
fn wrong_lengths() {
    for length in 0..24 {
        assert_eq!(thickness(&sheet_f(800)[..length]), Err(11));
        assert_eq!(thickness(&cold_economy(1)[..length]), Err(11));
    }
}
