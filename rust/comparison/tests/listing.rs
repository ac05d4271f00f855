//! What the floating-point listing program prints.

use comparison::plain::{LINE_OFFSET, SHEET_LENGTH};
use comparison::sheets::{put, Draft};
use std::fs;
use std::io::Write;
use std::process::{Command, Stdio};
use std::thread;

const HEADER: &str = "line shape mm loss surface upto\n";

fn listing(sheets: Vec<u8>) -> String {
    let mut program = Command::new(env!("CARGO_BIN_EXE_float_listing"))
        .stdin(Stdio::piped())
        .stdout(Stdio::piped())
        .spawn()
        .expect("the program starts");
    let mut input = program.stdin.take().expect("a piped input");
    let writer = thread::spawn(move || input.write_all(&sheets));
    let run = program.wait_with_output().expect("the program ends");
    writer.join().unwrap().expect("the program reads it all");
    assert!(run.status.success());
    String::from_utf8(run.stdout).expect("text")
}

/// A flat wall 20.0 °C above the air, whose loss is to be 80.0 W/m²: need is
/// 10 mm, have 5 and 15 mm at the first rungs, and the surface is at most
/// 6.7 °C above the air.
fn wall(line: i32, air: i32) -> Draft {
    let mut draft = [0; SHEET_LENGTH];
    draft[..2].copy_from_slice(&[2, 1]);
    let fields = [line, 12_000, air + 200, air, 400, 800, 0, 0, 0, 0, 800];
    for (place, value) in fields.into_iter().enumerate() {
        put(&mut draft, LINE_OFFSET + 2 * place, value);
    }
    draft
}

/// A cold one 20.0 °C below the air, whose surface is to be 10.0 °C below it at
/// most: need is 10 mm again.
fn cold_wall(line: i32, air: i32) -> Draft {
    let mut draft = wall(line, air);
    draft[0] = 4;
    put(&mut draft, 6, air - 200);
    put(&mut draft, SHEET_LENGTH - 2, air - 100);
    draft
}

/// Too small an aim for 300 mm: have 305 mm, need 400 mm.
fn beyond_the_ladder(line: i32) -> Draft {
    let mut draft = wall(line, 0);
    put(&mut draft, SHEET_LENGTH - 2, 20);
    draft
}

/// The examples' listings were computed in Python.
fn example(name: &str) -> (String, String) {
    let root = concat!(env!("CARGO_MANIFEST_DIR"), "/../../examples/");
    let sheets = fs::read(format!("{root}{name}.sheets")).expect("the example's sheets");
    let text = fs::read_to_string(format!("{root}{name}.txt")).expect("its listing");
    (listing(sheets), text)
}

#[test]
fn ducts_are_listed_as_in_the_example() {
    let (printed, expected) = example("rows");
    assert_eq!(printed, expected);
}

#[test]
fn cold_lines_are_listed_as_in_the_example() {
    let (printed, expected) = example("cold");
    assert_eq!(printed, expected);
}

/// All but line 194, where the exact figures leave the rung open.
#[test]
fn a_plant_is_listed_as_in_the_example() {
    let (printed, expected) = example("plant");
    let pairs = printed.lines().zip(expected.lines());
    let differing: Vec<_> = pairs.filter(|(line, other)| line != other).collect();
    assert_eq!(printed.lines().count(), expected.lines().count());
    assert!(matches!(differing[..], [(_, "194 refused 18")]));
}

#[test]
fn the_header_stands_alone_for_empty_input() {
    assert_eq!(listing(Vec::new()), HEADER);
}

#[test]
fn answers_have_a_bound_with_its_sign() {
    let sheets = [wall(0, 200), wall(8, -200), wall(65_535, -72)].concat();
    let lines = "0 flat 10 none within 26.7\n\
                 8 flat 10 none within -13.3\n\
                 65535 flat 10 none within -0.5\n";
    assert_eq!(listing(sheets), HEADER.to_owned() + lines);
}

/// For so few hours a wall stays bare.
fn bare_cold_wall(line: i32, air: i32) -> Draft {
    let mut draft = cold_wall(line, air);
    draft[0] = 5;
    for (offset, value) in [(14, 1), (16, 1), (18, 1), (20, 10_000), (22, 0)] {
        put(&mut draft, offset, value);
    }
    draft
}

/// The surface is at most 6.7 °C below the air, or as cold as the bare wall.
#[test]
fn cold_answers_have_a_lower_bound() {
    let walls = [cold_wall(0, 200), cold_wall(8, 0), cold_wall(65_535, 72)];
    let sheets = [walls.concat(), bare_cold_wall(10, 5).to_vec()].concat();
    let lines = "0 flat 10 none within 13.3\n\
                 8 flat 10 none within -6.7\n\
                 65535 flat 10 none within 0.5\n\
                 10 flat 0 none within -19.5\n";
    assert_eq!(listing(sheets), HEADER.to_owned() + lines);
}

/// A wall 110.0 °C above the air with a film of 8 mm. For one hour economy
/// leaves it bare, for 4,400 hours it needs 44 mm. The loss limit needs 47.3 mm,
/// and 90 per cent of it 52.6 mm.
fn economy_wall(goal: u8, line: i32, hours: i32) -> Draft {
    let mut draft = [0; SHEET_LENGTH];
    draft[..2].copy_from_slice(&[goal, 1]);
    let fields = [
        line, 12_000, 1_300, 200, 400, 500, 1_000, hours, 1_897, 1_897, 0,
    ];
    for (place, value) in fields.into_iter().enumerate() {
        put(&mut draft, LINE_OFFSET + 2 * place, value);
    }
    draft
}

/// The top rung of the last wall has 302 mm, and the second pass needs 328 mm.
#[test]
fn economy_respects_the_loss_limit() {
    let mut beyond = economy_wall(6, 4, 1);
    for (offset, value) in [(6, 6_500), (8, -431), (10, 1_337), (12, 6_000)] {
        put(&mut beyond, offset, value);
    }
    let walls = [(1, 1, 1), (6, 2, 1), (6, 3, 4_400)];
    let walls = walls.map(|(goal, line, hours)| economy_wall(goal, line, hours));
    let sheets = [walls.concat(), beyond.to_vec()].concat();
    let lines = "1 flat 0 over over 130.0\n\
                 2 flat 50 within within 35.2\n\
                 3 flat 40 within within 38.4\n\
                 4 refused 17\n";
    assert_eq!(listing(sheets), HEADER.to_owned() + lines);
}

/// A pipe 50.0 °C above the air. For L 400 and α 800 twice the film is 10 mm; the
/// loss limit needs 69 mm and the surface 16.7 mm.
fn jacketed_pipe(line: i32, diameter: i32, heat_price: i32) -> Draft {
    let mut draft = [0; SHEET_LENGTH];
    draft[..2].copy_from_slice(&[7, 1]);
    let fields = [
        line, diameter, 700, 200, 400, 800, heat_price, 2_000, 3_795, 3_795, 3_795,
    ];
    for (place, value) in fields.into_iter().enumerate() {
        put(&mut draft, LINE_OFFSET + 2 * place, value);
    }
    draft
}

/// With the jacket 9.7 mm are required of the bare pipe of 40 mm for a heat price
/// of 16,000, and 10.8 mm for one of 20,000. At 10 mm have is 34.3 mm, and on a
/// pipe of 10 mm, whose film is too thick at 0 mm, 43.0 mm.
#[test]
fn jackets_are_counted_on_pipes() {
    let pipes = [
        (1, 400, 16_000),
        (2, 400, 20_000),
        (3, 100, 1),
        (4, 10_001, 1),
    ];
    let pipes = pipes.map(|(line, diameter, price)| jacketed_pipe(line, diameter, price));
    let lines = "1 cylinder 0 over over 70.0\n\
                 2 cylinder 10 over within 34.6\n\
                 3 cylinder 10 over within 31.7\n\
                 4 refused 43\n";
    assert_eq!(listing(pipes.concat()), HEADER.to_owned() + lines);
}

#[test]
fn refused_sheets_and_a_short_piece_have_their_numbers() {
    let mut unknown = wall(3, 0);
    unknown[0] = 9;
    let mut not_cold = wall(5, 0);
    not_cold[0] = 4;
    let whole = [unknown, beyond_the_ladder(4), not_cold].concat();
    let sheets = [&whole[..], &unknown[1..]].concat();
    let lines = "3 refused 12\n4 refused 17\n5 refused 15\n- refused 11\n";
    assert_eq!(listing(sheets), HEADER.to_owned() + lines);
}

/// More sheets than a block or a pipe holds, and one byte.
#[test]
fn blocks_join() {
    let mut sheets = wall(1, 0).repeat(5_000);
    sheets.push(1);
    let lines = "1 flat 10 none within 6.7\n".repeat(5_000) + "- refused 11\n";
    assert_eq!(listing(sheets), HEADER.to_owned() + &lines);
}
