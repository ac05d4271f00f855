//! Larger sheets, with a line number of four bytes: 200,000 that are made from
//! standard ones, by the proved call and by the plain one, and sheets of the
//! papers byte by byte, filed in a larger book.

use comparison::both;
use comparison::plain::{self, Goal, Method, Refusal, LARGER, STANDARD};
use comparison::sheets::{in_layout, Random, Sheets};
use std::collections::BTreeMap;

const SEED: u64 = 0x6c61_7267_6572_5f37;
const SHEETS: usize = 200_000;

/// Sheets that are tried at every length up to the greatest.
const LENGTHENED: usize = 500;
const GREATEST_LENGTH: usize = 60;

/// Sheet F of 01 as line 100,007: later fields stand two bytes further on.
const SHEET_F: [u8; 26] = [
    2, 1, // loss, year-round
    0x00, 0x01, 0x86, 0xa7, // line 100,007
    0x2e, 0xe0, // D 12,000
    0x05, 0x14, // t 1,300
    0x00, 0xc8, // ta 200
    0x01, 0x90, // L 400
    0x03, 0x20, // α 800
    0, 0, 0, 0, 0, 0, 0, 0, // f, τ, P and S
    0x03, 0x20, // aim 800
];

/// Flat, 50 mm, both checks within, up to 30.0 °C.
const ANSWER_F: [u8; 8] = [0, 2, 0, 50, 0, 0, 0x01, 0x2c];

/// "Economy with L 333, α 2,048, f 7,500, τ 2,880, P 1,600, S 2,296, t 207, ta 70."
fn economy(line: u32, diameter: u16) -> [u8; 26] {
    let mut sheet = [0; 26];
    sheet[..2].copy_from_slice(&[1, 1]);
    sheet[2..6].copy_from_slice(&line.to_be_bytes());
    let fields = [diameter, 207, 70, 333, 2_048, 7_500, 2_880, 1_600, 2_296, 0];
    for (place, field) in fields.into_iter().enumerate() {
        let offset = 6 + 2 * place;
        sheet[offset..offset + 2].copy_from_slice(&field.to_be_bytes());
    }
    sheet
}

fn thickness(sheet: &[u8]) -> Result<u16, Refusal> {
    both::answer_in(LARGER, sheet).map(|answer| u16::from_be_bytes([answer[2], answer[3]]))
}

/// The line number may have any value.
#[test]
fn sheets_of_the_paper() {
    for line in [0, 7, 65_535, 65_536, 100_007, 1 << 24, u32::MAX] {
        let mut sheet = SHEET_F;
        sheet[2..6].copy_from_slice(&line.to_be_bytes());
        assert_eq!(both::answer_in(LARGER, &sheet), Ok(ANSWER_F));
        for (aim, expected) in [(799, Ok(60)), (145, Ok(300)), (144, Err(17))] {
            sheet[24..].copy_from_slice(&u16::to_be_bytes(aim));
            assert_eq!(thickness(&sheet), expected, "line {line}, aim {aim}");
        }
        assert_eq!(thickness(&economy(line, 270)), Ok(20));
        assert_eq!(thickness(&economy(line, 320)), Ok(30));
    }
}

/// "Two zero bytes, then capacity and count in four bytes each, then the two
/// arrays": sheets at 10 and 36, answers at 62 and 70.
#[test]
fn a_book_of_two() {
    let mut book = vec![0x77; 78];
    let mut expected = [0; 78];
    assert_eq!(both::new_book(LARGER, &mut book, 2), Ok(()));
    expected[5] = 2;
    assert_eq!(book, expected);

    assert_eq!(both::file(&mut book, &SHEET_F), Ok(ANSWER_F));
    expected[9] = 1;
    expected[10..36].copy_from_slice(&SHEET_F);
    expected[62..70].copy_from_slice(&ANSWER_F);
    assert_eq!(book, expected);

    let second = economy(u32::MAX, 320);
    let answer = both::file(&mut book, &second).expect("an answered sheet");
    assert_eq!(answer[..4], [0, 1, 0, 30]);
    expected[9] = 2;
    expected[36..62].copy_from_slice(&second);
    expected[70..].copy_from_slice(&answer);
    assert_eq!(book, expected);

    assert_eq!(both::file(&mut book, &second), Err(34));
    let entries = [(SHEET_F.to_vec(), ANSWER_F), (second.to_vec(), answer)];
    for (place, entry) in entries.into_iter().enumerate() {
        assert_eq!(both::read(&book, place as u64), Ok(entry));
        assert_eq!(plain::read(&book, place as u64), Err(31));
    }
    assert_eq!(both::read(&book, 2), Err(33));
}

/// An answer, or the number of a refusal.
type Response = Result<[u8; 8], Refusal>;

fn proved(standard: &[u8]) -> Response {
    let mut answer = [0; 8];
    match kennelday::answer(standard, &mut answer) {
        Ok(()) => Ok(answer),
        Err(refusal) => Err(refusal.number()),
    }
}

/// How often each response came, 0 standing for an answer: for every goal, and
/// for line numbers up to 65,535 and above.
#[derive(Default)]
struct Spread {
    goals: BTreeMap<(Refusal, u8), usize>,
    lines: BTreeMap<(Refusal, bool), usize>,
}

impl Spread {
    /// Before refusal 13 there may be no goal and no line number.
    fn count(&mut self, sheet: &[u8], response: Response) {
        let number = response.err().unwrap_or(0);
        if sheet.len() == LARGER.sheet_length() {
            let large = sheet[2..4] != [0, 0];
            *self.lines.entry((number, large)).or_default() += 1;
        }
        if number == 0 || number > 12 {
            let goal = sheet[plain::GOAL_OFFSET];
            *self.goals.entry((number, goal)).or_default() += 1;
        }
    }

    fn assert_goal(&self, least: usize, number: Refusal, goal: Goal) {
        let times = self.goals.get(&(number, goal as u8)).copied().unwrap_or(0);
        println!("{goal:?} {number}: {times}");
        assert!(times >= least, "{goal:?} {number} came {times} times only");
    }

    fn assert_lines(&self, least: usize, number: Refusal) {
        for large in [false, true] {
            let times = self.lines.get(&(number, large)).copied().unwrap_or(0);
            println!("{number}, line number above 65,535 {large}: {times}");
            assert!(times >= least, "{number}, {large}: {times} times only");
        }
    }
}

/// The refusals from 13 to 16 and 43 that a goal has.
fn refusals(goal: Goal) -> &'static [Refusal] {
    match goal.method() {
        Method::Economy => &[13, 14, 15],
        Method::Loss | Method::Surface => &[13, 14, 15, 16],
        Method::JacketedEconomy => &[13, 15, 43],
    }
}

/// A larger sheet's response is that of "the standard sheet with the same other
/// fields". 11 came for other lengths.
#[test]
fn the_line_number_changes_no_answer() {
    let mut random = Random::new(SEED);
    let mut spread = Spread::default();
    let mut wrong_lengths = 0;
    for (_, sheet) in Sheets::new(SEED, |_| true).take(SHEETS) {
        let larger = in_layout(&mut random, LARGER, sheet.clone());
        let response = both::answer_in(LARGER, &larger);
        assert_eq!(response, proved(&sheet), "{sheet:?}");
        spread.count(&larger, response);
        wrong_lengths += usize::from(response == Err(11));
    }
    println!("11: {wrong_lengths}");
    assert!(wrong_lengths >= 1_500, "11 came {wrong_lengths} times only");
    for number in [0, 12, 13, 14, 15, 16, 17, 18, 43] {
        spread.assert_lines(300, number);
    }
    for goal in plain::GOALS {
        spread.assert_goal(5_000, 0, goal);
        for number in [17, 18] {
            spread.assert_goal(200, number, goal);
        }
        for &number in refusals(goal) {
            spread.assert_goal(200, number, goal);
        }
    }
}

/// Bytes that begin with a good sheet, up to each length from none: only a whole
/// sheet is answered.
#[test]
fn other_lengths() {
    let mut random = Random::new(SEED + 1);
    let good = Sheets::new(SEED + 1, |_| true).filter(|(_, sheet)| plain::answer(sheet).is_ok());
    for (_, sheet) in good.take(LENGTHENED) {
        for layout in [STANDARD, LARGER] {
            let mut bytes = in_layout(&mut random, layout, sheet.clone());
            bytes.resize_with(GREATEST_LENGTH, || random.byte());
            for length in 0..=GREATEST_LENGTH {
                let response = both::answer_in(layout, &bytes[..length]);
                let whole = length == layout.sheet_length();
                assert_eq!(response.err(), if whole { None } else { Some(11) });
            }
        }
    }
}
