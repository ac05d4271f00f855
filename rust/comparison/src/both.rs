//! Each call made twice, proved and plain. Any difference is a panic, and so
//! is a byte that a refused call changed.

use crate::plain::{
    self, Entry, Layout, Refusal, ANSWER_LENGTH, LARGER, LARGER_SHEET_LENGTH, SHEET_LENGTH,
    STANDARD,
};

/// What stands in the lent bytes before a call.
const PATTERN: u8 = 0xa5;

/// What a call of the proved library returns.
type Outcome = Result<(), kennelday::Refusal>;

fn number(refusal: kennelday::Refusal) -> Refusal {
    refusal.number()
}

/// The answer to a standard sheet.
pub fn answer(sheet: &[u8]) -> Result<[u8; ANSWER_LENGTH], Refusal> {
    answer_in(STANDARD, sheet)
}

pub fn answer_in(layout: Layout, sheet: &[u8]) -> Result<[u8; ANSWER_LENGTH], Refusal> {
    let call = match layout {
        LARGER => kennelday::answer_larger,
        _ => kennelday::answer,
    };
    let mut lent = [PATTERN; ANSWER_LENGTH];
    let proved = call(sheet, &mut lent).map_err(number);
    let plain = plain::answer_in(layout, sheet);
    let name = layout.name;
    assert_eq!(proved.err(), plain.err(), "refusal of {name} {sheet:?}");
    let expected = plain.unwrap_or([PATTERN; ANSWER_LENGTH]);
    assert_eq!(lent, expected, "answer to {name} {sheet:?}");
    plain
}

pub fn new_book(layout: Layout, book: &mut [u8], capacity: u64) -> Result<(), Refusal> {
    let call = match layout {
        LARGER => kennelday::new_larger_book,
        _ => kennelday::new_book,
    };
    let mut expected = book.to_vec();
    let plain = plain::new_book(layout, &mut expected, capacity);
    let proved = call(book, capacity).map_err(number);
    let (name, length) = (layout.name, book.len());
    assert_eq!(proved, plain, "{name}, {length} bytes, capacity {capacity}");
    assert_same(book, &expected, || format!("capacity {capacity}"));
    plain
}

/// Books can be large: only the first byte that differs is printed.
pub fn assert_same(proved: &[u8], plain: &[u8], label: impl Fn() -> String) {
    if proved != plain {
        let mut pairs = proved.iter().zip(plain);
        let place = pairs.position(|(proved, plain)| proved != plain);
        panic!("byte {place:?} of the book differs: {}", label());
    }
}

pub fn file(book: &mut [u8], sheet: &[u8]) -> Result<[u8; ANSWER_LENGTH], Refusal> {
    let before = book.to_vec();
    let mut expected = before.clone();
    let plain = file_in_each([book, &mut expected], sheet);
    assert_same(book, &expected, || format!("{sheet:?}"));
    if plain.is_err() {
        assert_same(book, &before, || format!("refused filing of {sheet:?}"));
    }
    plain
}

/// Files in two equal books, in one by the proved call and in the other by the
/// plain one. Whether they are equal again is left to the caller.
pub fn file_in_each(
    [proved_book, plain_book]: [&mut [u8]; 2],
    sheet: &[u8],
) -> Result<[u8; ANSWER_LENGTH], Refusal> {
    let mut lent = [PATTERN; ANSWER_LENGTH];
    let proved = kennelday::file(proved_book, sheet, &mut lent).map_err(number);
    let plain = plain::file(plain_book, sheet);
    assert_eq!(proved.err(), plain.err(), "filing {sheet:?}");
    let expected = plain.unwrap_or([PATTERN; ANSWER_LENGTH]);
    assert_eq!(lent, expected, "answer on filing {sheet:?}");
    plain
}

/// A call that reads an entry into so many bytes lent for the sheet.
type Reader<const N: usize> = fn(&[u8], u64, &mut [u8; N], &mut [u8; ANSWER_LENGTH]) -> Outcome;

/// Reads by the call for either kind, and by the one for standard books, which
/// agrees with it on those and gives 31 to a larger book. A standard sheet
/// leaves the last two of the bytes that the first call is lent for a sheet.
pub fn read(book: &[u8], entry: u64) -> Result<Entry, Refusal> {
    let plain = plain::read_either(book, entry);
    assert_read::<LARGER_SHEET_LENGTH>(kennelday::read_either, &plain, book, entry);
    if plain::layout_of(book) == LARGER {
        let standard = plain::read(book, entry);
        assert_eq!(standard, Err(31), "entry {entry} of a larger book");
        assert_read::<SHEET_LENGTH>(kennelday::read, &standard, book, entry);
    } else {
        assert_read::<SHEET_LENGTH>(kennelday::read, &plain, book, entry);
    }
    plain
}

/// Makes the proved call. Of the bytes lent for a sheet it changes only as many
/// as the plain one returned.
fn assert_read<const N: usize>(
    call: Reader<N>,
    plain: &Result<Entry, Refusal>,
    book: &[u8],
    entry: u64,
) {
    let mut lent = ([PATTERN; N], [PATTERN; ANSWER_LENGTH]);
    let mut expected = lent;
    let proved = call(book, entry, &mut lent.0, &mut lent.1).map_err(number);
    let length = book.len();
    let refusal = plain.as_ref().err().copied();
    assert_eq!(proved.err(), refusal, "reading {entry} of {length} bytes");
    if let Ok((sheet, answer)) = plain {
        expected.0[..sheet.len()].copy_from_slice(sheet);
        expected.1 = *answer;
    }
    assert_eq!(lent, expected, "entry {entry} of {length} bytes");
}

/// The call is made over two patterns: a refused one must leave either.
pub fn share(rate: u64, years: u64) -> Result<u16, Refusal> {
    let plain = plain::share(rate, years);
    for pattern in [PATTERN, !PATTERN] {
        let untouched = u16::from_ne_bytes([pattern; 2]);
        let mut lent = untouched;
        let proved = kennelday::share(rate, years, &mut lent).map_err(number);
        assert_eq!(proved.err(), plain.err(), "rate {rate}, {years} years");
        let expected = plain.unwrap_or(untouched);
        assert_eq!(lent, expected, "share of rate {rate}, {years} years");
    }
    plain
}
