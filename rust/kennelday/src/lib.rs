//! Insulation thickness for hot and cold pipes and walls, and the book that keeps
//! it.
//!
//! Each function is one call of the proved library. The caller lends every
//! byte; a refused call changes none of them and returns its number alone.
//!
//! ```
//! // Sheet F: the heat loss of a flat wall at 130.0 °C is to be 80.0 W/m².
//! let sheet: [u8; 24] = [
//!     2, 1, // goal: loss; service: year-round
//!     0, 7, // line number
//!     0x2e, 0xe0, // D: 1200.0 mm
//!     0x05, 0x14, // t: 130.0 °C
//!     0x00, 0xc8, // ta: 20.0 °C
//!     0x01, 0x90, // conductivity: 0.0400 W/(m·K)
//!     0x03, 0x20, // surface coefficient: 8.00 W/(m²·K)
//!     0, 0, 0, 0, 0, 0, 0, 0, // prices, hours and share: unused
//!     0x03, 0x20, // aim: 80.0 W/m²
//! ];
//!
//! let mut book = [0; 4 + 32 * 2];
//! kennelday::new_book(&mut book, 2)?;
//!
//! let mut answer = [0; 8];
//! kennelday::file(&mut book, &sheet, &mut answer)?;
//! // Flat, 50 mm, both checks within, surface up to 30.0 °C.
//! assert_eq!(answer, [0, 2, 0, 50, 0, 0, 0x01, 0x2c]);
//!
//! let (mut stored_sheet, mut stored_answer) = ([0; 24], [0; 8]);
//! kennelday::read(&book, 0, &mut stored_sheet, &mut stored_answer)?;
//! assert_eq!((stored_sheet, stored_answer), (sheet, answer));
//!
//! // Nothing else is filed.
//! let refused = kennelday::read(&book, 1, &mut stored_sheet, &mut stored_answer);
//! assert_eq!(refused.unwrap_err().number(), 33);
//!
//! // Ten per cent over six years: a yearly share of 0.2296.
//! let mut share = 0;
//! kennelday::share(1_000, 6, &mut share)?;
//! assert_eq!(share, 2_296);
//!
//! // The same wall as line 100,007: a larger sheet, and a larger book for it.
//! let [goal, service, _, _, fields @ ..] = sheet;
//! let mut larger_sheet = [0; 26];
//! larger_sheet[..2].copy_from_slice(&[goal, service]);
//! larger_sheet[2..6].copy_from_slice(&100_007_u32.to_be_bytes());
//! larger_sheet[6..].copy_from_slice(&fields);
//!
//! let mut larger_book = [0; 10 + 34 * 2];
//! kennelday::new_larger_book(&mut larger_book, 2)?;
//!
//! let mut larger_answer = [0; 8];
//! kennelday::answer_larger(&larger_sheet, &mut larger_answer)?;
//! assert_eq!(larger_answer, answer);
//! kennelday::file(&mut larger_book, &larger_sheet, &mut larger_answer)?;
//! assert_eq!(larger_answer, answer);
//!
//! let (mut stored_sheet, mut stored_answer) = ([0; 26], [0; 8]);
//! kennelday::read_either(&larger_book, 0, &mut stored_sheet, &mut stored_answer)?;
//! assert_eq!((stored_sheet, stored_answer), (larger_sheet, answer));
//!
//! // From a standard book it reads a standard sheet, into the first 24 bytes.
//! kennelday::read_either(&book, 0, &mut stored_sheet, &mut stored_answer)?;
//! assert_eq!(stored_sheet[..24], sheet);
//! assert_eq!(stored_sheet[24..], larger_sheet[24..]);
//! # Ok::<(), kennelday::Refusal>(())
//! ```

extern "C" {
    fn kd_answer(sheet: *const u8, sheet_len: usize, answer: *mut u8) -> u8;
    fn kd_answer_larger(sheet: *const u8, sheet_len: usize, answer: *mut u8) -> u8;
    fn kd_new_book(book: *mut u8, book_len: usize, capacity: u64) -> u8;
    fn kd_new_larger_book(book: *mut u8, book_len: usize, capacity: u64) -> u8;
    fn kd_file(
        book: *mut u8,
        book_len: usize,
        sheet: *const u8,
        sheet_len: usize,
        answer: *mut u8,
    ) -> u8;
    fn kd_read(book: *const u8, book_len: usize, entry: u64, sheet: *mut u8, answer: *mut u8)
        -> u8;
    fn kd_read_either(
        book: *const u8,
        book_len: usize,
        entry: u64,
        sheet: *mut u8,
        answer: *mut u8,
    ) -> u8;
    fn kd_share(rate: u64, years: u64, share: *mut u16) -> u8;
}

/// A sheet, a book or a rate and term sent back, with the number of the first
/// case that holds.
#[derive(Debug, Clone, Copy, PartialEq, Eq)]
pub struct Refusal(u8);

impl Refusal {
    /// The number in the list of refusals.
    pub fn number(self) -> u8 {
        self.0
    }
}

fn outcome(number: u8) -> Result<(), Refusal> {
    match number {
        0 => Ok(()),
        _ => Err(Refusal(number)),
    }
}

/// Works out a sheet of 24 bytes and writes its answer.
///
/// A refused sheet leaves `answer` as it was.
pub fn answer(sheet: &[u8], answer: &mut [u8; 8]) -> Result<(), Refusal> {
    // SAFETY: both pointers come from live, separate borrows of the stated lengths.
    outcome(unsafe { kd_answer(sheet.as_ptr(), sheet.len(), answer.as_mut_ptr()) })
}

/// Works out a larger sheet, one of 26 bytes with its line number in four of
/// them, and writes its answer: that of the sheet of 24 bytes with the same
/// other fields.
///
/// A refused sheet, also one of another length, leaves `answer` as it was.
pub fn answer_larger(sheet: &[u8], answer: &mut [u8; 8]) -> Result<(), Refusal> {
    // SAFETY: both pointers come from live, separate borrows of the stated lengths.
    outcome(unsafe { kd_answer_larger(sheet.as_ptr(), sheet.len(), answer.as_mut_ptr()) })
}

/// Makes an empty book of 4 + 32 × `capacity` bytes, capacity 1 to 1,000.
///
/// A refused call leaves `book` as it was.
pub fn new_book(book: &mut [u8], capacity: u64) -> Result<(), Refusal> {
    // SAFETY: the pointer comes from a live borrow of the stated length.
    outcome(unsafe { kd_new_book(book.as_mut_ptr(), book.len(), capacity) })
}

/// Makes an empty larger book, one for larger sheets, of 10 + 34 × `capacity`
/// bytes, capacity 1 to 100,000. Its first two bytes are zero, which tells it
/// from other books.
///
/// A refused call, 31 for another capacity or length, leaves `book` as it was.
pub fn new_larger_book(book: &mut [u8], capacity: u64) -> Result<(), Refusal> {
    // SAFETY: the pointer comes from a live borrow of the stated length.
    outcome(unsafe { kd_new_larger_book(book.as_mut_ptr(), book.len(), capacity) })
}

/// Works out a sheet, files it with its answer and writes the answer. A larger
/// book takes larger sheets, any other book sheets of 24 bytes; a sheet of the
/// other kind is refused with 11.
///
/// A refused filing leaves `book` and `answer` as they were.
pub fn file(book: &mut [u8], sheet: &[u8], answer: &mut [u8; 8]) -> Result<(), Refusal> {
    // SAFETY: the pointers come from live, separate borrows of the stated lengths.
    outcome(unsafe {
        kd_file(
            book.as_mut_ptr(),
            book.len(),
            sheet.as_ptr(),
            sheet.len(),
            answer.as_mut_ptr(),
        )
    })
}

/// Reads an entry, counted from 0, and works its sheet out again. A larger book
/// is refused with 31, whatever it holds: `read_either` reads both kinds.
///
/// A refused reading leaves `sheet` and `answer` as they were.
pub fn read(
    book: &[u8],
    entry: u64,
    sheet: &mut [u8; 24],
    answer: &mut [u8; 8],
) -> Result<(), Refusal> {
    // SAFETY: the pointers come from live, separate borrows of the stated lengths.
    outcome(unsafe {
        kd_read(
            book.as_ptr(),
            book.len(),
            entry,
            sheet.as_mut_ptr(),
            answer.as_mut_ptr(),
        )
    })
}

/// Reads an entry of a book of either kind, counted from 0, and works its sheet
/// out again. The book's first two bytes say which kind it is: where both are
/// zero, a larger one. A larger sheet fills `sheet`; one of 24 bytes is written
/// at its start, and the last two bytes stay as they were.
///
/// A refused reading leaves `sheet` and `answer` as they were.
pub fn read_either(
    book: &[u8],
    entry: u64,
    sheet: &mut [u8; 26],
    answer: &mut [u8; 8],
) -> Result<(), Refusal> {
    // SAFETY: the pointers come from live, separate borrows of the stated lengths.
    outcome(unsafe {
        kd_read_either(
            book.as_ptr(),
            book.len(),
            entry,
            sheet.as_mut_ptr(),
            answer.as_mut_ptr(),
        )
    })
}

/// Works out the yearly share of a rate, 1 to 3,000, over 2 to 30 years. Both
/// the rate and the share count 0.0001.
///
/// A refused call leaves `share` as it was.
pub fn share(rate: u64, years: u64, share: &mut u16) -> Result<(), Refusal> {
    // SAFETY: the pointer comes from a live borrow.
    outcome(unsafe { kd_share(rate, years, share) })
}
