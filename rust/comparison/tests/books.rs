//! Books of both kinds, sound and damaged, by the proved calls and by the plain
//! ones. After each call the whole book is compared; while a book of 100,000 is
//! filled, only now and then.

use comparison::both;
use comparison::plain::{self, Entry, Goal, Layout, Refusal, LARGER, STANDARD};
use comparison::sheets::{in_layout, Random, Sheets};
use std::collections::BTreeMap;

const SEED: u64 = 0x626f_6f6b_5f6f_6e65;
const GREATEST_SMALL: i32 = 5;

/// Sheets to file: answered ones, the same as sheets of the other kind, and
/// refused ones by their number.
struct Pool {
    good: Vec<Vec<u8>>,
    other_kind: Vec<Vec<u8>>,
    refused: BTreeMap<Refusal, Vec<Vec<u8>>>,
}

fn other_kind(layout: Layout) -> Layout {
    match layout {
        LARGER => STANDARD,
        _ => LARGER,
    }
}

impl Pool {
    fn new(layout: Layout, seed: u64) -> Pool {
        let mut pool = Pool {
            good: Vec::new(),
            other_kind: Vec::new(),
            refused: BTreeMap::new(),
        };
        let mut random = Random::new(seed);
        for (_, standard) in Sheets::new(seed, |_| true).take(10_000) {
            let other = in_layout(&mut random, other_kind(layout), standard.clone());
            let sheet = in_layout(&mut random, layout, standard);
            match plain::answer_in(layout, &sheet) {
                Ok(_) => {
                    pool.good.push(sheet);
                    pool.other_kind.push(other);
                }
                Err(number) => pool.refused.entry(number).or_default().push(sheet),
            }
        }
        pool
    }

    fn good(&self, random: &mut Random) -> &[u8] {
        &self.good[random.below(self.good.len())]
    }

    fn other_kind(&self, random: &mut Random) -> &[u8] {
        &self.other_kind[random.below(self.other_kind.len())]
    }

    fn refused(&self, random: &mut Random) -> &[u8] {
        let number = random.below(self.refused.len());
        let sheets = self.refused.values().nth(number).expect("a number");
        &sheets[random.below(sheets.len())]
    }
}

/// Whether a filed entry with another goal in its sheet must be refused: the goal
/// is unknown, a hot line is said to be cold, or a cold one hot; a wall or a line
/// without prices is said to have a jacket, or its price stays with a goal that
/// has no aim. The answer of a second pass is goal 6's alone.
fn refused_with_goal(code: u8, sheet: &[u8], answer: &[u8]) -> bool {
    let goal_of = |code| plain::GOALS.into_iter().find(|&goal| goal as u8 == code);
    let filed = goal_of(sheet[plain::GOAL_OFFSET]).expect("a known goal");
    let Some(goal) = goal_of(code) else {
        return true;
    };
    let priced = |goal: Goal| plain::used(&plain::HEAT_PRICE, goal);
    let jacketed = goal == Goal::JacketedEconomy;
    let wall = answer[1] == plain::Shape::Flat as u8;
    let aimed = !sheet.ends_with(&[0, 0]);
    goal != filed && answer[0] == 1
        || goal.flow() != filed.flow()
        || priced(goal) != priced(filed)
        || jacketed && wall
        || priced(goal) && !jacketed && aimed
}

/// The state of a test of one kind of book: its sheets, how often each response
/// came, and how many sheets of each goal and answers of a second pass were filed.
struct Trial {
    layout: Layout,
    random: Random,
    pool: Pool,
    responses: BTreeMap<(&'static str, Refusal), usize>,
    filed: BTreeMap<u8, usize>,
    second_passes: usize,
}

impl Trial {
    fn new(layout: Layout, seed: u64) -> Trial {
        Trial {
            layout,
            random: Random::new(seed),
            pool: Pool::new(layout, seed),
            responses: BTreeMap::new(),
            filed: BTreeMap::new(),
            second_passes: 0,
        }
    }

    fn count<T>(&mut self, call: &'static str, response: Result<T, Refusal>) -> Option<T> {
        let number = response.as_ref().err().copied().unwrap_or(0);
        *self.responses.entry((call, number)).or_default() += 1;
        response.ok()
    }

    fn assert_at_least(&self, least: usize, call: &'static str, numbers: &[Refusal]) {
        let name = self.layout.name;
        for &number in numbers {
            let times = self.responses.get(&(call, number)).copied().unwrap_or(0);
            println!("{name}, {call} {number}: {times}");
            assert!(times >= least, "{call} {number} came {times} times only");
        }
    }

    fn assert_every_goal_filed(&self, least: usize) {
        for goal in plain::GOALS {
            let times = self.filed.get(&(goal as u8)).copied().unwrap_or(0);
            println!("{goal:?} filed: {times}");
            assert!(times >= least, "{goal:?} was filed {times} times only");
        }
        let times = self.second_passes;
        println!("second passes filed: {times}");
        assert!(times >= least, "{times} second passes were filed only");
    }

    /// Makes a book over bytes that hold something else.
    fn new_book(&mut self, capacity: usize) -> Vec<u8> {
        let mut book = vec![0; self.layout.book_length(capacity)];
        book.fill_with(|| self.random.byte());
        let made = both::new_book(self.layout, &mut book, capacity as u64);
        self.count("new", made).expect("a sound capacity");
        book
    }

    fn file_good(&mut self, book: &mut [u8]) -> Option<(Vec<u8>, [u8; 8])> {
        let sheet = self.pool.good(&mut self.random).to_vec();
        let answer = self.count("file", both::file(book, &sheet))?;
        let goal = sheet[plain::GOAL_OFFSET];
        *self.filed.entry(goal).or_default() += 1;
        self.second_passes += usize::from(answer[0]);
        Some((sheet, answer))
    }

    fn file_refused(&mut self, book: &mut [u8]) {
        let sheet = self.pool.refused(&mut self.random).to_vec();
        self.count("file", both::file(book, &sheet));
    }

    /// "11 for 26 bytes in the larger book", and for 24 in the standard one. The
    /// book's own refusals come first.
    fn file_other_kind(&mut self, book: &mut [u8]) {
        let sheet = self.pool.other_kind(&mut self.random).to_vec();
        let response = both::file(book, &sheet);
        assert!(response.is_err(), "{sheet:?}");
        self.count("file other kind", response);
    }

    /// Files that many good sheets, refused ones among them. Then every entry
    /// has to read back as it was filed.
    fn fill(&mut self, book: &mut [u8], entries: usize) {
        let mut filed = Vec::new();
        while filed.len() < entries {
            if self.random.once_in(3) {
                self.file_refused(book);
            }
            filed.push(self.file_good(book).expect("a good sheet"));
        }
        for (entry, (sheet, answer)) in filed.into_iter().enumerate() {
            let stored = self.read(book, entry as u64);
            assert_eq!(stored, Ok((sheet, answer)));
        }
    }

    fn read(&mut self, book: &[u8], entry: u64) -> Result<Entry, Refusal> {
        let response = both::read(book, entry);
        self.count("read", response.clone());
        response
    }

    /// Reads at the first entries and far beyond them, also where a slot's offset
    /// runs over 64 bits, and files all sorts of sheets into a copy.
    fn visit(&mut self, book: &[u8]) {
        for entry in 0..=GREATEST_SMALL as u64 + 1 {
            _ = self.read(book, entry);
        }
        let largest = self.layout.largest_capacity;
        for entry in [largest, 1 << 16, 1 << 32, 1 << 59, 1 << 63, u64::MAX] {
            _ = self.read(book, entry);
        }
        let mut copy = book.to_vec();
        self.file_refused(&mut copy);
        self.file_other_kind(&mut copy);
        self.file_good(&mut copy);
        self.file_good(&mut copy);
    }

    /// These values in every byte of the header.
    fn damage_header(&mut self, book: &[u8], values: impl Fn(u8) -> Vec<u8>) {
        for offset in 0..self.layout.header_length() {
            for value in values(book[offset]) {
                let mut damaged = book.to_vec();
                damaged[offset] = value;
                self.visit(&damaged);
            }
        }
    }

    /// One byte in the sheet slots, one in the answer slots.
    fn damage_slots(&mut self, book: &[u8], capacity: usize) {
        let first_slots = [
            self.layout.sheet_slot(0),
            self.layout.answer_slot(capacity, 0),
        ];
        for slot in first_slots {
            let mut damaged = book.to_vec();
            let place = self.random.below(slot.len() * capacity);
            damaged[slot.start + place] ^= 1 + self.random.below(255) as u8;
            _ = self.read(&damaged, (place / slot.len()) as u64);
            self.visit(&damaged);
        }
    }

    /// Another goal in each sheet slot.
    fn damage_goals(&mut self, book: &[u8], capacity: usize, entries: usize) {
        for entry in 0..capacity {
            let sheet = self.layout.sheet_slot(entry);
            let filed = &book[sheet.clone()];
            let answer = &book[self.layout.answer_slot(capacity, entry)];
            for code in 0..=plain::GOALS.len() as u8 + 1 {
                let mut damaged = book.to_vec();
                damaged[sheet.start + plain::GOAL_OFFSET] = code;
                let response = self.read(&damaged, entry as u64);
                if entry >= entries {
                    assert_eq!(response, Err(33));
                } else if refused_with_goal(code, filed, answer) {
                    assert_eq!(response, Err(35), "goal {code} in {book:?}");
                }
            }
        }
    }

    /// Another byte 0 in the answer slot of each entry.
    fn damage_passes(&mut self, book: &[u8], capacity: usize, entries: usize) {
        for entry in 0..entries {
            let pass = self.layout.answer_slot(capacity, entry).start;
            for other in (0..=2).filter(|&other| other != book[pass]) {
                let mut damaged = book.to_vec();
                damaged[pass] = other;
                let response = self.read(&damaged, entry as u64);
                assert_eq!(response, Err(35), "byte 0 {other} in {book:?}");
            }
        }
    }

    /// Another line number: the entry is read back with it.
    fn damage_line_numbers(&mut self, book: &[u8], entries: usize) {
        for entry in 0..entries {
            let start = self.layout.sheet_slot(entry).start + plain::LINE_OFFSET;
            for place in start..start + self.layout.line_width {
                let mut damaged = book.to_vec();
                damaged[place] ^= 1 + self.random.below(255) as u8;
                let (sheet, _) = self.read(&damaged, entry as u64).expect("an entry");
                assert_eq!(sheet, damaged[self.layout.sheet_slot(entry)]);
            }
        }
    }

    /// Other lengths, down to none, and another capacity with its own length.
    fn damage_length(&mut self, book: &[u8]) {
        let length = book.len();
        let random = &mut self.random;
        let (shorter, longer) = (random.below(length), length + random.below(100));
        let other = random.between(1, GREATEST_SMALL + 1) as usize;
        let others = [length - 1, length + 1, shorter, longer];
        for wanted in (0..=12).chain(others) {
            let mut damaged = book.to_vec();
            damaged.resize(wanted, 0);
            self.visit(&damaged);
        }
        let mut damaged = book.to_vec();
        damaged.resize(self.layout.book_length(other), 0);
        plain::put_size(&mut damaged, self.layout.capacity_slot(), other);
        self.visit(&damaged);
    }

    /// The first two bytes of either kind. They tell a book's kind and, of a
    /// standard one, the capacity, so with other ones it has no capacity that goes
    /// with its length.
    fn damage_kind(&mut self, book: &[u8]) {
        for kind in [[0, 0], [0, 1], [1, 0]] {
            let mut damaged = book.to_vec();
            damaged[..2].copy_from_slice(&kind);
            if damaged != book {
                assert_eq!(self.read(&damaged, 0), Err(31));
                let sheet = self.pool.good(&mut self.random);
                assert_eq!(both::file(&mut damaged, sheet), Err(31));
            }
            self.visit(&damaged);
        }
    }
}

fn every_value(_: u8) -> Vec<u8> {
    (0..=u8::MAX).collect()
}

fn small_books(layout: Layout, seed: u64, books: usize) -> Trial {
    let mut trial = Trial::new(layout, seed);
    for _ in 0..books {
        let capacity = trial.random.between(1, GREATEST_SMALL) as usize;
        let mut book = trial.new_book(capacity);
        trial.visit(&book);
        let to_the_brim = !trial.random.once_in(3);
        let entries = if to_the_brim {
            capacity
        } else {
            trial.random.below(capacity)
        };
        trial.fill(&mut book, entries);
        trial.visit(&book);
        trial.damage_header(&book, every_value);
        trial.damage_length(&book);
        trial.damage_kind(&book);
        trial.damage_goals(&book, capacity, entries);
        trial.damage_passes(&book, capacity, entries);
        trial.damage_line_numbers(&book, entries);
        for _ in 0..10 {
            trial.damage_slots(&book, capacity);
        }
    }
    trial.assert_at_least(books, "new", &[0]);
    trial
}

#[test]
fn small_standard_books() {
    let trial = small_books(STANDARD, SEED, 3_000);
    trial.assert_every_goal_filed(5_000);
    trial.assert_at_least(1_000, "file", &[0, 11, 12, 13, 14, 15, 16, 17, 18, 43]);
    trial.assert_at_least(10_000, "file", &[31, 32, 34]);
    trial.assert_at_least(10_000, "file other kind", &[11, 31, 32, 34]);
    trial.assert_at_least(10_000, "read", &[0, 31, 32, 33, 35]);
}

#[test]
fn small_larger_books() {
    let trial = small_books(LARGER, SEED + 3, 1_000);
    trial.assert_every_goal_filed(1_500);
    trial.assert_at_least(300, "file", &[0, 11, 12, 13, 14, 15, 16, 17, 18, 43]);
    trial.assert_at_least(3_000, "file", &[31, 32, 34]);
    trial.assert_at_least(3_000, "file other kind", &[11, 31, 32, 34]);
    trial.assert_at_least(3_000, "read", &[0, 31, 32, 33, 35]);
}

/// Books of these capacities, to the brim. A standard one of 256 begins with 1
/// and 0.
fn long_books(layout: Layout, seed: u64, capacities: &[usize]) {
    let mut trial = Trial::new(layout, seed);
    for &capacity in capacities {
        let mut book = trial.new_book(capacity);
        trial.fill(&mut book, capacity);
        trial.visit(&book);
        for entry in [capacity - 1, capacity, capacity + 1] {
            _ = trial.read(&book, entry as u64);
        }
        for _ in 0..100 {
            trial.damage_slots(&book, capacity);
        }
        trial.damage_header(&book, every_value);
        trial.damage_length(&book);
        trial.damage_kind(&book);
    }
    trial.assert_every_goal_filed(100);
    trial.assert_at_least(capacities.iter().sum(), "file", &[0]);
    trial.assert_at_least(100, "file", &[31, 32, 34]);
    trial.assert_at_least(100, "read", &[0, 31, 32, 33, 35]);
}

#[test]
fn long_standard_books() {
    long_books(STANDARD, SEED + 1, &[1_000, 1_000, 256]);
}

#[test]
fn long_larger_books() {
    long_books(LARGER, SEED + 4, &[1_000, 256]);
}

/// After how many filings two books of 100,000 are compared whole.
const INTERVAL: usize = 997;

/// How many of their first entries are filed again.
const AGAIN: usize = 500;

/// A different one for each entry, spread over all that four bytes can hold.
fn line_number(entry: usize) -> [u8; 4] {
    (40_503 * entry as u32).to_be_bytes()
}

impl Trial {
    /// A good larger sheet whose line number tells the entry.
    fn numbered_sheet(&mut self, entry: usize) -> Vec<u8> {
        let mut sheet = self.pool.good(&mut self.random).to_vec();
        sheet[plain::LINE_OFFSET..][..4].copy_from_slice(&line_number(entry));
        sheet
    }

    /// A larger book filed to the brim.
    fn full_book(&mut self, capacity: usize) -> Vec<u8> {
        let mut book = self.new_book(capacity);
        let mut plain_book = book.clone();
        for entry in 0..capacity {
            let sheet = self.numbered_sheet(entry);
            let answer = both::file_in_each([&mut book, &mut plain_book], &sheet);
            answer.expect("a good sheet");
            assert_eq!(book[self.layout.sheet_slot(entry)], sheet);
            if entry % INTERVAL == 0 || entry + 1 == capacity {
                both::assert_same(&book, &plain_book, || format!("{entry} filed"));
            }
        }
        book
    }

    /// The first entries of a book in a smaller one, slot by slot the same.
    fn assert_filed_alike(&mut self, book: &[u8], capacity: usize) {
        let mut again = self.new_book(AGAIN);
        for entry in 0..AGAIN {
            let slot = self.layout.sheet_slot(entry);
            let answer = &book[self.layout.answer_slot(capacity, entry)];
            let filed = both::file(&mut again, &book[slot.clone()]);
            assert_eq!(filed.expect("a filed sheet"), answer);
            assert_eq!(again[slot.clone()], book[slot]);
            assert_eq!(again[self.layout.answer_slot(AGAIN, entry)], *answer);
        }
    }
}

/// Reads every entry of a full book of numbered sheets.
fn assert_read_back(trial: &mut Trial, book: &[u8], capacity: usize) {
    let layout = trial.layout;
    for entry in 0..capacity {
        let (sheet, answer) = trial.read(book, entry as u64).expect("a filed entry");
        assert_eq!(sheet[plain::LINE_OFFSET..][..4], line_number(entry));
        assert_eq!(sheet, book[layout.sheet_slot(entry)]);
        assert_eq!(answer, book[layout.answer_slot(capacity, entry)]);
    }
    for beyond in [capacity, capacity + 1] {
        assert_eq!(trial.read(book, beyond as u64), Err(33));
    }
}

/// A larger book of 100,000, filed to the brim, read back whole and damaged.
#[test]
fn the_largest_book() {
    let mut trial = Trial::new(LARGER, SEED + 5);
    let capacity = LARGER.largest_capacity as usize;
    let mut book = trial.full_book(capacity);
    let one_more = trial.numbered_sheet(capacity);
    assert_eq!(both::file(&mut book, &one_more), Err(34));
    assert_read_back(&mut trial, &book, capacity);
    trial.assert_filed_alike(&book, capacity);
    trial.damage_header(&book, |value| {
        vec![0, 1, 255, value.wrapping_sub(1), value.wrapping_add(1)]
    });
    trial.damage_kind(&book);
    for _ in 0..10 {
        trial.damage_slots(&book, capacity);
    }
    trial.assert_at_least(capacity, "read", &[0]);
    trial.assert_at_least(100, "read", &[31, 32, 33]);
    trial.assert_at_least(10, "read", &[35]);
    trial.assert_at_least(20, "file", &[31, 32, 34]);
}

/// Capacities of no book of this kind, or of one of another length: also those
/// that look sound when they are cut to 16 or 32 bits, or when 32c or 34c runs
/// over 64 bits.
fn refuse_capacities(trial: &mut Trial, capacity: usize) {
    let layout = trial.layout;
    let length = layout.book_length(capacity);
    let refuse = |layout, length, wanted| {
        let made = both::new_book(layout, &mut vec![0x77; length], wanted);
        assert_eq!(made, Err(31), "{length} bytes, capacity {wanted}");
    };
    for wrong in [length - 1, length + 1, length + 32, length + 34, 0, 3, 9] {
        refuse(layout, wrong, capacity as u64);
    }
    let highs = [1 << 16, 1 << 32, 1 << 59, 1 << 63, u64::MAX << 16];
    for high in highs.into_iter().chain([u64::MAX << 17, u64::MAX << 32]) {
        let wanted = high | capacity as u64;
        if wanted != capacity as u64 {
            refuse(layout, length, wanted);
        }
    }
    refuse(other_kind(layout), length, capacity as u64);
    let made = both::new_book(layout, &mut vec![0x77; length], u64::MAX);
    trial.count("new", made);
}

fn capacities_wanted(layout: Layout, seed: u64, capacities: impl Iterator<Item = usize>) {
    let mut trial = Trial::new(layout, seed);
    for capacity in capacities {
        refuse_capacities(&mut trial, capacity);
        let mut book = vec![0x77; layout.book_length(capacity)];
        let made = both::new_book(layout, &mut book, capacity as u64);
        let sound = 1..=layout.largest_capacity as usize;
        assert_eq!(made.is_ok(), sound.contains(&capacity));
        trial.count("new", made);
    }
    trial.assert_at_least(1_000, "new", &[0, 31]);
}

#[test]
fn standard_capacities_wanted() {
    capacities_wanted(STANDARD, SEED + 2, 0..=1_001);
}

#[test]
fn larger_capacities_wanted() {
    let large = [
        34_464, 34_465, 65_535, 65_536, 65_537, 99_999, 100_000, 100_001, 131_072,
    ];
    capacities_wanted(LARGER, SEED + 6, (0..=1_001).chain(large));
}

/// Too few bytes, and a capacity of zero in any length, are 31 in either kind.
#[test]
fn books_of_zeros() {
    let mut trial = Trial::new(LARGER, SEED + 7);
    for length in (0..=12).chain([36, 44, 78]) {
        let mut book = vec![0; length];
        for entry in [0, 1, u64::MAX] {
            assert_eq!(trial.read(&book, entry), Err(31));
        }
        for _ in 0..100 {
            let sheet = trial.pool.good(&mut trial.random);
            assert_eq!(both::file(&mut book, sheet), Err(31));
            let sheet = trial.pool.other_kind(&mut trial.random);
            assert_eq!(both::file(&mut book, sheet), Err(31));
            let sheet = trial.pool.refused(&mut trial.random);
            assert_eq!(both::file(&mut book, sheet), Err(31));
        }
        assert_eq!(book, vec![0; length]);
    }
}

/// 10 + 34 × 13 is 4 + 32 × 14, and 10 + 34 × 29 is 4 + 32 × 31: of such a length
/// a book may be of either kind, as its first two bytes say. A larger one taken
/// for a standard one has nothing filed, its count being the upper half of the
/// capacity.
#[test]
fn either_kind_in_one_length() {
    for (larger, standard) in [(13, 14), (29, 31)] {
        let mut trial = Trial::new(LARGER, SEED + 8);
        let mut book = trial.new_book(larger);
        assert_eq!(book.len(), STANDARD.book_length(standard));
        trial.fill(&mut book, larger);
        let filed = book.clone();
        let sheet = trial.pool.good(&mut trial.random).to_vec();
        assert_eq!(both::file(&mut book, &sheet), Err(34));

        book[1] = standard as u8;
        assert_eq!(trial.read(&book, 0), Err(33));
        assert_eq!(both::file(&mut book, &sheet), Err(11));
        let sheet = trial.pool.other_kind(&mut trial.random).to_vec();
        let answer = both::file(&mut book, &sheet).expect("a good sheet");
        assert_eq!(trial.read(&book, 0), Ok((sheet, answer)));

        // The standard book's count and first sheet are no capacity. That entry
        // lies over the first larger sheet and its answer over the last one.
        book[1] = 0;
        assert_eq!(trial.read(&book, 0), Err(31));
        book[2..10].copy_from_slice(&filed[2..10]);
        for entry in 1..larger - 1 {
            let stored = trial.read(&book, entry as u64).expect("a filed entry");
            assert_eq!(stored.0, filed[LARGER.sheet_slot(entry)]);
        }
    }
}
