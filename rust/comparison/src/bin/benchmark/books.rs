//! What filing and reading cost, and larger sheets and books.

use crate::report::line;
use crate::sets::{proved_answer, SEED};
use crate::speed::{best_seconds, over};
use comparison::plain::{self, Layout, LARGER, STANDARD};
use comparison::sheets::{in_layout, Batch, Random};
use kennelday::Refusal;
use std::hint::black_box;
use std::ops::Range;

fn new_book(layout: Layout, capacity: usize) -> Vec<u8> {
    let mut book = vec![0; layout.book_length(capacity)];
    let made = match layout {
        LARGER => kennelday::new_larger_book(&mut book, capacity as u64),
        _ => kennelday::new_book(&mut book, capacity as u64),
    };
    made.expect("a sound capacity");
    book
}

/// Files a sheet as an entry, whatever has been filed before.
fn file_at(layout: Layout, book: &mut [u8], entry: usize, sheet: &[u8]) {
    plain::put_size(book, layout.count_slot(), entry);
    let mut answer = [0; 8];
    kennelday::file(book, sheet, &mut answer).expect("an answered sheet");
    black_box(answer);
}

/// Files each of the sheets as the last entry.
fn file_last(layout: Layout, book: &mut [u8], capacity: usize, set: &Batch) {
    for sheet in set {
        file_at(layout, black_box(book), capacity - 1, black_box(sheet));
    }
}

/// Books of one capacity, each with another sheet as its last entry.
fn filed_books(layout: Layout, set: &Batch, capacity: usize) -> Batch {
    let filed = set.iter().map(|sheet| {
        let mut book = new_book(layout, capacity);
        file_at(layout, &mut book, capacity - 1, sheet);
        book
    });
    filed.collect()
}

fn read_last(book: &[u8], capacity: usize) {
    let (mut sheet, mut answer) = ([0; 24], [0; 8]);
    let entry = capacity as u64 - 1;
    kennelday::read(book, entry, &mut sheet, &mut answer).expect("a filed entry");
    black_box((sheet, answer));
}

fn read_either(book: &[u8], entry: usize) {
    let (mut sheet, mut answer) = ([0; 26], [0; 8]);
    let read = kennelday::read_either(book, entry as u64, &mut sheet, &mut answer);
    read.expect("a filed entry");
    black_box((sheet, answer));
}

fn nanoseconds(seconds: f64, set: &Batch) -> f64 {
    1e9 * seconds / set.len() as f64
}

pub fn print(set: &Batch) {
    let (mut small, mut large) = (new_book(STANDARD, 1), new_book(STANDARD, 1_000));
    let small_books = filed_books(STANDARD, set, 1);
    let large_books = filed_books(STANDARD, set, 1_000);
    let figures = best_seconds([
        &mut || over(set, proved_answer),
        &mut || file_last(STANDARD, &mut small, 1, set),
        &mut || file_last(STANDARD, &mut large, 1_000, set),
        &mut || over(&small_books, |book| read_last(book, 1)),
        &mut || over(&large_books, |book| read_last(book, 1_000)),
    ])
    .map(|seconds| format!("{:.1}", nanoseconds(seconds, set)));
    let labels = [
        "answer alone, ns",
        "filing, capacity 1, ns",
        "filing, capacity 1000, ns",
        "reading, capacity 1, ns",
        "reading, capacity 1000, ns",
    ];
    line("sheets", set.len());
    for (label, figure) in labels.iter().zip(figures) {
        line(label, figure);
    }
}

fn answer_by(call: impl Fn(&[u8], &mut [u8; 8]) -> Result<(), Refusal>, sheet: &[u8]) {
    let mut answer = [0; 8];
    call(sheet, &mut answer).expect("an answered sheet");
    black_box(answer);
}

/// The same sheets with line numbers of four bytes.
fn larger_sheets(set: &Batch) -> Batch {
    let mut random = Random::new(SEED);
    let sheets = set.iter().cloned();
    sheets
        .map(|sheet| in_layout(&mut random, LARGER, sheet))
        .collect()
}

/// A larger book of the greatest capacity, the sheets being its last entries.
fn full_book(set: &Batch) -> (Vec<u8>, Range<usize>) {
    let capacity = LARGER.largest_capacity as usize;
    let mut book = new_book(LARGER, capacity);
    let entries = capacity - set.len()..capacity;
    for (entry, sheet) in entries.clone().zip(set) {
        file_at(LARGER, &mut book, entry, sheet);
    }
    (book, entries)
}

/// Larger books of one entry against the greatest one, and larger sheets against
/// standard ones.
pub fn print_larger(set: &Batch) {
    let sheets = larger_sheets(set);
    let capacity = LARGER.largest_capacity as usize;
    let (mut small, mut large) = (new_book(LARGER, 1), new_book(LARGER, capacity));
    let small_books = filed_books(LARGER, &sheets, 1);
    let (full, entries) = full_book(&sheets);
    let figures = best_seconds([
        &mut || over(set, |sheet| answer_by(kennelday::answer, sheet)),
        &mut || over(&sheets, |sheet| answer_by(kennelday::answer_larger, sheet)),
        &mut || file_last(LARGER, &mut small, 1, &sheets),
        &mut || file_last(LARGER, &mut large, capacity, &sheets),
        &mut || over(&small_books, |book| read_either(book, 0)),
        &mut || {
            let read = |entry| read_either(black_box(&full), black_box(entry));
            entries.clone().for_each(read);
        },
    ])
    .map(|seconds| nanoseconds(seconds, set));
    let pairs = [
        ["standard sheet", "larger sheet"],
        ["filing, capacity 1", "filing, capacity 100000"],
        ["reading, capacity 1", "reading, capacity 100000"],
    ];
    line("sheets", set.len());
    for (labels, figures) in pairs.iter().zip(figures.chunks(2)) {
        for (label, figure) in labels.iter().zip(figures) {
            line(&format!("{label}, ns"), format!("{figure:.1}"));
        }
        let ratio = format!("{:.3}", figures[1] / figures[0]);
        line(&format!("{} / {}", labels[1], labels[0]), ratio);
    }
}
