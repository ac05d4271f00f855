//! Sheets for the comparison, the same ones in every run.

mod draft;
mod exact;
mod jacketed;
mod limited;
mod near;
mod ordinary;
mod random;
mod refused;

pub use draft::{in_layout, put, put_field, shapes, Draft};
pub use random::Random;

use std::collections::VecDeque;

/// What a kind is made for.
#[derive(Clone, Copy, Debug, PartialEq, Eq)]
pub enum Family {
    /// Fields anywhere in their ranges, and at the ends.
    Ordinary,
    /// One or more faults.
    Refused,
    /// Have and need next to each other at some rung, or αE and 200L.
    Near,
}

/// Sheets of any length.
pub type Batch = Vec<Vec<u8>>;

/// A function that adds a few sheets of its kind.
type Maker = fn(&mut Random, &mut Batch);

/// A kind of sheet.
pub struct Kind {
    pub name: &'static str,
    pub family: Family,
    make: Maker,
}

const fn kind(family: Family, name: &'static str, make: Maker) -> Kind {
    Kind { name, family, make }
}

/// Every kind, in the order in which they take turns.
pub static KINDS: [Kind; 37] = [
    kind(Family::Ordinary, "office", ordinary::office),
    kind(Family::Ordinary, "anywhere", ordinary::anywhere),
    kind(Family::Ordinary, "diameter edge", ordinary::diameter_edge),
    kind(Family::Ordinary, "table row", ordinary::table_row),
    kind(Family::Ordinary, "surface limit", ordinary::surface_limit),
    kind(Family::Ordinary, "end of range", ordinary::end_of_range),
    kind(Family::Ordinary, "about zero", ordinary::about_zero),
    kind(Family::Ordinary, "widest product", ordinary::widest_product),
    kind(Family::Ordinary, "cheap heat", limited::cheap_heat),
    kind(
        Family::Ordinary,
        "beyond the ladder",
        limited::beyond_ladder,
    ),
    kind(Family::Ordinary, "jacket price", jacketed::jacket_price),
    kind(Family::Ordinary, "missing again", jacketed::missing_again),
    kind(Family::Refused, "wrong length", refused::wrong_length),
    kind(Family::Refused, "unknown code", refused::unknown_code),
    kind(Family::Refused, "beyond range", refused::beyond_range),
    kind(Family::Refused, "stray field", refused::stray_field),
    kind(Family::Refused, "wrong side", refused::wrong_side),
    kind(Family::Refused, "aim", refused::aim),
    kind(Family::Refused, "jacketed wall", refused::jacketed_wall),
    kind(Family::Refused, "several faults", refused::several_faults),
    kind(Family::Refused, "any bytes", refused::any_bytes),
    kind(Family::Near, "near economy", near::economy),
    kind(Family::Near, "outer diameter", near::outer_diameter),
    kind(Family::Near, "near loss", near::loss),
    kind(Family::Near, "near surface", near::surface),
    kind(Family::Near, "near loss limit", near::loss_limit),
    kind(Family::Near, "near surface limit", near::surface_limit),
    kind(Family::Near, "exact wall", exact::wall),
    kind(Family::Near, "exact economy", exact::economy),
    kind(Family::Near, "bare", exact::bare),
    kind(Family::Near, "near first check", limited::near_first_check),
    kind(Family::Near, "near second rung", limited::near_second_rung),
    kind(Family::Near, "exact limited", limited::exact),
    kind(Family::Near, "thin difference", jacketed::thin_difference),
    kind(Family::Near, "near jacketed", jacketed::near),
    kind(Family::Near, "near jacketed limit", jacketed::near_limit),
    kind(Family::Near, "exact jacketed", jacketed::exact),
];

/// An endless run of sheets, the kinds taking turns.
pub struct Sheets {
    kinds: Vec<&'static Kind>,
    turn: usize,
    random: Random,
    waiting: VecDeque<Vec<u8>>,
}

impl Sheets {
    /// The run that this seed gives over the kinds that are wanted.
    pub fn new(seed: u64, wanted: impl Fn(&Kind) -> bool) -> Sheets {
        let kinds: Vec<_> = KINDS.iter().filter(|&kind| wanted(kind)).collect();
        assert!(!kinds.is_empty(), "no kind of sheet is wanted");
        Sheets {
            turn: kinds.len() - 1,
            kinds,
            random: Random::new(seed),
            waiting: VecDeque::new(),
        }
    }

    fn refill(&mut self) {
        self.turn = (self.turn + 1) % self.kinds.len();
        let mut made = Vec::new();
        (self.kinds[self.turn].make)(&mut self.random, &mut made);
        self.waiting.extend(made);
    }
}

impl Iterator for Sheets {
    /// The kind's name and the sheet.
    type Item = (&'static str, Vec<u8>);

    fn next(&mut self) -> Option<Self::Item> {
        loop {
            if let Some(sheet) = self.waiting.pop_front() {
                return Some((self.kinds[self.turn].name, sheet));
            }
            self.refill();
        }
    }
}
