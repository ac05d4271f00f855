//! Where the floating-point one differs from the proved one.

use crate::report::line;
use crate::sets::{of_family, proved_answer};
use comparison::float;
use comparison::sheets::Family;

#[derive(Default)]
struct Differences {
    open: usize,
    thinner: usize,
    thicker: usize,
    none_sufficient: usize,
    out_of_ladder: usize,
    checks_only: usize,
}

impl Differences {
    fn count(&mut self, sheet: &[u8]) {
        let Ok(estimate) = float::estimate(sheet) else {
            return;
        };
        match (proved_answer(sheet), estimate) {
            (Ok(answer), Some(estimate)) => self.count_answers(answer, estimate),
            (Ok(_), None) => self.out_of_ladder += 1,
            (Err(18), Some(_)) => self.open += 1,
            (Err(_), Some(_)) => self.none_sufficient += 1,
            (Err(_), None) => {}
        }
    }

    fn other_thickness(&self) -> usize {
        self.open + self.none_sufficient + self.out_of_ladder + self.thinner + self.thicker
    }

    fn count_answers(&mut self, answer: [u8; 8], estimate: float::Estimate) {
        let thickness = u16::from_be_bytes([answer[2], answer[3]]);
        let bound = i16::from_be_bytes([answer[6], answer[7]]);
        let rest = (estimate.loss_check, estimate.surface_check);
        if estimate.thickness < thickness {
            self.thinner += 1;
        } else if estimate.thickness > thickness {
            self.thicker += 1;
        } else if (rest, estimate.surface_bound) != ((answer[4], answer[5]), bound) {
            self.checks_only += 1;
        }
    }
}

pub fn print(family: Family, count: usize) {
    let mut differences = Differences::default();
    for sheet in of_family(family).take(count) {
        differences.count(&sheet);
    }
    line("sheets", count);
    line("another thickness", differences.other_thickness());
    let parts = [
        ("proved 18, floating-point gives one", differences.open),
        (
            "proved 17, floating-point gives one",
            differences.none_sufficient,
        ),
        ("floating-point gives none", differences.out_of_ladder),
        ("floating-point gives a thinner one", differences.thinner),
        ("floating-point gives a thicker one", differences.thicker),
    ];
    for (label, figure) in parts {
        line(&format!("  {label}"), figure);
    }
    let label = "same thickness, another check or bound";
    line(label, differences.checks_only);
}
