//! How fast the proved call, the plain one and the floating-point one are.

use crate::report::{line, row, titles};
use crate::sets::{proved_answer, Response};
use comparison::sheets::Batch;
use comparison::{cpu, float, plain};
use std::hint::black_box;

const ROUNDS: usize = 25;

/// Seconds of each call in its best round. They take turns, so that a slow
/// spell of the machine meets all of them.
pub fn best_seconds<const N: usize>(mut calls: [&mut dyn FnMut(); N]) -> [f64; N] {
    let mut best = [f64::MAX; N];
    for _ in 0..ROUNDS {
        for (call, best) in calls.iter_mut().zip(&mut best) {
            let start = cpu::thread_seconds();
            call();
            *best = best.min(cpu::thread_seconds() - start);
        }
    }
    best
}

/// One call for each sheet.
pub fn over<T>(set: &Batch, call: impl Fn(&[u8]) -> T) {
    for sheet in set {
        black_box(call(black_box(sheet)));
    }
}

pub fn print_mix(set: &Batch) {
    let answers: Vec<_> = set.iter().map(|sheet| proved_answer(sheet)).collect();
    let answered = |shape: u8| {
        let of_shape = |answer: &&Response| matches!(answer, Ok(bytes) if bytes[1] == shape);
        answers.iter().filter(of_shape).count()
    };
    line("sheets", set.len());
    line("answered, cylinder", answered(1));
    line("answered, flat", answered(2));
    for number in (11..=18).chain([43]) {
        let refused = answers.iter().filter(|&answer| *answer == Err(number));
        let count = refused.count();
        if count > 0 {
            line(&format!("refused {number}"), count);
        }
    }
}

pub fn print(set: &Batch) {
    let [proved, plain, float] = best_seconds([
        &mut || over(set, proved_answer),
        &mut || over(set, plain::answer),
        &mut || over(set, float::estimate),
    ])
    .map(|seconds| set.len() as f64 / seconds);
    line("proved, sheets per second", format!("{proved:.0}"));
    line("plain exact, sheets per second", format!("{plain:.0}"));
    line("floating-point, sheets per second", format!("{float:.0}"));
    line("proved / plain exact", format!("{:.2}", proved / plain));
    line("floating-point / proved", format!("{:.2}", float / proved));
}

/// A row for each set: sheets per second and their ratio.
pub fn print_cases(cases: &[(&str, Batch)]) {
    let columns = ["proved", "floating-point", "floating-point / proved"];
    titles(&columns);
    for (label, set) in cases {
        let [proved, float] = best_seconds([&mut || over(set, proved_answer), &mut || {
            over(set, float::estimate)
        }])
        .map(|seconds| set.len() as f64 / seconds);
        let ratio = format!("{:.2}", float / proved);
        let figures = [format!("{proved:.0}"), format!("{float:.0}"), ratio];
        row(&columns, label, &figures);
    }
}
