//! How many bytes of stack the proved calls use.

use crate::report::line;

#[cfg(not(target_arch = "x86_64"))]
pub fn print() {
    line("bytes", "x86-64 only");
}

#[cfg(target_arch = "x86_64")]
pub fn print() {
    use crate::sets::SEED;
    use crate::shares::{over_terms, proved_share};
    use comparison::plain::LARGER;
    use comparison::sheets::{in_layout, Batch, Random, Sheets};
    use comparison::stack::PaintedStack;
    let sheets: Batch = Sheets::new(SEED, |_| true)
        .map(|(_, sheet)| sheet)
        .take(5_000)
        .collect();
    let mut random = Random::new(SEED);
    let mut stacks: [PaintedStack; 8] = Default::default();
    for (place, sheet) in sheets.iter().enumerate() {
        let capacity = 1 + place % 1_000;
        use_standard(&mut stacks[..4], sheet, capacity);
        let larger = in_layout(&mut random, LARGER, sheet.clone());
        use_larger(&mut stacks[4..], &larger, capacity);
    }
    let mut share = PaintedStack::default();
    over_terms(|rate, years| share.run(|| _ = proved_share(rate, years)));
    let mut empty = PaintedStack::default();
    empty.run(|| ());
    line("sheets", sheets.len());
    line("an empty call, bytes", empty.used());
    let names = [
        "answer",
        "new book",
        "file",
        "read",
        "answer, larger sheet",
        "new larger book",
        "file, larger book",
        "read either, larger book",
    ];
    for (name, stack) in names.iter().zip(&stacks) {
        line(&format!("{name}, bytes"), stack.used());
    }
    line("share, bytes", share.used());
}

#[cfg(target_arch = "x86_64")]
use comparison::{plain, stack::PaintedStack};

#[cfg(target_arch = "x86_64")]
fn use_standard(stacks: &mut [PaintedStack], sheet: &[u8], capacity: usize) {
    let mut book = vec![0; plain::STANDARD.book_length(capacity)];
    let (mut stored, mut answer) = ([0; 24], [0; 8]);
    let entry = capacity - 1;
    stacks[0].run(|| _ = kennelday::answer(sheet, &mut answer));
    stacks[1].run(|| _ = kennelday::new_book(&mut book, capacity as u64));
    plain::put_size(&mut book, plain::STANDARD.count_slot(), entry);
    stacks[2].run(|| _ = kennelday::file(&mut book, sheet, &mut answer));
    stacks[3].run(|| _ = kennelday::read(&book, entry as u64, &mut stored, &mut answer));
}

#[cfg(target_arch = "x86_64")]
fn use_larger(stacks: &mut [PaintedStack], sheet: &[u8], capacity: usize) {
    let mut book = vec![0; plain::LARGER.book_length(capacity)];
    let (mut stored, mut answer) = ([0; 26], [0; 8]);
    let entry = capacity - 1;
    stacks[0].run(|| _ = kennelday::answer_larger(sheet, &mut answer));
    stacks[1].run(|| _ = kennelday::new_larger_book(&mut book, capacity as u64));
    plain::put_size(&mut book, plain::LARGER.count_slot(), entry);
    stacks[2].run(|| _ = kennelday::file(&mut book, sheet, &mut answer));
    stacks[3].run(|| _ = kennelday::read_either(&book, entry as u64, &mut stored, &mut answer));
}
