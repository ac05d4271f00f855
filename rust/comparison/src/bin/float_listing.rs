//! The listing program as a spreadsheet's author would write it: sheets from
//! standard input, a line for each, the figures being floating-point ones.

use comparison::float::{self, Estimate};
use comparison::plain::{self, Shape, LINE_OFFSET, SHEET_LENGTH};
use std::io::{self, BufWriter, Read, Write};

/// Whole sheets, so that only the last piece of the input can be a short one.
const BLOCK_LENGTH: usize = 2_048 * SHEET_LENGTH;

fn shape_word(shape: Shape) -> &'static str {
    match shape {
        Shape::Cylinder => "cylinder",
        Shape::Flat => "flat",
    }
}

fn check_word(code: u8) -> &'static str {
    match code {
        plain::WITHIN => "within",
        plain::OVER => "over",
        _ => "none",
    }
}

/// Line number, shape, mm, both checks and the bound in °C.
fn print_answer(output: &mut impl Write, line: u16, estimate: &Estimate) -> io::Result<()> {
    let bound = estimate.surface_bound;
    let sign = if bound < 0 { "-" } else { "" };
    let tenths = bound.unsigned_abs();
    writeln!(
        output,
        "{line} {} {} {} {} {sign}{}.{}",
        shape_word(estimate.shape),
        estimate.thickness,
        check_word(estimate.loss_check),
        check_word(estimate.surface_check),
        tenths / 10,
        tenths % 10,
    )
}

/// The line of a sheet. No sufficient rung is refusal 17, and a short piece
/// has no line number.
fn print_sheet(output: &mut impl Write, sheet: &[u8]) -> io::Result<()> {
    if sheet.len() < SHEET_LENGTH {
        return writeln!(output, "- refused 11");
    }
    let line = u16::from_be_bytes([sheet[LINE_OFFSET], sheet[LINE_OFFSET + 1]]);
    match float::estimate(sheet) {
        Ok(Some(estimate)) => print_answer(output, line, &estimate),
        Ok(None) => writeln!(output, "{line} refused 17"),
        Err(number) => writeln!(output, "{line} refused {number}"),
    }
}

/// The next block, shorter at the end of the input and empty after it.
fn read_block(input: &mut impl Read, block: &mut Vec<u8>) -> io::Result<usize> {
    block.clear();
    input.take(BLOCK_LENGTH as u64).read_to_end(block)
}

fn main() -> io::Result<()> {
    let mut input = io::stdin().lock();
    let mut output = BufWriter::with_capacity(64 * 1024, io::stdout().lock());
    let mut block = Vec::with_capacity(BLOCK_LENGTH);
    writeln!(output, "line shape mm loss surface upto")?;
    while read_block(&mut input, &mut block)? > 0 {
        for sheet in block.chunks(SHEET_LENGTH) {
            print_sheet(&mut output, sheet)?;
        }
    }
    output.flush()
}
