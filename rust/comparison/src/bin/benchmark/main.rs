//! Prints how fast the proved call, the plain one and the floating-point one
//! are, where the floating-point one differs, what a book call, a larger sheet
//! and a yearly share cost, how much stack the calls need, and how long the
//! listing programs take.

mod books;
mod differences;
mod listing;
mod report;
mod sets;
mod shares;
mod speed;
mod stack;

use comparison::cpu;
use comparison::sheets::Family;
use report::heading;
use std::process::ExitCode;

fn main() -> ExitCode {
    println!("Calls are timed by {}.", cpu::THREAD_CLOCK);
    heading("Mixed sheets");
    let mixed = sets::mixed();
    speed::print_mix(&mixed);
    speed::print(&mixed);
    heading("Answered cylinders");
    let cylinders = sets::cylinders();
    speed::print_mix(&cylinders);
    speed::print(&cylinders);
    heading(&format!(
        "By goal and shape, {} sheets each, sheets per second",
        sets::CASE_COUNT
    ));
    speed::print_cases(&sets::cases());
    heading("Floating-point against proved, ordinary sheets");
    differences::print(Family::Ordinary, 300_000);
    heading("Floating-point against proved, sheets next to an open rung");
    differences::print(Family::Near, 100_000);
    heading("Books, answered cylinders filed as the last entry");
    books::print(&cylinders[..1_000].to_vec());
    heading("Larger sheets and larger books, the same sheets");
    books::print_larger(&cylinders[..1_000].to_vec());
    heading("Yearly shares, every rate and term");
    shares::print();
    heading("Stack, wrapper included");
    stack::print();
    heading(&format!(
        "Listing, a million sheets, seconds of {}",
        cpu::CHILDREN_CLOCK
    ));
    listing::print(&[("mixed", &mixed), ("answered cylinders", &cylinders)])
}
