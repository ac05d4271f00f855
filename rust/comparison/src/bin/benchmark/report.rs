//! How figures are printed.

pub fn heading(text: &str) {
    println!("\n{text}");
}

pub fn line(label: &str, figure: impl ToString) {
    println!("  {label:<58}{:>14}", figure.to_string());
}

/// A row of a table, each column as wide as its title needs.
pub fn row<T: ToString>(titles: &[&str], label: &str, figures: &[T]) {
    print!("  {label:<26}");
    for (title, figure) in titles.iter().zip(figures) {
        print!("{:>width$}", figure.to_string(), width = title.len() + 3);
    }
    println!();
}

pub fn titles(titles: &[&str]) {
    row(titles, "", titles);
}
