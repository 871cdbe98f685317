//! Tables in Markdown, printed row by row as the costs are measured, and kept.

use std::io::{self, Write};

/// Text that is printed and kept.
#[derive(Default)]
pub struct Report {
    pub text: String,
}

impl Report {
    /// Prints a line.
    pub fn line(&mut self, line: &str) -> io::Result<()> {
        self.text.push_str(line);
        self.text.push('\n');
        writeln!(io::stdout(), "{line}")
    }

    /// Prints the head of a table: the first column is for words, the others are for numbers.
    pub fn head(&mut self, columns: &[&str]) -> io::Result<()> {
        let names: Vec<String> = columns.iter().map(|name| name.to_string()).collect();
        self.row(columns, &names)?;
        let rule = |(number, name): (usize, &&str)| match number {
            0 => format!("|:{}-", "-".repeat(width(number, name))),
            _ => format!("|-{}:", "-".repeat(width(number, name))),
        };
        let rules: String = columns.iter().enumerate().map(rule).collect();
        self.line(&format!("{rules}|"))
    }

    /// Prints a row below such a head.
    pub fn row(&mut self, columns: &[&str], cells: &[String]) -> io::Result<()> {
        let cell = |(number, (name, cell)): (usize, (&&str, &String))| {
            let width = width(number, name);
            match number {
                0 => format!("| {cell:<width$} "),
                _ => format!("| {cell:>width$} "),
            }
        };
        let cells: String = columns.iter().zip(cells).enumerate().map(cell).collect();
        self.line(&format!("{cells}|"))
    }
}

/// How wide a column is.
fn width(number: usize, name: &str) -> usize {
    let least = if number == 0 { 10 } else { 7 };
    name.chars().count().max(least)
}

/// A number with a comma before every three digits of its whole part.
pub fn grouped(number: f64, decimals: usize) -> String {
    let plain = format!("{number:.decimals$}");
    let whole = plain.find('.').unwrap_or(plain.len());
    let mut text = String::new();
    for (place, digit) in plain.chars().enumerate() {
        if place > 0 && place < whole && (whole - place) % 3 == 0 {
            text.push(',');
        }
        text.push(digit);
    }
    text
}
