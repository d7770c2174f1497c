//! Tables for people, and for the document.

use crate::clock::Spread;

/// Rows of words, the first of them the heading.
pub struct Table {
    rows: Vec<Vec<String>>,
}

impl Table {
    pub fn new(heading: &[&str]) -> Self {
        Self { rows: vec![heading.iter().map(|word| word.to_string()).collect()] }
    }

    pub fn row(&mut self, words: Vec<String>) {
        self.rows.push(words);
    }

    pub fn print(&self, markdown: bool) {
        let widths: Vec<usize> = (0..self.rows[0].len())
            .map(|at| self.rows.iter().map(|row| row[at].chars().count()).max().unwrap_or(0))
            .collect();
        for (number, row) in self.rows.iter().enumerate() {
            if markdown {
                println!("| {} |", row.join(" | "));
                if number == 0 {
                    println!("|{}", "---|".repeat(row.len()));
                }
                continue;
            }
            let cells = row.iter().zip(&widths).enumerate().map(|(at, (word, &width))| {
                if at == 0 {
                    format!("{word:<width$}")
                } else {
                    format!("{word:>width$}")
                }
            });
            println!("{}", cells.collect::<Vec<_>>().join("  ").trim_end());
        }
        println!();
    }
}

/// A time with three figures.
pub fn figures(number: f64) -> String {
    match number {
        number if number.is_nan() => "-".to_string(),
        number if number >= 100.0 => format!("{number:.0}"),
        number if number >= 10.0 => format!("{number:.1}"),
        number if number >= 1.0 => format!("{number:.2}"),
        _ => format!("{number:.3}"),
    }
}

/// A ratio with its spread.
pub fn ratio(spread: Option<Spread>) -> String {
    spread.map_or_else(
        || "-".to_string(),
        |Spread { low, middle, high }| format!("{middle:.2} ({low:.2}..{high:.2})"),
    )
}
