//! Parts and width tables in files. What is wrong with one is said, and ends the program with status 2.

use std::fs;
use std::process::exit;

use halviruso::{PART, WIDTHS};

fn wrong(name: &str, why: &str) -> ! {
    eprintln!("{name}: {why}");
    exit(2)
}

fn read(name: &str) -> Vec<u8> {
    fs::read(name).unwrap_or_else(|error| {
        // The system's words, as C has them: without the number behind them.
        let said = error.to_string();
        wrong(name, said.split(" (os error").next().unwrap_or(&said))
    })
}

/// The part's bytes; one byte more than the longest part shows that a file is too long.
pub fn part(name: &str) -> Vec<u8> {
    let mut part = read(name);
    part.truncate(PART + 1);
    part
}

/// 1,024 numbers in a text.
pub fn widths(name: &str) -> [u16; WIDTHS] {
    let text = String::from_utf8_lossy(&read(name)).into_owned();
    let numbers: Result<Vec<u16>, _> = text.split_ascii_whitespace().map(str::parse).collect();
    numbers
        .ok()
        .and_then(|numbers| numbers.try_into().ok())
        .unwrap_or_else(|| wrong(name, "not 1,024 numbers from 0 to 65,535"))
}
