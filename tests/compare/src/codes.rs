//! How often each code was the answer.

use std::collections::BTreeMap;
use std::fmt;

/// Answers by code.
#[derive(Clone, Debug, Default)]
pub struct Codes(BTreeMap<u32, u64>);

impl Codes {
    pub fn add(&mut self, code: u32) {
        *self.0.entry(code).or_default() += 1;
    }

    pub fn join(&mut self, other: &Self) {
        for (&code, &times) in &other.0 {
            *self.0.entry(code).or_default() += times;
        }
    }

    pub fn total(&self) -> u64 {
        self.0.values().sum()
    }

    /// The codes of the papers that were no answer.
    pub fn missing(&self) -> Vec<u32> {
        let codes = [0, 1].into_iter().chain(10..=30).chain([32]);
        codes.filter(|code| !self.0.contains_key(code)).collect()
    }
}

impl fmt::Display for Codes {
    fn fmt(&self, f: &mut fmt::Formatter<'_>) -> fmt::Result {
        let most = self.0.values().copied().max().unwrap_or(1);
        for (code, times) in &self.0 {
            let bar = "#".repeat((times * 40).div_ceil(most) as usize);
            writeln!(f, "  {code:>2} {times:>8} {bar}")?;
        }
        Ok(())
    }
}
