//! How text moves I, character by character.

use crate::answer::Code;
use crate::model::{CODE_POINTS, GREATEST_POSITION, LEAST_POSITION};

/// The code point whose width the variable space replaces.
pub(crate) const SPACE: u8 = 0x40;

/// How far each character goes.
pub(crate) struct Pitch<'a> {
    row: &'a [u16; CODE_POINTS],
    /// What X'40' takes beyond its width in the row, so that it needs no branch.
    extra: i32,
    /// Added after every character, negative for direction 1.
    adjustment: i32,
}

/// Where I may stand before a character, and where the character may end.
#[derive(Clone, Copy)]
pub(crate) struct Bounds {
    least: i32,
    greatest: i32,
}

impl Bounds {
    /// Text that isn't shown lies nowhere.
    pub(crate) const NONE: Self = Self { least: i32::MIN, greatest: i32::MAX };

    /// A page from 0 to its size along I.
    pub(crate) const fn page(size: i32) -> Self {
        Self { least: 0, greatest: size }
    }
}

impl<'a> Pitch<'a> {
    pub(crate) fn new(row: &'a [u16; CODE_POINTS], space: Option<i32>, adjustment: i32) -> Self {
        let own = i32::from(row[usize::from(SPACE)]);
        Self { row, extra: space.map_or(0, |space| space - own), adjustment }
    }

    /// I after `count` characters of `text` taken round and round; `text` isn't empty.
    #[inline(always)]
    pub(crate) fn walk(
        &self,
        text: &[u8],
        count: usize,
        i: i32,
        bounds: Bounds,
    ) -> Result<i32, Code> {
        // Where no character goes back, the last one decides for all.
        if self.adjustment >= 0 && i >= bounds.least {
            let end = i64::from(i) + self.advance(text, count);
            let last = end - i64::from(self.adjustment);
            if end <= i64::from(GREATEST_POSITION) && last <= i64::from(bounds.greatest) {
                return Ok(end as i32);
            }
        }
        self.step(text, count, i, bounds)
    }

    /// The sum of all advances.
    #[inline(always)]
    fn advance(&self, text: &[u8], count: usize) -> i64 {
        let widths = if count == text.len() {
            self.widths(text)
        } else {
            let (rounds, rest) = (count / text.len(), count % text.len());
            rounds as i64 * self.widths(text) + self.widths(&text[..rest])
        };
        widths + count as i64 * i64::from(self.adjustment)
    }

    /// The sum of the widths; at most 8,192 of them, so it fits.
    #[inline(always)]
    fn widths(&self, text: &[u8]) -> i64 {
        let own: u32 = text.iter().map(|&c| u32::from(self.row[usize::from(c)])).sum();
        if self.extra == 0 {
            return i64::from(own);
        }
        let spaces: u32 = text.iter().map(|&c| u32::from(c == SPACE)).sum();
        i64::from(own) + i64::from(spaces) * i64::from(self.extra)
    }

    /// One character after the other, to find which of them is at fault, and how.
    #[inline(never)]
    fn step(&self, text: &[u8], count: usize, mut i: i32, bounds: Bounds) -> Result<i32, Code> {
        let mut left = count;
        while left > 0 {
            let some = &text[..left.min(text.len())];
            for &c in some {
                let width = self.width(c);
                if i < bounds.least || i + width > bounds.greatest {
                    return Err(Code::Outside);
                }
                i += width + self.adjustment;
                if !(LEAST_POSITION..=GREATEST_POSITION).contains(&i) {
                    return Err(Code::Position);
                }
            }
            left -= some.len();
        }
        Ok(i)
    }

    #[inline(always)]
    fn width(&self, c: u8) -> i32 {
        i32::from(self.row[usize::from(c)]) + (self.extra & -i32::from(c == SPACE))
    }
}

#[cfg(test)]
mod tests {
    use super::*;
    use crate::generate::Rng;

    /// The rule as the paper words it.
    fn plain(
        pitch: &Pitch,
        text: &[u8],
        count: usize,
        i: i32,
        size: Option<i32>,
    ) -> Result<i32, Code> {
        let mut i = i;
        for at in 0..count {
            let width = pitch.width(text[at % text.len()]);
            if size.is_some_and(|size| !(0 <= i && i + width <= size)) {
                return Err(Code::Outside);
            }
            i += width + pitch.adjustment;
            if !(-32_768..=32_767).contains(&i) {
                return Err(Code::Position);
            }
        }
        Ok(i)
    }

    /// Random pitches, texts and places.
    fn told(rng: &mut Rng) -> Result<i32, Code> {
        let widest = rng.pick(&[1, 20, 300, 65_536]);
        let row: [u16; CODE_POINTS] = std::array::from_fn(|_| rng.below(widest) as u16);
        let space = rng.chance(1, 2).then(|| rng.between(0, 4_095) as i32);
        let most = rng.pick(&[0, 40, 4_095]);
        let pitch = Pitch::new(&row, space, rng.pick(&[1, -1]) * rng.between(0, most) as i32);
        let text: Vec<u8> = (0..rng.between(1, 40))
            .map(|_| if rng.chance(1, 4) { SPACE } else { rng.byte() })
            .collect();
        let longest = rng.pick(&[60, 2_000]);
        let count = rng.between(1, longest) as usize;
        let i = rng.between(0, 32_767) as i32 - rng.pick(&[0, 0, 0, 32_768]);
        let i = if rng.chance(1, 2) { i / 100 } else { i };
        let size = rng.chance(2, 3).then(|| rng.between(1, 32_767) as i32);
        let told = plain(&pitch, &text, count, i, size);
        let bounds = size.map_or(Bounds::NONE, Bounds::page);
        assert_eq!(pitch.walk(&text, count, i, bounds), told);
        assert_eq!(pitch.step(&text, count, i, bounds), told);
        told
    }

    #[test]
    fn the_sum_and_the_steps_say_what_the_rule_says() {
        let mut rng = Rng::new(7);
        let (mut passed, mut outside, mut beyond) = (0, 0, 0);
        for _ in 0..40_000 {
            match told(&mut rng) {
                Ok(_) => passed += 1,
                Err(Code::Outside) => outside += 1,
                Err(_) => beyond += 1,
            }
        }
        assert!(passed.min(outside).min(beyond) > 2_000, "{passed} {outside} {beyond}");
    }
}
