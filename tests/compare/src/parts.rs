//! The same parts to the hub under test and to the peer, interpreted directly and checked alone.

use std::fs;
use std::io;
use std::path::Path;

use peer::generate::{case, checked_part, increment, mutate, sized_part, Case, Ground, Rng};
use peer::model::{AREA, CODE_POINTS, LONGEST_PART, WIDTHS};
use peer::replay::{Backend, Peer};
use peer::script::{Lend, Step};
use peer::sheet::{self, EIGHT_LINES, SIX_LINES};
use peer::{Answer, Entry, State};

use crate::codes::Codes;
use crate::difference::Difference;

/// Sizes from 0 to a few above the longest part, each met once in so many cases.
const SIZES: u64 = LONGEST_PART as u64 + 9;
/// One seed in so many has the next size, another a real part with changes, two a part for a check.
const TURNS: u64 = 9;
/// Seeds in which every size is met.
pub const ROUND: u64 = SIZES * TURNS;

/// The real parts, to be changed.
pub fn real(root: &Path) -> io::Result<Vec<Vec<u8>>> {
    let mut paths: Vec<_> = fs::read_dir(root.join("tests/real"))?
        .filter_map(|file| Some(file.ok()?.path()))
        .filter(|path| path.extension().is_some_and(|end| end == "part"))
        .collect();
    // A folder's order is any; the seeds' isn't.
    paths.sort();
    paths.iter().map(fs::read).collect()
}

/// The case of a seed.
fn made(seed: u64, real: &[Vec<u8>]) -> Case {
    let mut rng = Rng::new(seed);
    match seed % TURNS {
        0 => sized(&mut rng, (seed / TURNS % SIZES) as usize),
        1 if !real.is_empty() => {
            let mut part = real[rng.size(real.len())].clone();
            mutate(&mut rng, &mut part);
            on_sheet(&mut rng, part, SIX_LINES)
        }
        2 => {
            let part = checked_part(&mut rng, EIGHT_LINES);
            on_sheet(&mut rng, part, EIGHT_LINES)
        }
        3 => {
            let increment = increment(&mut rng);
            let part = checked_part(&mut rng, increment);
            on_sheet(&mut rng, part, increment)
        }
        _ => case(&mut rng),
    }
}

/// A part of just this size.
fn sized(rng: &mut Rng, size: usize) -> Case {
    let descriptor = sheet::descriptor(SIX_LINES);
    let state = State::start(&descriptor);
    let part = sized_part(rng, &Ground { descriptor, state, widths: &sheet::WIDTHS_144 }, size);
    on_sheet(rng, part, SIX_LINES)
}

fn on_sheet(rng: &mut Rng, part: Vec<u8>, increment: u32) -> Case {
    let descriptor = sheet::descriptor(increment);
    Case {
        part,
        widths: sheet::WIDTHS_144.to_vec(),
        area: vec![rng.byte(); AREA],
        descriptor,
        state: State::start(&descriptor),
    }
}

/// Compares the part of one seed, as it was made and twice changed; adds the answers to `codes`.
pub fn compare<B: Backend + Clone>(
    hub: &B,
    seed: u64,
    real: &[Vec<u8>],
    codes: &mut Codes,
) -> Result<(), Difference> {
    let mut given = made(seed, real);
    let mut changes = Rng::new(!seed);
    for _ in 0..3 {
        let found = direct(hub, &given, codes).and_then(|()| checked(hub, &given, codes));
        if let Err((what, steps)) = found {
            return Err(Difference { test: "parts", seed, what, steps });
        }
        mutate(&mut changes, &mut given.part);
    }
    Ok(())
}

/// What differs, and the steps that show it.
type Found = (String, Vec<Step>);

/// Compares interpreting a part directly.
fn direct<B: Backend + Clone>(hub: &B, given: &Case, codes: &mut Codes) -> Result<(), Found> {
    let (mut one, mut other) = (given.clone(), given.clone());
    let (got, said) = (interpreted(&mut hub.clone(), &mut one), interpreted(&mut Peer, &mut other));
    if got != said {
        return Err((format!("the peer says {said:?}, the hub {got:?}"), steps(given)));
    }
    if one.state != other.state || one.area != other.area {
        let (then, hubs) = (other.state, one.state);
        let what =
            format!("both say {said:?}, but the memory differs\npeer {then:?}\nhub {hubs:?}");
        return Err((what, steps(given)));
    }
    // What the two agree on is held against the paper too: a refusal touches nothing.
    if !said.is_done() && (one.state != given.state || one.area != given.area) {
        return Err((format!("{said:?} changed what was lent"), steps(given)));
    }
    codes.add(said.code);
    Ok(())
}

/// Compares checking a part alone, and at its descriptor's increment, in range or not.
fn checked<B: Backend + Clone>(hub: &B, given: &Case, codes: &mut Codes) -> Result<(), Found> {
    let (mut hub, part, increment) = (hub.clone(), &given.part, given.descriptor.increment);
    let (got, said) = (hub.check(part), Peer.check(part));
    same(got, said, codes, || Step::Check { part: part.clone() })?;
    let (got, said) = (hub.check_at(part, increment), Peer.check_at(part, increment));
    same(got, said, codes, || Step::CheckAt { increment, part: part.clone() })
}

/// Whether the hub's code and the peer's are one, else the step that tells them apart.
fn same(got: u32, said: u32, codes: &mut Codes, step: impl Fn() -> Step) -> Result<(), Found> {
    if got != said {
        let what = format!("checked alone the peer says {said}, the hub {got}");
        return Err((what, vec![step()]));
    }
    codes.add(said);
    Ok(())
}

fn interpreted(hub: &mut impl Backend, case: &mut Case) -> Answer {
    hub.direct(&case.part, &case.widths, &mut case.area, &case.descriptor, &mut case.state)
}

/// The direct call as steps; an area of another length is beyond them.
fn steps(case: &Case) -> Vec<Step> {
    let state = case.state;
    let entry = Entry { key: 1, mark: 1, descriptor: case.descriptor, state, next: 1, taken: 0 };
    let filler = case.area.first().copied().unwrap_or(0);
    let mut steps = vec![Step::Fill(filler), Step::Set { slot: 0, entry }];
    for (at, &width) in case.widths.iter().enumerate().take(WIDTHS) {
        let (font, code_point) = ((at / CODE_POINTS) as u8, (at % CODE_POINTS) as u8);
        steps.push(Step::Width { font, code_point, width });
    }
    let widths = case.widths.len().min(Lend::MOST.widths);
    steps.push(Step::Lend(Lend { table: 16, records: 65_536, widths }));
    steps.push(Step::Direct { slot: 0, part: case.part.clone() });
    steps
}
