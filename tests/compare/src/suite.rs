//! The tests, one after the other, and what they came to.

use std::io;
use std::path::{Path, PathBuf};
use std::time::Instant;

use peer::replay::Backend;
use replay::Proved;

use crate::codes::Codes;
use crate::difference::{differ, shrink, Difference, SCRIPT};
use crate::drained::Drained;
use crate::faults::{Broken, Fault, FAULTS};
use crate::progress::Progress;
use crate::repeat::Repeated;
use crate::stored::Counted;
use crate::swap::Swapped;
use crate::{documented, drained, parts, repeat, requests, scripts, stored, swap};

/// Seeds of the gate's requests; 400 steps each.
const REQUEST_SEEDS: u64 = 700;
/// Seeds of the gate's other tests.
const SCRIPT_SEEDS: u64 = 40;
const SWAP_SEEDS: u64 = 60;
const REPEAT_SEEDS: u64 = 60;
const STORED_SEEDS: u64 = 80;
const DRAINED_SEEDS: u64 = 180;
/// Fewer comparisons than this are too few.
const LEAST: u64 = 200_000;
/// Fewer swaps and repeats than this, of those that say something, are too few.
const LEAST_TOLD: u64 = 2_000;
/// Fewer of the rarer cases are too few.
const LEAST_RARE: u64 = 300;
/// Seeds in which a fault has to be found.
const FAULT_SEEDS: u64 = 4_000;

/// All tests over one hub.
pub struct Suite {
    hub: Proved,
    root: PathBuf,
    real: Vec<Vec<u8>>,
    passed: u32,
    failed: u32,
}

impl Suite {
    pub fn new(hub: Proved) -> io::Result<Self> {
        let root = Path::new(env!("CARGO_MANIFEST_DIR")).join("../..");
        let real = parts::real(&root)?;
        Ok(Self { hub, root, real, passed: 0, failed: 0 })
    }

    pub fn passed(&self) -> u32 {
        self.passed
    }

    pub fn failed(&self) -> u32 {
        self.failed
    }

    /// Counts one test and says what it came to.
    fn tell(&mut self, told: Result<String, String>, since: Instant) {
        let seconds = since.elapsed().as_secs_f64();
        match told {
            Ok(what) => {
                self.passed += 1;
                println!("{what} ({seconds:.1} s)");
            }
            Err(what) => {
                self.failed += 1;
                println!("FAILED {what} ({seconds:.1} s)");
            }
        }
    }

    /// A difference in words, its script left behind.
    fn reported(&self, difference: Difference) -> String {
        let steps = if differ(&self.hub, &difference.steps) {
            shrink(difference.steps.clone(), |steps| differ(&self.hub, steps))
        } else {
            difference.steps.clone()
        };
        let Difference { test, seed, ref what, .. } = difference;
        let left = match (Difference { steps, ..difference.clone() }).write(&self.root) {
            Ok(()) => format!("replay it with {SCRIPT}"),
            Err(error) => format!("no script: {error}"),
        };
        format!("{test}, seed {seed}: {what}; {left}")
    }

    /// Fixed seeds and counts.
    pub fn gate(&mut self) {
        let mut codes = Codes::default();
        self.rows();
        self.documented();
        self.scripts(1..=SCRIPT_SEEDS);
        self.parts(0..=parts::ROUND, &mut codes);
        self.requests(1..=REQUEST_SEEDS, &mut codes);
        self.histogram(&codes);
        self.swap(1..=SWAP_SEEDS);
        self.repeat(1..=REPEAT_SEEDS);
        self.stored(1..=STORED_SEEDS);
        self.drained(1..=DRAINED_SEEDS);
        self.faults();
    }

    fn rows(&mut self) {
        let since = Instant::now();
        let told = scripts::odd_lines(&self.hub);
        self.tell(told.map(|rows| format!("{rows} odd scripts print what they should")), since);
    }

    fn documented(&mut self) {
        let since = Instant::now();
        let told = documented::compare(&self.hub, &self.root);
        let told = told
            .map(|scripts| format!("{scripts} scripts of docs/REPLAY.md print what stands there"));
        self.tell(told, since);
    }

    fn scripts(&mut self, seeds: impl IntoIterator<Item = u64>) {
        let since = Instant::now();
        let ran: Result<usize, Difference> =
            seeds.into_iter().map(|seed| scripts::compare(&self.hub, seed)).sum();
        let told =
            ran.map(|scripts| format!("{scripts} scripts, most of them spoilt: same output"));
        let told = told.map_err(|difference| self.reported(difference));
        self.tell(told, since);
    }

    fn parts(&mut self, mut seeds: impl Iterator<Item = u64>, all: &mut Codes) {
        let since = Instant::now();
        let mut codes = Codes::default();
        let ran = seeds
            .try_for_each(|seed| parts::compare(&self.hub, seed, &self.real, &mut codes))
            .map_err(|difference| self.reported(difference));
        // Each is interpreted, checked, and checked at an increment.
        let parts = codes.total() / 3;
        let told = ran.and_then(|()| enough("parts", parts, LEAST)).map(|()| {
            format!("{parts} parts, interpreted and checked: same answers, states and record bytes")
        });
        all.join(&codes);
        self.tell(told, since);
    }

    fn requests(&mut self, mut seeds: impl Iterator<Item = u64>, all: &mut Codes) {
        let since = Instant::now();
        let mut codes = Codes::default();
        let ran = seeds
            .try_for_each(|seed| requests::compare(&self.hub, seed, requests::STEPS, &mut codes))
            .map_err(|difference| self.reported(difference));
        let requests = codes.total();
        let told = ran
            .and_then(|()| enough("requests", requests, LEAST))
            .and_then(|()| complete(&codes))
            .map(|()| format!("{requests} requests: same answers, tables, numbers and records"));
        all.join(&codes);
        self.tell(told, since);
    }

    fn histogram(&mut self, codes: &Codes) {
        let since = Instant::now();
        print!("answers by code\n{codes}");
        self.tell(
            complete(codes).map(|()| "every code of 0, 1, 10 to 30, 32 met".to_string()),
            since,
        );
    }

    fn swap(&mut self, seeds: impl IntoIterator<Item = u64>) {
        let since = Instant::now();
        let mut sum = Swapped::default();
        let ran = seeds.into_iter().try_for_each(|seed| {
            sum.join(swap::compare(&self.hub, seed)?);
            Ok(())
        });
        let Swapped { pairs, accepted, counted, drained } = sum;
        let told = ran
            .map_err(|difference| self.reported(difference))
            .and_then(|()| enough("swaps of two accepted requests", accepted, LEAST_TOLD))
            .and_then(|()| enough("swaps of opens and closes", counted, LEAST_RARE))
            .and_then(|()| enough("swaps with a take", drained, LEAST_RARE))
            .map(|()| {
                format!(
                    "{pairs} swaps, {accepted} of two accepted requests, {counted} of these of \
                     opens and closes, {drained} with a take: nothing differs"
                )
            });
        self.tell(told, since);
    }

    fn repeat(&mut self, seeds: impl IntoIterator<Item = u64>) {
        let since = Instant::now();
        let mut repeated = Repeated::default();
        let ran = seeds
            .into_iter()
            .try_for_each(|seed| repeat::compare(&self.hub, seed, &mut repeated))
            .map_err(|difference| self.reported(difference));
        let Repeated { answers, wrong } = repeated;
        let times: u64 = answers.values().sum();
        let told = ran
            .and_then(|()| enough("repeats", times, LEAST_TOLD))
            .and_then(|()| enough("repeats beside a wrong number", wrong, LEAST_TOLD))
            .and_then(|()| enough("kinds of acknowledgement", answers.len() as u64, 9))
            .map(|()| {
                format!(
                    "{times} repeats, {wrong} beside a wrong number, change nothing, answered \
                     {answers:?}"
                )
            });
        self.tell(told, since);
    }

    fn stored(&mut self, mut seeds: impl Iterator<Item = u64>) {
        let since = Instant::now();
        let mut counted = Counted::default();
        let ran = seeds
            .try_for_each(|seed| stored::compare(&self.hub, seed, &mut counted))
            .map_err(|difference| self.reported(difference));
        let Counted { requests, full, none } = counted;
        let told = ran
            .and_then(|()| enough("requests that leave all slots open", full, LEAST_RARE))
            .and_then(|()| enough("requests that leave none open", none, LEAST_RARE))
            .map(|()| {
                format!(
                    "{requests} requests from fresh starts, {full} leaving all slots open: the \
                     stored number is the count"
                )
            });
        self.tell(told, since);
    }

    fn drained(&mut self, mut seeds: impl Iterator<Item = u64>) {
        let since = Instant::now();
        let mut sum = Drained::default();
        let ran = seeds
            .try_for_each(|seed| drained::compare(&self.hub, seed, &mut sum))
            .map_err(|difference| self.reported(difference));
        let Drained { takes, beyond, resent } = sum;
        let told = ran
            .and_then(|()| enough("takes", takes, LEAST_RARE))
            .and_then(|()| enough("parts beyond an area", beyond, LEAST_RARE))
            .and_then(|()| enough("parts that had to wait for a take", resent, LEAST_RARE))
            .map(|()| {
                format!(
                    "{takes} takes, {beyond} parts beyond an area, {resent} that waited for a \
                     take: taken and held bytes are what the parts gave"
                )
            });
        self.tell(told, since);
    }

    /// Each fault is found, by the test that is to find it.
    fn faults(&mut self) {
        for (fault, name, test) in FAULTS {
            let since = Instant::now();
            let broken = Broken::new(self.hub.clone(), fault);
            let told = match found(&broken, test, &self.real) {
                Some(difference) => {
                    Ok(format!("{name}: found by {test}, seed {}", difference.seed))
                }
                None => Err(format!("{name}: not found by {test}")),
            };
            self.tell(told, since);
        }
    }

    /// Runs a hub with this fault, and shows what is reported; to find it is to fail.
    pub fn show(&mut self, fault: Fault) {
        let since = Instant::now();
        let broken = Broken::new(self.hub.clone(), fault);
        let test = FAULTS.iter().find(|row| row.0 == fault).map_or("", |row| row.2);
        let told = match found(&broken, test, &self.real) {
            None => Ok("no difference".to_string()),
            Some(mut difference) => {
                if differ(&broken, &difference.steps) {
                    difference.steps = shrink(difference.steps, |steps| differ(&broken, steps));
                }
                let left = difference.write(&self.root).is_ok();
                Err(format!("{} (script: {left})\n{}", difference.what, difference.script()))
            }
        };
        self.tell(told, since);
    }

    /// Goes on from a seed until the time is up, and says now and then where it stands.
    pub fn soak(&mut self, seconds: u64, seed: u64) {
        println!("seed {seed}");
        let mut progress = Progress::new(seconds);
        let mut codes = Codes::default();
        let mut rounds = 0;
        while progress.goes_on() && self.failed == 0 {
            match self.soaked(seed.wrapping_add(rounds), &mut codes) {
                Ok(()) => progress.tell(rounds + 1, codes.total()),
                Err(difference) => {
                    let told = self.reported(difference);
                    self.tell(Err(told), progress.since());
                }
            }
            rounds += 1;
        }
        print!("answers by code\n{codes}");
        if self.failed == 0 {
            let told = format!("{rounds} rounds, {} answers: the same", codes.total());
            self.tell(Ok(told), progress.since());
        }
    }

    /// One round of everything, on seeds of its own.
    fn soaked(&self, round: u64, codes: &mut Codes) -> Result<(), Difference> {
        let base = round.wrapping_mul(1_000);
        for seed in 0..400 {
            parts::compare(&self.hub, base.wrapping_add(seed), &self.real, codes)?;
        }
        requests::compare(&self.hub, round, requests::STEPS, codes)?;
        scripts::compare(&self.hub, round)?;
        swap::compare(&self.hub, round)?;
        stored::compare(&self.hub, round, &mut Counted::default())?;
        drained::compare(&self.hub, round, &mut Drained::default())?;
        repeat::compare(&self.hub, round, &mut Repeated::default())
    }
}

fn enough(what: &str, times: u64, least: u64) -> Result<(), String> {
    if times >= least {
        Ok(())
    } else {
        Err(format!("only {times} {what}, not {least}"))
    }
}

fn complete(codes: &Codes) -> Result<(), String> {
    match codes.missing() {
        missing if missing.is_empty() => Ok(()),
        missing => Err(format!("never answered: {missing:?}")),
    }
}

/// The first difference that a test sees in a hub.
fn found<B: Backend + Clone>(hub: &B, test: &str, real: &[Vec<u8>]) -> Option<Difference> {
    let mut codes = Codes::default();
    (1..=FAULT_SEEDS).find_map(|seed| {
        match test {
            "requests" => requests::compare(hub, seed, 100, &mut codes),
            "parts" => parts::compare(hub, seed, real, &mut codes),
            "swap" => swap::compare(hub, seed).map(drop),
            "stored" => stored::compare(hub, seed, &mut Counted::default()),
            "drained" => drained::compare(hub, seed, &mut Drained::default()),
            _ => repeat::compare(hub, seed, &mut Repeated::default()),
        }
        .err()
    })
}
