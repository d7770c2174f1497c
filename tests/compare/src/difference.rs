//! A difference, and the replay script that shows it.

use std::fmt::Write;
use std::fs;
use std::path::Path;

use peer::model::{AREA, SLOTS};
use peer::replay::{Backend, Peer, Replay};
use peer::script::Step;

/// The script of the first difference, for `build/replay` and `build/replay --peer`.
pub const SCRIPT: &str = "build/difference.replay";

/// Where two hubs, or two orders of one hub, stop being the same.
#[derive(Clone, Debug)]
pub struct Difference {
    /// The test that found it.
    pub test: &'static str,
    /// Its seed.
    pub seed: u64,
    /// What differs.
    pub what: String,
    /// What led to it.
    pub steps: Vec<Step>,
}

impl Difference {
    /// The steps as lines, and lines that show all memory after them.
    pub fn script(&self) -> String {
        let mut lines = format!("# {}, seed {}\n", self.test, self.seed);
        for line in self.what.lines() {
            let _ = writeln!(lines, "# {line}");
        }
        for step in &self.steps {
            let line = step.to_string();
            if Step::parse(&line).as_ref() != Ok(step) {
                let _ = writeln!(lines, "# no line can say this: {step:?}");
            } else {
                lines += &(line + "\n");
            }
        }
        let _ = writeln!(lines, "{}", Step::Stored);
        for slot in 0..SLOTS {
            let _ = writeln!(lines, "{}", Step::Show { slot });
            let _ = writeln!(lines, "{}", Step::Bytes { slot, from: 0, to: AREA });
        }
        lines
    }

    /// Leaves the script in [`SCRIPT`], below the folder of the repository.
    pub fn write(&self, root: &Path) -> std::io::Result<()> {
        fs::create_dir_all(root.join("build"))?;
        fs::write(root.join(SCRIPT), self.script())
    }
}

/// Whether a hub and the peer differ somewhere on these steps.
pub fn differ<B: Backend + Clone>(hub: &B, steps: &[Step]) -> bool {
    let (mut one, mut other) = (Replay::new(hub.clone()), Replay::new(Peer));
    let said = steps.iter().any(|step| one.step(step) != other.step(step));
    said || one.memory() != other.memory()
}

/// Leaves out what the difference doesn't need, first by halves, at last one step at a time.
pub fn shrink(mut steps: Vec<Step>, differs: impl Fn(&[Step]) -> bool) -> Vec<Step> {
    let mut size = steps.len().div_ceil(2);
    while size > 0 {
        let mut from = 0;
        while from < steps.len() {
            let to = (from + size).min(steps.len());
            let fewer = [&steps[..from], &steps[to..]].concat();
            if differs(&fewer) {
                steps = fewer;
            } else {
                from = to;
            }
        }
        size = if size == 1 { 0 } else { size.div_ceil(2) };
    }
    steps
}
