//! The scripts that docs/REPLAY.md works through: both hubs print what stands there.

use std::fs;
use std::path::Path;

use peer::replay::{Backend, Peer};

use crate::document::scripts;
use crate::scripts::printed;

/// Runs them on both hubs; the number of them, or what differs.
pub fn compare<B: Backend + Clone>(hub: &B, root: &Path) -> Result<usize, String> {
    let text = fs::read_to_string(root.join("docs/REPLAY.md"))
        .map_err(|error| format!("docs/REPLAY.md: {error}"))?;
    let scripts = scripts(&text);
    for (script, out) in &scripts {
        for (name, (got, why)) in [
            ("the hub", printed(hub.clone(), script.as_bytes())),
            ("the peer", printed(Peer, script.as_bytes())),
        ] {
            if got != out.as_bytes() || !why.is_empty() {
                let got = String::from_utf8_lossy(&got).into_owned();
                return Err(format!("docs/REPLAY.md: {script}{name} prints {got}{why}"));
            }
        }
    }
    if scripts.len() < 2 {
        return Err(format!("docs/REPLAY.md: only {} scripts", scripts.len()));
    }
    Ok(scripts.len())
}
