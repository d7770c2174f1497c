//! A script from standard input, as a program runs it.

use std::fmt::Display;
use std::fs::File;
use std::io::{self, BufReader, LineWriter, Write};
use std::os::fd::AsFd;
use std::process::ExitCode;

use super::{Backend, Replay, Stopped};

/// Runs the script on standard input. Status 0, or 1 and standard error says what stopped it.
pub fn standard(program: &str, backend: impl Backend) -> ExitCode {
    match run(backend) {
        Ok(()) => ExitCode::SUCCESS,
        Err(stopped) => {
            complain(program, stopped);
            ExitCode::FAILURE
        }
    }
}

/// Says what is wrong, in one line. Where standard error can't be written, the status says it.
pub fn complain(program: &str, what: impl Display) {
    let _ = writeln!(io::stderr(), "{program}: {what}");
}

fn run(backend: impl Backend) -> Result<(), Stopped> {
    let script = file(io::stdin()).map_err(Stopped::Read)?;
    let out = file(io::stdout()).map_err(Stopped::Write)?;
    Replay::new(backend).run(BufReader::new(script), LineWriter::new(out))
}

/// A standard stream as a file; the stream itself hides that it isn't open for what is asked.
fn file(stream: impl AsFd) -> io::Result<File> {
    Ok(stream.as_fd().try_clone_to_owned()?.into())
}
