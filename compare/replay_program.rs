//! The program under test: a process for each capture.

use crate::random::Random;
use std::env;
use std::ffi::OsString;
use std::fmt;
use std::fs;
use std::io::{self, Write};
use std::os::fd::OwnedFd;
use std::os::unix::net::UnixDatagram;
use std::path::PathBuf;
use std::process::{Command, Output, Stdio};
use std::thread;

/// Where the build leaves it.
const PROGRAM: &str = "target/bin/replay";

pub struct Program {
    /// As it was named.
    pub name: OsString,
    path: PathBuf,
}

/// How a capture is handed in.
#[derive(Clone, Copy)]
pub enum Feeding {
    Whole,
    /// Each read brings one piece of 1 to `most` bytes.
    Pieces {
        most: usize,
        seed: u64,
    },
}

impl fmt::Display for Feeding {
    fn fmt(&self, f: &mut fmt::Formatter) -> fmt::Result {
        match self {
            Feeding::Whole => write!(f, "handed in whole"),
            Feeding::Pieces { most, seed } => {
                write!(f, "handed in by 1 to {most} bytes, seed {seed:#x}")
            }
        }
    }
}

impl Program {
    /// The program that REPLAY names, or that the build leaves.
    pub fn find() -> Result<Program, String> {
        let name = env::var_os("REPLAY").unwrap_or_else(|| PROGRAM.into());
        match fs::canonicalize(&name) {
            Ok(path) => Ok(Program { name, path }),
            Err(error) => Err(format!(
                "the program {name:?} is wanted: {error}\n\
                 `sh examples/replay.sh` builds {PROGRAM}; REPLAY in the environment names another"
            )),
        }
    }

    /// What it prints for a capture. An error is a failure to run it, or what it did
    /// beside printing.
    pub fn text(&self, capture: &[u8], feeding: Feeding) -> Result<String, String> {
        let output = self
            .run(capture, feeding)
            .map_err(|error| format!("{:?} could not be run: {error}\n", self.name))?;
        let [text, errors] = [output.stdout, output.stderr]
            .map(|bytes| String::from_utf8_lossy(&bytes).into_owned());
        if output.status.success() && errors.is_empty() {
            return Ok(text);
        }
        Err(format!(
            "{}, standard error {errors:?}, standard output\n{text}",
            output.status
        ))
    }

    /// The capture is written while the output is read: neither has to fit in a pipe.
    fn run(&self, capture: &[u8], feeding: Feeding) -> io::Result<Output> {
        let mut command = Command::new(&self.path);
        command.stdout(Stdio::piped()).stderr(Stdio::piped());
        match feeding {
            Feeding::Whole => {
                let mut child = command.stdin(Stdio::piped()).spawn()?;
                let mut input = child.stdin.take().expect("a pipe");
                thread::scope(|scope| {
                    // Fails if the program ends before it has read all.
                    scope.spawn(move || input.write_all(capture).is_ok());
                    child.wait_with_output()
                })
            }
            Feeding::Pieces { most, seed } => {
                let (input, end) = UnixDatagram::pair()?;
                let child = command.stdin(OwnedFd::from(end)).spawn()?;
                // With it goes our copy of the socket's other end.
                drop(command);
                thread::scope(|scope| {
                    scope.spawn(move || send(&input, capture, most, Random::new(seed)));
                    child.wait_with_output()
                })
            }
        }
    }
}

/// Sends a datagram for each piece, then empty ones, each of which is read as the end of
/// the input, until the program has ended. A read of a datagram loses what it has no room
/// for; the program has room for more than the largest piece.
fn send(input: &UnixDatagram, capture: &[u8], most: usize, mut random: Random) {
    let mut rest = capture;
    loop {
        let count = rest.len().min(1 + random.below(most));
        let (piece, behind) = rest.split_at(count);
        if input.send(piece).is_err() {
            return;
        }
        rest = behind;
    }
}
