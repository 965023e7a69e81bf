//! How the command ends: the exit statuses, what it prints, and refusals with the way out.

use std::fmt;
use std::io::{self, Write};
use std::process::ExitCode;

use anyhow::{Result, anyhow};
use ashlarkin::Refusal;

/// What the command says to the shell.
#[derive(Clone, Copy, Debug, PartialEq)]
pub enum Exit {
    Done = 0,
    /// Something was refused by number, couldn't be read or written, or (of `compare`) differed.
    Failed = 1,
    Usage = 2,
}

impl From<Exit> for ExitCode {
    fn from(exit: Exit) -> ExitCode {
        ExitCode::from(exit as u8)
    }
}

/// For what no capture can bring about: rows are reset, 28-bit references can't leave the range in 160 lines, and a
/// column is judged with the command line.
const REPORT: &str = "a fault of ashlarkin: report it with the capture";

/// What to do about a refusal.
fn way_out(refusal: Refusal) -> &'static str {
    match refusal {
        Refusal::Length => "make the capture again, whole",
        Refusal::Mode => "make the capture in one of the modes 0 to 5",
        Refusal::Brightness => "give --reading H, which counts it as 16",
        Refusal::Page => "give an address of 0x05000000 to 0x07ffffff",
        Refusal::OddAddress => "give the even address below or above it",
        Refusal::Reading
        | Refusal::Line
        | Refusal::Reference
        | Refusal::Entry
        | Refusal::Column
        | Refusal::Unknown(_) => REPORT,
    }
}

/// A refusal: the number, the line where it was a draw's, and what was found.
#[derive(Debug)]
pub struct Refused {
    pub refusal: Refusal,
    pub line: Option<u32>,
    pub found: String,
}

impl fmt::Display for Refused {
    fn fmt(&self, f: &mut fmt::Formatter) -> fmt::Result {
        if let Some(line) = self.line {
            write!(f, "line {line}: ")?;
        }
        write!(f, "{} (refusal {}); {}", self.found, self.refusal.number(), way_out(self.refusal))
    }
}

impl std::error::Error for Refused {}

/// Ends a command that was understood.
pub fn after(result: Result<Exit>) -> ExitCode {
    let exit = result.unwrap_or_else(|error| {
        complain(&error);
        Exit::Failed
    });
    exit.into()
}

/// Ends a command line that clap answered itself: help and version are no failures.
pub fn after_usage(answer: &clap::Error) -> ExitCode {
    // A closed pipe is the reader's choice.
    let _ = answer.print();
    if answer.use_stderr() { Exit::Usage.into() } else { Exit::Done.into() }
}

/// An error, as one line on stderr.
pub fn complain(error: &anyhow::Error) {
    // Where stderr is full, the status still tells.
    let _ = writeln!(io::stderr(), "{}", one_line(error));
}

/// A result, as a line on stdout. A reader that has gone away has read enough.
pub fn say(text: &str) -> Result<()> {
    match writeln!(io::stdout(), "{text}") {
        Err(error) if error.kind() != io::ErrorKind::BrokenPipe => {
            Err(anyhow!("standard output: can't be written: {error}; give it a place with room"))
        }
        _ => Ok(()),
    }
}

/// A path may hold any character, and an error is one line.
pub fn one_line(error: &anyhow::Error) -> String {
    let escape = |c: char| {
        if c.is_control() { c.escape_default().to_string() } else { c.to_string() }
    };
    format!("{error:#}").chars().map(escape).collect()
}

#[cfg(test)]
mod tests {
    use super::*;

    #[test]
    fn an_error_is_one_line() {
        assert_eq!(one_line(&anyhow!("caps/a\nb\u{1b}[2J: é")), "caps/a\\nb\\u{1b}[2J: é");
    }
}
