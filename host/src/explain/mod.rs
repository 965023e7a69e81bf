//! Why a pixel of a frame has its colour: a paragraph and a table for people, JSON for programs.

mod json;
mod names;
mod sum;
mod table;
mod words;

use std::env;
use std::io::{self, IsTerminal};
use std::path::Path;

use anyhow::{Context, Result};
use ashlarkin::{ENTRIES_LEN, HEIGHT, Input, Reason, Refusal, WIDTH};

use crate::capture::Capture;
use crate::exit::{Exit, say};
use crate::frame::{self, Reading};

/// A column and a line of the picture, counted from 0.
#[derive(Clone, Copy, Debug, PartialEq)]
pub struct Place {
    column: u32,
    line: u32,
}

/// What is to be explained, and to whom.
pub enum Asked {
    /// One place, to people.
    Text(Place),
    /// One place, to programs.
    Json(Place),
    /// Every column of a line, to programs.
    Line(u32),
}

impl Asked {
    fn line(&self) -> u32 {
        match self {
            Asked::Text(place) | Asked::Json(place) => place.line,
            Asked::Line(line) => *line,
        }
    }
}

/// A place, and why the frame has its colour there.
struct Explained {
    place: Place,
    reading: Reading,
    reason: Reason,
}

pub fn run(path: &Path, asked: &Asked, reading: Reading) -> Result<Exit> {
    let capture = Capture::read(path)?;
    say(&answer(&capture, asked, reading).with_context(|| path.display().to_string())?)?;
    Ok(Exit::Done)
}

fn answer(capture: &Capture, asked: &Asked, reading: Reading) -> Result<String> {
    let input = line_input(capture, reading, asked.line())?;
    let explained = |column| Explained::of(&input, column, reading);
    match asked {
        Asked::Text(place) => Ok(explained(place.column)?.text()),
        Asked::Json(place) => explained(place.column)?.json(),
        Asked::Line(_) => {
            let columns = (0..WIDTH as u32).map(|column| explained(column)?.json());
            Ok(columns.collect::<Result<Vec<String>>>()?.join("\n"))
        }
    }
}

/// What the frame's draw of this line reads, its references stepped from line 0 on.
fn line_input(capture: &Capture, reading: Reading, line: u32) -> Result<Input<'_>> {
    let inputs: Vec<Input> = frame::lines(capture, reading).take(line as usize + 1).collect::<Result<_>>()?;
    Ok(inputs[line as usize])
}

impl Explained {
    fn of(input: &Input, column: u32, reading: Reading) -> Result<Explained> {
        let reason = reason(input, column).map_err(|refusal| frame::refused(refusal, input))?;
        Ok(Explained { place: Place { column, line: input.line }, reading, reason })
    }

    fn text(&self) -> String {
        format!("{}\n\n{}", words::paragraph(self), table::facts(self, has_colours()))
    }
}

/// Over a row of reset entries, as `frame` draws each line: so the pixel is that of its picture.
fn reason(input: &Input, column: u32) -> Result<Reason, Refusal> {
    let mut entries = [0; ENTRIES_LEN];
    ashlarkin::reset(&mut entries)?;
    ashlarkin::explain(input, &entries, column)
}

/// Whether colours can be shown: on a terminal, unless the user wants none (no-color.org).
fn has_colours() -> bool {
    io::stdout().is_terminal() && env::var_os("NO_COLOR").is_none_or(|value| value.is_empty())
}

impl Place {
    /// Reads a place of the command line: `X,Y`.
    pub fn parse(text: &str) -> Result<Place, String> {
        const EXPECTED: &str = "no comma, expected a column 0 to 239, a comma and a line 0 to 159";
        let (column, line) = text.split_once(',').ok_or(EXPECTED)?;
        Ok(Place { column: number("column", column, WIDTH as u32)?, line: parse_line(line)? })
    }
}

/// Reads a line of the command line.
pub fn parse_line(text: &str) -> Result<u32, String> {
    number("line", text, HEIGHT)
}

fn number(what: &str, text: &str, end: u32) -> Result<u32, String> {
    let number = text.trim().parse().ok().filter(|number| *number < end);
    number.ok_or_else(|| format!("{what} {text}, expected 0 to {}", end - 1))
}

#[cfg(test)]
mod tests {
    use super::*;

    #[test]
    fn a_place_is_two_numbers_in_the_picture() {
        let place = |text| Place::parse(text).map(|Place { column, line }| (column, line));
        assert_eq!(place("0,0"), Ok((0, 0)));
        assert_eq!(place("239,159"), Ok((239, 159)));
        assert_eq!(place("3, 5"), Ok((3, 5)));
        for (text, words) in [
            ("240,0", "column 240, expected 0 to 239"),
            ("3,160", "line 160, expected 0 to 159"),
            ("-1,0", "column -1, expected 0 to 239"),
            ("99999999999,0", "column 99999999999, expected 0 to 239"),
            ("a,b", "column a, expected 0 to 239"),
            ("3,", "line , expected 0 to 159"),
            ("1,2,3", "line 2,3, expected 0 to 159"),
            ("3", "no comma, expected a column 0 to 239, a comma and a line 0 to 159"),
        ] {
            assert_eq!(place(text), Err(words.to_owned()));
        }
    }
}
