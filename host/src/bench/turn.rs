//! Turns: the library and the oracle draw the same lines, one after the other, on the same clock.
//!
//! The machine may be busy with other things, so the two take turns every few hundred microseconds, and the time of a
//! turn is the median over many rounds: a turn that was interrupted doesn't count. The oracle's memory is loaded before
//! its clock starts, since an emulator has it in place, and its input isn't judged; the library's is.

use std::hint::black_box;
use std::time::{Duration, Instant};

use anyhow::{Result, bail};
use ashlarkin::OUTPUT_LEN;
use ashlarkin_oracle::cases::{Draw, reset_row};
use ashlarkin_oracle::{Answer, Oracle};
use serde_json::{Value, json};

use crate::compare;

/// The lines of a turn: a generated case as often, or as many lines of a frame.
pub const TURN_LINES: usize = 16;
const ROUNDS_MIN: usize = 5;

/// Lines that share their memory, drawn by one side and then by the other.
pub struct Turn {
    /// Memory and registers.
    draw: Draw,
    /// Line numbers with their references.
    lines: Vec<(u32, [i32; 4])>,
}

/// Turns that are measured together, and their name.
pub struct Set {
    pub name: String,
    pub turns: Vec<Turn>,
}

/// What was measured of a set.
pub struct Row {
    pub name: String,
    /// Lines a second.
    pub library: f64,
    pub oracle: f64,
}

impl Row {
    pub fn ratio(&self) -> f64 {
        self.library / self.oracle
    }

    pub fn text(&self) -> String {
        format!("{:<32}{:>12.0}{:>12.0}{:>8.2}", self.name, self.library, self.oracle, self.ratio())
    }

    pub fn json(&self) -> Value {
        let Row { name, library, oracle } = self;
        json!({ "name": name, "library": library, "oracle": oracle, "ratio": self.ratio() })
    }
}

/// The heading of rows, as wide as they are.
pub fn heading(name: &str) -> String {
    format!("{name:<32}{:>12}{:>12}{:>8}", "library", "oracle", "ratio")
}

impl Set {
    /// Takes rounds until the time is up.
    pub fn measure(&self, time: Duration) -> Result<Row> {
        let (mut oracle, start) = (Oracle::new(), Instant::now());
        // Of each turn the times of its rounds, in seconds.
        let (mut ours, mut theirs) = (vec![vec![]; self.turns.len()], vec![vec![]; self.turns.len()]);
        let mut rounds = 0;
        while rounds < ROUNDS_MIN || start.elapsed() < time {
            for (at, turn) in self.turns.iter().enumerate() {
                // Who is first changes from turn to turn and from round to round.
                let [library, oracle] = turn.time(&mut oracle, (at + rounds) % 2 == 0)?;
                ours[at].push(library.as_secs_f64());
                theirs[at].push(oracle.as_secs_f64());
            }
            rounds += 1;
        }
        let lines: usize = self.turns.iter().map(|turn| turn.lines.len()).sum();
        let rate = |times: Vec<Vec<f64>>| lines as f64 / times.into_iter().map(median).sum::<f64>();
        Ok(Row { name: self.name.clone(), library: rate(ours), oracle: rate(theirs) })
    }
}

/// What a draw writes.
#[derive(PartialEq)]
struct Lent {
    entries: Vec<u8>,
    output: Vec<u8>,
}

impl Turn {
    pub fn new(draw: Draw, lines: Vec<(u32, [i32; 4])>) -> Turn {
        Turn { draw, lines }
    }

    /// The draw's own line, as often as a turn has lines.
    pub fn of_one_line(draw: Draw) -> Turn {
        let lines = vec![(draw.line, draw.references); TURN_LINES];
        Turn { draw, lines }
    }

    /// The times of the library and of the oracle.
    fn time(&self, oracle: &mut Oracle, library_first: bool) -> Result<[Duration; 2]> {
        let (ours, theirs) = (compare::input(&self.draw), self.draw.input());
        oracle.load(theirs.vram, theirs.palette, theirs.oam);
        let library = |line, references, lent: &mut Lent| {
            let input = ashlarkin::Input { line, references, ..ours };
            ashlarkin::draw(&input, &mut lent.entries, &mut lent.output).is_ok()
        };
        let oracle = |line, references, lent: &mut Lent| {
            let input = ashlarkin_oracle::Input { line, references, ..theirs };
            oracle.draw_loaded(&input, &mut lent.entries, &mut lent.output) == Answer::Number(0)
        };
        let [library, oracle] = if library_first {
            let first = self.draw_all(library);
            [first, self.draw_all(oracle)]
        } else {
            let first = self.draw_all(oracle);
            [self.draw_all(library), first]
        };
        match [library, oracle] {
            [Some((ours, lent)), Some((theirs, other))] if lent == other => Ok([ours, theirs]),
            _ => bail!("library and oracle part on an input of the benchmark; look for it with `ashlarkin compare`"),
        }
    }

    /// Draws the lines, each over reset entries: how long it took, and what the last one wrote. None where one failed.
    fn draw_all(&self, mut draw: impl FnMut(u32, [i32; 4], &mut Lent) -> bool) -> Option<(Duration, Lent)> {
        let reset = reset_row();
        let mut lent = Lent { entries: reset.clone(), output: vec![0; OUTPUT_LEN] };
        // The first draw brings memory and code into the caches, for either side.
        let (line, references) = *self.lines.first()?;
        let mut drawn = draw(line, references, &mut lent);
        let start = Instant::now();
        for &(line, references) in &self.lines {
            lent.entries.copy_from_slice(&reset);
            drawn &= draw(line, references, black_box(&mut lent));
        }
        let time = start.elapsed();
        drawn.then_some((time, lent))
    }
}

pub fn median(mut values: Vec<f64>) -> f64 {
    values.sort_by(f64::total_cmp);
    values.get(values.len() / 2).copied().unwrap_or(f64::NAN)
}
