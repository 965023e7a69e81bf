//! Lines a second of the proved library and of the oracle: the same inputs, the same driver, bytes in and bytes out.

mod growth;
mod turn;

use std::hint::black_box;
use std::path::PathBuf;
use std::process::Command;
use std::time::{Duration, Instant};

use anyhow::{Context, Result, ensure};
use ashlarkin::{ENTRIES_LEN, HEIGHT, Memories, OAM_LEN, PALETTE_LEN, WIDTH};
use ashlarkin_oracle::cases::{Cases, Draw, Kind};
use serde_json::{Value, json};

use crate::capture::{Capture, VRAM_USED};
use crate::exit::{Exit, say};
use crate::frame::{self, Reading};
use crate::output;
use growth::Series;
use turn::{Row, Set, TURN_LINES, Turn, heading, median};

const SCENE: &[u8] = include_bytes!("../../../samples/scene/capture.state.png");

const SEED: u64 = 1;
const MODES: u16 = 6;
/// How many halfwords the bus reaches.
const HALFWORDS: usize = (VRAM_USED + PALETTE_LEN + OAM_LEN) / 2;
/// Generated cases for each mode.
const CASES: usize = 48;

/// What the command line asks for.
pub struct Options {
    pub seconds: f64,
    /// Of the sets and series only those whose name has this in it.
    pub only: Option<String>,
    pub json: bool,
    /// Where the JSON goes, too.
    pub save: Option<PathBuf>,
}

impl Options {
    fn wants(&self, name: &str) -> bool {
        self.only.as_ref().is_none_or(|only| name.contains(only))
    }
}

/// All that was measured.
struct Report {
    rows: Vec<Row>,
    growth: Vec<(&'static str, Vec<Row>)>,
    /// Left out where only some sets are measured.
    cost: Option<Cost>,
}

/// What one frame of the sample scene costs, in milliseconds.
struct Cost {
    read: f64,
    draw: f64,
    png: f64,
    /// Every column explained; the Rust has no such thing to be timed against.
    reasons: f64,
    /// Its memory built from zeros, a store for each halfword that the bus reaches.
    stores: f64,
    process: f64,
}

pub fn run(options: &Options) -> Result<Exit> {
    let mut sets = sets()?;
    sets.retain(|set| options.wants(&set.name));
    let mut series = growth::series(SEED);
    series.retain(|series| options.wants(series.name));
    ensure!(!sets.is_empty() || !series.is_empty(), "no set has that in its name; leave --only out to see them all");
    let report = Report::measure(&sets, &series, options)?;
    if let Some(path) = &options.save {
        output::write(path, report.json().as_bytes(), "name another file")
            .with_context(|| path.display().to_string())?;
    }
    say(&if options.json { report.json() } else { report.text() })?;
    Ok(Exit::Done)
}

/// The modes and the sample scene.
fn sets() -> Result<Vec<Set>> {
    let mut cases = Cases::new(SEED);
    let mode = |mode| Set { name: format!("mode {mode}"), turns: turns_of_mode(&mut cases, mode) };
    let mut sets: Vec<Set> = (0..MODES).map(mode).collect();
    sets.push(Set { name: "sample scene".into(), turns: turns_of_scene()? });
    Ok(sets)
}

/// The first generated cases that draw in a mode under reading R; H has no Rust of its own to be timed against.
fn turns_of_mode(cases: &mut Cases, mode: u16) -> Vec<Turn> {
    let indexes = (0..).filter(|index| Kind::of(*index) == Kind::AcceptedR);
    let draws = indexes.map(|index| cases.case(index).draws.remove(0));
    let shown = |draw: &Draw| draw.registers[0] & 0x80 == 0 && u16::from(draw.registers[0] & 7) == mode;
    draws.filter(shown).take(CASES).map(Turn::of_one_line).collect()
}

/// The sample's frame.
fn turns_of_scene() -> Result<Vec<Turn>> {
    let capture = Capture::of_state(SCENE)?;
    let inputs: Vec<_> = frame::lines(&capture, Reading::R).collect::<Result<_>>()?;
    let lines: Vec<(u32, [i32; 4])> = inputs.iter().map(|input| (input.line, input.references)).collect();
    let draw = Draw {
        reading: Reading::R as u32,
        line: 0,
        references: [0; 4],
        vram_len: capture.vram.len(),
        vram: capture.vram.into(),
        palette: capture.palette,
        oam: capture.oam,
        registers: capture.registers,
    };
    Ok(lines.chunks(TURN_LINES).map(|lines| Turn::new(draw.clone(), lines.to_vec())).collect())
}

/// What a frame costs, and what the process around it costs.
fn cost() -> Result<Cost> {
    const TIMES: usize = 20;
    // Each is much longer than a frame's drawing.
    const REASONS_TIMES: usize = 5;
    let capture = Capture::of_state(SCENE)?;
    let frame = frame::draw(&capture, Reading::R)?;
    let itself = std::env::current_exe()?;
    Ok(Cost {
        read: milliseconds(TIMES, || Capture::of_state(SCENE).map(drop))?,
        draw: milliseconds(TIMES, || frame::draw(&capture, Reading::R).map(drop))?,
        png: milliseconds(TIMES, || frame.png(1).map(drop))?,
        reasons: milliseconds(REASONS_TIMES, || explain_all(&capture))?,
        stores: milliseconds(TIMES, || build_all(&capture).map(|built| drop(black_box(built))))?,
        process: milliseconds(TIMES, || Ok(Command::new(&itself).arg("--version").output().map(drop)?))?,
    })
}

/// Explains every column of a frame, each line on reset entries.
fn explain_all(capture: &Capture) -> Result<()> {
    let mut entries = [0; ENTRIES_LEN];
    ashlarkin::reset(&mut entries)?;
    for input in frame::lines(capture, Reading::R) {
        let input = input?;
        for column in 0..WIDTH as u32 {
            black_box(ashlarkin::explain(&input, &entries, column)?);
        }
    }
    Ok(())
}

/// The halfwords that the bus reaches, each with its address.
fn halfwords(capture: &Capture) -> impl Iterator<Item = (u32, u16)> + '_ {
    let pages = [(0x0500_0000, &capture.palette), (0x0600_0000, &capture.vram), (0x0700_0000, &capture.oam)];
    pages.into_iter().flat_map(|(page, memory)| {
        let halves = memory[..memory.len().min(VRAM_USED)].chunks_exact(2);
        (page..).step_by(2).zip(halves.map(|half| u16::from_le_bytes([half[0], half[1]])))
    })
}

/// Builds the memory of a capture by stores.
fn build_all(capture: &Capture) -> Result<Capture> {
    let mut built = Capture::zeros(capture.registers.clone());
    let Capture { vram, palette, oam, .. } = &mut built;
    let mut memories = Memories { vram, palette, oam };
    for (address, value) in halfwords(capture) {
        ashlarkin::store16(address, value, &mut memories)?;
    }
    Ok(built)
}

/// The median time of one run.
fn milliseconds(times: usize, mut run: impl FnMut() -> Result<()>) -> Result<f64> {
    let mut time = || {
        let start = Instant::now();
        run()?;
        Ok(start.elapsed().as_secs_f64() * 1e3)
    };
    Ok(median((0..times).map(|_| time()).collect::<Result<_>>()?))
}

impl Report {
    /// Two thirds of the time go to the sets, the rest to the series.
    fn measure(sets: &[Set], series: &[Series], options: &Options) -> Result<Report> {
        let points: usize = series.iter().map(|series| series.points.len()).sum();
        let share = |part: f64, of: usize| Duration::from_secs_f64(options.seconds * part / of.max(1) as f64);
        let (set_time, point_time) = (share(2.0 / 3.0, sets.len()), share(1.0 / 3.0, points));
        let rows = |sets: &[Set], time| sets.iter().map(|set| set.measure(time)).collect::<Result<Vec<Row>>>();
        let growth = series.iter().map(|series| Ok((series.name, rows(&series.points, point_time)?)));
        Ok(Report {
            growth: growth.collect::<Result<_>>()?,
            cost: options.only.is_none().then(cost).transpose()?,
            rows: rows(sets, set_time)?,
        })
    }

    /// The row whose ratio is lowest, and the median of the ratios.
    fn summary(&self) -> Option<(&Row, f64)> {
        let lowest = self.rows.iter().min_by(|a, b| a.ratio().total_cmp(&b.ratio()))?;
        Some((lowest, median(self.rows.iter().map(Row::ratio).collect())))
    }

    /// The ratios stand last.
    fn text(&self) -> String {
        let mut lines = vec![];
        for (name, rows) in &self.growth {
            lines.push(heading(&format!("lines a second, {name}")));
            lines.extend(rows.iter().map(Row::text));
        }
        if let Some(Cost { read, draw, png, reasons, stores, process }) = self.cost {
            lines.push(format!(
                "a frame of the sample scene: {read:.2} ms read, {draw:.2} ms drawn, {png:.2} ms made a PNG"
            ));
            lines.push(format!("a frame of reasons: {reasons:.2} ms for {} columns", HEIGHT as usize * WIDTH));
            lines.push(format!("its memory built by the bus: {stores:.2} ms for {HALFWORDS} stores"));
            lines.push(format!("a process that draws nothing: {process:.2} ms"));
        }
        if let Some((lowest, middle)) = self.summary() {
            lines.push(heading("lines a second"));
            lines.extend(self.rows.iter().map(Row::text));
            lines.push(format!(
                "ratio: {middle:.2} in the middle, {:.2} at the lowest ({})",
                lowest.ratio(),
                lowest.name
            ));
        }
        lines.join("\n")
    }

    fn json(&self) -> String {
        let rows = |rows: &[Row]| rows.iter().map(Row::json).collect::<Vec<Value>>();
        let growth = self.growth.iter().map(|(name, points)| json!({ "name": name, "points": rows(points) }));
        let cost = |cost: &Cost| {
            let Cost { read, draw, png, reasons, stores, process } = cost;
            json!({
                "read_ms": read, "draw_ms": draw, "png_ms": png, "reasons_ms": reasons, "stores_ms": stores,
                "process_ms": process,
            })
        };
        let ratio = self.summary().map(|(lowest, middle)| json!({ "median": middle, "lowest": lowest.ratio() }));
        json!({
            "lines_per_second": rows(&self.rows),
            "growth": growth.collect::<Vec<Value>>(),
            "frame": self.cost.as_ref().map(cost),
            "ratio": ratio,
        })
        .to_string()
    }
}

#[cfg(test)]
mod tests {
    use super::*;

    #[test]
    fn what_is_built_is_the_capture() {
        let capture = Capture::of_state(SCENE).unwrap();
        assert_eq!(halfwords(&capture).count(), HALFWORDS);
        assert!(build_all(&capture).unwrap() == capture);
    }
}
