//! A batch: every capture below a folder, drawn on all cores.

use std::collections::HashSet;
use std::fs;
use std::path::{Path, PathBuf};
use std::time::Instant;

use anyhow::{Context, Result, anyhow, ensure};
use indicatif::ParallelProgressIterator;
use rayon::prelude::*;
use serde_json::{Value, json};

use crate::capture;
use crate::exit::{Exit, Refused, complain, one_line, say};
use crate::find::{self, Found};
use crate::frame::{self, Style};
use crate::output;

const WAY_OUT: &str = "give -o a folder that can be written";

pub struct Options {
    pub style: Style,
    /// How many threads; none says one a core.
    pub jobs: Option<usize>,
    pub json: bool,
}

/// What became of one capture.
struct Outcome {
    capture: PathBuf,
    /// The frame's path, or why there is none.
    frame: Result<PathBuf>,
}

impl Outcome {
    /// For other programs: always `capture` and `drawn`, then `frame`, or `error` and the refusal if it was one.
    fn json(&self) -> Value {
        let capture = self.capture.to_string_lossy();
        let error = match &self.frame {
            Ok(frame) => return json!({ "capture": capture, "drawn": true, "frame": frame.to_string_lossy() }),
            Err(error) => error,
        };
        let mut object = json!({ "capture": capture, "drawn": false, "error": one_line(error) });
        if let Some(Refused { refusal, line, .. }) = error.downcast_ref() {
            object["refusal"] = json!({ "number": refusal.number(), "meaning": refusal.meaning(), "line": line });
        }
        object
    }
}

pub fn run(folder: &Path, out: &Path, options: &Options) -> Result<Exit> {
    let start = Instant::now();
    check_folder(folder)?;
    let tree = find::captures(folder, out);
    let found = tree.captures.len() + tree.unreadable.len();
    ensure!(found > 0, "{}: no capture below it, expected one or more; give their folder", folder.display());
    fs::create_dir_all(out)
        .map_err(|error| anyhow!("can't be made: {error}; {WAY_OUT}"))
        .with_context(|| out.display().to_string())?;
    let mut outcomes = draw_all(&tree.captures, out, options)?;
    outcomes.extend(tree.unreadable.into_iter().map(|(capture, error)| Outcome { capture, frame: Err(error) }));
    report(&outcomes, out, options.json, start)
}

fn check_folder(folder: &Path) -> Result<()> {
    const EXPECTED: &str = "expected a folder with captures below it";
    let named = || folder.display().to_string();
    let found = fs::metadata(folder)
        .map_err(|error| anyhow!("can't be read: {error}, {EXPECTED}; give the path of one"))
        .with_context(named)?;
    ensure!(found.is_dir(), "{}: not a folder, {EXPECTED}; draw one capture with `ashlarkin frame`", named());
    Ok(())
}

/// Draws on all threads; the outcomes stand in the order of the captures.
fn draw_all(captures: &[Found], out: &Path, options: &Options) -> Result<Vec<Outcome>> {
    let inputs: HashSet<PathBuf> = captures.iter().flat_map(|found| capture::files(&found.path)).collect();
    let draw = |found: &Found| Outcome {
        capture: found.path.clone(),
        frame: draw_one(found, &out.join(&found.frame), options.style, &inputs),
    };
    let threads = rayon::ThreadPoolBuilder::new().num_threads(options.jobs.unwrap_or(0)).build();
    let threads = threads.map_err(|error| anyhow!("threads can't be started: {error}; give --jobs a lower number"))?;
    let bar = output::progress_bar(captures.len() as u64);
    let outcomes = threads.install(|| captures.par_iter().progress_with(bar.clone()).map(draw).collect());
    bar.finish_and_clear();
    Ok(outcomes)
}

fn draw_one(found: &Found, path: &Path, style: Style, inputs: &HashSet<PathBuf>) -> Result<PathBuf> {
    let named = || path.display().to_string();
    let own = fs::canonicalize(path).is_ok_and(|path| inputs.contains(&path));
    ensure!(!own, "{}: a file of a capture, which the frame would replace; give -o another folder", named());
    let png = frame::render(&found.path, style)?;
    let folder = path.parent().unwrap_or(path);
    fs::create_dir_all(folder)
        .map_err(|error| anyhow!("its folder can't be made: {error}; {WAY_OUT}"))
        .with_context(named)?;
    output::write(path, &png, WAY_OUT).with_context(named)?;
    Ok(path.to_owned())
}

/// A line for each failure, then the summary.
fn report(outcomes: &[Outcome], out: &Path, json: bool, start: Instant) -> Result<Exit> {
    for outcome in outcomes {
        if let Err(error) = &outcome.frame {
            complain(error);
        }
        if json {
            say(&outcome.json().to_string())?;
        }
    }
    let failed = outcomes.iter().filter(|outcome| outcome.frame.is_err()).count();
    let (all, drawn) = (outcomes.len(), outcomes.len() - failed);
    let seconds = start.elapsed().as_secs_f64();
    if json {
        let summary = json!({ "captures": all, "drawn": drawn, "failed": failed, "seconds": seconds });
        say(&json!({ "summary": summary }).to_string())?;
    } else {
        say(&format!("{all} captures: {drawn} drawn, {failed} failed; frames in {} ({seconds:.2} s)", out.display()))?;
    }
    Ok(if failed == 0 { Exit::Done } else { Exit::Failed })
}
