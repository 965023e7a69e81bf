//! Differential runs: the proved library and the oracle on the same generated cases, byte for byte.

mod bus;
mod flip;
mod kept;
mod reasons;
mod records;
mod tally;
mod work;
mod wrong;

use std::path::Path;
use std::sync::atomic::{AtomicU64, Ordering};
use std::time::Instant;

use anyhow::{Result, bail};
use ashlarkin::{READING_H, READING_R};
use ashlarkin_oracle::cases::{Cases, SCENE_CASES};
use clap::ValueEnum;
use indicatif::ParallelProgressIterator;
use rayon::prelude::*;

use crate::exit::{Exit, say};
use crate::output;
pub use flip::Flip;
use kept::Kept;
use tally::Tally;
pub use work::input;
use work::{Given, Library, Oracle, Work, answer, difference};
use wrong::Wrong;
pub use wrong::WrongRule;

/// Which draws of the cases are compared.
#[derive(Clone, Copy, PartialEq, ValueEnum)]
pub enum Readings {
    /// Those under reading R
    #[value(name = "R")]
    R,
    /// Those under reading H
    #[value(name = "H")]
    H,
    /// All of them
    #[value(name = "both")]
    Both,
}

impl Readings {
    /// A reading that is neither is refused, and is compared under each.
    fn take(self, reading: u32) -> bool {
        match self {
            Readings::R => reading != READING_H,
            Readings::H => reading != READING_R,
            Readings::Both => true,
        }
    }
}

/// What is compared.
#[derive(Clone, Copy)]
pub struct Plan {
    pub cases: u64,
    pub seed: u64,
    pub readings: Readings,
    pub planted: Planted,
}

/// What is made wrong in the library, for tests.
#[derive(Clone, Copy, Default)]
pub struct Planted {
    pub flip: Option<Flip>,
    pub rule: Option<WrongRule>,
}

/// Compares the cases of a plan. The first difference is kept in a file.
pub fn run(plan: &Plan, keep: &Path) -> Result<Exit> {
    // First of all, so that a run that ends badly can be had again.
    say(&format!("seed {}, {} cases", plan.seed, plan.cases))?;
    let start = Instant::now();
    let (tally, first) = search(plan);
    if let Some(kept) = first {
        kept.write(keep)?;
        bail!("{}; kept: see it again with `ashlarkin compare --replay {}`", kept.difference, keep.display());
    }
    say(&tally.text(start.elapsed()))?;
    Ok(Exit::Done)
}

/// Compares on all cores. The difference given is that of the lowest case, whichever thread is first.
fn search(plan: &Plan) -> (Tally, Option<Kept>) {
    let lowest = AtomicU64::new(u64::MAX);
    // Cases that share video memories stay together.
    let blocks = plan.cases.div_ceil(SCENE_CASES);
    let compare = |sides: &mut Sides, block: u64| {
        let first = block * SCENE_CASES;
        // A block after a known difference has no lower one.
        if first > lowest.load(Ordering::Relaxed) {
            return (Tally::default(), None);
        }
        let (tally, difference) = sides.block(plan, first..plan.cases.min(first + SCENE_CASES));
        if let Some(found) = &difference {
            lowest.fetch_min(found.case, Ordering::Relaxed);
        }
        (tally, difference)
    };
    let join = |(tally, a): (Tally, Option<Kept>), (other, b): (Tally, Option<Kept>)| {
        let first = [a, b].into_iter().flatten().min_by_key(|kept| kept.case);
        (tally.with(&other), first)
    };
    let bar = output::progress_bar(blocks);
    let all = (0..blocks).into_par_iter().progress_with(bar.clone()).map_init(|| Sides::new(plan.seed), compare);
    let found = all.reduce(Default::default, join);
    bar.finish_and_clear();
    found
}

/// Both sides and the generator, a set for each thread.
struct Sides {
    cases: Cases,
    oracle: Oracle,
}

impl Sides {
    fn new(seed: u64) -> Sides {
        Sides { cases: Cases::new(seed), oracle: Oracle::default() }
    }

    /// Compares cases up to the first difference.
    fn block(&mut self, plan: &Plan, indexes: std::ops::Range<u64>) -> (Tally, Option<Kept>) {
        let mut tally = Tally::default();
        for index in indexes {
            for mut work in Work::of(&mut self.cases, plan.seed, index) {
                if let Some(draws) = work.draws() {
                    draws.retain(|draw| plan.readings.take(draw.reading));
                }
                let (library, oracle) = both(&work, index, &mut self.oracle, plan.planted);
                tally.count(&work, &oracle);
                if let Some((at, parts)) = difference(&library, &oracle) {
                    let difference = place(plan.seed, index, &work, at, &parts);
                    return (tally, Some(Kept { difference, seed: plan.seed, case: index, work }));
                }
            }
        }
        (tally, None)
    }
}

fn both(work: &Work, index: u64, oracle: &mut Oracle, planted: Planted) -> (Vec<Given>, Vec<Given>) {
    let mut library = match planted.rule {
        None => work.run(&mut Library),
        Some(rule) => work.run(&mut Wrong(rule)),
    };
    if let Some(flip) = planted.flip {
        flip.change(work, index, &mut library);
    }
    (library, work.run(oracle))
}

/// Where two sides part, as a line.
fn place(seed: u64, index: u64, work: &Work, at: usize, parts: &str) -> String {
    format!("seed {seed}, case {index}, {}: library and oracle part: {parts}", work.call(at))
}

/// Runs a kept difference again and shows what each side gives.
pub fn replay(path: &Path, planted: Planted) -> Result<Exit> {
    let Kept { seed, case, work, .. } = Kept::read(path)?;
    let (library, oracle) = both(&work, case, &mut Oracle::default(), planted);
    for (at, (library, oracle)) in library.iter().zip(&oracle).enumerate() {
        let (ours, theirs) = (answer(&library.answer), answer(&oracle.answer));
        let verdict = if library == oracle { "the same bytes" } else { "another answer or other bytes" };
        say(&format!("{}: library {ours}, oracle {theirs}: {verdict}", work.call(at)))?;
    }
    if let Some((at, parts)) = difference(&library, &oracle) {
        bail!("{}: {}", path.display(), place(seed, case, &work, at, &parts));
    }
    say(&format!("{}: seed {seed}, case {case}: no difference", path.display()))?;
    Ok(Exit::Done)
}
