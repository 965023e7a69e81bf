//! Counts of a differential run.

use std::time::Duration;

use ashlarkin::{Reason, Refusal};
use ashlarkin_oracle::cases::Kind;
use ashlarkin_oracle::{Access, Answer};

use super::reasons::Said;
use super::work::{Given, Work};

const KINDS: [(Kind, &str); 4] = [
    (Kind::AcceptedR, "accepted under R"),
    (Kind::AcceptedH, "accepted under H"),
    (Kind::Faulty, "faulty"),
    (Kind::Chain, "chains on one row"),
];

const REGIONS: [&str; 5] = ["no windows", "window 0", "window 1", "object window", "outside"];
const EFFECTS: [&str; 5] = ["none", "sprite blend", "control blend", "white", "black"];

/// What is done on the bus.
const ACCESSES: [&str; 3] = ["reads", "byte stores", "halfword stores"];

/// By number 0 to 11; the last place is for anything else.
type Numbers = [u64; 13];

#[derive(Default)]
pub struct Tally {
    /// Draws by kind of case.
    kinds: [u64; KINDS.len()],
    draws: Numbers,
    steps: Numbers,
    resets: Numbers,
    record_draws: Numbers,
    record_steps: Numbers,
    /// Columns that were explained.
    columns: Numbers,
    regions: [u64; REGIONS.len()],
    effects: [u64; EFFECTS.len()],
    accesses: [Numbers; ACCESSES.len()],
}

impl Tally {
    /// Counts what the oracle gave.
    pub fn count(&mut self, work: &Work, given: &[Given]) {
        let numbers = match work {
            Work::Draws(_) => &mut self.draws,
            Work::Step { .. } => &mut self.steps,
            Work::Reset(_) => &mut self.resets,
            Work::RecordDraws(_) => &mut self.record_draws,
            Work::RecordStep(_) => &mut self.record_steps,
            Work::Reasons(_) => {
                return given.iter().flat_map(|given| &given.reasons).for_each(|said| self.explain(said));
            }
            Work::Bus(case) => {
                let calls = case.calls.iter().map(|call| call.access).zip(given);
                return calls.for_each(|(access, given)| self.accesses[kind(access)][place(&given.answer)] += 1);
            }
        };
        for Given { answer, .. } in given {
            numbers[place(answer)] += 1;
        }
        if let Work::Draws(case) = work {
            let place = KINDS.iter().position(|(kind, _)| *kind == case.kind);
            self.kinds[place.unwrap_or_default()] += given.len() as u64;
        }
    }

    /// Counts what the oracle's line says of a column.
    fn explain(&mut self, said: &Said) {
        let number = said.map_or_else(|refusal| refusal.number(), |_| 0);
        self.columns[place(&Answer::Number(number))] += 1;
        if let Ok(Reason::Shown(shown)) = said {
            self.regions[shown.region as usize] += 1;
            self.effects[shown.effect as usize] += 1;
        }
    }

    /// The sum of two.
    pub fn with(mut self, other: &Tally) -> Tally {
        add(&mut self.kinds, &other.kinds);
        add(&mut self.draws, &other.draws);
        add(&mut self.steps, &other.steps);
        add(&mut self.resets, &other.resets);
        add(&mut self.record_draws, &other.record_draws);
        add(&mut self.record_steps, &other.record_steps);
        add(&mut self.columns, &other.columns);
        add(&mut self.regions, &other.regions);
        add(&mut self.effects, &other.effects);
        self.accesses.iter_mut().zip(&other.accesses).for_each(|(numbers, other)| add(numbers, other));
        self
    }

    /// The counts in words.
    pub fn text(&self, time: Duration) -> String {
        let sum = |numbers: Numbers| numbers.iter().sum::<u64>();
        let [draws, steps, resets] = [self.draws, self.steps, self.resets].map(sum);
        let all = format!("{draws} draws, {steps} steps, {resets} resets");
        let mut lines = vec![format!("{all}: no difference between library and oracle")];
        lines.extend(KINDS.iter().zip(self.kinds).map(|((_, name), draws)| format!("  {draws:>9} draws {name}")));
        let counts = self.draws.iter().zip(0..).filter(|(count, _)| **count > 0);
        lines.extend(counts.map(|(count, number)| format!("  {count:>9} draws with {number}: {}", meaning(number))));
        lines.push(format!("  steps by number: {}; resets: {}", by_number(&self.steps), by_number(&self.resets)));
        let [record_draws, record_steps] = [self.record_draws, self.record_steps].map(sum);
        lines.push(format!("  {record_draws} draws on records, {record_steps} steps on records"));
        let [by_draws, by_steps] = [&self.record_draws, &self.record_steps].map(by_number);
        lines.push(format!("  draws on records by number: {by_draws}; steps on records: {by_steps}"));
        lines.push(format!("  {} columns explained, by number: {}", sum(self.columns), by_number(&self.columns)));
        lines.push(format!(
            "  by region: {}; by effect: {}",
            named(REGIONS, self.regions),
            named(EFFECTS, self.effects)
        ));
        lines.push(format!("  {} calls on the bus", self.accesses.map(sum).iter().sum::<u64>()));
        let accesses = ACCESSES.iter().zip(&self.accesses);
        lines.extend(accesses.map(|(name, numbers)| format!("  {name} by number: {}", by_number(numbers))));
        let rate = (draws + record_draws) as f64 / time.as_secs_f64();
        let threads = rayon::current_num_threads();
        lines.push(format!("  {rate:.0} draws a second on both sides, cases made and compared, {threads} threads"));
        lines.join("\n")
    }
}

fn place(answer: &Answer) -> usize {
    match answer {
        Answer::Number(number @ 0..=11) => *number as usize,
        _ => 12,
    }
}

fn kind(access: Access) -> usize {
    match access {
        Access::Read8 => 0,
        Access::Store8(_) => 1,
        Access::Store16(_) => 2,
    }
}

fn named(names: [&str; 5], counts: [u64; 5]) -> String {
    names.iter().zip(counts).map(|(name, count)| format!("{name} {count}")).collect::<Vec<_>>().join(", ")
}

fn add<const N: usize>(sum: &mut [u64; N], other: &[u64; N]) {
    sum.iter_mut().zip(other).for_each(|(sum, other)| *sum += other);
}

fn meaning(number: u32) -> &'static str {
    if number == 0 { "drawn" } else { Refusal::of(number).meaning() }
}

fn by_number(numbers: &Numbers) -> String {
    let counts = numbers.iter().zip(0..).filter(|(count, _)| **count > 0);
    counts.map(|(count, number)| format!("{number} {count} times")).collect::<Vec<_>>().join(", ")
}
