//! A second opinion on the oracle's glue: a plain model, typed from document 01 alone, gives what the oracle gives on
//! generated draws, and one typed from document 02 on generated calls on the bus; and each of their mutants, an error that
//! looks right, is told from the oracle within 5,000 cases.
//!
//!     cargo test --release -p ashlarkin-oracle --test second_opinion -- [--cases N] [--seed S]

use std::process::ExitCode;
use std::time::Instant;

use ashlarkin_oracle::cases::{Alone, BusCase, Called, Case, Cases, Kind, Loaded, reset_row, step};
use ashlarkin_oracle::{Answer, OUTPUT_LEN, Oracle};

mod model;
use model::{BusMutant, Mutant};

/// Each mutant must be caught within this many cases.
const MUTANT_CASES: u64 = 5_000;
const MUTANT_SEED: u64 = 1;

/// What one side gave for one draw of a case.
#[derive(PartialEq)]
struct Given {
    answer: Answer,
    entries: Vec<u8>,
    output: Vec<u8>,
}

/// Runs the draws of a case one after another on its row, and keeps what each gave.
fn run(case: &Case, mut draw: impl FnMut(usize, &mut [u8], &mut [u8]) -> Answer) -> Vec<Given> {
    let (mut entries, mut output) = (case.entries.clone(), case.output.clone());
    (0..case.draws.len())
        .map(|at| {
            let answer = draw(at, &mut entries, &mut output);
            Given { answer, entries: entries.clone(), output: output.clone() }
        })
        .collect()
}

fn by_oracle(oracle: &mut Loaded, case: &Case) -> Vec<Given> {
    run(case, |at, entries, output| oracle.draw(&case.draws[at], entries, output))
}

fn by_model(mutant: Option<Mutant>, case: &Case) -> Vec<Given> {
    run(case, |at, entries, output| Answer::Number(model::draw(mutant, &case.draws[at].input(), entries, output)))
}

/// The first draw of the case at which the two differ, in words.
fn difference(oracle: &[Given], model: &[Given]) -> Option<String> {
    let at = oracle.iter().zip(model).position(|(a, b)| a != b)?;
    let (a, b) = (&oracle[at], &model[at]);
    let column = |x: &[u8], y: &[u8]| x.iter().zip(y).position(|(p, q)| p != q).map(|byte| byte / 4);
    Some(format!(
        "draw {at}: numbers {:?} and {:?}, entries differ first at column {:?}, pixels at {:?}",
        a.answer,
        b.answer,
        column(&a.entries, &b.entries),
        column(&a.output, &b.output)
    ))
}

/// Compares the cases of a seed; prints counts and speed. Whether there was no difference.
fn compare(seed: u64, count: u64) -> bool {
    let (mut cases, mut oracle) = (Cases::new(seed), Loaded::default());
    let (mut draws, mut numbers, mut kinds) = (0u64, [0u64; 8], [0u64; 4]);
    let start = Instant::now();
    for index in 0..count {
        let case = cases.case(index);
        let expected = by_oracle(&mut oracle, &case);
        kinds[case.kind as usize] += expected.len() as u64;
        for given in &expected {
            draws += 1;
            match &given.answer {
                Answer::Number(number) => numbers[*number as usize] += 1,
                Answer::Panicked(finding) => {
                    println!("finding: seed {seed} case {index}: the Rust panicked: {finding}")
                }
            }
        }
        if let Some(text) = difference(&expected, &by_model(None, &case)) {
            println!("seed {seed} case {index}: {text}");
            return false;
        }
    }
    let rate = draws as f64 / start.elapsed().as_secs_f64();
    println!("{draws} draws of {count} cases with seed {seed}: no difference, {rate:.0} draws a second on both sides");
    for (kind, draws) in [Kind::AcceptedR, Kind::AcceptedH, Kind::Faulty, Kind::Chain].iter().zip(kinds) {
        println!("  {kind:?}: {draws} draws");
    }
    println!("  by number 0 to 7: {numbers:?}");
    true
}

/// Compares draws of each kind of background alone.
fn compare_alone(seed: u64, count: u64) -> bool {
    let (mut cases, mut oracle) = (Cases::new(seed), Loaded::default());
    for kind in Alone::ALL {
        for index in 0..count {
            let (draw, _) = cases.alone(index, kind);
            let case =
                Case { kind: Kind::AcceptedR, draws: vec![draw], entries: reset_row(), output: vec![0; OUTPUT_LEN] };
            if let Some(text) = difference(&by_oracle(&mut oracle, &case), &by_model(None, &case)) {
                println!("seed {seed} {kind:?} alone, line {index}: {text}");
                return false;
            }
        }
    }
    println!("{count} lines of each kind of background alone with seed {seed}: no difference");
    true
}

/// Whether a step of this index comes out the same on both sides.
fn same_step(oracle: &mut Oracle, mutant: Option<Mutant>, seed: u64, index: u64) -> bool {
    let (steps, before) = step(seed, index);
    let (mut expected, mut given) = (before.clone(), before);
    let [pb2, pd2, pb3, pd3] = steps;
    let answer = oracle.step(steps, &mut expected);
    answer == Answer::Number(model::step(mutant, pb2, pd2, pb3, pd3, &mut given)) && expected == given
}

/// Compares steps, and resets of rows of every length to 1,000 bytes.
fn compare_small(seed: u64, count: u64) -> bool {
    let mut oracle = Oracle::new();
    if let Some(index) = (0..count).find(|index| !same_step(&mut oracle, None, seed, *index)) {
        println!("seed {seed} step {index}: a difference");
        return false;
    }
    let mut same_reset = |len: usize| {
        let (mut expected, mut given) = (vec![0x5a; len], vec![0x5a; len]);
        oracle.reset(&mut expected) == Answer::Number(model::reset(&mut given)) && expected == given
    };
    if let Some(len) = (0..=1_000).find(|len| !same_reset(*len)) {
        println!("reset of {len} bytes: a difference");
        return false;
    }
    println!("{count} steps with seed {seed}, resets of 0 to 1,000 bytes: no difference");
    true
}

fn bus_by_oracle(oracle: &mut Oracle, case: &BusCase) -> Vec<Called> {
    case.run(|call, registers, memories| oracle.access(call.access, call.address, registers, memories))
}

fn bus_by_model(mutant: Option<BusMutant>, case: &BusCase) -> Vec<Called> {
    case.run(|call, registers, memories| {
        let (number, value) = model::bus::access(mutant, call.access, call.address, registers, memories);
        (Answer::Number(number), value)
    })
}

/// Compares reads and stores, and after each every byte of the memories.
fn compare_bus(seed: u64, count: u64) -> bool {
    let (mut cases, mut oracle) = (Cases::new(seed), Oracle::new());
    let (mut calls, mut numbers) = (0, [0u64; 12]);
    for index in 0..count {
        let case = cases.bus(index);
        let (expected, given) = (bus_by_oracle(&mut oracle, &case), bus_by_model(None, &case));
        if let Some(at) = expected.iter().zip(&given).position(|(oracle, model)| oracle != model) {
            println!(
                "seed {seed} bus case {index}, call {at}, {}: {:?}, {:?}",
                case.calls[at], expected[at], given[at]
            );
            return false;
        }
        for called in &expected {
            let Answer::Number(number) = called.answer else { unreachable!("the model gives numbers") };
            numbers[number as usize] += 1;
        }
        calls += expected.len();
    }
    println!("{calls} calls on the bus with seed {seed}: no difference; by number 0 to 11: {numbers:?}");
    true
}

/// How many draws a second the oracle's side of a differential run makes, generation included.
fn speed(seed: u64, count: u64) {
    let (mut cases, mut oracle) = (Cases::new(seed), Loaded::default());
    let (start, mut draws) = (Instant::now(), 0u64);
    for index in 0..count {
        draws += by_oracle(&mut oracle, &cases.case(index)).len() as u64;
    }
    println!(
        "speed: {:.0} draws a second, cases made and drawn by the oracle",
        draws as f64 / start.elapsed().as_secs_f64()
    );
}

/// Whether every mutant is told from the oracle.
fn mutants() -> bool {
    let (mut cases, mut oracle, mut stepper) = (Cases::new(MUTANT_SEED), Loaded::default(), Oracle::new());
    let mut left: Vec<Mutant> = Mutant::ALL.to_vec();
    let mut latest = (0, None);
    for index in 0..MUTANT_CASES {
        let case = cases.case(index);
        // A refused case tells nothing of drawing, but refusals have mutants too, so all cases are run.
        let expected = by_oracle(&mut oracle, &case);
        left.retain(|mutant| {
            let caught = difference(&expected, &by_model(Some(*mutant), &case)).is_some()
                || !same_step(&mut stepper, Some(*mutant), MUTANT_SEED, index);
            if caught {
                latest = (index, Some(*mutant));
            }
            !caught
        });
    }
    let caught = Mutant::ALL.len() - left.len();
    println!(
        "{caught} of {} mutants caught within {MUTANT_CASES} cases; the last, {:?}, at case {}",
        Mutant::ALL.len(),
        latest.1,
        latest.0
    );
    for mutant in &left {
        println!("not caught: {mutant:?}: {}", mutant.says());
    }
    left.is_empty()
}

/// Whether every mutant of the bus is told from the oracle.
fn bus_mutants() -> bool {
    let (mut cases, mut oracle) = (Cases::new(MUTANT_SEED), Oracle::new());
    let mut left: Vec<BusMutant> = BusMutant::ALL.to_vec();
    let mut latest = (0, None);
    for index in 0..MUTANT_CASES {
        let case = cases.bus(index);
        let expected = bus_by_oracle(&mut oracle, &case);
        left.retain(|mutant| {
            let same = bus_by_model(Some(*mutant), &case) == expected;
            if !same {
                latest = (index, Some(*mutant));
            }
            same
        });
        if left.is_empty() {
            break;
        }
    }
    let (all, (index, last)) = (BusMutant::ALL.len(), latest);
    println!("{} of {all} mutants of the bus caught; the last, {last:?}, at case {index}", all - left.len());
    left.iter().for_each(|mutant| println!("not caught: {mutant:?}: {}", mutant.says()));
    left.is_empty()
}

/// The seed and the count of cases, or the words that say neither.
fn options(words: &[String]) -> Result<(u64, u64), String> {
    let (mut seed, mut count) = (1, 100_000);
    for option in words.chunks(2) {
        let refused = || option.join(" ");
        let [name, value] = option else { return Err(refused()) };
        match (name.as_str(), value.parse().map_err(|_| refused())?) {
            ("--seed", value) => seed = value,
            ("--cases", value @ 1..) => count = value,
            _ => return Err(refused()),
        }
    }
    Ok((seed, count))
}

fn check_options() {
    let of = |text: &str| options(&text.split_whitespace().map(str::to_owned).collect::<Vec<_>>());
    assert_eq!((of(""), of("--cases 7 --seed 0")), (Ok((1, 100_000)), Ok((0, 7))));
    for text in ["7", "--case 7", "--cases", "--cases x", "--cases 0", "--cases=7", "--seed -1", "--seed 1 more"] {
        assert!(of(text).is_err(), "{text}");
    }
}

fn main() -> ExitCode {
    check_options();
    let (seed, count) = match options(&std::env::args().skip(1).collect::<Vec<_>>()) {
        Ok(found) => found,
        Err(refused) => {
            eprintln!(
                "second_opinion: not understood: {refused}\nusage: second_opinion [--cases N] [--seed S], N from 1"
            );
            return ExitCode::from(2);
        }
    };
    let same = compare(seed, count) && compare_alone(seed, count / 5) && compare_small(seed, count);
    let same = same && compare_bus(seed, count.div_ceil(20));
    speed(seed, count.min(20_000));
    if same && mutants() && bus_mutants() { ExitCode::SUCCESS } else { ExitCode::FAILURE }
}
