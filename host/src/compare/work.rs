//! What both sides are asked to do, and what each gives.

use ashlarkin::{BgAffine, ENTRIES_LEN, Input, OUTPUT_LEN, ObjBufferEntry};
use ashlarkin_oracle::cases::{self, BusCall, BusCase, Called, Case, Cases, Change, Draw, Loaded};
use ashlarkin_oracle::{Answer, Memories};
use serde::{Deserialize, Serialize};

use super::bus;
use super::reasons::{self, Said};
use super::records::{self, RecordCase};

/// One piece of work of a case.
#[derive(Deserialize, Serialize)]
#[serde(rename_all = "kebab-case", deny_unknown_fields)]
pub enum Work {
    /// Draws on one row, one after another.
    Draws(Case),
    /// A line-end step: pb2, pd2, pb3, pd3, and the references' bytes.
    Step {
        steps: [i16; 4],
        #[serde(with = "hex")]
        references: Vec<u8>,
    },
    /// A reset of a row.
    Reset(#[serde(with = "hex")] Vec<u8>),
    /// Draws on one row of records, one after another.
    RecordDraws(RecordCase),
    /// A line-end step on records.
    RecordStep([BgAffine; 2]),
    /// Why the columns of draws have their colours, each on the row as it is before the draw. There is no output.
    Reasons(Case),
    /// Reads and stores on one set of memories, one after another.
    Bus(BusCase),
}

/// What a side gave for one call: its answer, and what was lent afterwards; what wasn't lent is empty.
#[derive(Clone, Debug, PartialEq)]
pub struct Given {
    pub answer: Answer,
    pub entries: Vec<u8>,
    pub output: Vec<u8>,
    pub references: Vec<u8>,
    pub row: Vec<ObjBufferEntry>,
    pub backgrounds: Vec<BgAffine>,
    /// What was said of the columns.
    pub reasons: Vec<Said>,
    /// The byte that was read on the bus, and every byte of the lent memories that isn't as before.
    pub value: u8,
    pub changes: Vec<Change>,
}

impl Given {
    fn new(answer: Answer) -> Given {
        Given {
            answer,
            entries: vec![],
            output: vec![],
            references: vec![],
            row: vec![],
            backgrounds: vec![],
            reasons: vec![],
            value: 0,
            changes: vec![],
        }
    }
}

/// Someone who draws, steps, resets, explains, reads and stores.
pub trait Side {
    fn draw(&mut self, draw: &Draw, entries: &mut [u8], output: &mut [u8]) -> Answer;
    fn step(&mut self, steps: [i16; 4], references: &mut [u8]) -> Answer;
    fn reset(&mut self, entries: &mut [u8]) -> Answer;
    fn draw_records(&mut self, draw: &Draw, row: &mut [ObjBufferEntry], output: &mut [u8]) -> Answer;
    fn step_records(&mut self, backgrounds: &mut [BgAffine; 2]) -> Answer;
    /// What is said of each of `reasons::columns`, and the answer for the draw.
    fn explain(&mut self, draw: &Draw, entries: &[u8]) -> (Answer, Vec<Said>);
    /// What is answered on the bus, and the byte that was read, else 0.
    fn access(&mut self, call: &BusCall, registers: &[u8], memories: &mut Memories) -> (Answer, u8);
}

/// The proved library.
pub struct Library;

/// The emulator's Rust.
#[derive(Default)]
pub struct Oracle {
    draws: Loaded,
    others: ashlarkin_oracle::Oracle,
}

impl Side for Library {
    fn draw(&mut self, draw: &Draw, entries: &mut [u8], output: &mut [u8]) -> Answer {
        number(ashlarkin::draw(&input(draw), entries, output))
    }

    fn step(&mut self, steps: [i16; 4], references: &mut [u8]) -> Answer {
        number(ashlarkin::step(steps, references))
    }

    fn reset(&mut self, entries: &mut [u8]) -> Answer {
        number(ashlarkin::reset(entries))
    }

    fn draw_records(&mut self, draw: &Draw, row: &mut [ObjBufferEntry], output: &mut [u8]) -> Answer {
        number(ashlarkin::draw_records(&input(draw), row, output))
    }

    fn step_records(&mut self, [bg2, bg3]: &mut [BgAffine; 2]) -> Answer {
        number(ashlarkin::step_records(bg2, bg3))
    }

    fn explain(&mut self, draw: &Draw, entries: &[u8]) -> (Answer, Vec<Said>) {
        let input = input(draw);
        let said: Vec<Said> = reasons::columns().map(|column| ashlarkin::explain(&input, entries, column)).collect();
        (number(said[0].map(drop)), said)
    }

    fn access(&mut self, call: &BusCall, registers: &[u8], memories: &mut Memories) -> (Answer, u8) {
        bus::by_library(call, registers, memories)
    }
}

impl Side for Oracle {
    fn draw(&mut self, draw: &Draw, entries: &mut [u8], output: &mut [u8]) -> Answer {
        self.draws.draw(draw, entries, output)
    }

    fn step(&mut self, steps: [i16; 4], references: &mut [u8]) -> Answer {
        self.others.step(steps, references)
    }

    fn reset(&mut self, entries: &mut [u8]) -> Answer {
        self.others.reset(entries)
    }

    /// The answer on the row's bytes, which become records where they were drawn on: not where the draw was refused,
    /// nor under forced blank.
    fn draw_records(&mut self, draw: &Draw, row: &mut [ObjBufferEntry], output: &mut [u8]) -> Answer {
        let mut entries: Vec<u8> = row.iter().flat_map(records::bytes_of).collect();
        let answer = self.draw(draw, &mut entries, output);
        if answer == Answer::Number(0) && draw.registers[0] & 0x80 == 0 {
            row.iter_mut().zip(entries.chunks_exact(4)).for_each(|(record, bytes)| *record = records::record_of(bytes));
        }
        answer
    }

    /// The answer on the references' bytes, which become the running points.
    fn step_records(&mut self, [bg2, bg3]: &mut [BgAffine; 2]) -> Answer {
        let points = [bg2.internal_x, bg2.internal_y, bg3.internal_x, bg3.internal_y];
        let mut references = points.map(i32::to_le_bytes);
        let answer = self.step([bg2.pb, bg2.pd, bg3.pb, bg3.pd], references.as_flattened_mut());
        let [x2, y2, x3, y3] = references.map(i32::from_le_bytes);
        (bg2.internal_x, bg2.internal_y, bg3.internal_x, bg3.internal_y) = (x2, y2, x3, y3);
        answer
    }

    fn explain(&mut self, draw: &Draw, entries: &[u8]) -> (Answer, Vec<Said>) {
        reasons::worked_out(&mut self.draws, draw, entries)
    }

    fn access(&mut self, call: &BusCall, registers: &[u8], memories: &mut Memories) -> (Answer, u8) {
        self.others.access(call.access, call.address, registers, memories)
    }
}

fn number(result: Result<(), ashlarkin::Refusal>) -> Answer {
    Answer::Number(result.map_or_else(|refusal| refusal.number(), |()| 0))
}

/// A draw's parameters for the library.
pub fn input(draw: &Draw) -> Input<'_> {
    let ashlarkin_oracle::Input { reading, line, references, vram, palette, oam, registers } = draw.input();
    Input { reading, line, references, vram, palette, oam, registers }
}

impl Work {
    /// The work of a case. Each has a step and a reset, too; rows of every length up to a few bytes too many are reset.
    /// Draws and step are done over records as well, the draws of some cases are explained, and some have calls on the bus.
    pub fn of(cases: &mut Cases, seed: u64, index: u64) -> Vec<Work> {
        let case = cases.case(index);
        let (steps, references) = cases::step(seed, index);
        let row = vec![0x5a; (index % (ENTRIES_LEN as u64 + 41)) as usize];
        let on_records = RecordCase::of(cases, seed, index, &case).into_iter().map(Work::RecordDraws);
        let stepped = Work::RecordStep(records::backgrounds(seed, index, steps, &references));
        let explained = reasons::of(&case, index).map(Work::Reasons);
        let on_bus = bus::of(cases, index).map(Work::Bus);
        let on_bytes = [Work::Draws(case), Work::Step { steps, references }, Work::Reset(row)];
        on_bytes.into_iter().chain(on_records).chain([stepped]).chain(explained).chain(on_bus).collect()
    }

    /// The draws of the work, if it has any.
    pub fn draws(&mut self) -> Option<&mut Vec<Draw>> {
        match self {
            Work::Draws(case) | Work::RecordDraws(RecordCase { case, .. }) | Work::Reasons(case) => {
                Some(&mut case.draws)
            }
            _ => None,
        }
    }

    /// Does the work, and keeps what each call gave.
    pub fn run(&self, side: &mut dyn Side) -> Vec<Given> {
        match self {
            Work::Draws(case) => run_draws(case, side),
            Work::Step { steps, references } => {
                let mut references = references.clone();
                let answer = side.step(*steps, &mut references);
                vec![Given { references, ..Given::new(answer) }]
            }
            Work::Reset(row) => {
                let mut entries = row.clone();
                let answer = side.reset(&mut entries);
                vec![Given { entries, ..Given::new(answer) }]
            }
            Work::RecordDraws(RecordCase { case, row }) => {
                let (mut row, mut output) = (row.clone(), case.output.clone());
                let draw = |draw| {
                    let answer = side.draw_records(draw, &mut row, &mut output);
                    Given { row: row.clone(), output: output.clone(), ..Given::new(answer) }
                };
                case.draws.iter().map(draw).collect()
            }
            Work::RecordStep(backgrounds) => {
                let mut backgrounds = *backgrounds;
                let answer = side.step_records(&mut backgrounds);
                vec![Given { backgrounds: backgrounds.to_vec(), ..Given::new(answer) }]
            }
            Work::Reasons(case) => run_reasons(case, side),
            Work::Bus(case) => run_bus(case, side),
        }
    }

    /// What one of its calls is called.
    pub fn call(&self, at: usize) -> String {
        match self {
            Work::Draws(_) => format!("draw {at}"),
            Work::Step { .. } => format!("step {at}"),
            Work::Reset(_) => format!("reset {at}"),
            Work::RecordDraws(_) => format!("draw on records {at}"),
            Work::RecordStep(_) => format!("step on records {at}"),
            Work::Reasons(_) => format!("reasons {at}"),
            Work::Bus(case) => format!("bus call {at} ({})", case.calls[at]),
        }
    }
}

fn run_draws(case: &Case, side: &mut dyn Side) -> Vec<Given> {
    let (mut entries, mut output) = (case.entries.clone(), case.output.clone());
    let draw = |draw| {
        let answer = side.draw(draw, &mut entries, &mut output);
        Given { entries: entries.clone(), output: output.clone(), ..Given::new(answer) }
    };
    case.draws.iter().map(draw).collect()
}

/// Each draw is explained and then done, so that the next is explained on the row that it leaves.
fn run_reasons(case: &Case, side: &mut dyn Side) -> Vec<Given> {
    let (mut entries, mut output) = (case.entries.clone(), vec![0; OUTPUT_LEN]);
    let explain = |draw| {
        let (answer, reasons) = side.explain(draw, &entries);
        let lent = entries.clone();
        side.draw(draw, &mut entries, &mut output);
        Given { entries: lent, reasons, ..Given::new(answer) }
    };
    case.draws.iter().map(explain).collect()
}

fn run_bus(case: &BusCase, side: &mut dyn Side) -> Vec<Given> {
    let called = case.run(|call, registers, memories| side.access(call, registers, memories));
    let given = called.into_iter().map(|called| {
        let Called { answer, value, changes } = called;
        Given { value, changes, ..Given::new(answer) }
    });
    given.collect()
}

/// The first call at which the two part, and where, in words; the library's value first.
pub fn difference(library: &[Given], oracle: &[Given]) -> Option<(usize, String)> {
    let at = library.iter().zip(oracle).position(|(library, oracle)| library != oracle)?;
    let (library, oracle) = (&library[at], &oracle[at]);
    let mut parts = vec![];
    if library.answer != oracle.answer {
        parts.push(format!("answer {} and {}", answer(&library.answer), answer(&oracle.answer)));
    }
    parts.extend(first(&library.entries, &oracle.entries).map(|(byte, ours, theirs)| {
        format!("entry byte {byte} (column {}) 0x{ours:02x} and 0x{theirs:02x}", byte / 4)
    }));
    parts.extend(first(&library.output, &oracle.output).map(|(byte, ..)| {
        let (ours, theirs) = (pixel(&library.output, byte), pixel(&oracle.output, byte));
        format!("pixel {} {ours} and {theirs}", byte / 4)
    }));
    parts.extend(
        first(&library.references, &oracle.references)
            .map(|(byte, ours, theirs)| format!("reference byte {byte} 0x{ours:02x} and 0x{theirs:02x}")),
    );
    parts.extend(
        first(&library.row, &oracle.row)
            .map(|(column, ours, theirs)| format!("record {column} {ours:?} and {theirs:?}")),
    );
    parts.extend(
        first(&library.backgrounds, &oracle.backgrounds)
            .map(|(at, ours, theirs)| format!("background {} {ours:?} and {theirs:?}", at + 2)),
    );
    parts.extend(reasons::difference(&library.reasons, &oracle.reasons));
    if library.value != oracle.value {
        parts.push(format!("value 0x{:02x} and 0x{:02x}", library.value, oracle.value));
    }
    parts.extend(bus::difference(&library.changes, &oracle.changes));
    Some((at, parts.join(", ")))
}

fn first<T: Copy + PartialEq>(ours: &[T], theirs: &[T]) -> Option<(usize, T, T)> {
    let mut pairs = ours.iter().zip(theirs).enumerate();
    pairs.find(|(_, (ours, theirs))| ours != theirs).map(|(at, (ours, theirs))| (at, *ours, *theirs))
}

/// The word that holds a byte of an output, which may have been lent with another length.
fn pixel(output: &[u8], byte: usize) -> String {
    let word = output.chunks(4).nth(byte / 4).unwrap_or_default();
    format!("0x{}", word.iter().rev().map(|byte| format!("{byte:02x}")).collect::<String>())
}

/// An answer in words.
pub fn answer(answer: &Answer) -> String {
    match answer {
        Answer::Number(number) => number.to_string(),
        Answer::Panicked(message) => format!("a panic ({message})"),
    }
}

const _: () = assert!(OUTPUT_LEN == ashlarkin_oracle::OUTPUT_LEN && ENTRIES_LEN == ashlarkin_oracle::ENTRIES_LEN);
