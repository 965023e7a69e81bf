//! Makes the list of calls and answers that the program of crates/run_replay runs through the proved routines. The answers
//! are the oracle's, and for reasons those of oracle/src/reasons.rs; the calls are the generator's under a fixed seed, and
//! reads and stores the ones below, so the list comes out the same each time.
//!
//!     cargo run -q --release -p ashlarkin-oracle --example replay_list > crates/run_replay/stdin
//!
//! The form of the list is described in crates/run_replay/src/main.rt.

use std::collections::HashSet;
use std::io::{Write, stdout};
use std::ops::RangeInclusive;
use std::sync::Arc;

use ashlarkin_oracle::cases::{Alone, Case, Cases, Draw, Kind, Loaded, reset_row, step};
use ashlarkin_oracle::reasons::{Reason, reasons};
use ashlarkin_oracle::*;

const SEED: u64 = 1;

/// How many of the generator's cases are taken, all kinds; and of the faulty ones after them, how many of each number.
const CASES: u64 = 128;
const FAULTY: u32 = 8;
/// Lines of each kind of background alone.
const ALONE: u64 = 6;
const STEPS: u64 = 64;

/// Video memories: those of the first cases, and the sample's. Each is longer than a draw takes, so that too much
/// of it can be lent.
const IMAGES: usize = 5;
const IMAGE_LEN: usize = VRAM_LEN + 64;

/// Those of a line, and one that it doesn't have.
const COLUMNS: RangeInclusive<u32> = 0..=240;

/// Room for references of another length.
const REFERENCES_ROOM: usize = 32;

/// What reads and stores are lent of video memory, palette, OAM and, for bytes stored, registers.
const LENGTHS: [usize; 4] = [VRAM_LEN, PALETTE_LEN, OAM_LEN, REGISTERS_LEN];

/// Where the pages start, and some others, of which three have the low four bits of such a page.
const PALETTE_PAGE: u32 = 0x0500_0000;
const VRAM_PAGE: u32 = 0x0600_0000;
const OAM_PAGE: u32 = 0x0700_0000;
const OTHER_PAGES: [u32; 6] = [0x0000_0000, 0x0400_0000, 0x0800_0000, 0x1500_0000, 0x2600_0000, 0x8700_0000];

/// Where sprite tiles start by the mode, where both starts come once more, and where video memory does.
const EDGES: [u32; 5] = [0x1_0000, 0x1_4000, 0x1_8000, 0x1_c000, 0x2_0000];

const SAMPLE: &[u8] = include_bytes!("../../samples/scene/capture.ss0");

/// What a record calls.
#[derive(Clone, Copy)]
enum Call {
    Draw,
    Step,
    Reset,
    Explain,
    Read8,
    Store8,
    Store16,
}

/// What a record is for.
#[derive(Clone, Copy)]
enum Group {
    R,
    H,
    Faulty,
    Chain,
    Alone,
    Sample,
    Lengths,
    Steps,
    Resets,
    Reasons,
    ByteReads,
    ByteStores,
    HalfwordStores,
}

/// The records so far, and the buffers as the last one leaves them; the memories are those that reads and stores are lent,
/// and the value the last that was stored.
struct List {
    oracle: Oracle,
    images: Vec<Arc<[u8]>>,
    bytes: Vec<u8>,
    memory: Vec<u8>,
    entries: Vec<u8>,
    output: Vec<u8>,
    memories: Memories,
    value: u16,
    explained: Explained,
}

/// What the reasons so far have shown, and the oracle that they come from.
#[derive(Default)]
struct Explained {
    oracle: Loaded,
    shown: HashSet<Fact>,
}

/// A refusal's number and nothing else; or 0, and under a reading the value of a field.
type Fact = (u32, u32, u32, u32);

/// How many there are: refusals; and under each reading forced blank, regions, layers in front, layers behind, effects.
const FACTS: usize = 8 + 2 * (1 + 5 + 6 + 6 + 5);

fn facts(draw: &Draw, reason: &Reason) -> Vec<Fact> {
    let Reason { number, blank, region, top, bottom, effect, .. } = *reason;
    match (number, blank) {
        (0, 0) => (1..).zip([region, top, bottom, effect]).map(|(field, it)| (0, draw.reading, field, it)).collect(),
        (0, _) => vec![(0, draw.reading, 0, blank)],
        _ => vec![(number, 0, 0, 0)],
    }
}

impl Explained {
    /// The column whose reason shows most that none has shown yet, if there is one.
    fn next(&mut self, draw: &Draw, entries: &[u8]) -> Option<(u32, Reason)> {
        let news = |reason: &Reason| facts(draw, reason).iter().filter(|fact| !self.shown.contains(fact)).count();
        let (_, reasons) = reasons(&mut self.oracle, draw, entries, COLUMNS);
        let (column, reason) = COLUMNS.zip(reasons).max_by_key(|(_, reason)| news(reason))?;
        let is_new = news(&reason) > 0;
        self.shown.extend(facts(draw, &reason));
        is_new.then_some((column, reason))
    }
}

/// Document 01's number; a panic of the Rust has no place in the list.
fn number(answer: Answer) -> u32 {
    match answer {
        Answer::Number(number) => number,
        Answer::Panicked(finding) => panic!("the Rust panicked: {finding}"),
    }
}

/// Puts bytes at a buffer's start. Whether they weren't there.
fn replace(buffer: &mut [u8], bytes: &[u8]) -> bool {
    let place = &mut buffer[..bytes.len()];
    let changed = place != bytes;
    place.copy_from_slice(bytes);
    changed
}

/// So much of a buffer as is lent, at most a byte more than it has.
fn cut(buffer: &[u8], len: usize) -> Vec<u8> {
    [buffer, &[0]].concat()[..len].to_vec()
}

/// Palette, OAM and registers, one after another.
fn memory(draw: &Draw) -> Vec<u8> {
    [&draw.palette[..], &draw.oam, &draw.registers].concat()
}

impl List {
    fn new(images: Vec<Arc<[u8]>>) -> List {
        let vram = images[0][..VRAM_LEN].into();
        List {
            oracle: Oracle::new(),
            bytes: images.concat(),
            images,
            memory: vec![0; 2 * (PALETTE_LEN + OAM_LEN + REGISTERS_LEN)],
            entries: vec![0; 2 * ENTRIES_LEN],
            output: vec![0; 2 * OUTPUT_LEN],
            memories: Memories { vram, palette: [0; PALETTE_LEN].into(), oam: [0; OAM_LEN].into() },
            value: 0,
            explained: Explained::default(),
        }
    }

    /// A record: its head, and those of the buffers that follow it, each with whether it does.
    fn record(&mut self, call: Call, group: Group, number: u32, rest: [u32; 13], buffers: &[(bool, &[u8])]) {
        let given: u32 = (0..).zip(buffers).map(|(bit, (follows, _))| u32::from(*follows) << bit).sum();
        for word in [call as u32, group as u32, number, given].into_iter().chain(rest) {
            self.bytes.extend(word.to_le_bytes());
        }
        for (_, buffer) in buffers.iter().filter(|(follows, _)| *follows) {
            self.bytes.extend(*buffer);
        }
    }

    /// A head's words from the reading on, for a draw on these entries; the last is the call's own.
    fn rest(&self, draw: &Draw, entries: &[u8], last: u32) -> [u32; 13] {
        let image = self.images.iter().position(|image| Arc::ptr_eq(image, &draw.vram)).expect("one of the images");
        let [x2, y2, x3, y3] = draw.references.map(|reference| reference as u32);
        let lent = [draw.vram_len, draw.palette.len(), draw.oam.len(), draw.registers.len(), entries.len()];
        let [vram, palette, oam, registers, entries] = lent.map(|len| len as u32);
        let (reading, line, start) = (draw.reading, draw.line, (image * IMAGE_LEN) as u32);
        [reading, line, x2, y2, x3, y3, start, vram, palette, oam, registers, entries, last]
    }

    /// A draw on these entries, with so much of the output lent. Before it comes a column's reason that shows something new.
    fn draw(&mut self, group: Group, draw: &Draw, entries: &[u8], output: usize) {
        if let Some((column, reason)) = self.explained.next(draw, entries) {
            self.explain(draw, entries, column, &reason);
        }
        let (mut after, mut pixels) = (entries.to_vec(), self.output[..output].to_vec());
        let number = number(self.oracle.draw(&draw.input(), &mut after, &mut pixels));
        let memory = memory(draw);
        let buffers: [(bool, &[u8]); 4] = [
            (replace(&mut self.memory, &memory), &memory),
            (replace(&mut self.entries, entries), entries),
            (replace(&mut self.entries, &after), &after),
            (replace(&mut self.output, &pixels), &pixels),
        ];
        let rest = self.rest(draw, entries, output as u32);
        self.record(Call::Draw, group, number, rest, &buffers);
    }

    /// Why a column of a draw on these entries has its colour; what the reason has beside its number follows.
    fn explain(&mut self, draw: &Draw, entries: &[u8], column: u32, reason: &Reason) {
        let Reason { number, blank, region, top, bottom, effect, pixel, .. } = *reason;
        let colors = [reason.top_color, reason.bottom_color].map(u32::from);
        let weights = [reason.first_weight, reason.second_weight].map(u32::from);
        let fields = [&[blank, region, top, bottom, effect], &colors[..], &weights, &[pixel]].concat();
        let fields: Vec<u8> = fields.into_iter().flat_map(u32::to_le_bytes).collect();
        let memory = memory(draw);
        let buffers: [(bool, &[u8]); 3] = [
            (replace(&mut self.memory, &memory), &memory),
            (replace(&mut self.entries, entries), entries),
            (true, &fields),
        ];
        let rest = self.rest(draw, entries, column);
        self.record(Call::Explain, Group::Reasons, number, rest, &buffers);
    }

    /// A reset with so much of the row lent.
    fn reset(&mut self, len: usize) {
        let mut after = self.entries[..len].to_vec();
        let number = number(self.oracle.reset(&mut after));
        let changed = replace(&mut self.entries, &after);
        let rest = [0, 0, 0, 0, 0, 0, 0, 0, 0, 0, 0, len as u32, 0];
        let none: (bool, &[u8]) = (false, &[]);
        self.record(Call::Reset, Group::Resets, number, rest, &[none, none, (changed, &after)]);
    }

    /// A step; the references before and after follow, always with room for too many.
    fn step(&mut self, steps: [i16; 4], mut references: Vec<u8>) {
        let len = references.len();
        let mut before = references.clone();
        let number = number(self.oracle.step(steps, &mut references));
        before.resize(REFERENCES_ROOM, 0);
        references.resize(REFERENCES_ROOM, 0);
        let [pb2, pd2, pb3, pd3] = steps.map(|step| i32::from(step) as u32);
        let rest = [0, 0, pb2, pd2, pb3, pd3, 0, 0, 0, 0, 0, len as u32, 0];
        self.record(Call::Step, Group::Steps, number, rest, &[(true, &before), (true, &references)]);
    }

    /// The draws of a case one after another on its row. A row that starts as a reset one is reset.
    fn case(&mut self, group: Group, case: &Case) {
        if case.entries == reset_row() && self.entries[..ENTRIES_LEN] != case.entries {
            self.reset(ENTRIES_LEN);
        }
        let mut entries = case.entries.clone();
        for draw in &case.draws {
            self.draw(group, draw, &entries, case.output.len());
            entries.copy_from_slice(&self.entries[..case.entries.len()]);
        }
    }

    /// An accepted draw on a reset row, with each buffer in turn empty, a byte short and a byte long.
    fn lengths(&mut self, draw: &Draw) {
        self.reset(ENTRIES_LEN);
        self.draw(Group::Lengths, draw, &reset_row(), OUTPUT_LEN);
        let row = self.entries.clone();
        let lens = |len: usize| [0, len - 1, len + 1];
        for len in lens(VRAM_LEN) {
            self.draw(Group::Lengths, &Draw { vram_len: len, ..draw.clone() }, &row[..ENTRIES_LEN], OUTPUT_LEN);
        }
        for len in lens(PALETTE_LEN) {
            let draw = Draw { palette: cut(&draw.palette, len), ..draw.clone() };
            self.draw(Group::Lengths, &draw, &row[..ENTRIES_LEN], OUTPUT_LEN);
        }
        for len in lens(OAM_LEN) {
            let draw = Draw { oam: cut(&draw.oam, len), ..draw.clone() };
            self.draw(Group::Lengths, &draw, &row[..ENTRIES_LEN], OUTPUT_LEN);
        }
        for len in lens(REGISTERS_LEN) {
            let draw = Draw { registers: cut(&draw.registers, len), ..draw.clone() };
            self.draw(Group::Lengths, &draw, &row[..ENTRIES_LEN], OUTPUT_LEN);
        }
        for len in lens(ENTRIES_LEN) {
            self.draw(Group::Lengths, draw, &row[..len], OUTPUT_LEN);
        }
        for len in lens(OUTPUT_LEN) {
            self.draw(Group::Lengths, draw, &row[..ENTRIES_LEN], len);
        }
        for len in [0, 1, ENTRIES_LEN - 1, ENTRIES_LEN, ENTRIES_LEN + 1, 2 * ENTRIES_LEN] {
            self.reset(len);
        }
    }

    /// A read or a store with so much lent; low is the low byte of DISPCNT.
    fn access(&mut self, access: Access, address: u32, low: u8, lengths: [usize; 4]) {
        let [vram, palette, oam, registers] = lengths;
        let mut memories = Memories {
            vram: cut(&self.memories.vram, vram).into(),
            palette: cut(&self.memories.palette, palette).into(),
            oam: cut(&self.memories.oam, oam).into(),
        };
        let mut lent = vec![low];
        lent.resize(registers, 0);
        let (answer, byte) = self.oracle.access(access, address, &lent, &mut memories);
        let number = number(answer);
        if number == 0 {
            self.memories = memories;
        }
        let (call, group, value) = match access {
            Access::Read8 => (Call::Read8, Group::ByteReads, byte.into()),
            Access::Store8(value) => (Call::Store8, Group::ByteStores, value.into()),
            Access::Store16(value) => (Call::Store16, Group::HalfwordStores, value.into()),
        };
        let [vram, palette, oam, registers] = lengths.map(|len| len as u32);
        let rest = [0, 0, address, value, low.into(), 0, 0, vram, palette, oam, registers, 0, 0];
        self.record(call, group, number, rest, &[]);
    }

    fn read(&mut self, address: u32) {
        self.access(Access::Read8, address, 0, LENGTHS);
    }

    /// The next value to store.
    fn value(&mut self) -> u16 {
        self.value = self.value.wrapping_add(0x4d35);
        self.value
    }

    /// Bytes stored on both sides of each edge in each mode, with other bits of DISPCNT set too, and both halfwords read
    /// where video memory repeats.
    fn edges(&mut self) {
        for (mode, edge) in (0..8).flat_map(|mode| EDGES.map(|edge| (mode, edge))) {
            for offset in [edge - 1, edge] {
                let store = Access::Store8(self.value() as u8);
                self.access(store, VRAM_PAGE + offset, 0x19 * mode as u8, LENGTHS);
            }
            for offset in edge - 2..edge + 2 {
                self.read(VRAM_PAGE + 0x2_0000 * mode + offset);
            }
        }
    }

    /// A store, and reads of its halfword, of the bytes on both sides, and of where the memory repeats.
    fn store(&mut self, store: Access, address: u32) {
        self.access(store, address, 0, LENGTHS);
        let page = address & 0xff00_0000;
        let size = if page == VRAM_PAGE { 0x2_0000 } else { 0x400 };
        let first = address & !1;
        for place in [first, first + 1, first - 1, first + 2, first + size] {
            self.read(page | place & 0x00ff_ffff);
        }
    }

    /// Halfwords, and then bytes in mode 0, stored at both ends of each memory and where it repeats.
    fn stores(&mut self) {
        let small = [1, 0x200, 0x7fe, 0xff_ffff];
        let large = [0, 0x1_7ffe, 0x1_8000, 0xff_fffe];
        for (page, offsets) in [(PALETTE_PAGE, small), (VRAM_PAGE, large), (OAM_PAGE, small)] {
            for offset in offsets {
                let [halfword, byte] = [self.value(), self.value()];
                self.store(Access::Store16(halfword), page + offset);
                self.store(Access::Store8(byte as u8), page + offset);
            }
        }
    }

    /// Each call with each memory a byte short and a byte long, where other refusals hold too, and at other pages;
    /// halfwords stored at odd addresses of video memory; and reads of where all that would have stored.
    fn refusals(&mut self) {
        for (access, memories) in [(Access::Read8, 3), (Access::Store8(0x5a), 4), (Access::Store16(0x5aa5), 3)] {
            for memory in 0..memories {
                let mut lengths = LENGTHS;
                lengths[memory] -= 1;
                self.access(access, VRAM_PAGE + 1, 0, lengths);
                lengths[memory] += 2;
                self.access(access, OTHER_PAGES[memory] + 1, 0, lengths);
            }
            for page in OTHER_PAGES {
                self.access(access, page + 1, 0, LENGTHS);
            }
        }
        for offset in [1, 0x1_0001, 0x1_ffff, 0xff_ffff] {
            self.access(Access::Store16(0x5aa5), VRAM_PAGE + offset, 0, LENGTHS);
        }
        for page in [PALETTE_PAGE, VRAM_PAGE, OAM_PAGE] {
            for offset in [0, 1, 0x1_0000, 0x1_0001, 0xff_fffe, 0xff_ffff] {
                self.read(page + offset);
            }
        }
    }
}

/// A line of the sample, a save state of mGBA, by turns under R and H.
fn sample(vram: &Arc<[u8]>, line: u32) -> Draw {
    let part = |at: usize, len: usize| SAMPLE[at..at + len].to_vec();
    Draw {
        reading: line / 4 % 2,
        line,
        references: [0; 4],
        vram: vram.clone(),
        vram_len: VRAM_LEN,
        palette: part(0x800, PALETTE_LEN),
        oam: part(0xc00, OAM_LEN),
        registers: part(0x400, REGISTERS_LEN),
    }
}

/// The video memories of the first cases, and the sample's.
fn images(cases: &mut Cases) -> Vec<Arc<[u8]>> {
    let mut images: Vec<Arc<[u8]>> = vec![];
    for draw in (0..CASES).flat_map(|index| cases.case(index).draws) {
        if !images.iter().any(|image| **image == *draw.vram) {
            images.push(draw.vram);
        }
    }
    let mut sample = SAMPLE[0x1000..0x19000].to_vec();
    sample.resize(IMAGE_LEN, 0);
    images.push(sample.into());
    images
}

/// A draw over one of the list's video memories: its own, or another where the list hasn't that.
fn over_images(list: &List, mut draw: Draw, index: u64) -> Draw {
    let own = list.images.iter().find(|image| ***image == *draw.vram);
    draw.vram = own.unwrap_or(&list.images[index as usize / 8 % IMAGES]).clone();
    draw
}

fn case_of(list: &List, cases: &mut Cases, index: u64) -> Case {
    let mut case = cases.case(index);
    case.draws = case.draws.into_iter().map(|draw| over_images(list, draw, index)).collect();
    case
}

/// The first cases, whatever their kind.
fn add_cases(list: &mut List, cases: &mut Cases) {
    for index in 0..CASES {
        let case = case_of(list, cases, index);
        let group = match case.kind {
            Kind::AcceptedR => Group::R,
            Kind::AcceptedH => Group::H,
            Kind::Faulty => Group::Faulty,
            Kind::Chain => Group::Chain,
        };
        list.case(group, &case);
    }
}

/// Faulty cases from there on, until each number has been given as often as is wanted.
fn add_faulty(list: &mut List, cases: &mut Cases) {
    let mut left = [FAULTY; 8];
    let mut faulty = (CASES..).filter(|index| Kind::of(*index) == Kind::Faulty);
    while left != [0; 8] {
        let case = case_of(list, cases, faulty.next().expect("no end of cases"));
        let left = &mut left[judge_draw(&case.draws[0].input(), &case.entries, &case.output) as usize];
        if *left > 0 {
            *left -= 1;
            list.case(Group::Faulty, &case);
        }
    }
}

fn main() {
    let cases = &mut Cases::new(SEED);
    let images = images(cases);
    assert_eq!(images.iter().map(|image| image.len()).collect::<Vec<_>>(), [IMAGE_LEN; IMAGES]);
    let list = &mut List::new(images);
    add_cases(list, cases);
    add_faulty(list, cases);
    for (index, kind) in (0..ALONE).flat_map(|index| Alone::ALL.map(|kind| (index, kind))) {
        list.reset(ENTRIES_LEN);
        let draw = over_images(list, cases.alone(index, kind).0, index);
        list.draw(Group::Alone, &draw, &reset_row(), OUTPUT_LEN);
    }
    let scene = list.images[IMAGES - 1].clone();
    for line in (0..160).step_by(4) {
        list.reset(ENTRIES_LEN);
        list.draw(Group::Sample, &sample(&scene, line), &reset_row(), OUTPUT_LEN);
    }
    list.lengths(&sample(&scene, 80));
    for (steps, references) in (0..STEPS).map(|index| step(SEED, index)) {
        list.step(steps, references);
    }
    assert_eq!(list.explained.shown.len(), FACTS);
    list.edges();
    list.stores();
    list.refusals();
    stdout().write_all(&list.bytes).expect("standard output");
}
