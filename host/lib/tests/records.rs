//! The forms over records: the byte forms' answers, each refusal without a change, and only the fields that are named.

use ashlarkin::*;
use ashlarkin_oracle::cases::Random;

const MOST: i32 = (1 << 28) - 1;
const LEAST: i32 = -(1 << 28);

/// A whole draw over records, with a pattern in the output.
#[derive(Clone)]
struct Lent {
    reading: u32,
    line: u32,
    references: [i32; 4],
    memory: [Vec<u8>; 4],
    row: Vec<ObjBufferEntry>,
    output: Vec<u8>,
}

impl Lent {
    fn new() -> Lent {
        Lent {
            reading: READING_R,
            line: 0,
            references: [0; 4],
            memory: [VRAM_LEN, PALETTE_LEN, OAM_LEN, REGISTERS_LEN].map(|len| vec![0; len]),
            row: vec![ObjBufferEntry::default(); WIDTH],
            output: vec![0xa5; OUTPUT_LEN],
        }
    }

    fn registers(&mut self) -> &mut Vec<u8> {
        &mut self.memory[3]
    }

    fn input(&self) -> Input<'_> {
        let Lent { reading, line, references, memory: [vram, palette, oam, registers], .. } = self;
        Input { reading: *reading, line: *line, references: *references, vram, palette, oam, registers }
    }

    fn draw(&mut self) -> Result<(), Refusal> {
        let (mut row, mut output) = (self.row.clone(), self.output.clone());
        let answer = draw_records(&self.input(), &mut row, &mut output);
        (self.row, self.output) = (row, output);
        answer
    }
}

/// A draw after `change` is refused so, and leaves the records and the output as they were.
fn refused(refusal: Refusal, change: impl Fn(&mut Lent)) {
    let mut lent = Lent::new();
    change(&mut lent);
    let before = lent.clone();
    assert_eq!(lent.draw(), Err(refusal));
    assert!(lent.row == before.row && lent.output == before.output, "{refusal:?} made a change");
}

fn drawn(change: impl Fn(&mut Lent)) -> Lent {
    let mut lent = Lent::new();
    change(&mut lent);
    assert_eq!(lent.draw(), Ok(()));
    lent
}

/// The bytes that a row of records stands for.
fn bytes(row: &[ObjBufferEntry]) -> Vec<u8> {
    let four = |entry: &ObjBufferEntry| {
        let [low, high] = entry.color.to_le_bytes();
        [low, high, entry.priority as u8, u8::from(entry.alpha) | u8::from(entry.window) << 1]
    };
    row.iter().flat_map(four).collect()
}

#[test]
fn each_refusal_is_given_and_changes_nothing() {
    refused(Refusal::Reading, |lent| lent.reading = 2);
    refused(Refusal::Line, |lent| lent.line = 160);
    refused(Refusal::Mode, |lent| lent.registers()[0] = 6);
    refused(Refusal::Brightness, |lent| lent.registers()[0x54] = 17);
    for at in 0..4 {
        for reference in [MOST + 1, LEAST - 1] {
            refused(Refusal::Reference, |lent| lent.references[at] = reference);
        }
    }
    for at in [0, 1, 238, 239] {
        // A priority is judged before it is narrowed: the low bytes of 256 and 260 would do.
        for priority in [5, 255, 256, 259, 260, 0x104, 0xff04, 0xffff] {
            refused(Refusal::Entry, |lent| lent.row[at].priority = priority);
        }
        for priority in [256, 257, 258, 259, 260, 511] {
            refused(Refusal::Entry, |lent| (lent.row[at].color, lent.row[at].priority) = (0x7fff, priority));
        }
        refused(Refusal::Entry, |lent| lent.row[at].alpha = true);
        for color in [0, 0x7fff, 0x8001, 0xffff] {
            refused(Refusal::Entry, |lent| lent.row[at].color = color);
        }
        refused(Refusal::Entry, |lent| lent.row[at].priority = 3);
    }
}

#[test]
fn every_other_length_is_refused() {
    for count in [0, 1, 120, 239, 241, 480] {
        refused(Refusal::Length, |lent| lent.row.resize(count, ObjBufferEntry::default()));
    }
    for at in 0..4 {
        for len in [0, 1, Lent::new().memory[at].len() - 1, Lent::new().memory[at].len() + 1] {
            refused(Refusal::Length, |lent| lent.memory[at].resize(len, 0));
        }
    }
    for len in [0, 959, 961] {
        refused(Refusal::Length, |lent| lent.output.resize(len, 0));
    }
}

#[test]
fn the_first_that_applies_is_given() {
    let faults: [fn(&mut Lent); 7] = [
        |lent| lent.reading = 2,
        |lent| lent.row.truncate(239),
        |lent| lent.line = 160,
        |lent| lent.registers()[0] = 7,
        |lent| lent.registers()[0x54] = 31,
        |lent| lent.references[3] = 1 << 28,
        |lent| lent.row[7].priority = 260,
    ];
    for (at, number) in (0..7).zip(1..) {
        refused(Refusal::of(number), |lent| faults[at..].iter().for_each(|fault| fault(lent)));
    }
}

/// Forced blank isn't stopped by 4 to 7, and leaves what no draw would leave.
#[test]
fn forced_blank_leaves_every_record() {
    let odd = |at: usize| ObjBufferEntry {
        window: at % 2 == 1,
        alpha: at % 3 == 1,
        color: (at * 273) as u16,
        priority: (at * 271) as u16,
    };
    let blank = drawn(|lent| {
        (lent.registers()[0], lent.registers()[0x54]) = (0x87, 31);
        lent.references = [i32::MAX; 4];
        lent.row = (0..WIDTH).map(odd).collect();
    });
    assert_eq!(blank.output, [0xf8, 0xf8, 0xf8, 0].repeat(WIDTH));
    assert_eq!(blank.row, (0..WIDTH).map(odd).collect::<Vec<_>>());
}

/// Sprites of noise, drawn by both forms on rows that say the same, line after line.
#[test]
fn records_are_drawn_as_bytes_are() {
    let (mut lent, mut random) = (Lent::new(), Random::new(1, 0));
    lent.memory.iter_mut().take(3).for_each(|buffer| random.fill(buffer));
    lent.registers()[1] = 0x9f;
    let mut entries = bytes(&lent.row);
    let mut written = 0;
    for line in (0..HEIGHT).step_by(5) {
        let mut output = vec![0; OUTPUT_LEN];
        lent.line = line;
        assert_eq!(draw(&lent.input(), &mut entries, &mut output), Ok(()));
        assert_eq!(lent.draw(), Ok(()));
        assert!(lent.output == output && bytes(&lent.row) == entries, "line {line}");
        written = lent.row.iter().filter(|entry| entry.priority < 4).count();
    }
    let marks = |of: fn(&ObjBufferEntry) -> bool| lent.row.iter().any(of);
    assert!(written > 0 && marks(|entry| entry.window) && marks(|entry| entry.alpha), "{written} columns");
}

/// Fields that a step doesn't name hold any value, and keep it.
fn background(pb: i16, pd: i16, internal_x: i32, internal_y: i32) -> BgAffine {
    BgAffine { pa: i16::MIN, pb, pc: i16::MAX, pd, x: i32::MIN, y: i32::MAX, internal_x, internal_y }
}

#[test]
fn a_step_takes_each_records_own_numbers() {
    let (mut bg2, mut bg3) = (background(i16::MAX, i16::MIN, 0, 0), background(0, -1, MOST, 1));
    assert_eq!(step_records(&mut bg2, &mut bg3), Ok(()));
    assert_eq!(bg2, background(i16::MAX, i16::MIN, 32_767, -32_768));
    assert_eq!(bg3, background(0, -1, MOST, 0));
}

#[test]
fn a_step_is_taken_whole_or_not_at_all() {
    for at in 0..4 {
        for (step_by, reference) in [(1, MOST), (-1, LEAST), (0, MOST + 1), (-1, MOST + 1), (1, LEAST - 1)] {
            let (mut steps, mut references) = ([5; 4], [10; 4]);
            (steps[at], references[at]) = (step_by, reference);
            let [pb2, pd2, pb3, pd3] = steps;
            let [x2, y2, x3, y3] = references;
            let before = [background(pb2, pd2, x2, y2), background(pb3, pd3, x3, y3)];
            let [mut bg2, mut bg3] = before;
            assert_eq!(step_records(&mut bg2, &mut bg3), Err(Refusal::Reference));
            assert_eq!([bg2, bg3], before);
        }
    }
}
